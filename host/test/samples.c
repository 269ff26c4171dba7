/* The ten samples, one of each layout, in written form. */
#include "samples.h"

#include <stdio.h>
#include <string.h>

#include "check.h"

const struct sample samples[SAMPLES] = {
    { "market", "CB", 26, 4 }, { "mfrr", "CB", 12, 6 }, { "rc", "RC", 5, 4 },  { "mg", "MG", 7, 4 }, { "eb", "EB", 8, 4 },
    { "lb", "LB", 10, 4 },     { "sr", "SR", 9, 4 },    { "vq", "VQ", 13, 4 }, { "ri", "RI", 6, 4 }, { "qr", "QR", 9, 4 },
};

const struct sample *sample(const char *name) {
    for (int i = 0; i < SAMPLES; i++) {
        if (strcmp(samples[i].name, name) == 0) return &samples[i];
    }
    broken("no sample %s", name);
}

struct asked asked_for(const struct sample *of) {
    char name[64], plan[64];
    snprintf(name, sizeof name, "%s.txt", of->name);
    snprintf(plan, sizeof plan, "ca=7\nioa=300\nunit=UP_PROVA_1\ntype=%s\n", of->type);
    struct asked asked = { of->name, 7, 300, words(plan), example(name) };
    return asked;
}
