/* The ten samples, one of each layout, in written form. */
#ifndef SAMPLES_H
#define SAMPLES_H

#include "call.h"

enum { SAMPLES = 10, FIELDS_MOST = 26 };

extern const struct sample {
    const char *name, *type;
    int fields, end; /* document 01's count, and which of them is the end */
} samples[SAMPLES];

/* A sample by its name. */
const struct sample *sample(const char *name);

/* What asks for it: the file, at an address of a plan that gives its type. */
struct asked asked_for(const struct sample *of);

#endif
