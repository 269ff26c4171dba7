/* telling [-i] PLAN CA IOA FILE: the library's answer, as NUMBER/DETAIL, and the lines that are told of it, with -i in Italian.
   telling -s PLAN CA IOA FILE [CA IOA FILE]..: the storm: each file cut, changed and asked about with any answer. */
#include <stdbool.h>
#include <stdio.h>
#include <stdlib.h>
#include <string.h>

#include "telling.h"

#include "halimpung.h"
#include "language.h"

static size_t load_into(uint8_t *room, size_t length, const char *name) {
    FILE *from = fopen(name, "rb");
    if (!from) {
        perror(name);
        exit(2);
    }
    size_t got = fread(room, 1, length, from);
    fclose(from);
    return got;
}

static uint8_t *copy(const uint8_t *from, size_t length) {
    uint8_t *made = malloc(length > 0 ? length : 1);
    if (!made) exit(2);
    memcpy(made, from, length);
    return made;
}

uint32_t answer_to(const struct asked *it) {
    uint8_t out[HALIMPUNG_READ_ROOM];
    return halimpung_read(it->ca, it->ioa, it->plan, it->plan_length, it->file, it->file_length, out, sizeof out);
}

void tell_in_blocks(struct told *to, uint32_t answer, const struct asked *it) {
    uint8_t *plan = copy(it->plan, it->plan_length), *file = copy(it->file, it->file_length);
    struct question of = { it->ca, it->ioa, { plan, it->plan_length }, { file, it->file_length } };
    tell_place(to, answer, &of);
    free(plan);
    free(file);
}

static void print_told(const struct asked *it) {
    static struct told told;
    uint32_t answer = answer_to(it);
    tell_in_blocks(&told, answer, it);
    printf("%u/%u\n", (unsigned)HALIMPUNG_NUMBER(answer), HALIMPUNG_REFUSED(answer) ? (unsigned)HALIMPUNG_DETAIL(answer) : 0);
    for (int i = 0; i < told.count; i++) printf("%s\n", told.lines[i]);
}

int main(int argc, char **argv) {
    static struct asked it;
    bool storm = argc > 1 && strcmp(argv[1], "-s") == 0, italian = argc > 1 && strcmp(argv[1], "-i") == 0;
    char **words = argv + 1 + (storm || italian);
    if (argv + argc - words < 4) return 2;
    language = italian ? ITALIAN : ENGLISH;
    it.plan_length = load_into(it.plan, sizeof it.plan, *words++);
    for (; argv + argc - words >= 3; words += 3) {
        it.ca = (uint32_t)strtoul(words[0], NULL, 10);
        it.ioa = (uint32_t)strtoul(words[1], NULL, 10);
        it.file_length = load_into(it.file, HALIMPUNG_FILE_MOST + 1, words[2]);
        if (!storm) print_told(&it);
        else if (!try_any_answer(&it) || !try_changed(&it, 3000)) return 1;
    }
    return storm && !(try_rooms() && all_met()) ? 1 : 0;
}
