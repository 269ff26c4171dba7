/* What is told of a refusal, tried without the host program. */
#ifndef TELLING_H
#define TELLING_H

#include <stdbool.h>

#include "place.h"

/* a question in rooms that may be changed */
struct asked {
    uint32_t ca, ioa;
    size_t plan_length, file_length;
    uint8_t plan[8192], file[16384];
};

/* The library's answer. */
uint32_t answer_to(const struct asked *it);

/* Tells the place in heap blocks of the texts' sizes, so that a step outside of them is seen. */
void tell_in_blocks(struct told *to, uint32_t answer, const struct asked *it);

/* More than there is room for; any answers to cut texts; the library's own answers to texts that were changed at random. False where
   something told is not as it should be: then standard error says what. */
bool try_rooms(void);
bool try_any_answer(const struct asked *it);
bool try_changed(const struct asked *it, unsigned rounds);

/* Says how many answers of each number were tried; false where a reader's refusal was never met. */
bool all_met(void);

#endif
