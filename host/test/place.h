/* Slices placed so that a step outside of them is seen.

   The library is not instrumented: AddressSanitizer sees what it does through memcpy and memset alone, not its own loads and stores. So a
   slice is put in one place after another: into a heap block of its size (AddressSanitizer, valgrind), against the end of fenced pages (a
   load or store past it is a fault) and against their beginning (one before it is). On the side without a fence there are guard bytes. */
#ifndef PLACE_H
#define PLACE_H

#include <stdbool.h>
#include <stddef.h>
#include <stdint.h>

enum where { IN_HEAP, AT_END, AT_START, WHERES };

/* each has pages of its own, so that those of a call stand side by side */
enum role { PLAN, FILE_, OUT, UNIT, STATE, COLLECTED, ROLES };

struct placed {
    enum where where;
    uint8_t *bytes;
    size_t length;
};

/* A slice with bytes like these. */
struct placed put_at(enum where where, enum role role, const uint8_t *like, size_t length);

/* Are the guard bytes beside it as they were? */
bool guards_whole(struct placed it);

/* Gives a heap block back; the pages serve again. */
void take_away(struct placed it);

#endif
