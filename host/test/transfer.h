/* Transfers given to a collector, with the answers that are expected. */
#ifndef TRANSFER_H
#define TRANSFER_H

#include "give.h"
#include "unit.h"

/* A small file, and the units that carry it, in their order: two segments make section 1, one makes section 2. */
enum { GOOD = 9, GOOD_OCTETS = 5 };
extern const uint8_t good_file[GOOD_OCTETS];
struct text good(int place);

/* A unit with this answer, and one that is taken while the file is not whole. */
void expect(const char *what, struct collector *to, struct text unit, uint32_t answer);
void taken(const char *what, struct collector *to, struct text unit);

/* The first units of the good transfer; and all of it, after which the file is there. */
void begin(const char *what, struct collector *to, int count);
void whole(const char *what, struct collector *to);

/* A section ready and its segments, of 255 octets but for the last. */
void give_section(const char *what, struct collector *to, uint8_t name, const uint8_t *octets, size_t count);

#endif
