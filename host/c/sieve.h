/* Which texts were met before, without keeping them: what is new to a sieve is new; what is not may be new all the same, and is to be
   looked at. So many names are compared with each other in a time that grows with their number, and without memory for them all. */
#ifndef SIEVE_H
#define SIEVE_H

#include <stdbool.h>
#include <stdint.h>

enum { SIEVE_BITS = 1 << 20 };

struct sieve {
    uint8_t bits[SIEVE_BITS / 8]; /* all zero at first */
};

/* False: the text was not put in before. */
bool may_hold(const struct sieve *in, const char *text);

void put_in(struct sieve *to, const char *text);

#endif
