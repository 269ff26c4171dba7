/* Which texts were met before: a bit for each value of a hash (FNV-1a). */
#include "sieve.h"

static uint32_t place_of(const char *text) {
    uint32_t hash = 2166136261u;
    for (; *text != '\0'; text++) hash = (hash ^ (uint8_t)*text) * 16777619u;
    return (hash ^ hash >> 20) % SIEVE_BITS;
}

bool may_hold(const struct sieve *in, const char *text) {
    uint32_t place = place_of(text);
    return in->bits[place / 8] >> place % 8 & 1;
}

void put_in(struct sieve *to, const char *text) {
    uint32_t place = place_of(text);
    to->bits[place / 8] = (uint8_t)(to->bits[place / 8] | 1u << place % 8);
}
