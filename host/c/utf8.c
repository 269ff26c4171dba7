/* Characters in UTF-8, by the table of RFC 3629: no longer form than needed, no surrogates, nothing above 10FFFF. */
#include "utf8.h"

#include <stdint.h>

/* first bytes of a kind, what the second may be, and how many bytes there are in all */
static const struct kind {
    uint8_t from, to, second_from, second_to, length;
} kinds[] = {
    { 0x01, 0x7F, 0x00, 0xFF, 1 }, { 0xC2, 0xDF, 0x80, 0xBF, 2 }, { 0xE0, 0xE0, 0xA0, 0xBF, 3 },
    { 0xE1, 0xEC, 0x80, 0xBF, 3 }, { 0xED, 0xED, 0x80, 0x9F, 3 }, { 0xEE, 0xEF, 0x80, 0xBF, 3 },
    { 0xF0, 0xF0, 0x90, 0xBF, 4 }, { 0xF1, 0xF3, 0x80, 0xBF, 4 }, { 0xF4, 0xF4, 0x80, 0x8F, 4 },
};

/* a zero byte follows none of these, so nothing is read behind it */
static size_t length_of(const struct kind *kind, const uint8_t *at) {
    if (kind->length > 1 && (at[1] < kind->second_from || at[1] > kind->second_to)) return 0;
    for (size_t i = 2; i < kind->length; i++) {
        if (at[i] < 0x80 || at[i] > 0xBF) return 0;
    }
    return kind->length;
}

size_t utf8_length(const char *text) {
    const uint8_t *at = (const uint8_t *)text;
    for (size_t i = 0; i < sizeof kinds / sizeof *kinds; i++) {
        if (at[0] >= kinds[i].from && at[0] <= kinds[i].to) return length_of(&kinds[i], at);
    }
    return 0;
}
