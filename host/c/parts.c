/* Parts of a text that somebody lends. */
#include "parts.h"

#include <string.h>

bool same(struct lent one, struct lent other) { return one.length == other.length && starts(one, other); }

bool starts(struct lent text, struct lent with) {
    return with.length <= text.length && (with.length == 0 || memcmp(text.at, with.at, with.length) == 0);
}

struct lent lent_text(const char *text) { return (struct lent){ (const uint8_t *)text, strlen(text) }; }

struct lent before(struct lent text, char byte) {
    const uint8_t *at = text.length > 0 ? memchr(text.at, byte, text.length) : NULL;
    if (at) text.length = (size_t)(at - text.at);
    return text;
}

struct lent behind(struct lent text, char byte) {
    size_t passed = before(text, byte).length;
    if (passed < text.length) passed++;
    return (struct lent){ text.at + passed, text.length - passed };
}

struct lent trimmed(struct lent text) {
    while (text.length > 0 && text.at[0] == ' ') text = (struct lent){ text.at + 1, text.length - 1 };
    while (text.length > 0 && text.at[text.length - 1] == ' ') text.length--;
    return text;
}

bool take_number(struct lent text, uint32_t *to) {
    uint64_t value = 0;
    if (text.length == 0 || (text.at[0] == '0' && text.length > 1)) return false;
    for (size_t i = 0; i < text.length; i++) {
        if (text.at[i] < '0' || text.at[i] > '9') return false;
        value = value * 10 + (uint64_t)(text.at[i] - '0');
        if (value > UINT32_MAX) return false;
    }
    *to = (uint32_t)value;
    return true;
}

struct lent cut_line(struct lent *rest) {
    struct lent line = before(*rest, '\n');
    *rest = behind(*rest, '\n');
    return line;
}
