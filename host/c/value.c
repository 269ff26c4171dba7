/* A value by its label, out of a written form. */
#include "value.h"

#include <string.h>

/* a field's line: its label, blanks up to here, `=`, and, unless the value is blank, a space and the value */
enum { EQUALS = 36 };

struct line {
    const uint8_t *at;
    size_t length; /* without its LF */
};

/* false where no LF is left */
static bool take_line(const uint8_t *from, size_t length, struct line *to) {
    const uint8_t *end = length > 0 ? memchr(from, '\n', length) : NULL;
    to->at = from;
    to->length = end ? (size_t)(end - from) : 0;
    return end;
}

/* below it stands the summary row, whose values may look like anything */
static bool is_separator(struct line it) { return it.length == 5 && memcmp(it.at, "+++++", 5) == 0; }

static bool has_label(struct line it, const char *label, size_t size) {
    if (it.length <= EQUALS || memcmp(it.at, label, size) != 0 || it.at[EQUALS] != '=') return false;
    /* up to the `=`, else this is a longer label that begins with the one asked for */
    for (size_t i = size; i < EQUALS; i++) {
        if (it.at[i] != ' ') return false;
    }
    return it.length == EQUALS + 1 || it.at[EQUALS + 1] == ' ';
}

bool halimpung_value(const uint8_t *form, size_t length, const char *label, const uint8_t **value, size_t *value_length) {
    size_t size = strlen(label);
    /* no label ends with a blank: it would be taken for the padding */
    if (size == 0 || size > EQUALS || label[size - 1] == ' ') return false;
    struct line line;
    for (; take_line(form, length, &line) && !is_separator(line); form += line.length + 1, length -= line.length + 1) {
        if (!has_label(line, label, size)) continue;
        size_t before = line.length > EQUALS + 1 ? EQUALS + 2 : EQUALS + 1;
        *value = line.at + before;
        *value_length = line.length - before;
        return true;
    }
    return false;
}
