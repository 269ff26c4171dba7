/* A text of units, one a line in hex. */
#include "units.h"

#include <errno.h>
#include <string.h>

#include "load.h"
#include "reason.h"

struct line {
    size_t length; /* also of what did not fit */
    char bytes[2 * UNIT_ROOM];
};

bool open_units(const char *name, struct units *to) {
    to->name = name;
    to->line = 0;
    to->text = fopen(name, "r");
    if (!to->text) say_unreadable(name, reason(errno));
    return to->text != NULL;
}

void close_units(struct units *it) { fclose(it->text); }

/* The next line without its LF or CR LF; false where there is none, or it cannot be read to its end. The last may lack its LF. */
static bool take_line(FILE *text, struct line *to) {
    int byte = getc(text), last = '\0';
    bool any = byte != EOF;
    for (to->length = 0; byte != EOF && byte != '\n'; byte = getc(text)) {
        if (to->length < sizeof to->bytes) to->bytes[to->length] = (char)byte;
        to->length++;
        last = byte;
    }
    if (byte == '\n' && last == '\r') to->length--;
    return any && !ferror(text);
}

static bool is_passed_over(const struct line *it) {
    if (it->length == 0 || it->bytes[0] == '#') return true;
    for (size_t i = 0; i < it->length && i < sizeof it->bytes; i++) {
        if (it->bytes[i] != ' ' && it->bytes[i] != '\t') return false;
    }
    return true;
}

/* 16 or more for what is no digit */
static size_t digit(char byte) {
    static const char digits[] = "0123456789abcdef0123456789ABCDEF";
    const char *at = byte != '\0' ? strchr(digits, byte) : NULL;
    return at ? (size_t)(at - digits) % 16 : 16;
}

static bool take_octets(const struct line *from, struct units *to) {
    if (from->length % 2 != 0 || from->length > sizeof from->bytes) return false;
    to->length = from->length / 2;
    for (size_t i = 0; i < to->length; i++) {
        size_t high = digit(from->bytes[2 * i]), low = digit(from->bytes[2 * i + 1]);
        if (high > 15 || low > 15) return false;
        to->octets[i] = (uint8_t)(16 * high + low);
    }
    return true;
}

enum found next_unit(struct units *from) {
    struct line line;
    while (take_line(from->text, &line)) {
        snprintf(from->place, sizeof from->place, "%s:%lu", from->name, ++from->line);
        if (!is_passed_over(&line)) return take_octets(&line, from) ? UNIT : BAD_LINE;
    }
    return ferror(from->text) ? UNREADABLE : NO_MORE;
}
