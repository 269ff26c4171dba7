/* The lines that are told of a refusal. */
#include "told.h"

#include <stdarg.h>
#include <stdio.h>
#include <string.h>

/* a line that is full ends with two dots, and not within a character of UTF-8 */
static void cut(char *line) {
    size_t end = TOLD_ROOM - sizeof "..";
    while (end > 0 && ((unsigned char)line[end] & 0xC0) == 0x80) end--;
    memcpy(line + end, "..", sizeof "..");
}

static void add(char *line, const char *words, va_list rest) {
    size_t used = strlen(line);
    int more = vsnprintf(line + used, TOLD_ROOM - used, words, rest);
    if (more >= 0 && (size_t)more >= TOLD_ROOM - used) cut(line);
}

void tell(struct told *to, const char *words, ...) {
    if (to->count == TOLD_MOST) return;
    char *line = to->lines[to->count++];
    line[0] = '\0';
    va_list rest;
    va_start(rest, words);
    add(line, words, rest);
    va_end(rest);
}

void tell_on(struct told *to, const char *words, ...) {
    if (to->count == 0) return;
    va_list rest;
    va_start(rest, words);
    add(to->lines[to->count - 1], words, rest);
    va_end(rest);
}

/* one byte of a file; how long that is. E0 is à in the files of which document 02 speaks */
static size_t put(char *to, uint8_t byte) {
    static const char digits[] = "0123456789ABCDEF";
    const char hex[] = { '<', digits[byte / 16], digits[byte % 16], '>' };
    size_t length = byte == 0xE0 ? 2 : byte >= ' ' && byte <= '~' ? 1 : sizeof hex;
    memcpy(to, length == 2 ? "\303\240" : length == 1 ? (const char *)&byte : hex, length);
    return length;
}

struct shown shown(struct lent text) {
    enum { LONGEST = 4 };
    struct shown made;
    size_t used = 0, next = 0;
    while (next < text.length && used + LONGEST + sizeof ".." <= sizeof made.text) used += put(made.text + used, text.at[next++]);
    memcpy(made.text + used, next < text.length ? ".." : "", next < text.length ? sizeof ".." : 1);
    return made;
}
