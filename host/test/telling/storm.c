/* The storm: any answer to cut texts, and the library's answers to texts that were changed at random. */
#include <stdbool.h>
#include <stdio.h>
#include <string.h>

#include "telling.h"

#include "halimpung.h"
#include "language.h"
#include "told.h"

static struct told told;
static unsigned long met[64];

static bool bad(const char *what, uint32_t answer) {
    fprintf(stderr, "FAILED: %s, told of %u/%u:\n", what, (unsigned)HALIMPUNG_NUMBER(answer), (unsigned)HALIMPUNG_DETAIL(answer));
    for (int i = 0; i < told.count && i < TOLD_MOST; i++) fprintf(stderr, "  %.*s\n", TOLD_ROOM, told.lines[i]);
    return false;
}

/* always the same numbers, so that a failure comes again */
static uint32_t random_below(uint32_t limit) {
    static uint64_t state = 88172645463325252u;
    state ^= state << 13;
    state ^= state >> 7;
    state ^= state << 17;
    return (uint32_t)(state >> 32) % limit;
}

/* ---- what may be told at all: lines of UTF-8 without control characters, ended within their room */

/* how many bytes a character of one or two has, which are those of the texts; 0 for anything else */
static size_t character(const char *at) {
    unsigned char first = (unsigned char)at[0], next = (unsigned char)at[1];
    if (first >= ' ' && first <= '~') return 1;
    return first >= 0xC2 && first < 0xE0 && next >= 0x80 && next < 0xC0 ? 2 : 0;
}

static bool is_printable(const char *line) {
    if (!memchr(line, '\0', TOLD_ROOM) || *line == '\0') return false;
    while (*line != '\0') {
        size_t length = character(line);
        if (length == 0) return false;
        line += length;
    }
    return true;
}

static bool tell_and_look(uint32_t answer, const struct asked *it) {
    memset(&told, 0xA5, sizeof told);
    tell_in_blocks(&told, answer, it);
    if (told.count < 0 || told.count > TOLD_MOST) return bad("how many lines", answer);
    for (int i = 0; i < told.count; i++) {
        if (!is_printable(told.lines[i])) return bad("a line that cannot be printed", answer);
    }
    return true;
}

static bool in_both_languages(uint32_t answer, const struct asked *it) {
    language = ITALIAN;
    if (!tell_and_look(answer, it)) return false;
    int count = told.count;
    language = ENGLISH;
    if (!tell_and_look(answer, it)) return false;
    return told.count == count || bad("another count of lines in Italian", answer);
}

/* ---- more lines, and longer ones, than there is room for */

bool try_rooms(void) {
    memset(&told, 0, sizeof told);
    for (int i = 0; i < TOLD_MOST + 9; i++) tell(&told, "%d", i);
    if (told.count != TOLD_MOST || strcmp(told.lines[TOLD_MOST - 1], "63") != 0) return bad("lines past the last", 0);
    for (int shift = 0; shift < 2; shift++) {
        told.count = 0;
        tell(&told, "%s", shift == 0 ? "" : "x");
        for (int i = 0; i < TOLD_ROOM; i++) tell_on(&told, "\303\240");
        if (!is_printable(told.lines[0]) || strlen(told.lines[0]) < TOLD_ROOM - 4) return bad("a line that is cut", 0);
    }
    return true;
}

/* ---- any answer */

static bool try_numbers(const struct asked *it) {
    for (uint32_t number = 0; number < 50; number++) {
        uint32_t length = (uint32_t)it->file_length, last = length > 0 ? length - 1 : 0;
        uint32_t details[] = { 0, random_below(30), random_below(300), random_below(70000), last, length };
        for (size_t i = 0; i < sizeof details / sizeof *details; i++) {
            if (!in_both_languages((number << 16) + details[i], it)) return false;
        }
    }
    return true;
}

bool try_any_answer(const struct asked *it) {
    static struct asked cut;
    for (size_t length = 0; length <= it->file_length; length += 1 + random_below(40)) {
        cut = *it;
        cut.file_length = length;
        if (!try_numbers(&cut)) return false;
    }
    for (size_t length = 0; length <= it->plan_length; length += 1 + random_below(10)) {
        cut = *it;
        cut.plan_length = length;
        if (!try_numbers(&cut)) return false;
    }
    for (int i = 0; i < 20; i++) {
        for (size_t at = 0; at < cut.file_length; at++) cut.file[at] = (uint8_t)random_below(256);
        if (!try_numbers(&cut)) return false;
    }
    return true;
}

/* ---- the library's answers */

/* a few bytes: any, or one that is common in such files */
static void change_bytes(uint8_t *text, size_t length) {
    static const uint8_t common[] = "09AZaz =;+-.,_\n\r\t\340SLI";
    for (uint32_t left = 1 + random_below(3); left > 0 && length > 0; left--) {
        uint8_t byte = random_below(4) == 0 ? (uint8_t)random_below(256) : common[random_below(sizeof common - 1)];
        text[random_below((uint32_t)length)] = byte;
    }
}

/* one digit: what is left is often a value that its field may hold */
static void change_digit(uint8_t *text, size_t length) {
    size_t at = random_below((uint32_t)length);
    while (at < length && (text[at] < '0' || text[at] > '9')) at++;
    if (at < length) text[at] = (uint8_t)('0' + random_below(10));
}

/* some bytes of the file put in a second time, from one line's beginning to another place, or taken out */
static void change_length(struct asked *it) {
    size_t from = random_below((uint32_t)it->file_length), length = random_below(80);
    while (from > 0 && it->file[from - 1] != '\n') from--;
    if (random_below(2) == 0) {
        const uint8_t *end = memchr(it->file + from, '\n', it->file_length - from);
        if (end) length = (size_t)(end + 1 - it->file) - from;
    }
    if (length > it->file_length - from) length = it->file_length - from;
    uint8_t *at = it->file + from;
    bool twice = random_below(2) == 0;
    memmove(twice ? at + length : at, twice ? at : at + length, it->file_length - from - (twice ? 0 : length));
    it->file_length = twice ? it->file_length + length : it->file_length - length;
}

static int lines_with(const char *beginning) {
    int found = 0;
    for (int i = 0; i < told.count; i++) found += strncmp(told.lines[i], beginning, strlen(beginning)) == 0;
    return found;
}

/* What must be told of the library's own answer, in English. Where it agrees with the detail the file was read as the library reads it. */
static bool is_told(uint32_t answer) {
    int detail = (int)HALIMPUNG_DETAIL(answer), separators = lines_with("separators");
    switch (HALIMPUNG_NUMBER(answer)) {
    case HALIMPUNG_SEPARATORS:
        for (const char *at = told.lines[0]; separators != 0 && (at = strchr(at, ',')); at++) separators++;
        return told.count == 2 && separators == detail;
    case HALIMPUNG_LABEL_TWICE: return told.count == 2 && lines_with("line ") == 2;
    case HALIMPUNG_LABEL_MISSING: return lines_with("read as ") == 1 && lines_with("missing: ") == detail;
    case HALIMPUNG_VALUE: return lines_with("line ") == 1 && lines_with("it may hold: ") == 1;
    case HALIMPUNG_RULE: return lines_with("line ") == told.count && told.count >= 1;
    case HALIMPUNG_UNIT: return lines_with("line ") == 1 && lines_with("the plan gives ") == 1;
    case HALIMPUNG_ROW: return lines_with("the summary row") == 1 && lines_with("line ") == (strstr(told.lines[0], "too many") ? 0 : 1);
    default: return told.count >= 1;
    }
}

static void change(struct asked *it) {
    switch (random_below(8)) {
    case 0: it->ioa += random_below(2); break;
    case 1: change_bytes(it->plan, it->plan_length); break;
    case 2: it->file_length = random_below((uint32_t)it->file_length); break;
    case 3:
    case 4: change_length(it); break;
    case 5:
    case 6: change_digit(it->file, it->file_length); break;
    default: change_bytes(it->file, it->file_length); break;
    }
}

bool try_changed(const struct asked *it, unsigned rounds) {
    static struct asked changed;
    for (unsigned round = 0; round < rounds; round++) {
        changed = *it;
        change(&changed);
        uint32_t answer = answer_to(&changed);
        met[HALIMPUNG_NUMBER(answer)]++;
        if (!in_both_languages(answer, &changed)) return false;
        if (HALIMPUNG_REFUSED(answer) && !is_told(answer)) return bad("not what belongs to the answer", answer);
    }
    return true;
}

bool all_met(void) {
    bool all = met[HALIMPUNG_PLAN] > 0;
    for (uint32_t number = HALIMPUNG_ADDRESS; number <= HALIMPUNG_ROW; number++) all = all && met[number] > 0;
    printf("places: changed files refused with");
    for (uint32_t number = 1; number <= HALIMPUNG_PLAN; number++) {
        if (met[number] > 0) printf(" %u: %lu", (unsigned)number, met[number]);
    }
    printf("%s\n", all ? "" : "; not all of 13 and 1 to 10");
    return all;
}
