/* A call of the collecting entry that looks at every byte round about it. */
#include "give.h"

#include <string.h>

#include "check.h"
#include "place.h"

struct collector fresh(void) {
    struct collector made = { { 0 }, { 0 } };
    for (size_t i = 0; i < sizeof made.file; i++) made.file[i] = (uint8_t)(0x80 + i % 113);
    return made;
}

unsigned state_pair(const struct collector *of, int at) { return of->state[at] | (unsigned)of->state[at + 1] << 8; }

static bool alike(const struct collector *one, const struct collector *other) {
    return memcmp(one->state, other->state, sizeof one->state) == 0 && memcmp(one->file, other->file, sizeof one->file) == 0;
}

static uint32_t give_at(enum where where, const char *what, struct collector *to, const struct text *asked) {
    struct placed unit = put_at(where, UNIT, asked->bytes, asked->length);
    struct placed state = put_at(where, STATE, to->state, sizeof to->state);
    struct placed file = put_at(where, COLLECTED, to->file, sizeof to->file);
    uint32_t answer = halimpung_collect(unit.bytes, unit.length, state.bytes, file.bytes);
    check(memcmp(unit.bytes, asked->bytes, asked->length) == 0, "%s: the unit was changed", what);
    check(guards_whole(unit) && guards_whole(state) && guards_whole(file), "%s: a byte outside was changed", what);
    memcpy(to->state, state.bytes, sizeof to->state);
    memcpy(to->file, file.bytes, sizeof to->file);
    take_away(unit);
    take_away(state);
    take_away(file);
    return answer;
}

static uint32_t give_everywhere(const char *what, struct collector *to, const struct text *unit) {
    struct collector before = *to;
    uint32_t answer = give_at(0, what, to, unit);
    for (int where = 1; where < WHERES; where++) {
        struct collector again = before;
        uint32_t other = give_at(where, what, &again, unit);
        check(answer == other && alike(to, &again), "%s: the answer depends on where the slices are", what);
    }
    return answer;
}

/* one of the five, detail 0 */
static bool is_refusal(uint32_t answer) {
    static const uint32_t numbers[] = { HALIMPUNG_COLLECT_UNIT, HALIMPUNG_COLLECT_TURN, HALIMPUNG_COLLECT_CHECKSUM,
                                        HALIMPUNG_COLLECT_LENGTH, HALIMPUNG_COLLECT_MOST };
    for (size_t i = 0; i < sizeof numbers / sizeof *numbers; i++) {
        if (answer == 65536 * numbers[i]) return true;
    }
    return false;
}

uint32_t give_any(const char *what, struct collector *to, const struct text *unit) {
    struct collector before = *to, expected = before;
    uint32_t answer = give_everywhere(what, to, unit);
    check(answer <= HALIMPUNG_FILE_MOST || is_refusal(answer), "%s: answer %u", what, (unsigned)answer);
    if (answer == 0) return answer;
    memset(expected.state, 0, sizeof expected.state);
    check(alike(to, &expected), "%s: answer %u, and the state is not zero, or a byte of file was changed", what, (unsigned)answer);
    return answer;
}

/* what a unit that was taken has put into file, and how many octets are collected then */
static void check_taken(const char *what, const struct collector *before, const struct collector *after, const struct text *unit) {
    size_t count = state_pair(before, 13), more = unit->bytes[0] == 125 ? unit->bytes[12] : 0;
    struct collector expected = *before;
    bool fits = count + more <= sizeof expected.file;
    check(fits, "%s: %zu octets were taken behind %zu", what, more, count);
    if (fits) memcpy(expected.file + count, unit->bytes + 13, more);
    check(memcmp(after->file, expected.file, sizeof expected.file) == 0, "%s: a byte of file is not as it should be", what);
    check(state_pair(after, 13) == count + more, "%s: %u octets are collected", what, state_pair(after, 13));
}

uint32_t give(const char *what, struct collector *to, const struct text *unit) {
    struct collector before = *to;
    uint32_t answer = give_any(what, to, unit);
    if (answer == 0) check_taken(what, &before, to, unit);
    return answer;
}
