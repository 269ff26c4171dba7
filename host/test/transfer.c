/* Transfers given to a collector, with the answers that are expected. */
#include "transfer.h"

#include <string.h>

#include "check.h"

const uint8_t good_file[GOOD_OCTETS] = { 'A', 'B', 0xFF, 0x80, 'Z' };

struct text good(int place) {
    switch (place) {
    case 0: return file_ready(5);
    case 1: return section_ready(1, 2);
    case 2: return segment(1, good_file, 1);
    case 3: return segment(1, good_file + 1, 1);
    case 4: return last_segment(1, checksum(good_file, 2));
    case 5: return section_ready(2, 3);
    case 6: return segment(2, good_file + 2, 3);
    case 7: return last_segment(2, checksum(good_file + 2, 3));
    case 8: return last_section(2, checksum(good_file, 5));
    }
    broken("the good transfer has no unit %d", place);
}

void expect(const char *what, struct collector *to, struct text unit, uint32_t answer) {
    uint32_t got = give(what, to, &unit);
    check(got == answer, "%s: answer %u instead of %u", what, (unsigned)got, (unsigned)answer);
}

void taken(const char *what, struct collector *to, struct text unit) { expect(what, to, unit, 0); }

void begin(const char *what, struct collector *to, int count) {
    for (int i = 0; i < count; i++) taken(what, to, good(i));
}

void whole(const char *what, struct collector *to) {
    begin(what, to, GOOD - 1);
    expect(what, to, good(GOOD - 1), GOOD_OCTETS);
    check(memcmp(to->file, good_file, GOOD_OCTETS) == 0, "%s: another file", what);
}

void give_section(const char *what, struct collector *to, uint8_t name, const uint8_t *octets, size_t count) {
    taken(what, to, section_ready(name, (uint32_t)count));
    for (size_t at = 0; at < count; at += 255) taken(what, to, segment(name, octets + at, count - at < 255 ? count - at : 255));
}
