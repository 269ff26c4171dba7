/* Each refusal of collecting, after some units of a good transfer. That no byte of file is changed, and that the state is zero then, is
   checked by give. */
#include "check.h"
#include "tests.h"
#include "transfer.h"

/* a unit that is refused after some of the good transfer, and then a whole one: the collector is fresh */
static void refused(const char *what, int before, struct text unit, uint32_t number) {
    struct collector one = fresh();
    begin(what, &one, before);
    expect(what, &one, unit, 65536 * number);
    whole(what, &one);
}

static void refused_unit(void) {
    refused("no octets", 0, empty(), HALIMPUNG_COLLECT_UNIT);
    refused("no octets, in a transfer", 3, empty(), HALIMPUNG_COLLECT_UNIT);
    for (int i = 0; i < GOOD; i++) {
        refused("an octet more", i, longer(good(i)), HALIMPUNG_COLLECT_UNIT);
        refused("an octet less", i, shorter(good(i)), HALIMPUNG_COLLECT_UNIT);
        refused("another type", i, with(good(i), 1, 122), HALIMPUNG_COLLECT_UNIT);
        refused("two objects", i, with(good(i), 2, 2), HALIMPUNG_COLLECT_UNIT);
        refused("a sequence", i, with(good(i), 2, 0x81), HALIMPUNG_COLLECT_UNIT);
        refused("another cause", i, with(good(i), 3, 3), HALIMPUNG_COLLECT_UNIT);
        refused("a negative one", i, with(good(i), 3, 0x4D), HALIMPUNG_COLLECT_UNIT);
        refused("a test", i, with(good(i), 3, 0x8D), HALIMPUNG_COLLECT_UNIT);
        refused("file 2", i, with(good(i), 10, 2), HALIMPUNG_COLLECT_UNIT);
        refused("file 257", i, with(good(i), 11, 1), HALIMPUNG_COLLECT_UNIT);
        for (size_t octet = 5; i > 0 && octet <= 9; octet++)
            refused("another address", i, with(good(i), octet, 9), HALIMPUNG_COLLECT_UNIT);
    }
    refused("a file that is not ready", 0, with(good(0), 15, 0x80), HALIMPUNG_COLLECT_UNIT);
    refused("a section that is not ready", 1, with(good(1), 16, 0x80), HALIMPUNG_COLLECT_UNIT);
    refused("with deactivation", 4, with(good(4), 13, 4), HALIMPUNG_COLLECT_UNIT);
    refused("with deactivation of the file", 8, with(good(8), 13, 2), HALIMPUNG_COLLECT_UNIT);
    refused("a segment of no octets", 2, segment(1, good_file, 0), HALIMPUNG_COLLECT_UNIT);
    refused("a length that is less", 6, with(good(6), 13, 2), HALIMPUNG_COLLECT_UNIT);
    refused("a length that is more", 6, with(good(6), 13, 4), HALIMPUNG_COLLECT_UNIT);
}

static void refused_turn(void) {
    for (int i = 1; i < GOOD; i++) {
        /* a segment that is lost is found at the end of its section */
        if (i != 3 && i != 4) refused("a unit lost", i - 1, good(i), HALIMPUNG_COLLECT_TURN);
        refused("file ready in a transfer", i, good(0), HALIMPUNG_COLLECT_TURN);
    }
    refused("section ready twice", 2, good(1), HALIMPUNG_COLLECT_TURN);
    refused("last segment twice", 5, good(4), HALIMPUNG_COLLECT_TURN);
    refused("a segment behind its last", 5, good(3), HALIMPUNG_COLLECT_TURN);
    refused("section 1 again", 5, good(1), HALIMPUNG_COLLECT_TURN);
    refused("section 0", 1, section_ready(0, 2), HALIMPUNG_COLLECT_TURN);
    refused("section 2 first", 1, section_ready(2, 2), HALIMPUNG_COLLECT_TURN);
    refused("a segment of another section", 3, segment(2, good_file, 1), HALIMPUNG_COLLECT_TURN);
    refused("last segment of another section", 4, last_segment(2, checksum(good_file, 2)), HALIMPUNG_COLLECT_TURN);
    refused("last section of another section", 8, last_section(1, checksum(good_file, 5)), HALIMPUNG_COLLECT_TURN);
    refused("last section where none was", 1, last_section(0, 0), HALIMPUNG_COLLECT_TURN);
    refused("a section without a segment", 2, last_segment(1, 0), HALIMPUNG_COLLECT_TURN);
}

/* a refused file ready starts nothing: what follows it is out of turn */
static void starts_nothing(void) {
    struct collector one = fresh();
    taken("file ready", &one, good(0));
    expect("file ready twice", &one, good(0), 65536u * HALIMPUNG_COLLECT_TURN);
    expect("section ready behind it", &one, good(1), 65536u * HALIMPUNG_COLLECT_TURN);
    taken("file ready", &one, good(0));
    expect("file ready of another address", &one, with(good(0), 5, 8), 65536u * HALIMPUNG_COLLECT_UNIT);
    expect("its section ready", &one, with(good(1), 5, 8), 65536u * HALIMPUNG_COLLECT_TURN);
}

static void refused_checksum(void) {
    refused("a wrong sum of a section", 4, last_segment(1, checksum(good_file, 2) + 1), HALIMPUNG_COLLECT_CHECKSUM);
    refused("a wrong sum and a wrong length", 3, good(4), HALIMPUNG_COLLECT_CHECKSUM);
    refused("a wrong sum of the file", 8, last_section(2, 0), HALIMPUNG_COLLECT_CHECKSUM);
    refused("the sum of the last section", 8, last_section(2, checksum(good_file + 2, 3)), HALIMPUNG_COLLECT_CHECKSUM);
}

static void refused_length(void) {
    refused("an octet lost", 3, last_segment(1, checksum(good_file, 1)), HALIMPUNG_COLLECT_LENGTH);
    refused("a section lost", 5, last_section(1, checksum(good_file, 2)), HALIMPUNG_COLLECT_LENGTH);
    struct collector one = fresh();
    taken("a file of no octets", &one, file_ready(0));
    taken("a section of no octets", &one, section_ready(1, 0));
    taken("a segment past what was announced", &one, good(2));
    expect("its last segment", &one, last_segment(1, 'A'), 65536u * HALIMPUNG_COLLECT_LENGTH);
    taken("a file of 6 octets", &one, file_ready(6));
    for (int i = 1; i < GOOD - 1; i++) taken("a file of 6 octets", &one, good(i));
    expect("a file of 6 octets", &one, good(GOOD - 1), 65536u * HALIMPUNG_COLLECT_LENGTH);
}

static void refused_most(void) {
    refused("a file of 8,193", 0, file_ready(8193), HALIMPUNG_COLLECT_MOST);
    refused("a file of 65,537", 0, file_ready(65537), HALIMPUNG_COLLECT_MOST);
    refused("a section of 8,193", 1, section_ready(1, 8193), HALIMPUNG_COLLECT_MOST);
    refused("a section of 16,777,215", 5, section_ready(2, 0xFFFFFF), HALIMPUNG_COLLECT_MOST);
    refused("a file of 9,000 in a transfer", 3, file_ready(9000), HALIMPUNG_COLLECT_TURN);
    refused("a file of 9,000 that is file 2", 3, with(file_ready(9000), 10, 2), HALIMPUNG_COLLECT_UNIT);
}

void test_dropped(void) {
    refused_unit();
    refused_turn();
    starts_nothing();
    refused_checksum();
    refused_length();
    refused_most();
}
