/* Collecting files from their units: whole transfers, the state after each answer, the most that a file may have, and states that no
   transfer has. That no other byte is changed is checked by give. */
#include <string.h>

#include "call.h"
#include "check.h"
#include "tests.h"
#include "transfer.h"

static struct text most_octets(void) {
    struct text all = empty();
    while (all.length < HALIMPUNG_FILE_MOST) add_byte(&all, (uint8_t)(all.length * 7 + all.length / 256));
    return all;
}

static void most(void) {
    struct text file = most_octets();
    uint8_t sum = checksum(file.bytes, file.length);
    struct collector one = fresh();
    taken("8,192 octets", &one, file_ready(HALIMPUNG_FILE_MOST));
    give_section("8,192 octets", &one, 1, file.bytes, file.length);
    struct collector more = one;
    taken("8,192 octets", &one, last_segment(1, sum));
    struct collector section = one;
    expect("8,192 octets", &one, last_section(1, sum), HALIMPUNG_FILE_MOST);
    check(memcmp(one.file, file.bytes, sizeof one.file) == 0, "8,192 octets: another file");
    expect("8,193 octets", &more, segment(1, file.bytes, 1), 65536u * HALIMPUNG_COLLECT_MOST);
    taken("8,193 octets in two sections", &section, section_ready(2, 1));
    expect("8,193 octets in two sections", &section, segment(2, file.bytes, 1), 65536u * HALIMPUNG_COLLECT_MOST);
    whole("after 8,193 octets", &section);
}

/* as many sections as can be named, of one octet each */
static void most_sections(void) {
    struct text file = most_octets();
    struct collector one = fresh();
    taken("255 sections", &one, file_ready(255));
    for (int name = 1; name <= 255; name++) {
        give_section("255 sections", &one, (uint8_t)name, file.bytes + name - 1, 1);
        taken("255 sections", &one, last_segment((uint8_t)name, file.bytes[name - 1]));
    }
    struct collector more = one;
    expect("255 sections", &one, last_section(255, checksum(file.bytes, 255)), 255);
    check(memcmp(one.file, file.bytes, 255) == 0, "255 sections: another file");
    expect("a 256th section", &more, section_ready(0, 1), 65536u * HALIMPUNG_COLLECT_TURN);
}

/* byte by byte: where no section is open, its two numbers are zero */
static void expect_state(const struct collector *of, int after, int turn, int ended, unsigned start, unsigned due, unsigned count) {
    static const uint8_t address[] = { 7, 0, 45, 1, 0 };
    check(of->state[0] == turn && of->state[1] == ended, "after %d units: turn %d, %d ended", after, of->state[0], of->state[1]);
    check(memcmp(of->state + 2, address, sizeof address) == 0, "after %d units: another address", after);
    check(state_pair(of, 7) == GOOD_OCTETS && of->state[15] == 0, "after %d units: announced %u", after, state_pair(of, 7));
    check(state_pair(of, 9) == start && state_pair(of, 11) == due, "after %d units: section from %u, of %u", after,
          state_pair(of, 9), state_pair(of, 11));
    check(state_pair(of, 13) == count, "after %d units: %u collected", after, state_pair(of, 13));
}

static void states(void) {
    static const int expected[GOOD - 1][5] = {
        { 1, 0, 0, 0, 0 }, { 2, 0, 0, 2, 0 }, { 2, 0, 0, 2, 1 }, { 2, 0, 0, 2, 2 },
        { 1, 1, 0, 0, 2 }, { 2, 1, 2, 3, 2 }, { 2, 1, 2, 3, 5 }, { 1, 2, 0, 0, 5 },
    };
    struct collector one = fresh();
    for (int i = 0; i < GOOD - 1; i++) {
        const int *is = expected[i];
        taken("states", &one, good(i));
        expect_state(&one, i + 1, is[0], is[1], (unsigned)is[2], (unsigned)is[3], (unsigned)is[4]);
    }
}

/* any originator, and any address, which is the file's then */
static void addresses(void) {
    static const uint8_t octets[][6] = { { 0, 0, 0, 0, 0, 0 }, { 255, 255, 255, 255, 255, 255 }, { 9, 1, 2, 3, 4, 5 } };
    static const uint32_t numbers[][2] = { { 0, 0 }, { 65535, 16777215 }, { 513, 328707 } };
    for (size_t i = 0; i < sizeof octets / sizeof *octets; i++) {
        struct collector one = fresh();
        for (int place = 0; place < GOOD; place++) {
            struct text unit = good(place);
            memcpy(unit.bytes + 3, octets[i], 6);
            unit.bytes[3] = (uint8_t)(unit.bytes[3] + place);
            expect("another address", &one, unit, place < GOOD - 1 ? 0 : GOOD_OCTETS);
            check(HALIMPUNG_UNIT_CA(unit.bytes) == numbers[i][0], "address %zu: CA %u", i, (unsigned)HALIMPUNG_UNIT_CA(unit.bytes));
            check(HALIMPUNG_UNIT_IOA(unit.bytes) == numbers[i][1], "address %zu: IOA %u", i, (unsigned)HALIMPUNG_UNIT_IOA(unit.bytes));
        }
    }
}

/* an example as two sections; what is read is the example, at the address of the last unit */
static void read_whole(void) {
    struct text file = example("market.txt"), last = last_section(2, checksum(file.bytes, file.length)), written[2];
    struct collector one = fresh();
    size_t cut = 720;
    taken("market.txt", &one, file_ready((uint32_t)file.length));
    give_section("market.txt", &one, 1, file.bytes, cut);
    taken("market.txt", &one, last_segment(1, checksum(file.bytes, cut)));
    give_section("market.txt", &one, 2, file.bytes + cut, file.length - cut);
    taken("market.txt", &one, last_segment(2, checksum(file.bytes + cut, file.length - cut)));
    expect("market.txt", &one, last, (uint32_t)file.length);
    struct asked given = { "market.txt", 7, 301, example("plan.txt"), file }, collected = given;
    collected.ca = HALIMPUNG_UNIT_CA(last.bytes);
    collected.ioa = HALIMPUNG_UNIT_IOA(last.bytes);
    memcpy(collected.file.bytes, one.file, file.length);
    for (int entry = 0; entry < ENTRIES; entry++) {
        uint32_t answer = ask(entry, &given, entry_rooms[entry], &written[0]);
        check(!HALIMPUNG_REFUSED(answer), "market.txt, %s: answer %u", entry_names[entry], (unsigned)answer);
        check(answer == ask(entry, &collected, entry_rooms[entry], &written[1]) && same(&written[0], &written[1]),
              "market.txt, %s: collected, it is read otherwise", entry_names[entry]);
    }
}

/* the second is shorter: behind it file keeps what the first left */
static void two_transfers(void) {
    struct text file = most_octets();
    struct collector one = fresh();
    taken("the first", &one, file_ready(300));
    give_section("the first", &one, 1, file.bytes, 300);
    taken("the first", &one, last_segment(1, checksum(file.bytes, 300)));
    expect("the first", &one, last_section(1, checksum(file.bytes, 300)), 300);
    whole("the second", &one);
    check(memcmp(one.file + GOOD_OCTETS, file.bytes + GOOD_OCTETS, 300 - GOOD_OCTETS) == 0, "the second: the first is not behind it");
}

/* a state of this turn and of bytes that are alike, but for the unit's own address (so that it is not all 44) and how many ended */
static void any_state(int turn, uint8_t fill, int ended, const struct text *unit) {
    struct collector one = fresh();
    memset(one.state, fill, sizeof one.state);
    one.state[0] = (uint8_t)turn;
    one.state[1] = (uint8_t)ended;
    memcpy(one.state + 2, unit->bytes + 4, 5);
    give_any("a state of no transfer", &one, unit);
}

static void any_states(void) {
    static const uint8_t fills[] = { 0, 1, 0x20, 0x7F, 0x80, 0xFF };
    for (int turn = 0; turn < 4; turn++) {
        for (size_t fill = 0; fill < sizeof fills; fill++) {
            for (int i = 0; i < GOOD; i++) {
                struct text unit = good(i);
                int name = unit.bytes[11];
                for (int ended = name - 1; ended <= name; ended++) any_state(turn, fills[fill], ended, &unit);
            }
        }
    }
}

void test_collect(void) {
    struct collector one = fresh();
    whole("a file", &one);
    whole("the same again", &one);
    two_transfers();
    states();
    addresses();
    read_whole();
    most();
    most_sections();
    any_states();
}
