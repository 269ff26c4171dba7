/* The smallest and largest inputs: slices of no bytes, files of 1, 8,192 and 8,193 bytes, plans of 64 and 65 rows. */
#include <stdio.h>

#include "call.h"
#include "check.h"
#include "tests.h"

static void answers(const struct asked *asked, uint32_t number, uint32_t detail) {
    for (int entry = 0; entry < ENTRIES; entry++) {
        struct text written;
        uint32_t answer = ask(entry, asked, entry_rooms[entry], &written);
        check(HALIMPUNG_NUMBER(answer) == number && (number == 0 || HALIMPUNG_DETAIL(answer) == detail), "%s, %s: answer %u", asked->what,
              entry_names[entry], (unsigned)answer);
    }
}

/* of plan, file and out every choice is made empty; ask places them as blocks of no bytes and at both fences */
static void empty_slices(void) {
    struct text written;
    for (int entry = 0; entry < ENTRIES; entry++) {
        struct asked asked = { "empty slices", 7, 300, example("plan.txt"), example("rc.txt") };
        check(HALIMPUNG_NUMBER(ask(entry, &asked, 0, &written)) == HALIMPUNG_ROOM, "no out, %s", entry_names[entry]);
        asked.file = empty();
        check(ask(entry, &asked, entry_rooms[entry], &written) == 65536u * HALIMPUNG_SIZE, "no file, %s", entry_names[entry]);
        check(ask(entry, &asked, 0, &written) == 65536u * HALIMPUNG_SIZE, "no file and no out, %s", entry_names[entry]);
        asked.plan = empty();
        check(ask(entry, &asked, entry_rooms[entry], &written) == 65536u * HALIMPUNG_PLAN, "no plan and no file, %s", entry_names[entry]);
        check(ask(entry, &asked, 0, &written) == 65536u * HALIMPUNG_PLAN, "nothing at all, %s", entry_names[entry]);
        asked.file = example("rc.txt");
        check(ask(entry, &asked, entry_rooms[entry], &written) == 65536u * HALIMPUNG_PLAN, "no plan, %s", entry_names[entry]);
        check(ask(entry, &asked, 0, &written) == 65536u * HALIMPUNG_PLAN, "no plan and no out, %s", entry_names[entry]);
    }
}

/* rc.txt with a line below that is passed over, up to that many bytes */
static struct text grown(size_t length) {
    struct text all = example("rc.txt");
    while (all.length < length) add_byte(&all, 'x');
    return all;
}

static void file_sizes(void) {
    struct asked asked = { "8,192 bytes", 7, 300, example("plan.txt"), grown(HALIMPUNG_FILE_MOST) };
    answers(&asked, 0, 0);
    asked.what = "8,193 bytes";
    asked.file = grown(HALIMPUNG_FILE_MOST + 1);
    answers(&asked, HALIMPUNG_SIZE, 0);
    asked.what = "16,384 bytes";
    asked.file = grown(TEXT_ROOM);
    answers(&asked, HALIMPUNG_SIZE, 0);
    asked.what = "one byte";
    asked.file = words("x");
    answers(&asked, HALIMPUNG_SEPARATORS, 0);
}

/* 8,192 bytes of short lines: as many lines as a file can have */
static void most_lines(void) {
    struct asked asked = { "8,192 line ends", 7, 300, example("plan.txt"), empty() };
    while (asked.file.length < HALIMPUNG_FILE_MOST) add_byte(&asked.file, '\n');
    answers(&asked, HALIMPUNG_SEPARATORS, 0);
    struct asked many = { "1,365 separators", 7, 300, example("plan.txt"), empty() };
    while (many.file.length + 6 <= HALIMPUNG_FILE_MOST) add(&many.file, "+++++\n");
    answers(&many, HALIMPUNG_SEPARATORS, HALIMPUNG_FILE_MOST / 6);
}

/* rows of the longest lines, the first of them at address 65534, 16777215 */
static struct text rows(int count) {
    struct text all = empty();
    for (int i = 0; i < count; i++) {
        char row[64];
        snprintf(row, sizeof row, "ca=65534\nioa=%d\nunit=UP_PROVA_1234567\ntype=RC\n", 16777215 - i);
        add(&all, row);
    }
    return all;
}

static void plan_sizes(void) {
    struct asked asked = { "a plan of 64 rows", 65534, 16777215 - 63, rows(64), example("rc.txt") };
    change_all(&asked.file, "UP_PROVA_1", "UP_PROVA_1234567");
    check(asked.plan.length == 3328, "the largest plan has %zu bytes", asked.plan.length);
    answers(&asked, 0, 0);
    asked.what = "a plan of 65 rows";
    asked.plan = rows(65);
    answers(&asked, HALIMPUNG_PLAN, 257);
}

void test_sizes(void) {
    empty_slices();
    file_sizes();
    most_lines();
    plan_sizes();
}
