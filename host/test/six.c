/* What the header says of the six lines: whose number, and which instants. */
#include <stdio.h>
#include <string.h>

#include "check.h"
#include "samples.h"
#include "tests.h"

enum { READ = 0, START = 3 };

/* all dates of the samples are on this day, which is 790210800 at midnight */
#define DAY "= 15-01-2025 "

static void expect_lines(const struct asked *asked, const char *type, const char *number, const char *instants) {
    char expected[HALIMPUNG_READ_ROOM + 1];
    struct text written;
    ask(READ, asked, HALIMPUNG_READ_ROOM, &written);
    snprintf(expected, sizeof expected, "result=0\ntype=%s\nnumber=%s\nunit=UP_PROVA_1\n%s", type, number, instants);
    struct text lines = words(expected);
    check(same(&written, &lines), "%s: '%.*s' instead of '%s'", asked->what, (int)written.length, (const char *)written.bytes, expected);
}

static void expect_sample(const char *name, const char *number, const char *instants) {
    const struct sample *of = sample(name);
    struct asked asked = asked_for(of);
    expect_lines(&asked, of->type, number, instants);
}

/* 10:00 to 10:30, but for an mFRR command, whose second ramp ends at 10:25, and a VQ without an end */
static void each_layout(void) {
    static const char half_hour[] = "start=790246800\nend=790248600\n";
    expect_sample("market", "1234", half_hour);
    expect_sample("mfrr", "1235", "start=790246800\nend=790248300\n");
    /* its own; it revokes 17 */
    expect_sample("rc", "42", half_hour);
    expect_sample("mg", "43", half_hour);
    expect_sample("eb", "44", half_hour);
    expect_sample("lb", "45", half_hour);
    expect_sample("sr", "46", half_hour);
    expect_sample("vq", "47", "start=790246800\nend=\n");
    expect_sample("ri", "48", half_hour);
    expect_sample("qr", "49", half_hour);
}

static void numbers(void) {
    struct asked asked = asked_for(sample("rc"));
    change_all(&asked.file, "RC-0000000042", "RC-9999999999");
    expect_lines(&asked, "RC", "9999999999", "start=790246800\nend=790248600\n");
    change_all(&asked.file, "RC-9999999999", "RC-0000000000");
    expect_lines(&asked, "RC", "0", "start=790246800\nend=790248600\n");
}

/* a field that is left blank is refused, by its number */
static void blank(const struct sample *of, const char *date, int field) {
    struct asked asked = asked_for(of);
    struct text written;
    change(&asked.file, date, "=");
    uint32_t answer = ask(READ, &asked, HALIMPUNG_READ_ROOM, &written);
    check(answer == 65536u * HALIMPUNG_VALUE + (uint32_t)field, "%s, field %d is blank: answer %u", of->name, field, (unsigned)answer);
}

static void blanks(void) {
    for (int i = 0; i < SAMPLES; i++) {
        const struct sample *of = &samples[i];
        blank(of, DAY "10:00:00 S", START);
        if (strcmp(of->name, "vq") != 0) blank(of, strcmp(of->name, "mfrr") == 0 ? DAY "10:25:00 S" : DAY "10:30:00 S", of->end);
    }
}

static void vq_with_an_end(void) {
    struct asked asked = asked_for(sample("vq"));
    change(&asked.file, "Data Ora Fine                       =", "Data Ora Fine " DAY "10:30:00 S");
    change(&asked.file, "S;;E", "S;15-01-2025 10:30:00 S;E");
    expect_lines(&asked, "VQ", "47", "start=790246800\nend=790248600\n");
}

/* document 01's example, and the last instant that a file can have */
static void since_1970(void) {
    check(HALIMPUNG_UNIX(790246800) == 1736931600, "2025-01-15 09:00:00 UTC");
    check(HALIMPUNG_UNIX(UINT32_C(3155756399)) == INT64_C(4102441199), "2099-12-31 22:59:59 UTC");
    check(sizeof HALIMPUNG_UNIX(0) == sizeof(int64_t), "an instant since 1970 has %zu bytes", sizeof HALIMPUNG_UNIX(0));
}

void test_six(void) {
    each_layout();
    numbers();
    blanks();
    vq_with_an_end();
    since_1970();
}
