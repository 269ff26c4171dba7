/* Each refusal of the reader, from both entries, on files made from the examples by small changes. */
#include <string.h>

#include "call.h"
#include "check.h"
#include "tests.h"

/* both entries answer this number and detail */
static void expect(const struct asked *asked, uint32_t number, uint32_t detail) {
    for (int entry = 0; entry < ENTRIES; entry++) {
        struct text written;
        uint32_t answer = ask(entry, asked, entry_rooms[entry], &written);
        check(HALIMPUNG_REFUSED(answer) && HALIMPUNG_NUMBER(answer) == number && HALIMPUNG_DETAIL(answer) == detail,
              "%s, %s: answer %u, %u instead of %u, %u", asked->what, entry_names[entry], (unsigned)HALIMPUNG_NUMBER(answer),
              (unsigned)HALIMPUNG_DETAIL(answer), (unsigned)number, (unsigned)detail);
        check(answer == 65536 * number + detail, "%s, %s: answer %u is not put together as document 01 says", asked->what,
              entry_names[entry], (unsigned)answer);
    }
}

static struct asked message(const char *what, const char *name, uint32_t ioa) {
    struct asked asked = { what, 7, ioa, example("plan.txt"), example(name) };
    return asked;
}

static struct asked revocation(const char *what) { return message(what, "rc.txt", 300); }

/* an RC whose file has one change */
static void changed(const char *what, const char *from, const char *to, uint32_t number, uint32_t detail) {
    struct asked asked = revocation(what);
    change(&asked.file, from, to);
    expect(&asked, number, detail);
}

/* the same for the plan */
static void planned(const char *what, const char *from, const char *to, uint32_t line) {
    struct asked asked = revocation(what);
    change(&asked.plan, from, to);
    expect(&asked, HALIMPUNG_PLAN, line);
}

static void refused_plan(void) {
    struct asked asked = revocation("an empty plan");
    asked.plan = empty();
    expect(&asked, HALIMPUNG_PLAN, 0);
    planned("a leading zero", "ca=7\n", "ca=07\n", 1);
    planned("a blank", "ioa=300\n", "ioa=300 \n", 2);
    planned("a bad unit", "UP_PROVA_1", "UP-PROVA-1", 3);
    planned("an unknown type", "type=RC", "type=XX", 4);
    planned("an address twice", "ioa=301", "ioa=300", 6);
    planned("a line missing", "unit=UP_PROVA_1\ntype=VQ", "type=VQ", 15);
    planned("no LF at the end", "type=QR\n", "type=QR", 36);
    planned("a line too many", "type=QR\n", "type=QR\n\n", 37);
}

static void refused_address(void) {
    static const uint32_t none[][2] = { { 7, 309 }, { 8, 300 }, { 0, 300 }, { 7, 0 }, { 65543, 300 }, { 7, UINT32_MAX }, { UINT32_MAX, 300 } };
    for (size_t i = 0; i < sizeof none / sizeof *none; i++) {
        struct asked asked = revocation("an address that is not in the plan");
        asked.ca = none[i][0];
        asked.ioa = none[i][1];
        expect(&asked, HALIMPUNG_ADDRESS, 0);
    }
}

static void refused_byte(void) {
    static const char *const bad[] = { "\xC3\xA0", "\xE0", "\t", "\x7F", "\x80", "\r" };
    struct asked good = revocation("a byte");
    uint32_t at = (uint32_t)place_of(&good.file, "REVOCA");
    for (size_t i = 0; i < sizeof bad / sizeof *bad; i++) changed("a byte that is not allowed", "REVOCA", bad[i], HALIMPUNG_BYTE, at);
    good.file.bytes[at] = 0;
    expect(&good, HALIMPUNG_BYTE, at);
    struct asked last = revocation("a CR at the end");
    add(&last.file, "\r");
    expect(&last, HALIMPUNG_BYTE, (uint32_t)last.file.length - 1);
}

/* a VQ with an accented label and VMAX, with one change */
static void respelt(const char *what, const char *from, const char *to, uint32_t number, uint32_t detail) {
    struct asked asked = message(what, "vq-accented.txt", 303);
    change(&asked.file, from, to);
    expect(&asked, number, detail);
}

/* where these words stand in it */
static uint32_t respelt_at(const char *words) {
    struct text file = example("vq-accented.txt");
    return (uint32_t)place_of(&file, words);
}

static void refused_spelling(void) {
    struct asked other = message("an accented label at the address of a CB", "vq-accented.txt", 301);
    expect(&other, HALIMPUNG_BYTE, respelt_at("\xE0"));
    uint32_t next = respelt_at("Regolazione");
    respelt("an accent in a value", "fino a", "fino \xE0", HALIMPUNG_BYTE, respelt_at("fino a") + 5);
    respelt("an accented label behind '='", "Regolazione", "x=Modalit\xE0 funzionamento\nRegolazione", HALIMPUNG_BYTE, next + 9);
    respelt("an accented label without '='", "Regolazione", "Modalit\xE0 funzionamento\nRegolazione", HALIMPUNG_BYTE, next + 7);
    respelt("a longer label", "Regolazione", "Modalit\xE0 funzionamento x=\nRegolazione", HALIMPUNG_BYTE, next + 7);
    respelt("both spellings", "Regolazione", "Modalita funzionamento=RAT\nRegolazione", HALIMPUNG_LABEL_TWICE, 6);
    respelt("an accent twice", "Regolazione", "Modalit\xE0 funzionamento=RAT\nRegolazione", HALIMPUNG_LABEL_TWICE, 6);
    respelt("VMAX in Variazione", "= -1.5", "= VMAX", HALIMPUNG_VALUE, 10);
    respelt("two blanks", "= VMAX", "= V  MAX", HALIMPUNG_VALUE, 9);
    respelt("V MAX in the row", ";VMAX", ";V MAX", HALIMPUNG_ROW, 0);
    respelt("V MAX in the body", "= VMAX", "= V MAX", HALIMPUNG_ROW, 0);
    respelt("an accented label as the row", "+++++\nVQ-0000000010", "+++++\nModalit\xE0 funzionamento=", HALIMPUNG_ROW, 0);
}

static void refused_separators(void) {
    struct asked none = revocation("no separators");
    change_all(&none.file, "+++++\n", "");
    expect(&none, HALIMPUNG_SEPARATORS, 0);
    changed("one separator", "+++++\n", "", HALIMPUNG_SEPARATORS, 1);
    changed("a line between too many", "+++++\n", "+++++\n\n", HALIMPUNG_SEPARATORS, 2);
    changed("three separators", "+++++\n", "+++++\n+++++\n", HALIMPUNG_SEPARATORS, 3);
}

static void refused_labels(void) {
    changed("the last label twice", "Sequenza", "Sequenza Comando=17\nSequenza", HALIMPUNG_LABEL_TWICE, 5);
    changed("the first label twice", "+++++", "Identificatore messaggio=\n+++++", HALIMPUNG_LABEL_TWICE, 1);
    changed("a label missing", "Sequenza Comando", "Sequenza comando", HALIMPUNG_LABEL_MISSING, 1);
    struct asked two = revocation("two labels missing");
    change_all(&two.file, "Revoca Comando  ", "Revoca  ");
    expect(&two, HALIMPUNG_LABEL_MISSING, 2);
    struct asked other = message("an RC at the address of a CB", "rc.txt", 301);
    expect(&other, HALIMPUNG_LABEL_MISSING, 24);
}

static void refused_value(void) {
    changed("an identifier of another type", "= RC-", "= CB-", HALIMPUNG_VALUE, 1);
    changed("a unit with a dash", "= UP_PROVA_1", "= UP-PROVA-1", HALIMPUNG_VALUE, 2);
    changed("no such day", "= 15-01-2025 10:00", "= 32-01-2025 10:00", HALIMPUNG_VALUE, 3);
    changed("no such hour", "= 15-01-2025 10:30", "= 15-01-2025 24:30", HALIMPUNG_VALUE, 4);
    changed("a leading zero", "= 17", "= 017", HALIMPUNG_VALUE, 5);
}

/* an example of another type with one change that breaks a rule */
static void ruled(const char *name, uint32_t ioa, const char *from, const char *to, uint32_t rule) {
    struct asked asked = message(from, name, ioa);
    change(&asked.file, from, to);
    expect(&asked, HALIMPUNG_RULE, rule);
}

static void refused_rule(void) {
    struct asked ready = message("the example that ends before it starts", "refused/8-ends-before-it-starts.txt", 300);
    expect(&ready, HALIMPUNG_RULE, 1);
    ruled("market.txt", 301, "= SCWEB", "= GAUDI", 2);
    ruled("market.txt", 301, "h1    =", "h1    = 0.25;0.5;0.75;1", 3);
    ruled("market.txt", 301, "= 0,120,2.5", "= 130,120,2.5", 4);
    ruled("eb.txt", 305, "= NO", "= SI", 5);
    ruled("lb.txt", 302, "= NO", "= SI", 6);
    ruled("sr.txt", 306, "= 12.5;10", "= 12.5;-10", 7);
    ruled("vq.txt", 303, "= RAT", "= RRT", 8);
    ruled("qr.txt", 308, "(MW)             =", "(MW)             = 20", 9);
}

static void refused_unit(void) {
    struct asked asked = revocation("another unit in body and row");
    change_all(&asked.file, "UP_PROVA_1", "UP_PROVA_2");
    expect(&asked, HALIMPUNG_UNIT, 0);
}

static void refused_row(void) {
    changed("another number in the row", "S;17", "S;18", HALIMPUNG_ROW, 0);
    changed("another number in the body", "= 17", "= 18", HALIMPUNG_ROW, 0);
    changed("a byte more in the row", "S;17", "S;17;", HALIMPUNG_ROW, 0);
}

/* of two conditions the one higher in the list is answered */
static void first_of_two(void) {
    struct asked asked = revocation("a bad plan, no such address, no file");
    asked.ioa = 1;
    asked.file = empty();
    expect(&asked, HALIMPUNG_ADDRESS, 0);
    change(&asked.plan, "type=QR\n", "type=QR");
    expect(&asked, HALIMPUNG_PLAN, 36);
    changed("another unit, in the body alone", "= UP_PROVA_1", "= UP_PROVA_2", HALIMPUNG_UNIT, 0);
}

void test_refused(void) {
    refused_plan();
    refused_address();
    refused_byte();
    refused_spelling();
    refused_separators();
    refused_labels();
    refused_value();
    refused_rule();
    refused_unit();
    refused_row();
    first_of_two();
}
