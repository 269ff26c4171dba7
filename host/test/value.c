/* Values by their labels (host/c/value.c): of every field of all ten layouts, of forms that were cut short, and of any bytes. */
#include "../c/value.h"

#include <stdio.h>
#include <string.h>

#include "check.h"
#include "place.h"
#include "samples.h"
#include "tests.h"

enum { NONE = -1, NORMALISE = 1 };

/* A field as the test finds it, by itself: label and value by the first `=` of a line. */
struct field {
    char label[64], value[300];
    size_t end; /* the offset behind its line */
};

/* The value's length, or NONE; the value itself is compared. The form is placed in every way, and nothing is set where there is none. */
static int length_in(const struct text *form, const char *label, const char *expected) {
    int found = NONE;
    for (int where = 0; where < WHERES; where++) {
        struct placed it = put_at(where, FILE_, form->bytes, form->length);
        const uint8_t *value = NULL;
        size_t length = SIZE_MAX;
        bool is = halimpung_value(it.bytes, it.length, label, &value, &length);
        check(is || (value == NULL && length == SIZE_MAX), "'%s' is not there, and something is set", label);
        check(!is || (length == strlen(expected) && memcmp(value, expected, length) == 0), "'%s' is not '%s'", label, expected);
        check(where == 0 || is == (found != NONE), "'%s' depends on where the form is", label);
        found = is ? (int)length : NONE;
        take_away(it);
    }
    return found;
}

static void expect(const struct text *form, const char *label, const char *value) {
    check(length_in(form, label, value) != NONE, "'%s' is not found", label);
}

static void expect_none(const struct text *form, const char *label) {
    check(length_in(form, label, "nothing") == NONE, "'%s' is found", label);
}

/* the form of a sample as the library gives it, which is the sample itself */
static struct text form_of(const struct sample *of) {
    struct asked asked = asked_for(of);
    struct text form;
    ask(NORMALISE, &asked, HALIMPUNG_NORMALISE_ROOM, &form);
    check(same(&form, &asked.file), "%s is not in written form", of->name);
    return form;
}

static struct text form_named(const char *name) { return form_of(sample(name)); }

/* how many fields there are from the empty line to the separator */
static int fields_of(struct text form, struct field *to) {
    int count = 0;
    add_byte(&form, '\0');
    char *all = (char *)form.bytes, *line = strstr(all, "\n\n") + 2;
    for (char *end = strchr(line, '\n'); line[0] != '+'; line = end + 1, end = strchr(line, '\n')) {
        if (count == FIELDS_MOST) broken("more fields than any layout has");
        *end = '\0';
        char *equals = strchr(line, '=');
        snprintf(to[count].value, sizeof to->value, "%s", equals + 1 + strspn(equals + 1, " "));
        while (equals[-1] == ' ') equals--;
        *equals = '\0';
        snprintf(to[count].label, sizeof to->label, "%s", line);
        to[count++].end = (size_t)(end + 1 - all);
    }
    return count;
}

static void every_field(void) {
    struct field fields[FIELDS_MOST];
    for (int i = 0; i < SAMPLES; i++) {
        struct text form = form_of(&samples[i]);
        int count = fields_of(form, fields);
        check(count == samples[i].fields, "%s has %d fields", samples[i].name, count);
        for (int field = 0; field < count; field++) expect(&form, fields[field].label, fields[field].value);
    }
}

/* letter for letter, so that the test's own reading is tried too */
static void some_values(void) {
    struct text market = form_named("market"), mg = form_named("mg"), vq = form_named("vq");
    expect(&market, "Variazione potenza Prog Vinc (TFIN)", "-40");
    expect(&market, "Tempo di rampa", "");
    expect(&market, "Gradienti (Pmin,Pmax,Grad)", "0,120,2.5;120,250,4;250,400,6.25");
    expect(&mg, "Motivazione", "Prova di comunicazione; rete 380 kV");
    expect(&vq, "Data Ora Fine", "");
    expect(&vq, "Impostazione RAT", "V MAX");
}

/* a label that another one begins with: each has its own value, and none where its line is not there */
static void prefixes(void) {
    struct text both = form_named("qr"), one = both, other = both;
    expect(&both, "Quantita Riservata", "FINO A PMAX");
    expect(&both, "Quantita Riservata (MW)", "");
    change(&one, "Quantita Riservata                  = FINO A PMAX\n", "");
    expect_none(&one, "Quantita Riservata");
    expect(&one, "Quantita Riservata (MW)", "");
    change(&other, "Quantita Riservata (MW)             =\n", "");
    expect(&other, "Quantita Riservata", "FINO A PMAX");
    expect_none(&other, "Quantita Riservata (MW)");
}

static void not_there(void) {
    static const char *const labels[] = {
        "", " ", "Nota", "note", "Note ", " Note", "Note =", "Note\n", "Not", "Quantita", "Data Ora", "Tipo Riserva = RISERVA A SALIRE",
        "*****", "+++++", "Identificatore messaggio            ", "Identificatore messaggio            = QR-0000000049",
        "Identificatore messaggio             ", "QR-0000000049;UP_PROVA_1",
    };
    struct text form = form_named("qr"), none = empty();
    for (size_t i = 0; i < sizeof labels / sizeof *labels; i++) expect_none(&form, labels[i]);
    for (size_t i = 0; i < sizeof labels / sizeof *labels; i++) expect_none(&none, labels[i]);
    expect_none(&none, "Note");
}

/* lines that are nearly a field's */
static void odd_lines(void) {
    struct text form = words("123456789012345678901234567890123456= whole\n"
                             "Wide                                 = a column more\n"
                             "Close                               =no space\n"
                             "Space                               = \n"
                             "Twice                               = first\n"
                             "Twice                               = second\n"
                             "++++++\n"
                             "Above                               = yes\n"
                             "+++++\n"
                             "Below                               = no\n"
                             "+++++\n");
    expect(&form, "123456789012345678901234567890123456", "whole");
    expect_none(&form, "1234567890123456789012345678901234567");
    expect_none(&form, "12345678901234567890123456789012345");
    expect_none(&form, "Wide");
    expect_none(&form, "Close");
    expect(&form, "Space", "");
    expect(&form, "Twice", "first");
    expect(&form, "Above", "yes");
    expect_none(&form, "Below");
}

/* cut at every length: found as soon as its line is whole, and never with a part of its value */
static void cut_short_of(const struct sample *of) {
    struct field fields[FIELDS_MOST];
    struct text form = form_of(of);
    int count = fields_of(form, fields);
    size_t whole = form.length;
    for (form.length = 0; form.length < whole; form.length++) {
        for (int field = 0; field < count; field++) {
            bool is = length_in(&form, fields[field].label, fields[field].value) != NONE;
            check(is == (form.length >= fields[field].end), "%s, cut at %zu: '%s'", of->name, form.length, fields[field].label);
        }
    }
}

static void cut_short(void) {
    for (int i = 0; i < SAMPLES; i++) cut_short_of(&samples[i]);
}

/* what is found in bytes that are no form is a part of them, up to the end of a line */
static void any_bytes(void) {
    static const uint8_t others[] = { '\n', '=', ' ', '+', 'N', 0, 0xFF };
    static const char *const labels[] = { "Identificatore messaggio", "Quantita Riservata", "Quantita Riservata (MW)", "Note", "N" };
    struct text form = form_named("qr");
    struct placed it = put_at(IN_HEAP, FILE_, form.bytes, form.length);
    for (size_t i = 0; i < it.length * sizeof others * 5; i++) {
        size_t at = i / (sizeof others * 5), length;
        const uint8_t *value;
        it.bytes[at] = others[i / 5 % sizeof others];
        if (halimpung_value(it.bytes, it.length, labels[i % 5], &value, &length)) {
            size_t offset = (size_t)(value - it.bytes);
            check(offset < it.length && length < it.length - offset && value[length] == '\n', "byte %zu changed: '%s'", at, labels[i % 5]);
        }
        it.bytes[at] = form.bytes[at];
    }
    take_away(it);
}

void test_value(void) {
    every_field();
    some_values();
    prefixes();
    not_there();
    odd_lines();
    cut_short();
    any_bytes();
}
