/* Which lines of a file a refusal of its fields is about. */
#include <stdlib.h>
#include <string.h>

#include "language.h"
#include "tellers.h"
#include "words.h"

void tell_parameter(struct told *to, const struct parameter *it) {
    tell(to, IN("line %u: %s = \"%s\"", "riga %u: %s = \"%s\""), it->line, shown(it->label).text, shown(it->value).text);
}

static void tell_field(struct told *to, const struct field *field, const struct reading *from) {
    struct parameter found;
    if (field && find_field(from, field, &found)) tell_parameter(to, &found);
}

void tell_twice(struct told *to, uint32_t number, const struct reading *from) {
    const struct field *field = field_at(from->layout, number);
    struct parameter one;
    int found = 0;
    if (!field) return;
    for (struct walk walk = walk_of(from->file); found < 2 && next_parameter(&walk, &one);) {
        if (!is_labelled(field, one.label)) continue;
        tell_parameter(to, &one);
        found++;
    }
}

/* ---- missing and unknown labels */

static void tell_layout(struct told *to, const struct reading *from) {
    const char *label = mfrr_field()->label;
    tell(to, IN("read as %s: the plan gives this address the type %s (its line %u)",
                "letto come %s: il piano dà a questo indirizzo il tipo %s (sua riga %u)"),
         from->layout, shown(from->row.type).text, from->row.line + 3);
    if (from->mfrr_line != 0)
        tell_on(to, IN(", and line %u has the label %s", ", e la riga %u ha l'etichetta %s"), from->mfrr_line, label);
    else if (strcmp(from->layout, "CB") == 0)
        tell_on(to, IN(", and no line has the label %s of mFRR", ", e nessuna riga ha l'etichetta %s di mFRR"), label);
}

static void tell_missing(struct told *to, const struct reading *from) {
    const struct field *field;
    struct parameter found;
    for (unsigned number = 1; (field = field_at(from->layout, number)); number++) {
        if (!find_field(from, field, &found)) tell(to, IN("missing: %s", "manca: %s"), field->label);
    }
}

static void tell_unknown(struct told *to, const struct reading *from) {
    enum { MOST = 20 };
    struct parameter one;
    int found = 0;
    for (struct walk walk = walk_of(from->file); next_parameter(&walk, &one);) {
        if (field_labelled(from->layout, one.label) || ++found > MOST) continue;
        tell(to, IN("line %u: unknown label \"%s\"", "riga %u: etichetta sconosciuta \"%s\""), one.line, shown(one.label).text);
    }
    if (found > MOST) tell(to, IN("and %d more unknown labels", "e altre %d etichette sconosciute"), found - MOST);
}

void tell_labels(struct told *to, const struct reading *from) {
    tell_layout(to, from);
    tell_missing(to, from);
    tell_unknown(to, from);
}

/* ---- values */

void tell_value(struct told *to, uint32_t number, const struct reading *from) {
    const struct field *field = field_at(from->layout, number);
    if (!field) return;
    tell_field(to, field, from);
    tell(to, IN("it may hold: %s", "può contenere: %s"), IN(field->english, field->italian));
}

/* what stands behind a layout's name in a text such as "CB 3 4; mFRR 3 4 5 6" */
static const char *numbers_of(const char *layout, const char *text) {
    size_t length = strlen(layout);
    while (*text != '\0') {
        if (strncmp(text, layout, length) == 0 && text[length] == ' ') return text + length;
        text += strcspn(text, ";");
        text += strspn(text, "; ");
    }
    return text;
}

void tell_rule(struct told *to, uint32_t rule, const struct reading *from) {
    const char *fields = rule_fields(rule);
    if (!fields) return;
    const char *next = numbers_of(from->layout, fields);
    for (char *end; *next == ' '; next = end) tell_field(to, field_at(from->layout, strtoul(next, &end, 10)), from);
}

void tell_unit(struct told *to, const struct reading *from) {
    tell_field(to, unit_field(from->layout), from);
    tell(to, IN("the plan gives CA %u, IOA %u to \"%s\" (its line %u)", "il piano dà CA %u, IOA %u a \"%s\" (sua riga %u)"),
         (unsigned)from->row.ca, (unsigned)from->row.ioa, shown(from->row.unit).text, from->row.line + 2);
}
