/* The fields of the ten layouts. */
#include "fields.h"

#include <string.h>

/* the .inc file has rows of four tables; each is taken with the others left out */
#define TYPE(code) " " code
#define NUMBER(name, number)
#define FIELD(layout, number, label, accented, english, italian)
#define PIECE(layout, field, half)
const char type_codes[] =
#include "fields.inc"
    ;
#undef TYPE
#undef NUMBER

#define TYPE(code)
#define NUMBER(name, number) name = number,
enum {
#include "fields.inc"
};
#undef NUMBER
#undef FIELD

#define NUMBER(name, number)
#define FIELD(layout, number, label, accented, english, italian) { layout, number, label, accented, english, italian },
static const struct field fields[] = {
#include "fields.inc"
};
#undef FIELD
#undef PIECE

#define FIELD(layout, number, label, accented, english, italian)
#define PIECE(layout, field, half) { layout, field, half },
static const struct piece pieces[] = {
#include "fields.inc"
};

enum { FIELDS = sizeof fields / sizeof *fields, PIECES = sizeof pieces / sizeof *pieces };

const char *layout_of_type(struct lent type) {
    for (int i = 0; i < FIELDS; i++) {
        if (same(type, lent_text(fields[i].layout))) return fields[i].layout;
    }
    return NULL;
}

const struct field *field_at(const char *layout, unsigned long number) {
    for (int i = 0; i < FIELDS; i++) {
        if (fields[i].number == number && strcmp(fields[i].layout, layout) == 0) return &fields[i];
    }
    return NULL;
}

const struct field *field_labelled(const char *layout, struct lent label) {
    for (int i = 0; i < FIELDS; i++) {
        if (strcmp(fields[i].layout, layout) == 0 && is_labelled(&fields[i], label)) return &fields[i];
    }
    return NULL;
}

const struct field *unit_field(const char *layout) { return field_at(layout, UNIT_NO); }

const struct field *mfrr_field(void) { return field_at("mFRR", TIPO_COMANDO_NO); }

bool is_labelled(const struct field *it, struct lent label) {
    return same(label, lent_text(it->label)) || same(label, lent_text(it->accented));
}

const struct piece *piece_at(const char *layout, unsigned place) {
    unsigned passed = 0;
    for (int i = 0; i < PIECES; i++) {
        if (strcmp(pieces[i].layout, layout) == 0 && ++passed == place) return &pieces[i];
    }
    return NULL;
}
