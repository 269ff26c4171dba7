/* The fields of the ten layouts, and their order in the summary row. They are not written here: target/host/fields.inc is made from the
   definitions by host/field-words. A layout goes by its name: its type's code, or mFRR for the other layout of CB. */
#ifndef FIELDS_H
#define FIELDS_H

#include <stdbool.h>

#include "parts.h"

struct field {
    const char *layout;
    unsigned number;               /* from 1, as in a refusal's detail */
    const char *label, *accented;  /* its two spellings: the same where it has no accent */
    const char *english, *italian; /* what it may hold */
};

/* The name of the layout of a type, of CB the market layout's; NULL if there is no such type. */
const char *layout_of_type(struct lent type);

/* the codes of all types, a blank before each */
extern const char type_codes[];

/* NULL where the layout has no such field. */
const struct field *field_at(const char *layout, unsigned long number);
const struct field *field_labelled(const char *layout, struct lent label);

/* the unit's field of a layout, and the one that makes a CB file mFRR */
const struct field *unit_field(const char *layout);
const struct field *mfrr_field(void);

bool is_labelled(const struct field *it, struct lent label);

/* One value of the summary row: a field's, or what stands before its first ; or behind it. */
enum half { WHOLE, FIRST_HALF, SECOND_HALF };

struct piece {
    const char *layout;
    unsigned field;
    enum half half;
};

/* The value at a place of the row, from 1; NULL where it has none. */
const struct piece *piece_at(const char *layout, unsigned place);

#endif
