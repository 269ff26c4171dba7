/* A file as the message that the plan says it is. */
#ifndef READING_H
#define READING_H

#include "fields.h"
#include "lines.h"
#include "plan.h"

struct reading {
    struct lent file;
    struct plan_row row; /* of its address */
    const char *layout;
    unsigned mfrr_line;  /* the first line that makes a CB file mFRR; 0 where there is none */
};

/* False where the plan does not give the address a type. */
bool begin_reading(struct reading *to, const struct question *of);

/* The first line of a field; false where it has none. */
bool find_field(const struct reading *from, const struct field *field, struct parameter *to);

#endif
