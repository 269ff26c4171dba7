/* The rows of an address plan, as far as they are good. */
#ifndef PLAN_H
#define PLAN_H

#include <stdbool.h>

#include "parts.h"

enum { PLAN_ROWS = 64, ROW_LINES = 4 };

struct plan_row {
    unsigned line; /* where its first line stands, from 1 */
    uint32_t ca, ioa;
    struct lent unit, type;
};

struct plan_walk {
    struct lent rest;
    unsigned line; /* that comes next, from 1 */
    struct plan_row row;
};

struct plan_walk plan_of(struct lent plan);

/* The next row is in `row`; false where there is none, or it is not four lines as in a plan. */
bool next_row(struct plan_walk *it);

/* The row of an address. */
bool find_address(struct lent plan, uint32_t ca, uint32_t ioa, struct plan_row *to);

/* The number of a line such as ca=7; no address has a 0. */
bool number_behind(const char *key, struct lent line, uint32_t *to);

#endif
