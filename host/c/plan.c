/* The rows of an address plan. */
#include "plan.h"

struct plan_walk plan_of(struct lent plan) {
    struct plan_walk begun = { .rest = plan, .line = 1 };
    return begun;
}

static bool value_behind(const char *key, struct lent line, struct lent *to) {
    if (!starts(line, lent_text(key))) return false;
    *to = behind(line, '=');
    return true;
}

bool number_behind(const char *key, struct lent line, uint32_t *to) {
    struct lent digits;
    return value_behind(key, line, &digits) && take_number(digits, to) && *to > 0;
}

bool next_row(struct plan_walk *it) {
    struct lent lines[ROW_LINES];
    for (int i = 0; i < ROW_LINES; i++) {
        if (it->rest.length == 0) return false;
        lines[i] = cut_line(&it->rest);
    }
    struct plan_row *row = &it->row;
    row->line = it->line;
    it->line += ROW_LINES;
    return number_behind("ca=", lines[0], &row->ca) && number_behind("ioa=", lines[1], &row->ioa) &&
           value_behind("unit=", lines[2], &row->unit) && value_behind("type=", lines[3], &row->type);
}

bool find_address(struct lent plan, uint32_t ca, uint32_t ioa, struct plan_row *to) {
    for (struct plan_walk walk = plan_of(plan); next_row(&walk);) {
        *to = walk.row;
        if (to->ca == ca && to->ioa == ioa) return true;
    }
    return false;
}
