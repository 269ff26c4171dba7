/* Where a refusal stands in its file. */
#include "place.h"

#include "halimpung.h"
#include "tellers.h"

/* 5 to 10, of a file that is read by the plan's row */
static void tell_reading(struct told *to, uint32_t answer, const struct reading *from) {
    uint32_t detail = HALIMPUNG_DETAIL(answer);
    switch (HALIMPUNG_NUMBER(answer)) {
    case HALIMPUNG_LABEL_TWICE: tell_twice(to, detail, from); break;
    case HALIMPUNG_LABEL_MISSING: tell_labels(to, from); break;
    case HALIMPUNG_VALUE: tell_value(to, detail, from); break;
    case HALIMPUNG_RULE: tell_rule(to, detail, from); break;
    case HALIMPUNG_UNIT: tell_unit(to, from); break;
    case HALIMPUNG_ROW: tell_row(to, from); break;
    default: break;
    }
}

void tell_place(struct told *to, uint32_t answer, const struct question *of) {
    uint32_t detail = HALIMPUNG_DETAIL(answer);
    struct reading reading;
    to->count = 0;
    switch (HALIMPUNG_NUMBER(answer)) {
    case HALIMPUNG_PLAN: tell_plan(to, detail, of->plan); break;
    case HALIMPUNG_ADDRESS: tell_address(to, of); break;
    case HALIMPUNG_SIZE: tell_size(to, of->file); break;
    case HALIMPUNG_BYTE: tell_byte(to, detail, of->file); break;
    case HALIMPUNG_SEPARATORS: tell_separators(to, of->file); break;
    default:
        if (begin_reading(&reading, of)) tell_reading(to, answer, &reading);
    }
}
