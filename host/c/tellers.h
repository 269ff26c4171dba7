/* What is told of each refusal: the parts of tell_place. */
#ifndef TELLERS_H
#define TELLERS_H

#include "reading.h"
#include "told.h"

/* of the plan: 13 with its bad line, 1 */
void tell_plan(struct told *to, uint32_t bad_line, struct lent plan);
void tell_address(struct told *to, const struct question *of);

/* of the file's bytes and lines: 2, 3 with its offset, 4 */
void tell_size(struct told *to, struct lent file);
void tell_byte(struct told *to, uint32_t offset, struct lent file);
void tell_separators(struct told *to, struct lent file);

/* of its fields: 5 and 7 with the field, 6, 8 with the rule, 9 */
void tell_twice(struct told *to, uint32_t field, const struct reading *from);
void tell_labels(struct told *to, const struct reading *from);
void tell_value(struct told *to, uint32_t field, const struct reading *from);
void tell_rule(struct told *to, uint32_t rule, const struct reading *from);
void tell_unit(struct told *to, const struct reading *from);

/* of its summary row: 10 */
void tell_row(struct told *to, const struct reading *from);

/* a parameter line, as every teller shows it */
void tell_parameter(struct told *to, const struct parameter *it);

#endif
