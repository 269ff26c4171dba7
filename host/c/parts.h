/* Parts of a text that somebody lends. */
#ifndef PARTS_H
#define PARTS_H

#include <stdbool.h>

#include "place.h"

bool same(struct lent one, struct lent other);
bool starts(struct lent text, struct lent with);
struct lent lent_text(const char *text);
/* what stands before the first such byte, all where there is none; and what stands behind it, nothing where there is none */
struct lent before(struct lent text, char byte);
struct lent behind(struct lent text, char byte);
/* without blanks at its ends */
struct lent trimmed(struct lent text);

/* A number in decimal digits without leading zeros, of 32 bits at most. */
bool take_number(struct lent text, uint32_t *to);

/* Takes the first line off a text, up to LF or the end, and gives it without its LF. */
struct lent cut_line(struct lent *rest);

#endif
