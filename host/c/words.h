/* What a refusal means and what is done next, in the words of docs/REFUSALS.md and docs/RIFIUTI.md. */
#ifndef WORDS_H
#define WORDS_H

#include <stdint.h>

#include "place.h"

/* Says to people that the named file or unit was refused with this answer of an entry, why, and where (NULL: no place is told). */
void say_refusal(const char *name, uint32_t answer, const struct told *where);

/* The words for a number that an entry answers. */
const char *refusal_meaning(uint32_t number);
const char *refusal_next(uint32_t number);

/* Of a rule of refusal 8, by its number: where it holds, and the fields that it compares, by layout, as "CB 18 19". NULL: no such rule. */
const char *rule_words(uint32_t rule);
const char *rule_fields(uint32_t rule);

#endif
