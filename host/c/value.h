/* A value by its label, out of a written form (halimpung_normalise). For hosts to copy: it stands alone. */
#ifndef VALUE_H
#define VALUE_H

#include <stdbool.h>
#include <stddef.h>
#include <stdint.h>

/* True where the form has a line of this label, letter for letter; then the value is the part of the form that begins
   at *value, of *value_length bytes: 0 for a blank one. False where it has none, and then neither is set. Any bytes may
   be given as a form. Of one that was cut short only whole lines count: without its LF one may lack a part of its
   value. */
bool halimpung_value(const uint8_t *form, size_t length, const char *label, const uint8_t **value,
                     size_t *value_length);

#endif
