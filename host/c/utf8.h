/* Characters in UTF-8. */
#ifndef UTF8_H
#define UTF8_H

#include <stddef.h>

/* How many bytes the character at the beginning of a text has, 1 to 4; 0 if what stands there is none. A text ends at its zero byte. */
size_t utf8_length(const char *text);

#endif
