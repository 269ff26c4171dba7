/* Files into buffers of fixed size. */
#ifndef LOAD_H
#define LOAD_H

#include <stddef.h>
#include <stdint.h>

/* Reads the first bytes of a file, room of them at most, and says how many. NULL, or why it cannot be read (reason.h). */
const char *load(const char *name, uint8_t *into, size_t room, size_t *length);

/* Says that a file cannot be read, and why. */
void say_unreadable(const char *name, const char *why);

#endif
