/* Names and words as they were given, on a line of output. */
#ifndef NAMES_H
#define NAMES_H

#include <stdio.h>

/* The bytes as they are, but a ? for each control byte: a name with LF in it must not end the line, nor one with ESC move the cursor. */
void put_name(FILE *to, const char *name);

/* What stands behind the last slash. */
const char *last_name(const char *path);

#endif
