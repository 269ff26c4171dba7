/* Files that are written, with -n -d: each whole or not at all, and never one that is read. */
#ifndef FILES_H
#define FILES_H

#include "arguments.h"
#include "place.h"

/* Whether files can be written to the directory at all: NULL, or why not. */
const char *directory_fault(const char *directory);

/* Writes a file of that name into the directory of -d, in the place of one that stood there. NULL, or why not; path is what it is called
   either way, until the next call. */
const char *write_file(const struct arguments *all, const char *name, struct lent bytes, const char **path);

#endif
