/* The lines of a message file, read as the library reads them (docs/01-scope.md, "Lines of a message"): only words hang on this. */
#ifndef LINES_H
#define LINES_H

#include <stdbool.h>

#include "parts.h"

struct line {
    unsigned number;      /* from 1 */
    struct lent whole;    /* without its LF or CR LF */
    struct lent text;     /* and trimmed */
    unsigned separators;  /* how many stand above */
    bool separator;       /* five or more + and nothing else */
};

struct walk {
    struct lent rest;
    struct line line;
};

struct walk walk_of(struct lent file);

/* The next line is in `line`; false where there is none. */
bool next_line(struct walk *it);

/* The line that stands between the separators; false where there is none. */
bool find_row(struct lent file, struct line *to);

/* a line that the first = divides, but for the row */
struct parameter {
    unsigned line;
    struct lent label, value;
};

/* Goes on to the next parameter line; false where there is none. */
bool next_parameter(struct walk *it, struct parameter *to);

#endif
