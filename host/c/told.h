/* The lines that are told of a refusal. */
#ifndef TOLD_H
#define TOLD_H

#include "place.h"

/* Opens a line with these words, in printf's manner. One that is too long is cut. */
void tell(struct told *to, const char *words, ...) __attribute__((format(printf, 2, 3)));

/* More words at the end of the last line. */
void tell_on(struct told *to, const char *words, ...) __attribute__((format(printf, 2, 3)));

/* two of these and the words about them fit into a line */
enum { SHOWN_ROOM = 200 };

struct shown {
    char text[SHOWN_ROOM];
};

/* A part of a file as it may be printed: the accented letter of a label as UTF-8, any other byte that is not plain in hex, a long text
   cut. */
struct shown shown(struct lent text);

#endif
