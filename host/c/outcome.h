/* What came of one file. */
#ifndef OUTCOME_H
#define OUTCOME_H

#include "arguments.h"
#include "place.h"

struct outcome {
    const struct message *of;
    const char *why;          /* why it could not be read, or its written form not be written; NULL: it was */
    const char *path;         /* -n -d: where the written form stands, or could not be written; else NULL */
    uint32_t answer;          /* the library's, if the file could be read */
    const uint8_t *text;      /* accepted: what the library wrote, answer bytes */
    const struct told *where; /* refused: what is told of the place */
};

#endif
