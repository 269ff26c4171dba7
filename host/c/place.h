/* Where a refusal stands in its file, for people, line by line. Only words hang on this: whether a file is refused, and with which number
   and detail, is the library's answer. */
#ifndef PLACE_H
#define PLACE_H

#include <stddef.h>
#include <stdint.h>

enum { TOLD_MOST = 64, TOLD_ROOM = 512 };

/* each line is ended by a zero byte, without LF, and is UTF-8 without control characters */
struct told {
    int count;
    char lines[TOLD_MOST][TOLD_ROOM];
};

struct lent {
    const uint8_t *at;
    size_t length;
};

/* what the entry was asked */
struct question {
    uint32_t ca, ioa;
    struct lent plan, file;
};

/* What a person needs to find the spot; nothing for an answer that is no refusal of a reader. Any bytes and any answer will do. */
void tell_place(struct told *to, uint32_t answer, const struct question *of);

#endif
