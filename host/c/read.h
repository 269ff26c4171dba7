/* One file, given or collected: read, and what came of it put out and said. */
#ifndef READ_H
#define READ_H

#include "arguments.h"
#include "place.h"
#include "status.h"

/* What all files of a run are read with. */
struct run {
    const struct arguments *all;
    struct lent plan;
};

enum status read_message(const struct run *run, const struct message *one);

/* The same of bytes that are there; name is the one under which -n -d writes them. */
enum status read_bytes(const struct run *run, const struct message *one, struct lent file, const char *name);

#endif
