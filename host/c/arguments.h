/* The command line: options, PLAN, then CA IOA FILE [CA IOA FILE].. or --units FILE (usage.c has it in full). */
#ifndef ARGUMENTS_H
#define ARGUMENTS_H

#include <stdbool.h>
#include <stdint.h>

struct arguments {
    bool normalise;        /* -n: the written form instead of the six lines */
    bool quiet;            /* -q: no words of refusals, no count */
    bool json;             /* -j: an object a file instead of a block */
    const char *directory; /* -d: where the written forms go, a file each; else NULL */
    const char *lang;      /* --lang: the language, chosen already; else NULL */
    const char *plan;      /* the plan's file name */
    const char *units;     /* --units: the file name of a text of units, and no messages; else NULL */
    int count;             /* how many messages */
    char **messages;       /* their words, three each */
};

struct message {
    uint32_t ca, ioa;
    const char *name;
};

/* What the command line asks for. */
enum asked { READING, HELP, VERSION, NONSENSE };

/* What is wrong with it: a word, or NULL, and why. */
struct wrong {
    const char *word, *why;
};

/* All of it is judged before anything is read. Of HELP and VERSION nothing of to is to be used, of NONSENSE only wrong. */
enum asked take_arguments(int argc, char **argv, struct arguments *to, struct wrong *wrong);

/* The message in the place that is counted from 0; take_arguments has found its numbers good. */
struct message message_at(const struct arguments *all, int place);

/* How many files are read, and their names: the plan, and the text of units or the messages. */
int input_count(const struct arguments *all);
const char *input_at(const struct arguments *all, int place);

#endif
