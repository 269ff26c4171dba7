/* The options that stand before PLAN: in any order, each once. */
#ifndef OPTIONS_H
#define OPTIONS_H

#include "arguments.h"

/* The words that were not taken yet. */
struct words_left {
    int count;
    char **at;
};

/* The next word, or NULL if there is none. */
const char *next_word(struct words_left *from);

/* For the caller to answer: says what is wrong. */
enum asked nonsense(struct wrong *to, const char *word, const char *why);

/* Takes the words that begin with -. READING: they are good, so far. The language is chosen at once, for what is said of the others. */
enum asked take_options(struct words_left *from, struct arguments *to, struct wrong *wrong);

#endif
