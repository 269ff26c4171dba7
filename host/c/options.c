/* The options that stand before PLAN. */
#include "options.h"

#include <string.h>

#include "choice.h"
#include "language.h"

const char *next_word(struct words_left *from) {
    if (from->count == 0) return NULL;
    from->count--;
    return *from->at++;
}

enum asked nonsense(struct wrong *to, const char *word, const char *why) {
    to->word = word;
    to->why = why;
    return NONSENSE;
}

static bool is(const char *word, const char *option) { return strcmp(word, option) == 0; }

/* where an option is kept: a flag, or the word behind it; NULL if it is none of these */
static bool *flag_of(const char *word, struct arguments *in) {
    return is(word, "-n") ? &in->normalise : is(word, "-q") ? &in->quiet : is(word, "-j") ? &in->json : NULL;
}

static const char **value_of(const char *word, struct arguments *in) {
    return is(word, "-d") ? &in->directory : is(word, "--lang") ? &in->lang : NULL;
}

/* an empty word is none: as a directory it would be the root */
static enum asked take_value(const char *word, const char **value, struct words_left *from, struct wrong *wrong) {
    *value = next_word(from);
    if (*value && **value != '\0') return READING;
    return nonsense(wrong, word, IN("the word behind it is missing", "manca la parola che la segue"));
}

static enum asked take_option(const char *word, struct words_left *from, struct arguments *to, struct wrong *wrong) {
    bool *flag = flag_of(word, to);
    const char **value = value_of(word, to);
    if (is(word, "-h") || is(word, "--help")) return HELP;
    if (is(word, "--version")) return VERSION;
    if (!flag && !value) return nonsense(wrong, word, IN("no option that stands before PLAN", "non è un'opzione che precede PIANO"));
    if (flag ? *flag : *value != NULL) return nonsense(wrong, word, IN("given twice", "data due volte"));
    if (value) return take_value(word, value, from, wrong);
    *flag = true;
    return READING;
}

enum asked take_options(struct words_left *from, struct arguments *to, struct wrong *wrong) {
    while (from->count > 0 && from->at[0][0] == '-') {
        const char *word = next_word(from);
        enum asked asked = take_option(word, from, to, wrong);
        if (asked != READING) return asked;
        if (is(word, "--lang") && !choose_language(to->lang))
            return nonsense(wrong, to->lang,
                            IN("no language of --lang, which are en and it", "non è una lingua di --lang, che sono en e it"));
    }
    return READING;
}
