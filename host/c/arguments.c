/* The command line, judged as a whole before anything is read, so that a slip of the pen in the last address prints nothing of the
   first. */
#include "arguments.h"

#include <string.h>

#include "language.h"
#include "names.h"
#include "options.h"
#include "parts.h"
#include "sieve.h"

/* A number as in a plan. It may lie outside a plan's range: the library refuses such an address. */
static bool is_number(const char *text, uint32_t *to) { return take_number(lent_text(text), to); }

static enum asked judge_number(const char *text, struct wrong *wrong) {
    uint32_t number;
    if (is_number(text, &number)) return READING;
    return nonsense(wrong, text, IN("no CA or IOA: decimal digits without leading zeros, 4294967295 at most",
                                    "non è un CA o IOA: cifre decimali senza zeri iniziali, al massimo 4294967295"));
}

/* threes, one at least */
static enum asked take_messages(struct words_left *from, struct arguments *to, struct wrong *wrong) {
    if (from->count == 0)
        return nonsense(wrong, NULL,
                        IN("CA IOA FILE or --units FILE is missing behind PLAN", "dopo PIANO manca CA IOA FILE o --units FILE"));
    if (from->count % 3 != 0)
        return nonsense(wrong, from->at[from->count - 1],
                        IN("the last file has not three words, CA IOA FILE", "l'ultimo file non ha tre parole, CA IOA FILE"));
    to->count = from->count / 3;
    to->messages = from->at;
    for (int i = 0; i < from->count; i++) {
        if (i % 3 != 2 && judge_number(from->at[i], wrong) != READING) return NONSENSE;
    }
    return READING;
}

static enum asked take_units(struct words_left *from, struct arguments *to, struct wrong *wrong) {
    next_word(from);
    to->units = next_word(from);
    if (!to->units) return nonsense(wrong, NULL, IN("FILE is missing behind --units", "dopo --units manca FILE"));
    if (from->count == 0) return READING;
    return nonsense(wrong, from->at[0], IN("nothing may stand behind --units FILE", "dopo --units FILE non può esserci altro"));
}

/* written forms one behind the other could not be told apart, nor stand in a line of JSON */
static enum asked judge_options(const struct arguments *all, struct wrong *wrong) {
    const char *why = NULL;
    if (!all->normalise && all->directory) why = IN("-d DIR needs -n", "-d DIR richiede -n");
    if (all->normalise && !all->directory) {
        if (all->json) why = IN("-n with -j needs -d DIR", "-n con -j richiede -d DIR");
        if (all->units) why = IN("-n with --units needs -d DIR", "-n con --units richiede -d DIR");
        if (all->count > 1) why = IN("-n with more than one file needs -d DIR", "-n con più di un file richiede -d DIR");
    }
    return why ? nonsense(wrong, NULL, why) : READING;
}

static bool is_name_before(const struct arguments *all, int place, const char *name) {
    for (int i = 0; i < place; i++) {
        if (strcmp(last_name(message_at(all, i).name), name) == 0) return true;
    }
    return false;
}

/* two files with one name would be written to one place */
static enum asked judge_names(const struct arguments *all, struct wrong *wrong) {
    static struct sieve names;
    for (int i = 0; all->directory && i < all->count; i++) {
        const char *name = last_name(message_at(all, i).name);
        if (may_hold(&names, name) && is_name_before(all, i, name))
            return nonsense(wrong, name, IN("two files have this name, and -d writes one file a name",
                                            "due file hanno questo nome, e -d scrive un solo file per nome"));
        put_in(&names, name);
    }
    return READING;
}

enum asked take_arguments(int argc, char **argv, struct arguments *to, struct wrong *wrong) {
    struct words_left left = { argc > 0 ? argc - 1 : 0, argv + 1 };
    memset(to, 0, sizeof *to);
    enum asked asked = take_options(&left, to, wrong);
    if (asked != READING) return asked;
    to->plan = next_word(&left);
    if (!to->plan) return nonsense(wrong, NULL, IN("PLAN is missing", "manca PIANO"));
    bool units = left.count > 0 && strcmp(left.at[0], "--units") == 0;
    asked = units ? take_units(&left, to, wrong) : take_messages(&left, to, wrong);
    if (asked == READING) asked = judge_options(to, wrong);
    return asked == READING ? judge_names(to, wrong) : asked;
}

struct message message_at(const struct arguments *all, int place) {
    char **words = all->messages + 3 * place;
    struct message one = { 0, 0, words[2] };
    is_number(words[0], &one.ca);
    is_number(words[1], &one.ioa);
    return one;
}

int input_count(const struct arguments *all) { return 1 + (all->units ? 1 : all->count); }

const char *input_at(const struct arguments *all, int place) {
    if (place == 0) return all->plan;
    return all->units ? all->units : message_at(all, place - 1).name;
}
