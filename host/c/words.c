/* The words of refusals. They are not written here: target/host/refusals.inc is made by host/refusal-words from docs/REFUSALS.md and
   docs/RIFIUTI.md. */
#include "words.h"

#include <stddef.h>
#include <stdio.h>
#include <string.h>

#include "halimpung.h"
#include "language.h"
#include "names.h"
#include "progress.h"

struct words {
    uint32_t number;
    const char *detail, *meaning, *next, *dettaglio, *significato, *poi;
};

struct rule {
    uint32_t number;
    const char *words, *parole, *fields;
};

/* the .inc file has rows of two tables; each is taken with the other's left out */
#define REFUSAL(number, ...) { number, __VA_ARGS__ },
#define RULE(number, ...)
static const struct words refusals[] = {
#include "refusals.inc"
};
#undef REFUSAL
#undef RULE

#define REFUSAL(number, ...)
#define RULE(number, ...) { number, __VA_ARGS__ },
static const struct rule rules[] = {
#include "refusals.inc"
};

/* for a number that no entry answers; the build fails if one of the header's lacks its words */
static const struct words unknown = { 0, "0", "", "", "0", "", "" };

static const struct words *words_of(uint32_t number) {
    for (size_t i = 0; i < sizeof refusals / sizeof *refusals; i++) {
        if (refusals[i].number == number) return &refusals[i];
    }
    return &unknown;
}

static const struct rule *rule_of(uint32_t number) {
    for (size_t i = 0; i < sizeof rules / sizeof *rules; i++) {
        if (rules[i].number == number) return &rules[i];
    }
    return NULL;
}

const char *refusal_meaning(uint32_t number) { return IN(words_of(number)->meaning, words_of(number)->significato); }

const char *refusal_next(uint32_t number) { return IN(words_of(number)->next, words_of(number)->poi); }

const char *rule_words(uint32_t rule) {
    const struct rule *it = rule_of(rule);
    return it ? IN(it->words, it->parole) : NULL;
}

const char *rule_fields(uint32_t rule) {
    const struct rule *it = rule_of(rule);
    return it ? it->fields : NULL;
}

/* what the detail counts, also where that is 0; of a refusal without one the tables have a 0 */
static void say_detail(FILE *to, uint32_t number) {
    const char *detail = IN(words_of(number)->detail, words_of(number)->dettaglio);
    if (strcmp(detail, "0") != 0) fprintf(to, IN("  detail: %s\n", "  dettaglio: %s\n"), detail);
}

void say_refusal(const char *name, uint32_t answer, const struct told *where) {
    FILE *to = people();
    uint32_t number = HALIMPUNG_NUMBER(answer), detail = HALIMPUNG_DETAIL(answer);
    const char *rule = number == HALIMPUNG_RULE ? rule_words(detail) : NULL;
    put_name(to, name);
    fprintf(to, IN(": refused, number %u, detail %u\n", ": rifiutato, numero %u, dettaglio %u\n"), (unsigned)number, (unsigned)detail);
    say_detail(to, number);
    fprintf(to, IN("  meaning: %s\n", "  significato: %s\n"), refusal_meaning(number));
    if (rule) fprintf(to, IN("  rule %u: %s\n", "  regola %u: %s\n"), (unsigned)detail, rule);
    for (int i = 0; where && i < where->count; i++) fprintf(to, "  %s\n", where->lines[i]);
    fprintf(to, IN("  next: %s\n", "  da fare: %s\n"), refusal_next(number));
}
