/* How the program is called. */
#include "usage.h"

#include "language.h"
#include "names.h"

/* what stands before PLAN, and behind it */
static const struct form {
    const char *before, *behind;
} forms[] = {
    { "[-q] [-j] [--lang en|it]", "CA IOA FILE [CA IOA FILE].." },
    { "[-q] [-j] [--lang en|it]", "--units FILE" },
    { "-n [-q] [--lang en|it]", "CA IOA FILE" },
    { "-n -d DIR [-q] [-j] [--lang en|it]", "CA IOA FILE [CA IOA FILE].." },
    { "-n -d DIR [-q] [-j] [--lang en|it]", "--units FILE" },
};

void put_usage(FILE *to) {
    const char *lead = IN("usage: ", "uso: "), *indent = IN("       ", "     ");
    for (size_t i = 0; i < sizeof forms / sizeof *forms; i++) {
        fprintf(to, "%shalimpung-read %s %s %s\n", i == 0 ? lead : indent, forms[i].before, IN("PLAN", "PIANO"), forms[i].behind);
    }
    fprintf(to, "%shalimpung-read --help | --version\n", indent);
}

void say_wrong(const struct wrong *it) {
    fputs("halimpung-read: ", stderr);
    if (it->word) {
        put_name(stderr, it->word);
        fputs(": ", stderr);
    }
    fprintf(stderr, "%s\n", it->why);
    put_usage(stderr);
}
