/* Which language is spoken. */
#include "language.h"

#include <stdlib.h>
#include <string.h>

#include "choice.h"

enum language language = ENGLISH;

void choose_by_environment(void) {
    static const char *const names[] = { "LC_ALL", "LC_MESSAGES", "LANG" };
    for (size_t i = 0; i < sizeof names / sizeof *names; i++) {
        const char *set = getenv(names[i]);
        if (set && *set != '\0') {
            language = strncmp(set, "it", 2) == 0 ? ITALIAN : ENGLISH;
            return;
        }
    }
}

bool choose_language(const char *name) {
    bool italian = strcmp(name, "it") == 0;
    if (!italian && strcmp(name, "en") != 0) return false;
    language = italian ? ITALIAN : ENGLISH;
    return true;
}
