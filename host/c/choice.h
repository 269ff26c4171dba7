/* Which language is spoken: that of --lang, else that of the environment. */
#ifndef CHOICE_H
#define CHOICE_H

#include <stdbool.h>

/* By the first of LC_ALL, LC_MESSAGES and LANG that is set and not empty: Italian where it begins with it. */
void choose_by_environment(void);

/* By --lang: en or it. False for any other name, and then the language stays. */
bool choose_language(const char *name);

#endif
