/* Counting checks: each failure is said at once, the count at the end. */
#ifndef CHECK_H
#define CHECK_H

#include <stdbool.h>

/* One check; a failure prints the words, in printf's manner. */
void check(bool good, const char *words, ...) __attribute__((format(printf, 2, 3)));

/* A slip in the test itself: says so and ends the program. */
void broken(const char *words, ...) __attribute__((format(printf, 1, 2), noreturn));

/* Prints how many passed and failed, and answers the program's status. */
int checked(void);

#endif
