/* Counting checks. */
#include "check.h"

#include <stdarg.h>
#include <stdio.h>
#include <stdlib.h>

static unsigned long passed, failed;

void check(bool good, const char *words, ...) {
    if (good) {
        passed++;
        return;
    }
    failed++;
    va_list rest;
    va_start(rest, words);
    fprintf(stderr, "FAILED: ");
    vfprintf(stderr, words, rest);
    fprintf(stderr, "\n");
    va_end(rest);
}

void broken(const char *words, ...) {
    va_list rest;
    va_start(rest, words);
    fprintf(stderr, "the test is broken: ");
    vfprintf(stderr, words, rest);
    fprintf(stderr, "\n");
    va_end(rest);
    exit(1);
}

int checked(void) {
    printf("entries: %lu checks passed, %lu failed\n", passed, failed);
    return failed == 0 && passed > 0 ? 0 : 1;
}
