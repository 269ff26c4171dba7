/* How the program is called, and what is wrong with how it was. */
#ifndef USAGE_H
#define USAGE_H

#include <stdio.h>

#include "arguments.h"

void put_usage(FILE *to);

/* A line for what is wrong, then the usage. */
void say_wrong(const struct wrong *it);

#endif
