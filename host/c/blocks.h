/* What came of a file as a block of key=value lines, which begins with file=, ca= and ioa=. */
#ifndef BLOCKS_H
#define BLOCKS_H

#include <stdio.h>

#include "outcome.h"

void put_block(FILE *to, const struct outcome *it);

#endif
