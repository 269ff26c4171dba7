/* What came of a file as a JSON object on a line. */
#ifndef JSON_H
#define JSON_H

#include <stdio.h>

#include "outcome.h"

void put_object(FILE *to, const struct outcome *it);

#endif
