/* Files from a text of units: the units go to the library one by one. A refused unit is said on standard error, and the next one is given
   to the fresh collector. */
#ifndef COLLECT_H
#define COLLECT_H

#include <stdbool.h>
#include <stddef.h>
#include <stdint.h>

#include "halimpung.h"
#include "status.h"
#include "units.h"

struct collector {
    struct units from;
    bool quiet;                             /* refusals are not said */
    uint8_t state[HALIMPUNG_COLLECT_STATE]; /* all zero at first */
    uint8_t file[HALIMPUNG_FILE_MOST];
    unsigned refused;   /* how many units were refused */
    enum status status; /* REFUSED after these, or where the text ends within a transfer; FAILED after a line that is no unit */
};

/* The length of the next whole file, which file begins with then; its address is the last unit's. 0 if there is no more. */
size_t next_file(struct collector *it);

#endif
