/* A call of the collecting entry that looks at every byte round about it. */
#ifndef GIVE_H
#define GIVE_H

#include "halimpung.h"
#include "text.h"

/* What a host keeps between calls. */
struct collector {
    uint8_t state[HALIMPUNG_COLLECT_STATE], file[HALIMPUNG_FILE_MOST];
};

/* A fresh one, in a file of bytes that are not all the same. */
struct collector fresh(void);

/* The answer to a unit. Calls with unit, state and file placed in every way and checks each time: answer, state and file are the same, the
   unit and the guards are whole; after a refusal and a whole file state is zero; and file is changed by a segment that is taken alone,
   right behind the octets collected before. `give_any` is for a state that no transfer has: of a unit that is taken it does not check
   what was put into file. */
uint32_t give(const char *what, struct collector *to, const struct text *unit);
uint32_t give_any(const char *what, struct collector *to, const struct text *unit);

/* The numbers of two bytes of state from there, the low one first. */
unsigned state_pair(const struct collector *of, int at);

#endif
