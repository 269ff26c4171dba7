/* A call of an entry that looks at every byte round about it. */
#ifndef CALL_H
#define CALL_H

#include "halimpung.h"
#include "text.h"

typedef uint32_t entry(uint32_t ca, uint32_t ioa, const uint8_t *plan, size_t plan_len, const uint8_t *file, size_t file_len, uint8_t *out,
                       size_t out_len);

struct asked {
    const char *what; /* for the words of a failure */
    uint32_t ca, ioa;
    struct text plan, file;
};

/* Document 01's entries and their names, for tests that hold for both. */
enum { ENTRIES = 2 };
extern entry *const entries[ENTRIES];
extern const char *const entry_names[ENTRIES];
extern const size_t entry_rooms[ENTRIES]; /* always enough */

/* The answer of an entry with an output of that many bytes, and the text it wrote, empty on a refusal. Calls with the slices placed in every
   way and checks each time: the answer is the same, inputs and guards are whole, and out is changed below the length alone, on a refusal
   nowhere. */
uint32_t ask(int entry, const struct asked *asked, size_t room, struct text *written);

#endif
