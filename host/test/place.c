/* Slices placed so that a step outside of them is seen. */
#define _DEFAULT_SOURCE /* MAP_ANONYMOUS */
#include "place.h"

#include <stdlib.h>
#include <string.h>
#include <sys/mman.h>
#include <unistd.h>

#include "check.h"
#include "text.h"

enum { GUARDS = 256, GUARD = 0xC5 };

struct pages {
    uint8_t *start, *end;
};

/* room for a text and its guards, between two pages that may not be touched */
static struct pages fenced(void) {
    size_t page = (size_t)sysconf(_SC_PAGESIZE);
    size_t room = (TEXT_ROOM + GUARDS + page - 1) / page * page;
    uint8_t *all = mmap(NULL, room + 2 * page, PROT_NONE, MAP_PRIVATE | MAP_ANONYMOUS, -1, 0);
    if (all == MAP_FAILED) broken("no pages");
    if (mprotect(all + page, room, PROT_READ | PROT_WRITE) != 0) broken("pages cannot be opened");
    struct pages made = { all + page, all + page + room };
    return made;
}

static struct pages pages_of(enum role role) {
    static struct pages all[ROLES];
    if (!all[role].start) all[role] = fenced();
    return all[role];
}

/* of no bytes too: malloc(0) gives a pointer here that is not null, to a block of none */
static uint8_t *block(size_t length) {
    uint8_t *made = malloc(length);
    if (!made) broken("no memory");
    return made;
}

static uint8_t *guards_of(struct placed it) { return it.where == AT_END ? it.bytes - GUARDS : it.bytes + it.length; }

struct placed put_at(enum where where, enum role role, const uint8_t *like, size_t length) {
    struct placed it = { where, NULL, length };
    if (length > TEXT_ROOM) broken("a slice is too long");
    if (where == IN_HEAP) it.bytes = block(length);
    if (where == AT_END) it.bytes = pages_of(role).end - length;
    if (where == AT_START) it.bytes = pages_of(role).start;
    memcpy(it.bytes, like, length);
    if (where != IN_HEAP) memset(guards_of(it), GUARD, GUARDS);
    return it;
}

bool guards_whole(struct placed it) {
    if (it.where == IN_HEAP) return true;
    const uint8_t *guards = guards_of(it);
    for (size_t i = 0; i < GUARDS; i++) {
        if (guards[i] != GUARD) return false;
    }
    return true;
}

void take_away(struct placed it) {
    if (it.where == IN_HEAP) free(it.bytes);
}
