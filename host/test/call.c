/* A call of an entry that looks at every byte round about it. */
#include "call.h"

#include <string.h>

#include "check.h"
#include "place.h"

entry *const entries[ENTRIES] = { halimpung_read, halimpung_normalise };
const char *const entry_names[ENTRIES] = { "read", "normalise" };
const size_t entry_rooms[ENTRIES] = { HALIMPUNG_READ_ROOM, HALIMPUNG_NORMALISE_ROOM };

/* what out holds before: bytes that no entry writes, and not all the same */
static struct text before(size_t room) {
    struct text all;
    for (size_t i = 0; i < room; i++) all.bytes[i] = (uint8_t)(0x80 + i % 113);
    all.length = room;
    return all;
}

static bool holds(struct placed it, const struct text *like) { return memcmp(it.bytes, like->bytes, like->length) == 0; }

/* is out as before from the first byte that the answer leaves alone? */
static bool rest_whole(struct placed out, const struct text *like, size_t length) {
    return length <= out.length && memcmp(out.bytes + length, like->bytes + length, out.length - length) == 0;
}

static uint32_t ask_at(enum where where, int entry, const struct asked *asked, size_t room, struct text *written) {
    struct text old = before(room);
    struct placed plan = put_at(where, PLAN, asked->plan.bytes, asked->plan.length);
    struct placed file = put_at(where, FILE_, asked->file.bytes, asked->file.length);
    struct placed out = put_at(where, OUT, old.bytes, room);
    uint32_t answer =
        entries[entry](asked->ca, asked->ioa, plan.bytes, plan.length, file.bytes, file.length, out.bytes, out.length);
    size_t length = HALIMPUNG_REFUSED(answer) ? 0 : answer;
    check(holds(plan, &asked->plan) && holds(file, &asked->file), "%s, %s, room %zu: an input was changed", asked->what,
          entry_names[entry], room);
    check(guards_whole(plan) && guards_whole(file) && guards_whole(out), "%s, %s, room %zu: a byte outside was changed", asked->what,
          entry_names[entry], room);
    bool whole = rest_whole(out, &old, length);
    check(whole, "%s, %s, room %zu: out was changed past length %zu", asked->what, entry_names[entry], room, length);
    written->length = whole ? length : 0;
    memcpy(written->bytes, out.bytes, written->length);
    take_away(plan);
    take_away(file);
    take_away(out);
    return answer;
}

uint32_t ask(int entry, const struct asked *asked, size_t room, struct text *written) {
    uint32_t answer = ask_at(0, entry, asked, room, written);
    for (int where = 1; where < WHERES; where++) {
        struct text again;
        uint32_t other = ask_at(where, entry, asked, room, &again);
        check(answer == other && same(written, &again), "%s, %s, room %zu: the answer depends on where the slices are", asked->what,
              entry_names[entry], room);
    }
    return answer;
}
