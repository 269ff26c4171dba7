/* Outputs of every length from none to what is needed, and some beyond: one too short is refused with 11 and the length needed, one that
   is long enough holds the whole text. That nothing else is changed is checked by ask. */
#include "call.h"
#include "check.h"
#include "tests.h"

static void too_short(int entry, const struct asked *asked, size_t room, size_t needed) {
    struct text written;
    uint32_t answer = ask(entry, asked, room, &written);
    check(HALIMPUNG_NUMBER(answer) == HALIMPUNG_ROOM && HALIMPUNG_DETAIL(answer) == needed, "%s, %s, room %zu: answer %u", asked->what,
          entry_names[entry], room, (unsigned)answer);
}

static void long_enough(int entry, const struct asked *asked, size_t room, const struct text *whole) {
    struct text written;
    uint32_t answer = ask(entry, asked, room, &written);
    check(answer == whole->length && same(&written, whole), "%s, %s, room %zu: answer %u", asked->what, entry_names[entry], room,
          (unsigned)answer);
}

static void every_room(int entry, const struct asked *asked) {
    struct text whole;
    uint32_t needed = ask(entry, asked, entry_rooms[entry], &whole);
    check(!HALIMPUNG_REFUSED(needed) && needed > 0, "%s, %s: answer %u", asked->what, entry_names[entry], (unsigned)needed);
    if (HALIMPUNG_REFUSED(needed)) return;
    for (size_t room = 0; room < needed; room++) too_short(entry, asked, room, needed);
    for (size_t room = needed; room < needed + 3; room++) long_enough(entry, asked, room, &whole);
}

static void every_room_of(const char *name, uint32_t ioa) {
    struct asked asked = { name, 7, ioa, example("plan.txt"), example(name) };
    for (int entry = 0; entry < ENTRIES; entry++) every_room(entry, &asked);
}

/* what is refused for another reason is not asked for its room */
static void refused_first(void) {
    struct asked asked = { "refused, and no room", 7, 300, example("plan.txt"), example("refused/8-ends-before-it-starts.txt") };
    for (int entry = 0; entry < ENTRIES; entry++) {
        struct text written;
        check(HALIMPUNG_NUMBER(ask(entry, &asked, 0, &written)) == HALIMPUNG_RULE, "%s, %s", asked.what, entry_names[entry]);
    }
}

void test_rooms(void) {
    every_room_of("rc.txt", 300);
    every_room_of("market.txt", 301);
    every_room_of("mfrr.txt", 301);
    every_room_of("lb.txt", 302);
    every_room_of("vq.txt", 303);
    every_room_of("vq-accented.txt", 303);
    every_room_of("mg.txt", 304);
    every_room_of("eb.txt", 305);
    every_room_of("sr.txt", 306);
    every_room_of("ri.txt", 307);
    every_room_of("qr.txt", 308);
    refused_first();
}
