/* Files from a text of units. */
#include "collect.h"

#include <errno.h>
#include <string.h>

#include "language.h"
#include "load.h"
#include "names.h"
#include "progress.h"
#include "reason.h"
#include "words.h"

static void refuse(struct collector *it, uint32_t answer) {
    if (!it->quiet) say_refusal(it->from.place, answer, NULL);
    it->refused++;
    it->status = REFUSED;
}

static void say(const char *of, const char *what) {
    put_name(people(), of);
    fprintf(stderr, ": %s\n", what);
}

/* the text ends: within a transfer? */
static void end(struct collector *it) {
    static const uint8_t fresh[HALIMPUNG_COLLECT_STATE];
    if (memcmp(it->state, fresh, sizeof fresh) == 0) return;
    if (!it->quiet) say(it->from.name, IN("ends within a transfer", "finisce durante un trasferimento"));
    it->status = REFUSED;
}

/* what follows in the text is not read, and that is no refusal */
static void fail(struct collector *it, enum found found) {
    if (found == UNREADABLE) say_unreadable(it->from.name, reason(errno));
    if (found == BAD_LINE)
        say(it->from.place, IN("not a unit in hex; the rest is not read", "non è un'unità in esadecimale; il resto non viene letto"));
    it->status = FAILED;
}

size_t next_file(struct collector *it) {
    enum found found;
    while ((found = next_unit(&it->from)) == UNIT) {
        uint32_t answer = halimpung_collect(it->from.octets, it->from.length, it->state, it->file);
        if (HALIMPUNG_REFUSED(answer)) {
            refuse(it, answer);
        } else if (answer != 0) {
            return answer;
        }
    }
    if (found == NO_MORE) {
        end(it);
    } else {
        fail(it, found);
    }
    return 0;
}
