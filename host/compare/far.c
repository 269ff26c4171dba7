/* far: calls the entries for a program of another processor, which cannot link them (src/far.rs). It is x86-64 code, like the library.

   A request stands on standard input: which entry (0 reads, 1 normalises, 2 collects), ca, ioa and the lengths of three slices, each a
   number of 32 bits with its low byte first; then the bytes of the three. They are plan, file and out; for collecting, which has no ca
   and ioa, unit, state and file. The answer goes to standard output: the entry's number, what harm the call did (enum harm), and the bytes
   of the slices that the entry may write. Requests follow one another until the input ends. */
#include <stdio.h>
#include <string.h>

#include "check.h"
#include "halimpung.h"
#include "place.h"
#include "text.h"

enum entry { READ, NORMALISE, COLLECT };
enum { SLICES = 3 };

struct request {
    uint32_t entry, ca, ioa, lengths[SLICES];
};

/* (A step past the end of a slice is a fault, and ends the program: host/test/place.h.) */
enum harm { NO_HARM, INPUT_CHANGED, OUTSIDE_CHANGED };

static void take(struct text *into, size_t length) {
    if (length > TEXT_ROOM) broken("a slice of %zu bytes is too long", length);
    into->length = length;
    if (fread(into->bytes, 1, length, stdin) != length) broken("a request ends early");
}

static bool holds(struct placed it, const struct text *like) { return memcmp(it.bytes, like->bytes, like->length) == 0; }

static void give(const void *bytes, size_t length) {
    if (fwrite(bytes, 1, length, stdout) != length) broken("an answer cannot be written");
}

static uint32_t call(const struct request *asked, const struct placed *of) {
    if (asked->entry == COLLECT) {
        if (of[1].length != HALIMPUNG_COLLECT_STATE || of[2].length != HALIMPUNG_FILE_MOST) broken("state or file is of another size");
        return halimpung_collect(of[0].bytes, of[0].length, of[1].bytes, of[2].bytes);
    }
    return (asked->entry == READ ? halimpung_read : halimpung_normalise)(asked->ca, asked->ioa, of[0].bytes, of[0].length, of[1].bytes,
                                                                         of[1].length, of[2].bytes, of[2].length);
}

static void answer(const struct request *asked) {
    static struct text texts[SLICES];
    static const enum role roles[SLICES] = { PLAN, FILE_, OUT };
    struct placed slices[SLICES];
    for (int i = 0; i < SLICES; i++) {
        take(&texts[i], asked->lengths[i]);
        slices[i] = put_at(AT_END, roles[i], texts[i].bytes, texts[i].length);
    }
    int written = asked->entry == COLLECT ? 1 : 2; /* the first that may be written */
    uint32_t number = call(asked, slices), harm = NO_HARM;
    for (int i = 0; i < SLICES; i++) {
        if (harm == NO_HARM && i < written && !holds(slices[i], &texts[i])) harm = INPUT_CHANGED;
        if (!guards_whole(slices[i])) harm = OUTSIDE_CHANGED;
    }
    give(&number, sizeof number);
    give(&harm, sizeof harm);
    for (int i = written; i < SLICES; i++) give(slices[i].bytes, slices[i].length);
    if (fflush(stdout) != 0) broken("an answer cannot be written");
}

int main(void) {
    /* room for a whole request and a whole answer, so that each is one call of the system */
    static char in[4 * TEXT_ROOM], out[2 * TEXT_ROOM];
    setvbuf(stdin, in, _IOFBF, sizeof in);
    setvbuf(stdout, out, _IOFBF, sizeof out);
    struct request asked;
    while (fread(&asked, sizeof asked, 1, stdin) == 1) answer(&asked);
    return 0;
}
