/* One file, given or collected. */
#include "read.h"

#include <stdio.h>

#include "blocks.h"
#include "files.h"
#include "halimpung.h"
#include "json.h"
#include "language.h"
#include "load.h"
#include "names.h"
#include "outcome.h"
#include "progress.h"
#include "words.h"

/* one byte more than a message may have, so that a longer one is seen to be longer */
enum { FILE_ROOM = HALIMPUNG_FILE_MOST + 1 };

static enum status status_of(const struct outcome *it) { return it->why ? FAILED : HALIMPUNG_REFUSED(it->answer) ? REFUSED : ACCEPTED; }

/* -n without -d is meant to be redirected: the written form and nothing else */
static void put_out(const struct arguments *all, const struct outcome *it) {
    wipe_progress();
    if (all->json) {
        put_object(stdout, it);
    } else if (!all->normalise || all->directory) {
        put_block(stdout, it);
    } else if (status_of(it) == ACCEPTED) {
        fwrite(it->text, 1, it->answer, stdout);
    }
    /* at once, so that where both streams go to one place they keep the files' order */
    fflush(stdout);
}

static void say_unwritten(const struct outcome *it) {
    put_name(people(), it->path);
    fprintf(stderr, IN(": not written: %s\n", ": non scritto: %s\n"), it->why);
}

static enum status deliver(const struct arguments *all, const struct outcome *it) {
    put_out(all, it);
    if (it->why && it->path) say_unwritten(it);
    if (it->why && !it->path) say_unreadable(it->of->name, it->why);
    if (status_of(it) == REFUSED && !all->quiet) say_refusal(it->of->name, it->answer, it->where);
    return status_of(it);
}

static uint32_t ask(bool normalise, const struct question *it, uint8_t *out, size_t room) {
    return normalise ? halimpung_normalise(it->ca, it->ioa, it->plan.at, it->plan.length, it->file.at, it->file.length, out, room)
                     : halimpung_read(it->ca, it->ioa, it->plan.at, it->plan.length, it->file.at, it->file.length, out, room);
}

enum status read_bytes(const struct run *run, const struct message *one, struct lent file, const char *name) {
    static uint8_t out[HALIMPUNG_NORMALISE_ROOM];
    static struct told where;
    const struct question question = { one->ca, one->ioa, run->plan, file };
    struct outcome it = { .of = one, .text = out };
    it.answer = ask(run->all->normalise, &question, out, sizeof out);
    if (HALIMPUNG_REFUSED(it.answer)) {
        tell_place(&where, it.answer, &question);
        it.where = &where;
    } else if (run->all->directory) {
        it.why = write_file(run->all, name, (struct lent){ out, it.answer }, &it.path);
    }
    return deliver(run->all, &it);
}

enum status read_message(const struct run *run, const struct message *one) {
    static uint8_t file[FILE_ROOM];
    struct outcome unread = { .of = one };
    size_t length = 0;
    unread.why = load(one->name, file, sizeof file, &length);
    if (unread.why) return deliver(run->all, &unread);
    return read_bytes(run, one, (struct lent){ file, length }, last_name(one->name));
}
