/* halimpung-read: reads message files at their addresses of a plan, many in one run, given as files or as a text of units (units.h).
   usage.c has the ways to call it, host/man/halimpung-read.1 what they do.
   Standard output is for programs: a block or a JSON object a file. Standard error is for people: refusals in words, and the count.
   Status: 0 all accepted, 1 some refused, 2 bad usage, a file that cannot be read or written or a line that is no unit. */
#include <stdbool.h>
#include <stdio.h>

#include "arguments.h"
#include "choice.h"
#include "collect.h"
#include "files.h"
#include "halimpung.h"
#include "language.h"
#include "load.h"
#include "names.h"
#include "progress.h"
#include "read.h"
#include "status.h"
#include "usage.h"

/* More than the largest plan, 64 rows of 52 bytes. Of a longer text the rest is not needed: its first bad line begins within those 3,328
   bytes or just after, and whether it ends in this room or not, it is bad there. */
enum { PLAN_ROOM = 4096 };

struct tally {
    enum status worst;
    int accepted, count;
};

static void add(struct tally *to, enum status status) {
    to->count++;
    if (status == ACCEPTED) to->accepted++;
    if (status > to->worst) to->worst = status;
}

/* the worst status of all; one bad file keeps no other from being read */
static enum status read_messages(const struct run *run) {
    struct tally tally = { ACCEPTED, 0, 0 };
    bool shown = shows_progress(run->all->quiet, run->all->count);
    for (int i = 0; i < run->all->count; i++) {
        struct message one = message_at(run->all, i);
        if (shown) show_progress(i + 1, run->all->count);
        add(&tally, read_message(run, &one));
    }
    if (!run->all->quiet) fprintf(people(), IN("accepted %d of %d\n", "accettati %d di %d\n"), tally.accepted, tally.count);
    return tally.worst;
}

/* a file that was collected; the place of its last unit stands for its name */
static enum status read_collected(const struct run *run, const struct collector *from, size_t length, int place) {
    const uint8_t *last = from->from.octets;
    struct message one = { HALIMPUNG_UNIT_CA(last), HALIMPUNG_UNIT_IOA(last), from->from.place };
    char name[64];
    snprintf(name, sizeof name, "%u-%u-%d.txt", (unsigned)one.ca, (unsigned)one.ioa, place);
    return read_bytes(run, &one, (struct lent){ from->file, length }, name);
}

/* the same for files that are collected; a refused unit keeps no later file from being read */
static enum status read_units(const struct run *run) {
    static struct collector collector;
    struct tally tally = { ACCEPTED, 0, 0 };
    collector.quiet = run->all->quiet;
    if (!open_units(run->all->units, &collector.from)) return FAILED;
    for (size_t length = next_file(&collector); length != 0; length = next_file(&collector)) {
        add(&tally, read_collected(run, &collector, length, tally.count + 1));
    }
    close_units(&collector.from);
    if (!run->all->quiet)
        fprintf(people(), IN("accepted %d of %d, units refused: %u\n", "accettati %d di %d, unità di trasferimento rifiutate: %u\n"),
                tally.accepted, tally.count, collector.refused);
    return collector.status > tally.worst ? collector.status : tally.worst;
}

static enum status read_all(const struct arguments *all) {
    static uint8_t plan[PLAN_ROOM];
    struct run run = { all, { plan, 0 } };
    const char *why = all->directory ? directory_fault(all->directory) : NULL;
    if (why) {
        put_name(stderr, all->directory);
        fprintf(stderr, IN(": cannot be written to: %s\n", ": non vi si può scrivere: %s\n"), why);
        return FAILED;
    }
    why = load(all->plan, plan, sizeof plan, &run.plan.length);
    if (why) {
        say_unreadable(all->plan, why);
        return FAILED;
    }
    return all->units ? read_units(&run) : read_messages(&run);
}

/* records that did not reach their place, on a full disk say, were not delivered */
static enum status delivered(enum status status) {
    if (fflush(stdout) == 0 && !ferror(stdout)) return status;
    fputs(IN("standard output cannot be written\n", "lo standard output non si può scrivere\n"), people());
    return FAILED;
}

int main(int argc, char **argv) {
    struct arguments all;
    struct wrong wrong;
    choose_by_environment();
    switch (take_arguments(argc, argv, &all, &wrong)) {
    case HELP: put_usage(stdout); return delivered(ACCEPTED);
    case VERSION: puts("halimpung-read " HALIMPUNG_VERSION); return delivered(ACCEPTED);
    case NONSENSE: say_wrong(&wrong); return FAILED;
    case READING: break;
    }
    return delivered(read_all(&all));
}
