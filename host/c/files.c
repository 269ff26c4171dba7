/* Files that are written. A file gets its name when all of it is on the disk, so nobody finds half of one, not even after a power cut. */
#define _XOPEN_SOURCE 700
#include "files.h"

#include <errno.h>
#include <limits.h>
#include <stdio.h>
#include <stdlib.h>
#include <string.h>
#include <time.h>
#include <unistd.h>

#include "language.h"
#include "reason.h"
#include "sieve.h"

enum { PATH_ROOM = PATH_MAX + 64 };

/* False if there is no room for it; no system call would take such a name. */
static bool name_path(char to[PATH_ROOM], const char *directory, const char *name) {
    int length = snprintf(to, PATH_ROOM, "%s/%s", directory, name);
    return length >= 0 && length < PATH_ROOM;
}

const char *directory_fault(const char *directory) {
    static char path[PATH_ROOM];
    if (!name_path(path, directory, ".")) return reason(ENAMETOOLONG);
    return access(path, W_OK | X_OK) == 0 ? NULL : reason(errno);
}

static const struct sieve *inputs_of(const struct arguments *all) {
    static struct sieve inputs;
    static bool filled;
    static char input[PATH_MAX];
    for (int i = 0; !filled && i < input_count(all); i++) {
        if (realpath(input_at(all, i), input)) put_in(&inputs, input);
    }
    filled = true;
    return &inputs;
}

/* Whether a name leads to a file that is read, by whatever links. Names are compared and not inodes, which programs for another processor
   cannot ask for (tools/x86). An input that has a second name by a hard link keeps its bytes under its own: a rename only takes a name. */
static bool is_input(const struct arguments *all, const char *path) {
    static char found[PATH_MAX], input[PATH_MAX];
    const struct sieve *inputs = inputs_of(all);
    if (!realpath(path, found) || !may_hold(inputs, found)) return false;
    for (int i = 0; i < input_count(all); i++) {
        if (realpath(input_at(all, i), input) && strcmp(input, found) == 0) return true;
    }
    return false;
}

/* All of it on the disk; some systems cannot be asked for that of every file (EINVAL). */
static bool put_bytes(FILE *to, struct lent bytes) {
    if (fwrite(bytes.at, 1, bytes.length, to) != bytes.length || fflush(to) != 0) return false;
    return fsync(fileno(to)) == 0 || errno == EINVAL;
}

/* 0, or the errno. Another run that writes there has another temporary name, or finds that it is taken. */
static int replace(const char *directory, const char *path, struct lent bytes) {
    static char temporary[PATH_ROOM];
    char name[64];
    snprintf(name, sizeof name, ".halimpung-%ld-%lld", (long)getpid(), (long long)time(NULL));
    if (!name_path(temporary, directory, name)) return ENAMETOOLONG;
    FILE *to = fopen(temporary, "wbx");
    if (!to) return errno;
    int error = put_bytes(to, bytes) ? 0 : errno;
    if (fclose(to) != 0 && error == 0) error = errno;
    if (error == 0 && rename(temporary, path) != 0) error = errno;
    if (error != 0) remove(temporary);
    return error;
}

const char *write_file(const struct arguments *all, const char *name, struct lent bytes, const char **path) {
    static char target[PATH_ROOM];
    bool fits = name_path(target, all->directory, name);
    *path = target;
    if (!fits) return reason(ENAMETOOLONG);
    if (is_input(all, target)) return IN("it is one of the files that are read", "è uno dei file che vengono letti");
    int error = replace(all->directory, target, bytes);
    return error == 0 ? NULL : reason(error);
}
