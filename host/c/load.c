/* Files into buffers of fixed size. */
#include "load.h"

#include <errno.h>
#include <stdio.h>

#include "language.h"
#include "names.h"
#include "progress.h"
#include "reason.h"

const char *load(const char *name, uint8_t *into, size_t room, size_t *length) {
    FILE *from = fopen(name, "rb");
    if (!from) return reason(errno);
    errno = 0;
    *length = fread(into, 1, room, from);
    /* a directory opens and then cannot be read */
    const char *why = ferror(from) ? reason(errno) : NULL;
    fclose(from);
    return why;
}

void say_unreadable(const char *name, const char *why) {
    put_name(people(), name);
    fprintf(stderr, IN(": unreadable: %s\n", ": illeggibile: %s\n"), why);
}
