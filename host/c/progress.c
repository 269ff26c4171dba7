/* How far a long run is, and where words go. */
#define _XOPEN_SOURCE 700
#include "progress.h"

#include <unistd.h>

#include "language.h"

/* fewer are read before a person would look */
enum { FEW = 20 };

/* how many characters stand on the line of progress */
static int width;

bool shows_progress(bool quiet, int count) { return !quiet && count > FEW && isatty(STDERR_FILENO); }

void show_progress(int done, int count) { width = fprintf(stderr, IN("\r%d of %d", "\r%d di %d"), done, count) - 1; }

void wipe_progress(void) {
    if (width > 0) fprintf(stderr, "\r%*s\r", width, "");
    width = 0;
}

FILE *people(void) {
    wipe_progress();
    return stderr;
}
