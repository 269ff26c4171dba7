/* What came of a file as a block of lines. */
#include "blocks.h"

#include "halimpung.h"
#include "names.h"

static void put_error(FILE *to, const struct outcome *it) {
    fputs("error=", to);
    if (it->path) {
        put_name(to, it->path);
        fputs(": ", to);
    }
    fprintf(to, "%s\n", it->why);
}

static void put_written(FILE *to, const char *path) {
    fputs("result=0\nwritten=", to);
    put_name(to, path);
    putc('\n', to);
}

void put_block(FILE *to, const struct outcome *it) {
    fputs("file=", to);
    put_name(to, it->of->name);
    fprintf(to, "\nca=%u\nioa=%u\n", (unsigned)it->of->ca, (unsigned)it->of->ioa);
    if (it->why) {
        put_error(to, it);
    } else if (HALIMPUNG_REFUSED(it->answer)) {
        fprintf(to, "result=%u\ndetail=%u\n", (unsigned)HALIMPUNG_NUMBER(it->answer), (unsigned)HALIMPUNG_DETAIL(it->answer));
    } else if (it->path) {
        put_written(to, it->path);
    } else {
        fwrite(it->text, 1, it->answer, to);
    }
}
