/* Names and words as they were given, on a line of output. */
#include "names.h"

#include <string.h>

void put_name(FILE *to, const char *name) {
    for (; *name != '\0'; name++) {
        unsigned char byte = (unsigned char)*name;
        putc(byte < 0x20 || byte == 0x7F ? '?' : byte, to);
    }
}

const char *last_name(const char *path) {
    const char *slash = strrchr(path, '/');
    return slash ? slash + 1 : path;
}
