/* Texts that are loaded from examples/ and changed in small ways. */
#include "text.h"

#include <stdio.h>
#include <string.h>

#include "check.h"

const char *examples = "examples";

struct text empty(void) {
    struct text none = { 0, { 0 } };
    return none;
}

void add_byte(struct text *to, uint8_t byte) {
    if (to->length == TEXT_ROOM) broken("a text is too long");
    to->bytes[to->length++] = byte;
}

void add(struct text *to, const char *words) {
    for (; *words != '\0'; words++) add_byte(to, (uint8_t)*words);
}

struct text words(const char *words) {
    struct text all = empty();
    add(&all, words);
    return all;
}

struct text example(const char *name) {
    char path[4096];
    struct text all = empty();
    snprintf(path, sizeof path, "%s/%s", examples, name);
    FILE *from = fopen(path, "rb");
    if (!from) broken("%s cannot be opened", path);
    all.length = fread(all.bytes, 1, TEXT_ROOM, from);
    if (ferror(from) || all.length == 0) broken("%s cannot be read", path);
    fclose(from);
    return all;
}

/* the first place at or after start; the length if there is none */
static size_t place_from(const struct text *in, size_t start, const char *words) {
    size_t n = strlen(words);
    for (size_t i = start; i + n <= in->length; i++) {
        if (memcmp(in->bytes + i, words, n) == 0) return i;
    }
    return in->length;
}

size_t place_of(const struct text *in, const char *words) {
    size_t at = place_from(in, 0, words);
    if (at == in->length) broken("'%s' is not in the text", words);
    return at;
}

static void change_at(struct text *in, size_t at, size_t gone, const char *to) {
    struct text after = empty();
    after.length = in->length - at - gone;
    memcpy(after.bytes, in->bytes + at + gone, after.length);
    in->length = at;
    add(in, to);
    for (size_t i = 0; i < after.length; i++) add_byte(in, after.bytes[i]);
}

void change(struct text *in, const char *from, const char *to) { change_at(in, place_of(in, from), strlen(from), to); }

void change_all(struct text *in, const char *from, const char *to) {
    for (size_t at = place_of(in, from); at < in->length; at = place_from(in, at + strlen(to), from)) change_at(in, at, strlen(from), to);
}

bool same(const struct text *one, const struct text *other) {
    return one->length == other->length && memcmp(one->bytes, other->bytes, one->length) == 0;
}
