/* Texts that are loaded from examples/ and changed in small ways. */
#ifndef TEXT_H
#define TEXT_H

#include <stdbool.h>
#include <stddef.h>
#include <stdint.h>

enum { TEXT_ROOM = 16384 };

struct text {
    size_t length;
    uint8_t bytes[TEXT_ROOM];
};

/* where example finds its files */
extern const char *examples;

struct text empty(void);
struct text words(const char *words);
struct text example(const char *name);

/* Puts words at the end, or one byte. */
void add(struct text *to, const char *words);
void add_byte(struct text *to, uint8_t byte);

/* The offset of the first place where the words stand; they must stand somewhere. */
size_t place_of(const struct text *in, const char *words);

/* Puts words in the place of others, where these stand first, or wherever they stand. They must stand somewhere. */
void change(struct text *in, const char *from, const char *to);
void change_all(struct text *in, const char *from, const char *to);

bool same(const struct text *one, const struct text *other);

#endif
