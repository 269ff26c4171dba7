/* A text of units, one a line in hex: pairs of digits and nothing else. Blank lines and lines that start with # are passed over. */
#ifndef UNITS_H
#define UNITS_H

#include <stdbool.h>
#include <stddef.h>
#include <stdint.h>
#include <stdio.h>

/* More than any unit of the layouts has, 268: one that is somewhat longer is for the library to refuse. */
enum { UNIT_ROOM = 1024 };

struct units {
    const char *name; /* the text's file name */
    FILE *text;
    unsigned long line; /* how many lines were read */
    char place[4200];   /* where the last line stands: "NAME:LINE" */
    size_t length;      /* of the last unit, in octets */
    uint8_t octets[UNIT_ROOM];
};

/* False if the text cannot be opened; then standard error says why. */
bool open_units(const char *name, struct units *to);

/* The next unit is in octets, the line is bad, the rest of the text cannot be read, or there is none. */
enum found { UNIT, BAD_LINE, UNREADABLE, NO_MORE };
enum found next_unit(struct units *from);

void close_units(struct units *it);

#endif
