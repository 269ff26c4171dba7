/* Units of a transfer, as docs/UNITS.md lays them out: for address 7, 301 and file 1. */
#ifndef UNIT_H
#define UNIT_H

#include "text.h"

struct text file_ready(uint32_t length);
struct text section_ready(uint8_t name, uint32_t length);
struct text segment(uint8_t name, const uint8_t *octets, size_t count);
struct text last_segment(uint8_t name, uint8_t checksum);
struct text last_section(uint8_t name, uint8_t checksum);

/* The sum of the octets, which wraps at 256. */
uint8_t checksum(const uint8_t *octets, size_t count);

/* The same unit with another value in an octet, which is counted from 1; with an octet of 0 behind it; without its last one. */
struct text with(struct text unit, size_t octet, uint8_t value);
struct text longer(struct text unit);
struct text shorter(struct text unit);

#endif
