/* Units of a transfer. */
#include "unit.h"

#include "check.h"

enum { FILE_READY = 120, SECTION_READY = 121, LAST = 123, SEGMENT = 125 };

/* the octets that all units begin with */
static struct text unit(uint8_t type) {
    static const uint8_t rest[] = { 1, 13, 0, 7, 0, 45, 1, 0, 1, 0 };
    struct text all = empty();
    add_byte(&all, type);
    for (size_t i = 0; i < sizeof rest; i++) add_byte(&all, rest[i]);
    return all;
}

/* three octets, and a qualifier of 0 */
static void add_length(struct text *to, uint32_t length) {
    for (int i = 0; i < 4; i++) add_byte(to, i < 3 ? (uint8_t)(length >> 8 * i) : 0);
}

struct text file_ready(uint32_t length) {
    struct text all = unit(FILE_READY);
    add_length(&all, length);
    return all;
}

struct text section_ready(uint8_t name, uint32_t length) {
    struct text all = unit(SECTION_READY);
    add_byte(&all, name);
    add_length(&all, length);
    return all;
}

struct text segment(uint8_t name, const uint8_t *octets, size_t count) {
    struct text all = unit(SEGMENT);
    add_byte(&all, name);
    add_byte(&all, (uint8_t)count);
    for (size_t i = 0; i < count; i++) add_byte(&all, octets[i]);
    return all;
}

static struct text last(uint8_t name, uint8_t qualifier, uint8_t sum) {
    struct text all = unit(LAST);
    add_byte(&all, name);
    add_byte(&all, qualifier);
    add_byte(&all, sum);
    return all;
}

struct text last_segment(uint8_t name, uint8_t checksum) { return last(name, 3, checksum); }

struct text last_section(uint8_t name, uint8_t checksum) { return last(name, 1, checksum); }

uint8_t checksum(const uint8_t *octets, size_t count) {
    uint8_t sum = 0;
    for (size_t i = 0; i < count; i++) sum = (uint8_t)(sum + octets[i]);
    return sum;
}

struct text with(struct text unit, size_t octet, uint8_t value) {
    if (octet < 1 || octet > unit.length) broken("a unit of %zu octets has no octet %zu", unit.length, octet);
    unit.bytes[octet - 1] = value;
    return unit;
}

struct text longer(struct text unit) {
    add_byte(&unit, 0);
    return unit;
}

struct text shorter(struct text unit) {
    unit.length--;
    return unit;
}
