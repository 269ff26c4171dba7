/* How much stack each entry takes: it runs on a stack of its own that was painted before, for each message file named on the command line.
   Collecting is given the file as units, in one section, and the unit that takes most counts.
   stack PLAN FILE CA IOA [FILE CA IOA ..] */
#include <stddef.h>
#include <stdint.h>
#include <stdio.h>
#include <stdlib.h>
#include <string.h>
#include <ucontext.h>

uint32_t halimpung_read(uint32_t ca, uint32_t ioa, const uint8_t *plan, size_t plan_len, const uint8_t *file, size_t file_len,
                        uint8_t *out, size_t out_len);
uint32_t halimpung_normalise(uint32_t ca, uint32_t ioa, const uint8_t *plan, size_t plan_len, const uint8_t *file, size_t file_len,
                             uint8_t *out, size_t out_len);
uint32_t halimpung_collect(const uint8_t *unit, size_t unit_len, uint8_t state[16], uint8_t file[8192]);

enum { STACK = 1 << 18, PAINT = 0xA5 };

/* Another machine's headers may be in use (tools/x86): the parts named here are where x86-64's are, and there is room for the others. */
_Static_assert(offsetof(ucontext_t, uc_link) == 8 && offsetof(ucontext_t, uc_stack) == 16 && sizeof(ucontext_t) >= 968, "x86-64's context");

static ucontext_t home, away;
static uint8_t plan[65536], file[65536], out[8192];
static size_t plan_len, file_len;
static uint32_t ca, ioa, answer;
static uint8_t unit[268], state[16], collected[8192];
static size_t unit_len;

static void nothing(void) {}

static void read_it(void) { answer = halimpung_read(ca, ioa, plan, plan_len, file, file_len, out, sizeof out); }

static void normalise_it(void) { answer = halimpung_normalise(ca, ioa, plan, plan_len, file, file_len, out, sizeof out); }

static void collect_it(void) { answer = halimpung_collect(unit, unit_len, state, collected); }

static size_t load(const char *name, uint8_t *into, size_t room) {
    FILE *f = fopen(name, "rb");
    if (!f) { perror(name); exit(1); }
    size_t n = fread(into, 1, room, f);
    fclose(f);
    return n;
}

/* bytes of the stack that f changed */
static size_t used(void (*f)(void), uint8_t *stack) {
    memset(stack, PAINT, STACK);
    getcontext(&away);
    away.uc_stack.ss_sp = stack;
    away.uc_stack.ss_size = STACK;
    away.uc_link = &home;
    makecontext(&away, f, 0);
    swapcontext(&home, &away);
    size_t i = 0;
    while (i < STACK && stack[i] == PAINT) i++;
    return STACK - i;
}

/* a unit of this type (docs/UNITS.md), with what it has of its own */
static size_t used_by_unit(uint8_t type, const uint8_t *own, size_t own_len, uint8_t *stack) {
    const uint8_t head[] = { type, 1, 13, 0, 7, 0, 45, 1, 0, 1, 0 };
    memcpy(unit, head, sizeof head);
    memcpy(unit + sizeof head, own, own_len);
    unit_len = sizeof head + own_len;
    return used(collect_it, stack);
}

static size_t most(size_t one, size_t other) { return one > other ? one : other; }

static size_t used_by_units(uint8_t *stack) {
    uint8_t sum = 0, low = (uint8_t)file_len, high = (uint8_t)(file_len >> 8);
    size_t bytes = used_by_unit(120, (const uint8_t[]){ low, high, 0, 0 }, 4, stack);
    bytes = most(bytes, used_by_unit(121, (const uint8_t[]){ 1, low, high, 0, 0 }, 5, stack));
    for (size_t at = 0; at < file_len; at += 255) {
        uint8_t own[257] = { 1, (uint8_t)(file_len - at < 255 ? file_len - at : 255) };
        memcpy(own + 2, file + at, own[1]);
        bytes = most(bytes, used_by_unit(125, own, 2u + own[1], stack));
    }
    for (size_t i = 0; i < file_len; i++) sum = (uint8_t)(sum + file[i]);
    bytes = most(bytes, used_by_unit(123, (const uint8_t[]){ 1, 3, sum }, 3, stack));
    return most(bytes, used_by_unit(123, (const uint8_t[]){ 1, 1, sum }, 3, stack));
}

int main(int argc, char **argv) {
    if (argc < 5) return 2;
    uint8_t *stack = malloc(STACK);
    if (!stack) return 1;
    plan_len = load(argv[1], plan, sizeof plan);
    size_t none = used(nothing, stack);
    for (int i = 2; i + 2 < argc; i += 3) {
        file_len = load(argv[i], file, sizeof file);
        ca = (uint32_t)strtoul(argv[i + 1], NULL, 10);
        ioa = (uint32_t)strtoul(argv[i + 2], NULL, 10);
        size_t n = used(read_it, stack);
        printf("%s: read, answer %u, stack %zu bytes\n", argv[i], (unsigned)answer, n - none);
        n = used(normalise_it, stack);
        printf("%s: normalise, answer %u, stack %zu bytes\n", argv[i], (unsigned)answer, n - none);
        n = used_by_units(stack);
        printf("%s: collect, answer %u, stack %zu bytes\n", argv[i], (unsigned)answer, n - none);
    }
    return 0;
}
