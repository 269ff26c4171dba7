/* A whole host (docs/HOST.md), built and run by host/test/install: reads the message on standard input at address 7, 300. */
#include <halimpung.h>
#include <stdio.h>

int main(void) {
    static const uint8_t plan[] = "ca=7\nioa=300\nunit=UP_PROVA_1\ntype=RC\n";
    uint8_t file[HALIMPUNG_FILE_MOST + 1], out[HALIMPUNG_READ_ROOM];
    size_t length = fread(file, 1, sizeof file, stdin);
    uint32_t answer = halimpung_read(7, 300, plan, sizeof plan - 1, file, length, out, sizeof out);
    if (HALIMPUNG_REFUSED(answer)) {
        fprintf(stderr, "refused %u, detail %u\n", (unsigned)HALIMPUNG_NUMBER(answer), (unsigned)HALIMPUNG_DETAIL(answer));
        return 1;
    }
    fwrite(out, 1, answer, stdout);
    return 0;
}
