/* Document 01's example: its plan, its message and its six lines, letter for letter. The message is in written form, so normalising gives
   it back. */
#include "call.h"
#include "check.h"
#include "tests.h"

static const char plan[] = "ca=7\nioa=300\nunit=UP_PROVA_1\ntype=RC\n";

static const char message[] =
    "*****\n"
    "***** MESSAGGIO DI REVOCA COMANDO *****\n"
    "*****\n"
    "\n"
    "Identificatore messaggio            = RC-0000000042\n"
    "Nome UPA/UCA                        = UP_PROVA_1\n"
    "Data Ora Inizio Revoca Comando      = 15-01-2025 10:00:00 S\n"
    "Data Ora Fine Revoca Comando        = 15-01-2025 10:30:00 S\n"
    "Sequenza Comando                    = 17\n"
    "+++++\n"
    "RC-0000000042;UP_PROVA_1;15-01-2025 10:00:00 S;15-01-2025 10:30:00 S;17\n"
    "+++++\n";

static const char six_lines[] =
    "result=0\n"
    "type=RC\n"
    "number=42\n"
    "unit=UP_PROVA_1\n"
    "start=790246800\n"
    "end=790248600\n";

void test_example(void) {
    struct asked asked = { "document 01's example", 7, 300, words(plan), words(message) };
    struct text expected[ENTRIES] = { words(six_lines), words(message) }, file = example("rc.txt");
    check(same(&file, &asked.file), "examples/rc.txt is not document 01's example");
    for (int entry = 0; entry < ENTRIES; entry++) {
        struct text written;
        uint32_t answer = ask(entry, &asked, entry_rooms[entry], &written);
        check(answer == expected[entry].length, "%s, %s: answer %u", asked.what, entry_names[entry], (unsigned)answer);
        check(same(&written, &expected[entry]), "%s, %s: '%.*s'", asked.what, entry_names[entry], (int)written.length,
              (const char *)written.bytes);
    }
}
