/* The entries that a C or C++ host calls, and the numbers that they answer: reading, normalising, and collecting a file from the units in
   which it comes.

   Reading and normalising are given an address (CA, IOA), the address plan's text and a message file, and answer in one number: below
   65,536 it is the length that was written into out; else it is 65,536 times the refusal's number plus its detail. Collecting answers such
   a number too. What each promises is proved for every input (crates/gateway); "document 01" below is docs/01-scope.md, docs/UNITS.md
   shows the units, and docs/REFUSALS.md says what to do after each refusal.

   Ownership and buffers
   - The caller owns every buffer, before, during and after a call. Reading and normalising only read plan and file and write only out;
     collecting only reads unit and writes only state and file. An entry allocates nothing, frees nothing, and keeps no pointer and no
     state between calls but what the host keeps for it (state and file of collecting).
   - A slice is a pointer and its length in bytes, and it is the length that counts: no text is ended by a zero byte, neither the ones
     given nor the one written.
   - No pointer may be null. A slice of no bytes takes any pointer that is not null; it is not read through.
   - out must overlap neither plan nor file. plan and file may overlap each other: they are only read. Of unit, state and file of
     collecting none may overlap another.
   - A refusal changes no byte of out. A success of length n changes bytes 0 to n - 1 alone; those past n keep what they held. (What
     collecting changes is said there.)
   - A buffer may be tried at any size: one too small is refused with HALIMPUNG_ROOM, whose detail is the length needed.

   Threads and stack
   - The library has no variables, so calls may run at the same time on any threads, if no other thread writes to what they read, or
     touches what they write, meanwhile. No locks are taken and no signals are used.
   - A call takes no heap and a bounded stack, which is measured and not proved: by tools/stack.c, on x86-64 code, for
     files of all ten layouts (make bench; docs/PERFORMANCE.md). It was 4,496 bytes for reading and for normalising, 92
     for collecting. Leave 6 KiB; 12 KiB where the loader binds symbols lazily: it looks memcpy up on the caller's
     stack, and the first call was measured at 8,408.
   - The code is x86-64 (System V calling convention) and calls memcpy and memset, nothing else. */
#ifndef HALIMPUNG_H
#define HALIMPUNG_H

#include <stddef.h>
#include <stdint.h>

#ifdef __cplusplus
extern "C" {
#endif

/* The version of header and library: the build takes it from here. */
#define HALIMPUNG_VERSION "0.2.0"

/* The largest message file; a longer one is refused with HALIMPUNG_SIZE, and one that is collected with HALIMPUNG_COLLECT_MOST. */
#define HALIMPUNG_FILE_MOST 8192

/* The length of a collector's state. */
#define HALIMPUNG_COLLECT_STATE 16

/* Lengths of out that are enough whatever the file: for the six lines, and for the written form. */
#define HALIMPUNG_READ_ROOM 89
#define HALIMPUNG_NORMALISE_ROOM 8192

/* An answer taken apart: was it a refusal, which one (0 if none), and with which detail. Where it was none, the answer is the length. */
#define HALIMPUNG_REFUSED(answer) (((uint32_t)(answer) >> 16) != 0)
#define HALIMPUNG_NUMBER(answer) ((uint32_t)(answer) >> 16)
#define HALIMPUNG_DETAIL(answer) ((uint32_t)(answer) & 0xFFFFu)

/* An instant of the six lines, which counts seconds from 2000-01-01 00:00:00 UTC, as one that counts from 1970:
   790246800, which is 15-01-2025 10:00:00 S (Italian winter time), gives 1736931600, which is 09:00:00 UTC. */
#define HALIMPUNG_UNIX(t) ((int64_t)(t) + 946684800)

/* The address of a unit that was taken (a pointer to its octets): common address, and information object address. A file is read at the
   address of the unit that made it whole. */
#define HALIMPUNG_UNIT_CA(unit) ((uint32_t)(unit)[4] | (uint32_t)(unit)[5] << 8)
#define HALIMPUNG_UNIT_IOA(unit) ((uint32_t)(unit)[6] | (uint32_t)(unit)[7] << 8 | (uint32_t)(unit)[8] << 16)

/* The refusal numbers of documents 01 and 02, list by list, in the order in which each list is asked. Reading and normalising answer the
   reader's and HALIMPUNG_ROOM, collecting its own five; the others are here so that a log or a display has one name for each number.
   (host/refusal-words reads this enum: one constant a line. The build fails unless exactly these numbers stand in the tables of
   docs/REFUSALS.md, and of docs/RIFIUTI.md in Italian.) */
enum halimpung_refusal {
    /* the reader, and so reading and normalising */
    HALIMPUNG_PLAN = 13,          /* plan malformed. Detail: its first bad line from 1; 0 if it has no row */
    HALIMPUNG_ADDRESS = 1,        /* address not in plan */
    HALIMPUNG_SIZE = 2,           /* file size: not 1 to 8,192 bytes */
    HALIMPUNG_BYTE = 3,           /* byte not allowed; E0 is in an accented label of a VQ or QR file alone. Detail: its offset from 0 */
    HALIMPUNG_SEPARATORS = 4,     /* separators: not two with one line between. Detail: how many separator lines */
    HALIMPUNG_LABEL_TWICE = 5,    /* label twice. Detail: field, first repeat from the top */
    HALIMPUNG_LABEL_MISSING = 6,  /* label missing. Detail: how many labels of the layout have no line */
    HALIMPUNG_VALUE = 7,          /* value. Detail: first bad field */
    HALIMPUNG_RULE = 8,           /* rule across fields. Detail: lowest broken rule, from 1 */
    HALIMPUNG_UNIT = 9,           /* unit is not the plan's */
    HALIMPUNG_ROW = 10,           /* row differs: the summary row is not the body's values */

    /* the writer: 12, then 11. Reading and normalising: the reader's, then 11; they never answer 12 */
    HALIMPUNG_RECORD = 12,        /* record invalid */
    HALIMPUNG_ROOM = 11,          /* no room for the output. Detail: its length */

    /* the times: the reader's, then these */
    HALIMPUNG_LAYOUT = 16,        /* CB market layout needed */
    HALIMPUNG_SHEET = 14,         /* unit sheet malformed or for another unit */

    /* collecting a file; details are 0 */
    HALIMPUNG_COLLECT_UNIT = 44,      /* a unit of no layout, of another file than 1, or for another address than its transfer's */
    HALIMPUNG_COLLECT_TURN = 40,      /* unit out of turn */
    HALIMPUNG_COLLECT_CHECKSUM = 41,  /* checksum of a section or of the file */
    HALIMPUNG_COLLECT_LENGTH = 42,    /* announced length of a section or of the file not met */
    HALIMPUNG_COLLECT_MOST = 43,      /* more than 8,192 octets announced or collected */

    /* the book of commands; each of its calls has its own list of these and 12 */
    HALIMPUNG_BOOK = 20,          /* book malformed */
    HALIMPUNG_BOOK_UNIT = 21,     /* other unit than the book's; of a fresh book: bad unit code */
    HALIMPUNG_BOOK_HELD = 22,     /* command: number held */
    HALIMPUNG_BOOK_LATE = 23,     /* command: end at or below the floor */
    HALIMPUNG_BOOK_FULL = 24,     /* command: ninety-six held */
    HALIMPUNG_BOOK_UNKNOWN = 25,  /* revocation: number not held */
    HALIMPUNG_BOOK_STRUCK = 26,   /* revocation: stretch wholly struck already */
    HALIMPUNG_BOOK_CLOSE = 27,    /* close: instant below the floor */
    HALIMPUNG_BOOK_ASKED = 28,    /* in force: instant below the floor */
    HALIMPUNG_BOOK_TYPE = 29,     /* command: not a CB; revocation: not an RC */
    HALIMPUNG_BOOK_OUTSIDE = 31,  /* revocation: stretch not inside the order */
    HALIMPUNG_BOOK_FIFTH = 32,    /* revocation: a fifth struck stretch, after touching ones are joined */

    /* a saved book: saving 20, 52, then 11; reading back 50 */
    HALIMPUNG_SAVED_PART = 52,    /* an order is struck in part */
    HALIMPUNG_SAVED_TEXT = 50     /* text of no saved book. Detail: its first bad line, from 1 */
};

/* Reads a file at an address of a plan, and writes the six lines of its record: result=0, type=, number=, unit=,
   start=, end=, each ended by LF. Answers their length, or a refusal. HALIMPUNG_READ_ROOM bytes are always enough.
   - type=: the plan's type for the address, one of CB RC MG EB LB SR VQ RI QR; both layouts of a command are CB.
   - number=: the number in the message's own identifier, without leading zeros: 0 to 9999999999, which takes more than
     32 bits. It is the number by which an RC names a CB. An RC's number= is its own too; that of the command it revokes
     is its field `Sequenza Comando`, which is taken from the written form (below), as any other value is.
   - unit=: the plan's unit for the address, which is the file's.
   - start=, end=: instants, in seconds since 2000-01-01 00:00:00 UTC (HALIMPUNG_UNIX), up to 3155756399, which takes
     32 bits without a sign. Of an mFRR command they are TINI1 and TFIN2. Behind end= there is nothing where the end date
     is blank, which it may be in a VQ alone. */
uint32_t halimpung_read(uint32_t ca, uint32_t ioa, const uint8_t *plan, size_t plan_len, const uint8_t *file, size_t file_len,
                        uint8_t *out, size_t out_len);

/* Brings a file to the written form of its record: what is written is accepted at the same address, gives the same
   record, and is its own written form. Answers its length, or a refusal. HALIMPUNG_NORMALISE_ROOM bytes are always
   enough. There is one such form for a record, so every value of a message can be taken from it without a parser:
   - banner lines; an empty line; a line for each field of the layout, in printed order; `+++++`; the summary row;
     `+++++`. LF after each line.
   - A field's line is its label, spaces up to 36 bytes, `=`, and, unless the value is blank, a space and the value.
   host/c/value.c, in C for hosts to copy, finds the value of a label. */
uint32_t halimpung_normalise(uint32_t ca, uint32_t ioa, const uint8_t *plan, size_t plan_len, const uint8_t *file, size_t file_len,
                             uint8_t *out, size_t out_len);

/* Collects a file from the units in which it comes (docs/UNITS.md), one unit a call, in the order in which they came. Answers 0 if the unit
   was taken and the file is not whole yet; 1 to 8,192 if the unit makes the file whole: its length, and file begins with exactly its
   octets; or a refusal. After a refusal the transfer is dropped, and the next unit that is taken is a file ready.
   - The host sets state to zero once, which is a fresh collector, and gives state and file as they are from one call to the next. State
     is all zero again after a refusal and after a whole file, and then file may be used for anything until the next call.
   - A unit that is a segment and is taken puts its octets into file, right behind those collected; no other byte of file is changed, and
     by any other call none at all. So a whole file is read from file itself, at the last unit's address (HALIMPUNG_UNIT_CA,
     HALIMPUNG_UNIT_IOA), before the next unit is given.
   - Two transfers that come at the same time need a state and a file each: a unit for another address is refused, and drops the transfer.
   - The bytes of state, each number with its low byte first: 0 the turn (1 between sections, 2 within one; any other: fresh), 1 how many
     sections have ended, 2-3 the common address, 4-6 the information object address, 7-8 the file's announced length, 9-10 where the open
     section starts and 11-12 its announced length, 13-14 how many octets are collected, 15 zero. Any 16 bytes get an answer. */
uint32_t halimpung_collect(const uint8_t *unit, size_t unit_len, uint8_t state[HALIMPUNG_COLLECT_STATE], uint8_t file[HALIMPUNG_FILE_MOST]);

#ifdef __cplusplus
}
#endif

#endif
