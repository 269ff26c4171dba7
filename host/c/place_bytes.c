/* Which byte of a file may not stand there, and where its separators stand. */
#include "halimpung.h"
#include "language.h"
#include "tellers.h"

void tell_size(struct told *to, struct lent file) {
    /* the host reads no more of a file than it needs to see that it is too long */
    if (file.length > HALIMPUNG_FILE_MOST) tell(to, IN("the file has more than 8,192 bytes", "il file ha più di 8.192 byte"));
    else tell(to, IN("the file has %u bytes", "il file ha %u byte"), (unsigned)file.length);
}

/* ---- a byte by its name */

/* C0 to FF hex are letters with accents in Latin-1, but for two signs */
static bool is_accented(unsigned byte) { return byte >= 0xC0 && byte != 0xD7 && byte != 0xF7; }

struct letter {
    char utf8[3];
};

static struct letter letter_of(unsigned byte) { return (struct letter){ { '\xC3', (char)(byte - 0x40), '\0' } }; }

static bool is_order_mark(struct lent text) {
    return starts(text, lent_text("\xEF\xBB\xBF")) || starts(text, lent_text("\xFF\xFE")) || starts(text, lent_text("\xFE\xFF"));
}

/* a byte of 80 hex or more: the first of several in UTF-8, or one of Latin-1 */
static void tell_high(struct told *to, struct lent text) {
    unsigned byte = text.at[0], next = text.length > 1 ? text.at[1] : 0;
    bool goes_on = byte >= 0xC2 && next >= 0x80 && next < 0xC0;
    if (is_order_mark(text))
        tell(to, IN("it begins a byte order mark: an editor saved the file",
                    "è l'inizio di un BOM (byte order mark): il file è stato salvato da un editor"));
    else if (byte == 0xC3 && goes_on && is_accented(next + 0x40))
        tell(to, IN("it begins the accented letter %s, written as two bytes (UTF-8)",
                    "è l'inizio della lettera accentata %s, scritta in due byte (UTF-8)"),
             letter_of(next + 0x40).utf8);
    else if (goes_on)
        tell(to, IN("it begins a character of several bytes (UTF-8)", "è l'inizio di un carattere di più byte (UTF-8)"));
    else if (is_accented(byte))
        tell(to, IN("it is the accented letter %s, written as one byte (Latin-1)",
                    "è la lettera accentata %s, scritta in un byte (Latin-1)"),
             letter_of(byte).utf8);
}

static void tell_name(struct told *to, struct lent text) {
    if (text.at[0] == '\t') tell(to, IN("it is a tab", "è una tabulazione"));
    else if (text.at[0] == '\r') tell(to, IN("it is a CR that has no LF behind it", "è un CR senza LF subito dopo"));
    else if (text.at[0] >= 0x80) tell_high(to, text);
}

/* what stands before a byte on its line; of a long text the end, which is nearest */
static void tell_before(struct told *to, struct lent text) {
    enum { MOST = 60 };
    const char *dots = text.length > MOST ? ".." : "";
    if (text.length > MOST) text = (struct lent){ text.at + text.length - MOST, MOST };
    if (text.length > 0) tell_on(to, IN(", behind \"%s%s\"", ", dopo \"%s%s\""), dots, shown(text).text);
}

void tell_byte(struct told *to, uint32_t offset, struct lent file) {
    if (offset >= file.length) return;
    struct lent above = { file.at, offset };
    unsigned line = 1;
    for (; before(above, '\n').length < above.length; line++) above = behind(above, '\n');
    tell(to, IN("line %u, column %u: byte %02X hex", "riga %u, colonna %u: byte %02X esadecimale"), line, (unsigned)above.length + 1,
         file.at[offset]);
    tell_before(to, above);
    tell_name(to, (struct lent){ file.at + offset, file.length - offset });
}

void tell_separators(struct told *to, struct lent file) {
    struct walk walk = walk_of(file);
    unsigned found = 0;
    while (next_line(&walk)) {
        if (!walk.line.separator) continue;
        if (found++ == 0) tell(to, IN("separators (five or more +):", "righe di separazione (cinque o più +):"));
        tell_on(to, IN("%s line %u", "%s riga %u"), found == 1 ? "" : ",", walk.line.number);
    }
    if (found == 0) tell(to, IN("no line is a separator (five or more +)", "nessuna riga è di separazione (cinque o più +)"));
    tell(to, IN("lines in the file: %u", "righe del file: %u"), walk.line.number);
}
