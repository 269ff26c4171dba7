/* Where a summary row and the body of its file first differ. The row is walked by the values that it should have: it is not cut at ;, which
   a value may hold itself. */
#include "language.h"
#include "tellers.h"

/* one value of the row as the body has it */
struct wanted {
    const struct piece *piece;
    struct parameter body;
    struct lent text;
};

static bool want(struct wanted *to, unsigned place, const struct reading *from) {
    to->piece = piece_at(from->layout, place);
    if (!to->piece || !find_field(from, field_at(from->layout, to->piece->field), &to->body)) return false;
    to->text = to->body.value;
    if (to->piece->half == FIRST_HALF) to->text = trimmed(before(to->text, ';'));
    if (to->piece->half == SECOND_HALF) to->text = trimmed(behind(to->text, ';'));
    return true;
}

static void tell_wanted(struct told *to, const struct wanted *it) {
    tell_parameter(to, &it->body);
    switch (it->piece->half) {
    case WHOLE: tell_on(to, IN(" is what should stand there", " è il valore atteso")); break;
    case FIRST_HALF: tell_on(to, IN(": the part before its ; should stand there", ": è attesa la parte prima del ;")); break;
    case SECOND_HALF: tell_on(to, IN(": the part behind its ; should stand there", ": è attesa la parte dopo il ;")); break;
    }
}

/* what stands in the row where a text should: as many parts between ; as that has */
static struct lent standing(struct lent rest, struct lent wanted) {
    size_t length = before(rest, ';').length;
    for (size_t i = 0; i < wanted.length; i++) {
        if (wanted.at[i] != ';' || length == rest.length) continue;
        length += 1 + before((struct lent){ rest.at + length + 1, rest.length - length - 1 }, ';').length;
    }
    return (struct lent){ rest.at, length };
}

static size_t alike(struct lent one, struct lent other) {
    size_t i = 0;
    while (i < one.length && i < other.length && one.at[i] == other.at[i]) i++;
    return i;
}

static void tell_difference(struct told *to, unsigned place, const struct wanted *it, struct lent rest, const struct line *row) {
    size_t column = (size_t)(rest.at - row->whole.at) + alike(rest, it->text) + 1;
    tell(to, IN("the summary row, line %u, differs from column %u on: its value %u is \"%s\"",
                "la riga di riepilogo, riga %u, è diversa dalla colonna %u in poi: il suo valore %u è \"%s\""),
         row->number, (unsigned)column, place, shown(standing(rest, it->text)).text);
    tell_wanted(to, it);
}

static void tell_few(struct told *to, unsigned place, const struct line *row, const struct reading *from) {
    struct wanted next;
    tell(to, IN("the summary row, line %u, has too few values: it ends with value %u",
                "la riga di riepilogo, riga %u, ha troppo pochi valori: finisce con il valore %u"),
         row->number, place);
    if (want(&next, place + 1, from)) tell_wanted(to, &next);
}

static void tell_many(struct told *to, unsigned place, struct lent rest, const struct line *row) {
    tell(to, IN("the summary row, line %u, has too many values: behind the last, value %u, stands \"%s\"",
                "la riga di riepilogo, riga %u, ha troppi valori: dopo l'ultimo, il valore %u, c'è \"%s\""),
         row->number, place, shown(rest).text);
}

/* whether a value of the row is the text: then also what stands behind it, from its ; on */
static bool pass(struct lent rest, struct lent text, struct lent *after) {
    if (!starts(rest, text)) return false;
    *after = (struct lent){ rest.at + text.length, rest.length - text.length };
    return after->length == 0 || after->at[0] == ';';
}

void tell_row(struct told *to, const struct reading *from) {
    struct line row;
    struct wanted it;
    if (!find_row(from->file, &row)) return;
    struct lent rest = row.text, after;
    for (unsigned place = 1; want(&it, place, from); place++) {
        bool last = !piece_at(from->layout, place + 1);
        if (!pass(rest, it.text, &after)) {
            tell_difference(to, place, &it, rest, &row);
            return;
        }
        if (last && after.length > 0) tell_many(to, place, after, &row);
        if (!last && after.length == 0) tell_few(to, place, &row, from);
        if (last || after.length == 0) return;
        rest = behind(after, ';');
    }
}
