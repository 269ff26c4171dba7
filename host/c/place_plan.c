/* Where a plan is bad, and what it has where an address is not in it. */
#include "language.h"
#include "tellers.h"

static void tell_number(struct told *to, const char *key, int most) {
    tell_on(to, IN("%s and a number from 1 to %d, without leading zeros", "%s e un numero da 1 a %d, senza zeri iniziali"), key, most);
}

/* what a good plan has in each line of a row */
static void tell_good(struct told *to, uint32_t line) {
    tell(to, IN("a good plan has here: ", "in un piano corretto qui c'è: "));
    if (line > PLAN_ROWS * ROW_LINES) {
        tell_on(to, IN("nothing, it has at most %d rows", "niente, ha al massimo %d indirizzi"), PLAN_ROWS);
        return;
    }
    switch ((line - 1) % ROW_LINES) {
    case 0: tell_number(to, "ca=", 65534); break;
    case 1: tell_number(to, "ioa=", 16777215); break;
    case 2: tell_on(to, IN("unit= and 1 to 16 letters, digits or _", "unit= e da 1 a 16 lettere, cifre o _")); break;
    default: tell_on(to, IN("type= and one of%s", "type= e uno tra%s"), type_codes); break;
    }
    tell_on(to, IN("; no blanks, and LF at the end", "; niente spazi, e LF alla fine"));
}

/* an address that stands in a row above; false where that is not what is wrong */
static bool tell_repeat(struct told *to, uint32_t bad_line, struct lent ca_line, struct lent ioa_line, struct lent plan) {
    uint32_t ca, ioa;
    struct plan_row above;
    if (!number_behind("ca=", ca_line, &ca) || !number_behind("ioa=", ioa_line, &ioa)) return false;
    if (!find_address(plan, ca, ioa, &above) || above.line + 1 >= bad_line) return false;
    tell(to, IN("the address CA %u, IOA %u stands twice: in lines %u and %u too",
                "l'indirizzo CA %u, IOA %u c'è due volte: anche alle righe %u e %u"),
         (unsigned)ca, (unsigned)ioa, above.line, above.line + 1);
    return true;
}

/* a line that is bad by its end alone looks good: its end is said */
static void tell_end(struct told *to, struct lent line, struct lent plan) {
    enum { LONGEST = sizeof "unit=" + 16 }; /* of a longer line the host may have read a part only */
    if (line.length > 0 && line.at[line.length - 1] == '\r')
        tell(to, IN("the line ends with CR LF: a plan's lines end with LF alone", "la riga finisce con CR LF: nel piano ci vuole solo LF"));
    if (line.at + line.length == plan.at + plan.length && line.length < LONGEST)
        tell(to, IN("the plan ends here, without the LF of its last line", "il piano finisce qui, senza il LF dell'ultima riga"));
}

/* what is wrong with a line that is there, if it is not its form; then true */
static bool tell_line(struct told *to, uint32_t bad_line, struct lent above, struct lent line, struct lent plan) {
    tell(to, IN("the plan's line %u: \"%s\"", "riga %u del piano: \"%s\""), (unsigned)bad_line, shown(line).text);
    tell_end(to, line, plan);
    return tell_repeat(to, bad_line, above, line, plan);
}

void tell_plan(struct told *to, uint32_t bad_line, struct lent plan) {
    struct lent rest = plan, above = { plan.at, 0 };
    if (bad_line == 0) {
        tell(to, IN("the plan is empty", "il piano è vuoto"));
        return;
    }
    for (uint32_t line = 1; line < bad_line && rest.length > 0; line++) above = cut_line(&rest);
    if (rest.length == 0)
        tell(to, IN("the plan's line %u is missing: the plan ends above it", "manca la riga %u del piano, che finisce prima"),
             (unsigned)bad_line);
    else if (tell_line(to, bad_line, above, cut_line(&rest), plan))
        return;
    tell_good(to, bad_line);
}

void tell_address(struct told *to, const struct question *of) {
    enum { MOST = 10 };
    int found = 0;
    tell(to, IN("CA %u, IOA %u is not in the plan", "CA %u, IOA %u non è nel piano"), (unsigned)of->ca, (unsigned)of->ioa);
    for (struct plan_walk walk = plan_of(of->plan); next_row(&walk);) {
        if (walk.row.ca != of->ca || ++found > MOST) continue;
        tell(to, IN("the plan has CA %u, IOA %u: %s of %s (line %u)", "il piano ha CA %u, IOA %u: %s di %s (riga %u)"),
             (unsigned)walk.row.ca, (unsigned)walk.row.ioa, shown(walk.row.type).text, shown(walk.row.unit).text, walk.row.line);
    }
    if (found == 0) tell(to, IN("the plan has no address with CA %u", "il piano non ha indirizzi con CA %u"), (unsigned)of->ca);
    if (found > MOST) tell(to, IN("and %d more with CA %u", "e altri %d con CA %u"), found - MOST, (unsigned)of->ca);
}
