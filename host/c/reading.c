/* A file as the message that the plan says it is. */
#include "reading.h"

#include <string.h>

/* a CB file is the mFRR layout when it has a parameter line `Tipo Comando` */
static void choose_layout(struct reading *it) {
    const struct field *mfrr = mfrr_field();
    struct parameter found;
    it->mfrr_line = 0;
    if (strcmp(it->layout, "CB") == 0 && find_field(it, mfrr, &found)) {
        it->mfrr_line = found.line;
        it->layout = mfrr->layout;
    }
}

bool begin_reading(struct reading *to, const struct question *of) {
    to->file = of->file;
    if (!find_address(of->plan, of->ca, of->ioa, &to->row)) return false;
    to->layout = layout_of_type(to->row.type);
    if (!to->layout) return false;
    choose_layout(to);
    return true;
}

bool find_field(const struct reading *from, const struct field *field, struct parameter *to) {
    for (struct walk walk = walk_of(from->file); next_parameter(&walk, to);) {
        if (is_labelled(field, to->label)) return true;
    }
    return false;
}
