/* The lines of a message file. */
#include "lines.h"

static bool is_separator(struct lent text) {
    for (size_t i = 0; i < text.length; i++) {
        if (text.at[i] != '+') return false;
    }
    return text.length >= 5;
}

struct walk walk_of(struct lent file) {
    struct walk begun = { .rest = file };
    return begun;
}

bool next_line(struct walk *it) {
    if (it->rest.length == 0) return false;
    struct line *line = &it->line;
    if (line->separator) line->separators++;
    line->number++;
    line->whole = before(cut_line(&it->rest), '\r');
    line->text = trimmed(line->whole);
    line->separator = is_separator(line->text);
    return true;
}

static bool is_inside(const struct line *it) { return !it->separator && it->separators == 1; }

bool find_row(struct lent file, struct line *to) {
    for (struct walk walk = walk_of(file); next_line(&walk);) {
        *to = walk.line;
        if (is_inside(to)) return true;
    }
    return false;
}

static bool is_parameter(const struct line *it) {
    return !it->separator && !is_inside(it) && before(it->text, '=').length < it->text.length;
}

bool next_parameter(struct walk *it, struct parameter *to) {
    while (next_line(it)) {
        if (!is_parameter(&it->line)) continue;
        to->line = it->line.number;
        to->label = trimmed(before(it->line.text, '='));
        to->value = trimmed(behind(it->line.text, '='));
        return true;
    }
    return false;
}
