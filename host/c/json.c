/* What came of a file as a JSON object on a line. */
#include "json.h"

#include "halimpung.h"
#include "parts.h"
#include "utf8.h"
#include "words.h"

/* Valid JSON whatever the bytes are: one that is no part of a UTF-8 character stands for the character with its number. */
static void put_text(FILE *to, const char *text) {
    while (*text != '\0') {
        unsigned char byte = (unsigned char)*text;
        size_t length = utf8_length(text);
        if (length == 0 || byte < 0x20 || byte == 0x7F) {
            fprintf(to, "\\u%04x", byte);
            length = 1;
        } else {
            if (byte == '"' || byte == '\\') putc('\\', to);
            fwrite(text, 1, length, to);
        }
        text += length;
    }
}

static void put_string(FILE *to, const char *text) {
    putc('"', to);
    put_text(to, text);
    putc('"', to);
}

static void put_pair(FILE *to, const char *key, const char *text) {
    fprintf(to, ",\"%s\":", key);
    put_string(to, text);
}

static bool is_text(struct lent key) { return same(key, lent_text("type")) || same(key, lent_text("unit")); }

/* Of the library's line key=value: its values are digits, or letters, digits and _, or nothing. */
static void put_line(FILE *to, struct lent line) {
    struct lent key = before(line, '='), value = behind(line, '=');
    const char *quote = is_text(key) ? "\"" : "";
    fprintf(to, ",\"%.*s\":%s", (int)key.length, (const char *)key.at, quote);
    if (value.length == 0) fputs("null", to);
    fwrite(value.at, 1, value.length, to);
    fputs(quote, to);
}

static void put_record(FILE *to, struct lent text) {
    while (text.length > 0) put_line(to, cut_line(&text));
}

/* the rule's words first, then what is told of the place */
static void put_where(FILE *to, const char *rule, const struct told *where) {
    fputs(",\"where\":[", to);
    if (rule) put_string(to, rule);
    for (int i = 0; where && i < where->count; i++) {
        if (rule || i > 0) putc(',', to);
        put_string(to, where->lines[i]);
    }
    putc(']', to);
}

static void put_refusal(FILE *to, uint32_t number, uint32_t detail, const struct told *where) {
    fprintf(to, ",\"result\":%u,\"detail\":%u", (unsigned)number, (unsigned)detail);
    put_pair(to, "meaning", refusal_meaning(number));
    put_pair(to, "next", refusal_next(number));
    put_where(to, number == HALIMPUNG_RULE ? rule_words(detail) : NULL, where);
}

static void put_error(FILE *to, const struct outcome *it) {
    fputs(",\"error\":\"", to);
    if (it->path) {
        put_text(to, it->path);
        fputs(": ", to);
    }
    put_text(to, it->why);
    putc('"', to);
}

void put_object(FILE *to, const struct outcome *it) {
    fputs("{\"file\":", to);
    put_string(to, it->of->name);
    fprintf(to, ",\"ca\":%u,\"ioa\":%u", (unsigned)it->of->ca, (unsigned)it->of->ioa);
    if (it->why) {
        put_error(to, it);
    } else if (HALIMPUNG_REFUSED(it->answer)) {
        put_refusal(to, HALIMPUNG_NUMBER(it->answer), HALIMPUNG_DETAIL(it->answer), it->where);
    } else if (it->path) {
        fputs(",\"result\":0", to);
        put_pair(to, "written", it->path);
    } else {
        put_record(to, (struct lent){ it->text, it->answer });
    }
    fputs("}\n", to);
}
