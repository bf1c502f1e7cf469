#include "units.h"
#include <string.h>

// A unit is a line `unit OPTIONS SOURCE PREPROCESSED HEADERS` and its texts. The numbers are those of the bytes, and of
// the headers; PREPROCESSED is 0 for a source that isn't compiled. Each header is a line `header NAME TEXT` and its
// texts.

static void add_texts(text *t, const named_text *h) {
    addf(t, "header %zu %zu\n", strlen(h->name), strlen(h->text));
    add(t, h->name);
    add(t, h->text);
}

void add_unit(text *t, const client_source *s) {
    const char *options = s->options ? s->options : "";
    size_t length = s->preprocessed ? s->preprocessed_length : 0;
    unsigned headers = s->preprocessed ? s->header_count : 0;
    addf(t, "unit %zu %zu %zu %u\n", strlen(options), strlen(s->source.text), length, headers);
    add(t, options);
    add(t, s->source.text);
    if (length) add_bytes(t, s->preprocessed, length);
    for (unsigned i = 0; i < headers; i++) add_texts(t, &s->headers[i]);
}

// What is left of the bytes, whose first ones are taken one after another. A wrong one leaves none.
typedef struct {
    arena *arena;
    const char *at, *end;
    bool is_wrong;
} bytes;

static void fail_at(bytes *b) {
    b->is_wrong = true;
    b->at = b->end;
}

static void take_word(bytes *b, const char *word) {
    size_t n = strlen(word);
    if ((size_t)(b->end - b->at) < n || memcmp(b->at, word, n)) fail_at(b);
    else b->at += n;
}

// A number with what stands behind it.
static size_t take_number(bytes *b, char behind) {
    size_t n = 0, digits = 0;
    for (; b->at < b->end && *b->at >= '0' && *b->at <= '9' && digits < 12; digits++)
        n = n * 10 + (size_t)(*b->at++ - '0');
    if (!digits || b->at == b->end || *b->at++ != behind) fail_at(b);
    return b->is_wrong ? 0 : n;
}

// A text of as many bytes, none of which is 0.
static const char *take_text(bytes *b, size_t n) {
    if ((size_t)(b->end - b->at) < n || memchr(b->at, 0, n)) fail_at(b);
    if (b->is_wrong) return "";
    const char *copied = copy_text(b->arena, b->at, n);
    b->at += n;
    return copied;
}

static named_text take_header(bytes *b) {
    take_word(b, "header ");
    size_t name = take_number(b, ' '), length = take_number(b, '\n');
    const char *named = take_text(b, name);
    return (named_text){named, take_text(b, length)};
}

static client_source take_unit(bytes *b) {
    take_word(b, "unit ");
    size_t options = take_number(b, ' '), source = take_number(b, ' '), preprocessed = take_number(b, ' ');
    size_t headers = take_number(b, '\n');
    client_source s = {.options = take_text(b, options), .source = {"source", take_text(b, source)}};
    if (preprocessed) {
        s.preprocessed = take_text(b, preprocessed);
        s.preprocessed_length = preprocessed;
    }
    if (headers > (size_t)(b->end - b->at)) fail_at(b); // (each has a byte at least)
    if (b->is_wrong) return s;
    named_text *all = take(b->arena, (headers + 1) * sizeof *all);
    for (; s.header_count < headers && !b->is_wrong; s.header_count++) all[s.header_count] = take_header(b);
    s.headers = all;
    return s;
}

client_source *read_units(arena *a, const char *from, size_t length, unsigned *count) {
    bytes b = {a, from, from + length, false};
    client_source *units = NULL;
    unsigned room = 0;
    for (*count = 0; b.at < b.end; ++*count) {
        if (*count == room) {
            client_source *more = take(a, (2 * room + 4) * sizeof *more);
            if (room) memcpy(more, units, room * sizeof *more);
            units = more;
            room = 2 * room + 4;
        }
        units[*count] = take_unit(&b);
    }
    return b.is_wrong ? NULL : units;
}
