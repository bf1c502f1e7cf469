// Files of the form of oclgrind-kernel: a source, a kernel, three global and three local sizes, and then the arguments
// in their order, each as `<size=BYTES ..>` with numbers behind it. A # begins a comment.
#define _GNU_SOURCE
#include "request.h"
#include "telling.h"
#include <stdio.h>
#include <string.h>
#include <unistd.h>

typedef struct {
    arena *arena;
    const char *path, *at; // `at` is behind the word
    const char *word;      // one of `<`, `>`, or what stands between white space and these; NULL at the end
    size_t length;
    unsigned line, word_line; // of what comes next, and of the word
} reader;

static void next(reader *r) {
    for (;; r->at++) {
        if (*r->at == '#') r->at += strcspn(r->at, "\n");
        if (*r->at == '\n') r->line++;
        if (!*r->at || !strchr(" \t\r\n\v\f", *r->at)) break;
    }
    r->word_line = r->line;
    r->length = *r->at == '<' || *r->at == '>' ? 1 : strcspn(r->at, " \t\r\n\v\f<>#");
    r->word = r->length ? r->at : NULL;
    r->at += r->length;
}

static bool is_word(const reader *r, const char *word) {
    return r->word && strlen(word) == r->length && !strncmp(r->word, word, r->length);
}

static const char *kept(const reader *r) { return copy_text(r->arena, r->word, r->length); }

_Noreturn static void stop_at(const reader *r, const char *wanted) {
    if (!r->word) stop("%s:%u: here ends the file: %s is missing", r->path, r->word_line, wanted);
    stop("%s:%u: %s stands here, and not %s", r->path, r->word_line, kept(r), wanted);
}

static const char *read_name(reader *r, const char *wanted) {
    if (!r->word || strchr("<>", *r->word)) stop_at(r, wanted);
    const char *name = kept(r);
    next(r);
    return name;
}

static void read_three(reader *r, size_t *sizes, const char *wanted) {
    for (int d = 0; d < 3; d++) {
        uint64_t size;
        if (!r->word || !read_count(r->word, r->length, &size) || !size) stop_at(r, wanted);
        sizes[d] = size;
        next(r);
    }
}

// ---- arguments ----

static void want_once(const given *g) {
    if (g->content != NO_CONTENT || g->is_null) stop("%s: its content is given twice", g->from);
}

// `range=START:STEP:END`.
static void read_range(arena *a, given *g, const char *value) {
    word_list list = {NULL, 0, 0};
    want_once(g);
    for (;;) {
        size_t n = strcspn(value, ":");
        add_word(a, &list, value, n);
        if (!value[n]) break;
        value += n + 1;
    }
    if (list.count != 3) stop("%s: range is START:STEP:END", g->from);
    g->content = RANGE_CONTENT;
    g->words = list.at;
    g->word_count = 3;
}

// An attribute that has no value. False where there is none of the name.
static bool read_mark(request *q, given *g, const char *word) {
    if (!strcmp(word, "dump")) add_dump(q, g->name, NULL);
    else if (!strcmp(word, "hex")) g->is_hex = true;
    else if (!strcmp(word, "null")) {
        want_once(g);
        g->is_null = true;
    } else if (!strcmp(word, "noinit")) {
        want_once(g);
        g->content = ZERO_CONTENT;
    } else if (element_named(word, strlen(word), &g->type)) g->has_type = true;
    else return false;
    return true;
}

static void read_attribute(request *q, given *g, const char *word) {
    word_list one = {NULL, 0, 0};
    size_t n = strcspn(word, "=");
    const char *value = word[n] ? word + n + 1 : NULL;
    if (!value && read_mark(q, g, word)) return;
    if (value && !strncmp(word, "size=", 5)) {
        if (!read_count(value, strlen(value), &g->bytes) || !g->bytes)
            stop("%s: the size is a number of bytes, and not %s", g->from, value);
    } else if (value && !strncmp(word, "fill=", 5)) {
        want_once(g);
        add_word(q->arena, &one, value, strlen(value));
        g->content = FILL_CONTENT;
        g->words = one.at;
        g->word_count = 1;
    } else if (value && !strncmp(word, "range=", 6)) read_range(q->arena, g, value);
    else if (value && !strncmp(word, "name=", 5)) g->label = copy_text(q->arena, value, strlen(value));
    else stop("%s: there is no attribute %s", g->from, word);
}

// The numbers behind an argument's attributes.
static void read_numbers(reader *r, given *g) {
    word_list list = {NULL, 0, 0};
    for (; r->word && !strchr("<>", *r->word); next(r)) add_word(r->arena, &list, r->word, r->length);
    if (!list.count) return;
    want_once(g);
    g->content = LIST_CONTENT;
    g->words = list.at;
    g->word_count = list.count;
}

static void read_one(request *q, reader *r) {
    size_t index = q->argument_count;
    given *g = add_argument(q);
    text name = {.arena = q->arena}, from = {.arena = q->arena};
    if (!is_word(r, "<")) stop_at(r, "an argument's < or the end");
    addf(&name, "%zu", index);
    addf(&from, "%s:%u: argument %zu", r->path, r->word_line, index);
    *g = (given){.name = name.at, .from = from.at, .is_of_file = true};
    for (next(r); !is_word(r, ">"); next(r)) {
        if (!r->word || is_word(r, "<")) stop_at(r, "the argument's >");
        read_attribute(q, g, kept(r));
    }
    next(r);
    if (!g->bytes) stop("%s: size=BYTES is missing", g->from);
    read_numbers(r, g);
}

// A path in the file is one from the file's folder, or else from the working directory.
static const char *path_beside(arena *a, const char *file, const char *name) {
    const char *slash = strrchr(file, '/');
    text beside = {.arena = a};
    if (*name == '/' || !slash) return name;
    addf(&beside, "%.*s/%s", (int)(slash - file), file, name);
    return access(beside.at, F_OK) ? name : beside.at;
}

void read_simulation(request *q) {
    size_t n;
    char *content = read_file(q->arena, q->file, NULL, &n);
    reader r = {.arena = q->arena, .path = q->file, .at = content, .line = 1};
    if (strlen(content) != n) stop("%s: a byte 0 stands in the file", q->file);
    next(&r);
    q->simulation = q->file;
    q->file = path_beside(q->arena, q->file, read_name(&r, "the path of a source"));
    q->kernel = read_name(&r, "the name of a kernel");
    read_three(&r, q->global, "a global size from 1, of which there are three");
    read_three(&r, q->local, "a local size from 1, of which there are three");
    q->dimensions = 3;
    q->has_local = true;
    while (r.word) read_one(q, &r);
}
