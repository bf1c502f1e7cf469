// What stands behind `--arg`: NAME=VALUE.
#include "request.h"
#include "telling.h"
#include <stdio.h>
#include <string.h>

// What stands in front of a message about an argument. A long list is cut.
static const char *option_of(arena *a, const char *argument) {
    enum { SHOWN = 60 };
    text from = {.arena = a};
    size_t n = strlen(argument);
    addf(&from, "--arg %.*s%s", SHOWN, argument, n > SHOWN ? ".." : "");
    return from.at;
}

// Takes a text apart at its commas.
static void add_numbers(arena *a, given *g, const char *words) {
    word_list list = {NULL, 0, 0};
    for (;;) {
        size_t n = strcspn(words, ",");
        add_word(a, &list, words, n);
        if (!words[n]) break;
        words += n + 1;
    }
    g->words = list.at;
    g->word_count = list.count;
}

// `TYPE`, `TYPE[COUNT]` or `[COUNT]` at the beginning of a text. What stands behind it; NULL where it begins with none.
static const char *read_type(given *g, const char *at) {
    size_t n = strcspn(at, "[:");
    if (n && !element_named(at, n, &g->type)) return NULL;
    g->has_type = n;
    at += n;
    if (*at != '[') return g->has_type ? at : NULL;
    const char *end = strchr(at, ']');
    if (!end) stop("%s: a ] is missing", g->from);
    if (end > at + 1) {
        g->has_count = read_count(at + 1, (size_t)(end - at - 1), &g->count);
        if (!g->has_count || !g->count)
            stop("%s: how many elements there are is a number from 1, and not %.*s", g->from, (int)(end - at - 1),
                 at + 1);
    }
    return end + 1;
}

// (`inf` and `nan` are numbers too)
static bool begins_as_number(const char *text) { return *text && strchr("+-.0123456789in", *text); }

static bool begins_with(const char *text, const char *word, const char **behind) {
    size_t n = strlen(word);
    if (strncmp(text, word, n) || (text[n] && text[n] != '=')) return false;
    *behind = text[n] ? text + n + 1 : NULL;
    return true;
}

// What a buffer holds: what stands behind the `:`.
static void read_content(arena *a, given *g, const char *at) {
    static const struct {
        const char *word;
        content_kind kind;
        size_t least, most; // how many words stand behind its `=`
    } forms[] = {{"zero", ZERO_CONTENT, 0, 0},
                 {"range", RANGE_CONTENT, 0, 2},
                 {"fill", FILL_CONTENT, 1, 1},
                 {"random", RANDOM_CONTENT, 0, 3},
                 {"file", FILE_CONTENT, 1, 1}};
    const char *value = NULL;
    for (size_t i = 0; i < sizeof forms / sizeof *forms; i++) {
        if (!begins_with(at, forms[i].word, &value)) continue;
        word_list path = {NULL, 0, 0};
        g->content = forms[i].kind;
        if (value && g->content == FILE_CONTENT) {
            add_word(a, &path, value, strlen(value));
            g->words = path.at;
            g->word_count = 1;
        } else if (value) add_numbers(a, g, value);
        if (g->word_count < forms[i].least || g->word_count > forms[i].most ||
            (g->content == RANDOM_CONTENT && g->word_count == 2))
            stop("%s: what stands behind %s is %s", g->from, forms[i].word,
                 g->content == FILL_CONTENT    ? "one number: fill=7"
                 : g->content == FILE_CONTENT  ? "a path: file=PATH"
                 : g->content == ZERO_CONTENT  ? "nothing"
                 : g->content == RANGE_CONTENT ? "nothing, =START or =START,STEP"
                                               : "nothing, =SEED or =SEED,LEAST,GREATEST");
        return;
    }
    if (!begins_as_number(at))
        stop("%s: %s is neither zero, range, fill=NUMBER, random, file=PATH nor numbers with commas", g->from, at);
    g->content = LIST_CONTENT;
    add_numbers(a, g, at);
}

static void read_local_memory(given *g, const char *at) {
    g->is_local = true;
    if (*at && strchr("0123456789", *at)) {
        if (!read_count(at, strlen(at), &g->bytes)) stop("%s: the bytes of local memory are a number", g->from);
    } else {
        const char *behind = read_type(g, at);
        if (!behind || *behind || !g->has_type || !g->has_count ||
            __builtin_mul_overflow(g->count, element_size(&g->type), &g->bytes))
            stop("%s: behind local: stands how many bytes there are, as local:256, or TYPE[COUNT]", g->from);
    }
    if (!g->bytes) stop("%s: local memory has one byte at least", g->from);
}

void read_argument(request *r, const char *argument) {
    given *g = add_argument(r);
    size_t n = strcspn(argument, "=");
    *g = (given){.from = option_of(r->arena, argument)};
    if (!n || !argument[n]) stop("%s: this isn't of the form NAME=VALUE", g->from);
    g->name = g->label = copy_text(r->arena, argument, n);
    const char *value = argument + n + 1;
    if (!strncmp(value, "local:", 6)) {
        read_local_memory(g, value + 6);
        return;
    }
    if (!strcmp(value, "null")) {
        g->is_null = true;
        return;
    }
    const char *behind = read_type(g, value);
    if (!behind) {
        if (!begins_as_number(value))
            stop("%s: %s is neither a number nor a TYPE[COUNT] (clsim-kernel --help has the forms)", g->from, value);
        g->content = LIST_CONTENT;
        add_numbers(r->arena, g, value);
    } else if (*behind == ':') read_content(r->arena, g, behind + 1);
    else if (*behind) stop("%s: behind ] stands a :, and not %s", g->from, behind);
    else if (!g->has_count)
        stop("%s: how many elements are there? %.*s[COUNT]", g->from, (int)strcspn(value, "["), value);
}
