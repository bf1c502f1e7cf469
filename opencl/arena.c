#include "arena.h"
#include <stdarg.h>
#include <stdio.h>
#include <stdlib.h>
#include <string.h>

struct block {
    struct block *next;
    size_t used, room;
    max_align_t bytes[];
};

void *take(arena *a, size_t n) {
    size_t unit = sizeof(max_align_t);
    n = (n + unit - 1) / unit * unit;
    if (!a->blocks || a->blocks->room - a->blocks->used < n) {
        size_t room = n > 65536 ? n : 65536;
        struct block *b = malloc(sizeof *b + room);
        if (!b) longjmp(a->failed, 1);
        *b = (struct block){a->blocks, 0, room};
        a->blocks = b;
    }
    void *at = (char *)a->blocks->bytes + a->blocks->used;
    a->blocks->used += n;
    return memset(at, 0, n);
}

char *copy_text(arena *a, const char *s, size_t n) {
    char *t = take(a, n + 1);
    if (n) memcpy(t, s, n);
    return t;
}

void free_arena(arena *a) {
    while (a->blocks) {
        struct block *b = a->blocks;
        a->blocks = b->next;
        free(b);
    }
}

void add_bytes(text *t, const char *s, size_t n) {
    if (t->length + n + 1 > t->room) {
        size_t room = (t->length + n + 1) * 2 + 64;
        char *more = take(t->arena, room);
        if (t->length) memcpy(more, t->at, t->length);
        t->at = more;
        t->room = room;
    }
    if (n) memcpy(t->at + t->length, s, n);
    t->length += n;
    t->at[t->length] = 0;
}

void add(text *t, const char *s) { add_bytes(t, s, strlen(s)); }

void addf(text *t, const char *format, ...) {
    va_list values;
    va_start(values, format);
    int n = vsnprintf(NULL, 0, format, values);
    va_end(values);
    if (n < 0) longjmp(t->arena->failed, 1);
    char *s = take(t->arena, (size_t)n + 1);
    va_start(values, format);
    vsnprintf(s, (size_t)n + 1, format, values);
    va_end(values);
    add_bytes(t, s, (size_t)n);
}
