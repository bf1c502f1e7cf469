// Memory that is freed as a whole, and text that grows in it.
#ifndef CLSIM_ARENA_H
#define CLSIM_ARENA_H
#include <setjmp.h>
#include <stddef.h>

typedef struct {
    struct block *blocks;
    jmp_buf failed; // where to go on with 1 once memory is refused
} arena;

// `n` zero bytes, aligned for every type.
void *take(arena *a, size_t n);
// `n` bytes of `s` with a zero behind them.
char *copy_text(arena *a, const char *s, size_t n);
void free_arena(arena *a);

typedef struct {
    arena *arena;
    char *at; // always ends with a zero, once something was added
    size_t length, room;
} text;

void add_bytes(text *t, const char *s, size_t n);
void add(text *t, const char *s);
void addf(text *t, const char *format, ...) __attribute__((format(printf, 2, 3)));
#endif
