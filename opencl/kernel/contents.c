#include "contents.h"
#include "telling.h"
#include <inttypes.h>
#include <stdio.h>
#include <string.h>

// ---- numbers ----

static void read_into(const given *g, const element *e, const char *word, unsigned char *to) {
    char name[32], bounds[64];
    put_element_name(name, sizeof name, &(element){e->name, e->kind, e->width, 1});
    put_bounds(bounds, sizeof bounds, e);
    switch (take_number(word, e, g->is_hex, to)) {
    case IS_NUMBER: return;
    case IS_NO_NUMBER: stop("%s: `%s` is no number of the type %s", g->from, word, name);
    case DOES_NOT_FIT: stop("%s: %s doesn't fit %s (%s)", g->from, word, name, bounds);
    }
}

_Noreturn static void stop_outside(const given *g, const element *e, size_t number) {
    char bounds[64];
    put_bounds(bounds, sizeof bounds, e);
    stop("%s: number %zu of the range doesn't fit %s (%s)", g->from, number, e->name, bounds);
}

static size_t numbers_in(const contents *c) { return c->size / element_size(&c->type) * c->type.lanes; }

static unsigned char *number_at(const contents *c, size_t i) { return c->at + number_offset(&c->type, i); }

static void fill(const given *g, contents *c) {
    unsigned char one[8];
    size_t count = numbers_in(c);
    read_into(g, &c->type, g->words[0], one);
    for (size_t i = 0; i < count; i++) memcpy(number_at(c, i), one, c->type.width);
}

// The number of a word, or another one where there is no such word.
static __int128 integer_word(const given *g, const element *e, size_t word, __int128 otherwise) {
    unsigned char bytes[8];
    if (word >= g->word_count) return otherwise;
    read_into(g, e, g->words[word], bytes);
    return integer_at(e, bytes);
}
static double floating_word(const given *g, const element *e, size_t word, double otherwise) {
    unsigned char bytes[8];
    if (word >= g->word_count) return otherwise;
    read_into(g, e, g->words[word], bytes);
    return floating_at(e, bytes);
}

static void put_range(const given *g, contents *c) {
    const element *e = &c->type;
    size_t count = numbers_in(c);
    if (e->kind == FLOATING_NUMBER) {
        double first = floating_word(g, e, 0, 0), step = floating_word(g, e, 1, 1);
        for (size_t i = 0; i < count; i++)
            if (!store_floating(first + (double)i * step, e, number_at(c, i))) stop_outside(g, e, i);
        return;
    }
    // (a step may go down, whatever the type)
    const element wide = {"long", SIGNED_NUMBER, 8, 1};
    bool is_down = g->word_count > 1 && *g->words[1] == '-';
    __int128 first = integer_word(g, e, 0, 0), step = integer_word(g, e->width == 8 && !is_down ? e : &wide, 1, 1);
    for (size_t i = 0; i < count; i++)
        if (!store_integer(first + (__int128)i * step, e, number_at(c, i))) stop_outside(g, e, i);
}

// A range with its last number is as long as its argument.
static void check_range(const given *g, const contents *c) {
    const element *e = &c->type;
    size_t count = numbers_in(c);
    unsigned char last[8];
    if (g->word_count < 3) return;
    read_into(g, e, g->words[2], last);
    if (memcmp(last, number_at(c, count - 1), e->width))
        stop("%s: the range doesn't have %zu numbers, as its size has", g->from, count);
}

// ---- numbers by chance: splitmix64 ----

static uint64_t next_random(uint64_t *state) {
    uint64_t z = *state += UINT64_C(0x9e3779b97f4a7c15);
    z = (z ^ (z >> 30)) * UINT64_C(0xbf58476d1ce4e5b9);
    z = (z ^ (z >> 27)) * UINT64_C(0x94d049bb133111eb);
    return z ^ (z >> 31);
}

static void put_random(const given *g, contents *c, uint64_t salt) {
    const element *e = &c->type, seed = {"ulong", UNSIGNED_NUMBER, 8, 1};
    size_t count = numbers_in(c);
    uint64_t state = (uint64_t)integer_word(g, &seed, 0, salt);
    bool is_bounded = g->word_count == 3;
    if (e->kind == FLOATING_NUMBER) {
        double least = floating_word(g, e, 1, 0), greatest = floating_word(g, e, 2, 1);
        if (!(least <= greatest)) stop("%s: the least number is above the greatest", g->from);
        for (size_t i = 0; i < count; i++) {
            double part = (double)(next_random(&state) >> 11) * 0x1p-53;
            store_floating(least + part * (greatest - least), e, number_at(c, i));
        }
        return;
    }
    __int128 least = integer_word(g, e, 1, 0), greatest = integer_word(g, e, 2, 0);
    if (least > greatest) stop("%s: the least number is above the greatest", g->from);
    for (size_t i = 0; i < count; i++) {
        uint64_t bits = next_random(&state);
        if (is_bounded)
            store_integer(least + (__int128)(bits % (unsigned __int128)(greatest - least + 1)), e, number_at(c, i));
        else memcpy(number_at(c, i), &bits, e->width);
    }
}

// ---- sizes ----

// How many numbers of a list, or bytes of a file, there are, where the argument doesn't say how many elements it has.
static uint64_t own_count(const given *g, const element *e, const char *name, uint64_t file_size) {
    if (g->content == FILE_CONTENT) {
        if (!file_size || file_size % element_size(e))
            stop("%s: %s has %" PRIu64 " bytes, which isn't a number of elements of %s, %zu bytes each", g->from,
                 g->words[0], file_size, name, element_size(e));
        return file_size / element_size(e);
    }
    if (g->word_count % e->lanes) stop("%s: %zu numbers are no whole elements of %s", g->from, g->word_count, name);
    return g->word_count / e->lanes;
}

static uint64_t bytes_of(const given *g, const element *e, const char *name, size_t size, uint64_t file_size) {
    uint64_t bytes = g->bytes, count = g->count;
    if (g->is_of_file) {
        if (bytes % element_size(e))
            stop("%s: %" PRIu64 " bytes aren't whole elements of %s, %zu bytes each", g->from, bytes, name,
                 element_size(e));
        return bytes;
    }
    if (!g->has_count && size && g->content != LIST_CONTENT && g->content != FILE_CONTENT) return size;
    if (!g->has_count && g->content != LIST_CONTENT && g->content != FILE_CONTENT)
        stop("%s: how many elements are there? %s[COUNT]", g->from, name);
    if (!g->has_count) count = own_count(g, e, name, file_size);
    return __builtin_mul_overflow(count, element_size(e), &bytes) ? UINT64_MAX : bytes;
}

// ---- the whole ----

static void put_list(const given *g, contents *c, const char *name) {
    size_t count = numbers_in(c);
    if (g->word_count != count)
        stop("%s: %zu number%s, and %zu byte%s of %s have %zu", g->from, g->word_count, g->word_count == 1 ? "" : "s",
             c->size, c->size == 1 ? "" : "s", name, count);
    for (size_t i = 0; i < count; i++) read_into(g, &c->type, g->words[i], number_at(c, i));
}

contents contents_of(arena *a, const given *g, const element *otherwise, size_t size, uint64_t most, uint64_t salt) {
    contents c = {NULL, 0, {NULL, UNSIGNED_NUMBER, 1, 1}};
    char name[32], *file = NULL;
    size_t file_size = 0;
    if (!g->has_type && !otherwise) stop("%s: of which type are its numbers? NAME=TYPE[COUNT], as uchar[16]", g->from);
    c.type = g->has_type ? g->type : *otherwise;
    put_element_name(name, sizeof name, &c.type);
    if (g->content == FILE_CONTENT) file = read_file(a, g->words[0], g->from, &file_size);
    uint64_t bytes = bytes_of(g, &c.type, name, size, file_size);
    if (size && bytes != size)
        stop("%s: the parameter has %zu byte%s, and %" PRIu64 " are given", g->from, size, size == 1 ? "" : "s", bytes);
    if (bytes > most) stop("%s: %" PRIu64 " bytes are more than a buffer may have: %" PRIu64, g->from, bytes, most);
    c.size = bytes;
    if (g->content == NO_CONTENT || g->content == ZERO_CONTENT) return c;
    if (g->content == FILE_CONTENT) {
        if (file_size != c.size)
            stop("%s: %s has %zu bytes, and %zu are wanted", g->from, g->words[0], file_size, c.size);
        c.at = (unsigned char *)file;
        return c;
    }
    c.at = take(a, c.size);
    if (g->content == FILL_CONTENT) fill(g, &c);
    else if (g->content == RANDOM_CONTENT) put_random(g, &c, salt);
    else if (g->content == LIST_CONTENT) put_list(g, &c, name);
    else {
        put_range(g, &c);
        check_range(g, &c);
    }
    return c;
}
