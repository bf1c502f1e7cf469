#include "numbers.h"
#include "../formats.h"
#include <ctype.h>
#include <fenv.h>
#include <inttypes.h>
#include <math.h>
#include <stdio.h>
#include <stdlib.h>
#include <string.h>

// ---- types ----

static const element numbers[] = {
    {"char", SIGNED_NUMBER, 1, 1},     {"uchar", UNSIGNED_NUMBER, 1, 1}, {"short", SIGNED_NUMBER, 2, 1},
    {"ushort", UNSIGNED_NUMBER, 2, 1}, {"int", SIGNED_NUMBER, 4, 1},     {"uint", UNSIGNED_NUMBER, 4, 1},
    {"long", SIGNED_NUMBER, 8, 1},     {"ulong", UNSIGNED_NUMBER, 8, 1}, {"half", FLOATING_NUMBER, 2, 1},
    {"float", FLOATING_NUMBER, 4, 1},  {"double", FLOATING_NUMBER, 8, 1}};

bool element_named(const char *name, size_t n, element *e) {
    static const char *const lanes[] = {"", "2", "3", "4", "8", "16"};
    static const unsigned counts[] = {1, 2, 3, 4, 8, 16};
    for (size_t i = 0; i < sizeof numbers / sizeof *numbers; i++) {
        size_t length = strlen(numbers[i].name);
        if (length > n || strncmp(name, numbers[i].name, length)) continue;
        for (size_t k = 0; k < sizeof counts / sizeof *counts; k++) {
            if (strlen(lanes[k]) != n - length || strncmp(name + length, lanes[k], n - length)) continue;
            *e = numbers[i];
            e->lanes = counts[k];
            return true;
        }
    }
    return false;
}

static size_t stored_lanes(const element *e) { return e->lanes == 3 ? 4 : e->lanes; }
size_t element_size(const element *e) { return e->width * stored_lanes(e); }
size_t number_offset(const element *e, size_t number) {
    return (number / e->lanes * stored_lanes(e) + number % e->lanes) * e->width;
}

void put_element_name(char *room, size_t n, const element *e) {
    if (e->lanes == 1) snprintf(room, n, "%s", e->name);
    else snprintf(room, n, "%s%u", e->name, e->lanes);
}

// ---- whole numbers ----

static int digit_of(char c) {
    if (c >= '0' && c <= '9') return c - '0';
    if (c >= 'a' && c <= 'f') return c - 'a' + 10;
    return c >= 'A' && c <= 'F' ? c - 'A' + 10 : 16;
}

// Digits up to the end of a text of n bytes. What 64 bits don't hold is told, and is a number all the same.
static number_state read_digits(const char *text, size_t n, bool is_hex, uint64_t *to) {
    bool has_mark = n > 2 && text[0] == '0' && (text[1] == 'x' || text[1] == 'X'), fits = true;
    unsigned base = is_hex || has_mark ? 16 : 10;
    size_t at = has_mark ? 2 : 0;
    if (at == n) return IS_NO_NUMBER;
    *to = 0;
    for (; at < n; at++) {
        unsigned digit = (unsigned)digit_of(text[at]);
        if (digit >= base) return IS_NO_NUMBER;
        fits = fits && !__builtin_mul_overflow(*to, base, to) && !__builtin_add_overflow(*to, digit, to);
    }
    return fits ? IS_NUMBER : DOES_NOT_FIT;
}

bool read_count(const char *text, size_t n, uint64_t *to) { return read_digits(text, n, false, to) == IS_NUMBER; }

static __int128 least_of(const element *e) {
    return e->kind == SIGNED_NUMBER ? -((__int128)1 << (8 * e->width - 1)) : 0;
}
static __int128 greatest_of(const element *e) {
    return ((__int128)1 << (8 * e->width - (e->kind == SIGNED_NUMBER))) - 1;
}

bool store_integer(__int128 value, const element *e, unsigned char *to) {
    if (value < least_of(e) || value > greatest_of(e)) return false;
    uint64_t bits = (uint64_t)value;
    memcpy(to, &bits, e->width); // (the machine's order of bytes is the device's)
    return true;
}

__int128 integer_at(const element *e, const unsigned char *at) {
    uint64_t bits = 0;
    memcpy(&bits, at, e->width);
    __int128 value = bits;
    return value > greatest_of(e) ? value - ((__int128)1 << (8 * e->width)) : value;
}

static number_state read_integer(const char *text, const element *e, bool is_hex, unsigned char *to) {
    bool is_negative = *text == '-';
    uint64_t size;
    text += is_negative || *text == '+';
    number_state state = read_digits(text, strlen(text), is_hex, &size);
    if (state != IS_NUMBER) return state;
    return store_integer(is_negative ? -(__int128)size : (__int128)size, e, to) ? IS_NUMBER : DOES_NOT_FIT;
}

// ---- floating point ----

bool store_floating(double value, const element *e, unsigned char *to) {
    float narrow = (float)value;
    uint16_t half = half_of(value);
    memcpy(to, e->width == 2 ? (void *)&half : e->width == 4 ? (void *)&narrow : (void *)&value, e->width);
    return isinf(value) || !isinf(floating_at(e, to));
}

double floating_at(const element *e, const unsigned char *at) {
    uint64_t bits = 0;
    memcpy(&bits, at, e->width);
    return floating_of(bits, e->width);
}

// Reads a number towards a direction. What is behind it goes into `end`.
static double read_towards(int direction, const char *text, char **end) {
    int before = fegetround();
    fesetround(direction);
    double value = strtod(text, end);
    fesetround(before);
    return value;
}

// The double that a text is, or that of the two beside it whose last bit is 1. (So one that is rounded once more, to
// fewer bits, is what the text itself is rounded to.)
static double read_odd(const char *text, char **end) {
    double below = read_towards(FE_DOWNWARD, text, end), above = read_towards(FE_UPWARD, text, end);
    uint64_t bits;
    memcpy(&bits, &below, sizeof bits);
    return bits & 1 ? below : above;
}

// Whether a number of n bytes has a point or an exponent, and so may have a suffix (C99, 6.4.4.2).
static bool has_point(const char *text, size_t n) {
    bool is_hex = n > 1 && *text == '0' && tolower((unsigned char)text[1]) == 'x';
    for (size_t i = 0; i < n; i++)
        if (tolower((unsigned char)text[i]) == (is_hex ? 'p' : 'e') || (!is_hex && text[i] == '.')) return true;
    return false;
}

// The number that a text is, as near to it as the type has one.
static number_state read_floating(const char *text, const element *e, unsigned char *to) {
    char *end;
    if (!*text || strspn(text, " \t\n\r\v\f")) return IS_NO_NUMBER;
    double value = e->width == sizeof(double) ? strtod(text, &end) : read_odd(text, &end);
    bool is_signed = *text == '-' || *text == '+';
    const char *digits = text + is_signed;
    bool has_suffix = tolower((unsigned char)*end) == 'f' && has_point(digits, (size_t)(end - digits));
    if (end == text || end[has_suffix]) return IS_NO_NUMBER;
    // (a float's number is a float, also where a double is given by it)
    if (has_suffix && e->width == sizeof(double)) value = (double)(float)read_odd(text, &end);
    bool says_infinite = tolower((unsigned char)*digits) == 'i', is_infinite = isinf(value);
    return store_floating(value, e, to) && is_infinite == says_infinite ? IS_NUMBER : DOES_NOT_FIT;
}

// ---- both ----

number_state take_number(const char *text, const element *e, bool is_hex, unsigned char *to) {
    return e->kind == FLOATING_NUMBER ? read_floating(text, e, to) : read_integer(text, e, is_hex, to);
}

void put_bounds(char *room, size_t n, const element *e) {
    if (e->kind == FLOATING_NUMBER)
        snprintf(room, n, "up to %s", e->width == 2 ? "65504" : e->width == 4 ? "3.4e38" : "1.8e308");
    else if (e->kind == UNSIGNED_NUMBER) snprintf(room, n, "0 to %" PRIu64, (uint64_t)greatest_of(e));
    else snprintf(room, n, "%" PRId64 " to %" PRId64, (int64_t)least_of(e), (int64_t)greatest_of(e));
}

void put_number(char *room, size_t n, const element *e, bool is_hex, const unsigned char *at) {
    uint64_t bits = 0;
    if (e->kind == FLOATING_NUMBER)
        snprintf(room, n, "%.*g", e->width == 2 ? 5 : e->width == 4 ? 9 : 17, floating_at(e, at));
    else if (is_hex) {
        memcpy(&bits, at, e->width);
        snprintf(room, n, "0x%0*" PRIx64, (int)(2 * e->width), bits);
    } else if (e->kind == UNSIGNED_NUMBER) snprintf(room, n, "%" PRIu64, (uint64_t)integer_at(e, at));
    else snprintf(room, n, "%" PRId64, (int64_t)integer_at(e, at));
}
