// Formats of printf.
#define _GNU_SOURCE
#include "formats.h"
#include <math.h>
#include <string.h>

enum { MOST_DIGITS = 6 }; // of a width or a precision

static bool is_digit(char c) { return c >= '0' && c <= '9'; }

// A number at `*at`; -1 where it is too long.
static int number_at(const char **at, const char *end) {
    int n = 0;
    for (unsigned digits = 0; *at < end && is_digit(**at); (*at)++) {
        if (++digits > MOST_DIGITS) return -1;
        n = 10 * n + (**at - '0');
    }
    return n;
}

static bool begins_with(const char **at, const char *end, const char *word) {
    size_t n = strlen(word);
    if ((size_t)(end - *at) < n || memcmp(*at, word, n)) return false;
    *at += n;
    return true;
}

static bool is_vector_length(int n) { return n == 2 || n == 3 || n == 4 || n == 8 || n == 16; }

// What stands behind the `%`, without its letter.
static bool read_head(const char **at, const char *end, format_part *part) {
    static const struct {
        const char *word;
        unsigned bytes;
    } modifiers[] = {{"hh", 1}, {"hl", 4}, {"h", 2}, {"l", 8}};
    unsigned flags = 0;
    for (; *at < end && **at && strchr("-+ #0", **at); (*at)++)
        if (!memchr(part->flags, **at, flags)) part->flags[flags++] = **at;
    if (*at < end && is_digit(**at)) {
        part->width = number_at(at, end);
        if (part->width < 0) return false;
    }
    if (begins_with(at, end, ".")) {
        part->precision = number_at(at, end);
        if (part->precision < 0) return false;
    }
    if (begins_with(at, end, "v")) {
        int count = number_at(at, end);
        if (!is_vector_length(count)) return false;
        part->count = (unsigned)count;
    }
    for (unsigned i = 0; i < sizeof modifiers / sizeof *modifiers && !part->bytes; i++)
        if (begins_with(at, end, modifiers[i].word)) part->bytes = modifiers[i].bytes;
    return true;
}

format_part_kind next_part(const char **at, const char *end, format_part *part) {
    const char *begin = *at;
    *part = (format_part){.at = begin, .width = -1, .precision = -1};
    if (begin == end) return END_OF_FORMAT;
    if (begins_with(at, end, "%%")) {
        part->length = 1;
        return PLAIN_PART;
    }
    if (*begin != '%') {
        const char *sign = memchr(begin, '%', (size_t)(end - begin));
        *at = sign ? sign : end;
        part->length = (size_t)(*at - begin);
        return PLAIN_PART;
    }
    ++*at;
    if (!read_head(at, end, part) || *at == end) return UNKNOWN_PART;
    part->letter = *(*at)++;
    bool is_known = part->letter && strchr("diouxXfFeEgGaAcs", part->letter);
    if (part->count && (part->letter == 'c' || part->letter == 's')) is_known = false;
    return is_known ? CONVERSION_PART : UNKNOWN_PART;
}

unsigned words_of(const printed_argument *a) {
    return a->kind == PRINTED_TEXT ? 1 : a->count * (a->width == 8 ? 2 : 1);
}

static double number_of_half(uint64_t bits) {
    int exponent = (int)(bits >> 10 & 31), part = (int)(bits & 1023);
    double size = ldexp(exponent ? part + 1024 : part, (exponent ? exponent : 1) - 25);
    if (exponent == 31) size = part ? NAN : INFINITY;
    return bits & 0x8000 ? -size : size;
}

double floating_of(uint64_t bits, unsigned width) {
    double d;
    float f;
    uint32_t lower = (uint32_t)bits;
    if (width == 2) return number_of_half(bits);
    memcpy(&f, &lower, sizeof f);
    memcpy(&d, &bits, sizeof d);
    return width == 4 ? (double)f : d;
}

uint16_t half_of(double value) {
    uint16_t sign = signbit(value) ? 0x8000 : 0;
    int exponent;
    if (!value) return sign;
    if (isnan(value)) return sign | 0x7e00;
    if (fabs(value) >= 65520) return sign | 0x7c00;
    double size = frexp(fabs(value), &exponent);
    int below = exponent < -13 ? -13 - exponent : 0; // (a step of 2^-24 is the least)
    // in steps of the last bit, as a sum that has no bit below it
    int steps = (int)(ldexp(size, 11 - below) + 0x1p52 - 0x1p52);
    // (2048 steps count one of the exponent by themselves)
    return sign | (uint16_t)((exponent + below + 13) * 1024 + steps);
}

locale_t begin_c_locale(void) {
    static locale_t c;
    if (!c) c = newlocale(LC_ALL_MASK, "C", NULL);
    return c ? uselocale(c) : NULL;
}

void end_c_locale(locale_t before) {
    if (before) uselocale(before);
}

bool takes(const format_part *part, const printed_argument *a) {
    if ((part->count ? part->count : 1) != a->count) return false;
    if (part->letter == 's') return a->kind == PRINTED_TEXT;
    return a->kind == (strchr("diouxXc", part->letter) ? PRINTED_WHOLE : PRINTED_FLOAT);
}
