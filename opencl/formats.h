// Formats of printf (OpenCL 1.2, 6.12.13), part by part, and the calls of printf that a kernel has.
#ifndef CLSIM_FORMATS_H
#define CLSIM_FORMATS_H
#include <locale.h>
#include <stdbool.h>
#include <stddef.h>
#include <stdint.h>

typedef enum { END_OF_FORMAT, PLAIN_PART, CONVERSION_PART, UNKNOWN_PART } format_part_kind;

typedef struct {
    const char *at; // of a plain part its bytes
    size_t length;
    char flags[8];
    int width, precision; // -1 where there is none
    unsigned count;       // of a vector's components, 0 of a number
    unsigned bytes;       // by `hh` 1, by `h` 2, by `hl` 4, by `l` 8; 0 without such
    char letter;
} format_part;

// The part that begins at `*at`, which is then behind it. A part is unknown that 6.12.13 hasn't, and `%p`: there are no
// addresses here.
format_part_kind next_part(const char **at, const char *end, format_part *part);

typedef enum { PRINTED_WHOLE, PRINTED_FLOAT, PRINTED_TEXT } printed_kind;

// An argument of a call: a number or a vector of `count`, or the number of one of the call's texts.
typedef struct {
    printed_kind kind;
    unsigned width, count; // of a number in bytes; how many numbers
    bool is_signed;
} printed_argument;

typedef struct {
    const char *format;
    size_t length;
    printed_argument *arguments;
    unsigned argument_count;
    const char **texts;
    unsigned text_count;
} printed_call;

// How many words of 32 bits an argument has.
unsigned words_of(const printed_argument *a);
// The number that the bits of a half, a float or a double are.
double floating_of(uint64_t bits, unsigned width);
// The bits of the half that is nearest to a number, of two the even one (IEEE 754-2008, 4.3.1).
uint16_t half_of(double value);
// Numbers are written as in C, whatever the client's locale is, between these two.
locale_t begin_c_locale(void);
void end_c_locale(locale_t before);
// Whether a conversion prints it.
bool takes(const format_part *part, const printed_argument *a);
#endif
