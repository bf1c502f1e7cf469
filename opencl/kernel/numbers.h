// Numbers of OpenCL C's types: from texts to bytes, and back.
#ifndef CLSIM_KERNEL_NUMBERS_H
#define CLSIM_KERNEL_NUMBERS_H
#include <stdbool.h>
#include <stddef.h>
#include <stdint.h>

typedef enum { SIGNED_NUMBER, UNSIGNED_NUMBER, FLOATING_NUMBER } number_kind;

// A number, or a vector of several (OpenCL 1.2, 6.1.1 and 6.1.2).
typedef struct {
    const char *name; // of the type of a number
    number_kind kind;
    unsigned width; // bytes of a number: 1, 2, 4 or 8
    unsigned lanes; // numbers of an element: 1, 2, 3, 4, 8 or 16
} element;

// The type of a name of n bytes: char to ulong, half, float, double, and vectors of them. False for any other.
bool element_named(const char *name, size_t n, element *e);
// The bytes of an element. A vector of 3 is as large as one of 4 (6.1.5).
size_t element_size(const element *e);
// Where a number lies, counted over all elements.
size_t number_offset(const element *e, size_t number);
// The name with its lanes: `int4`.
void put_element_name(char *room, size_t n, const element *e);

typedef enum { IS_NUMBER, IS_NO_NUMBER, DOES_NOT_FIT } number_state;
// Reads a number of `e`: decimal, or hexadecimal behind 0x or where it is always so; of floating point as C has it,
// with an `f` behind it or without. Its bytes go into `to`.
number_state take_number(const char *text, const element *e, bool is_hex, unsigned char *to);
// The same of a number in two's complement, with its sign. False where the type has none so large.
bool store_integer(__int128 value, const element *e, unsigned char *to);
bool store_floating(double value, const element *e, unsigned char *to);
__int128 integer_at(const element *e, const unsigned char *at);
double floating_at(const element *e, const unsigned char *at);
// What a number of a type may be, for messages: `-128 to 127`.
void put_bounds(char *room, size_t n, const element *e);
// A number's text, which `take_number` reads again.
void put_number(char *room, size_t n, const element *e, bool is_hex, const unsigned char *at);

// A whole number without a sign, decimal or behind 0x. False where the text is none, or 64 bits don't hold it.
bool read_count(const char *text, size_t n, uint64_t *to);
#endif
