// Bytes as pairs of hexadecimal digits, as the lines of commands and replies have them.
#ifndef CLSIM_DIGITS_H
#define CLSIM_DIGITS_H
#include <stddef.h>

// Writes two digits for each of n bytes.
void put_digits(char *digits, const unsigned char *bytes, size_t n);
// Writes the n bytes that pairs of digits stand for.
void take_digits(unsigned char *bytes, const char *digits, size_t n);
#endif
