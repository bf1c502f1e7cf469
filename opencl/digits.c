#include "digits.h"

// Whole blocks go by loops of a constant length without a branch, which compilers turn into vectors.
enum { BLOCK = 64 };

static char digit(unsigned char value) { return (char)(value + (value < 10 ? '0' : 'a' - 10)); }

// Of '0' to '9' and 'a' to 'f'.
static unsigned char value(char digit) { return (unsigned char)((digit & 15) + (digit >> 6) * 9); }

static void put_block(char *restrict digits, const unsigned char *restrict bytes) {
    for (int i = 0; i < BLOCK; i++) {
        digits[2 * i] = digit(bytes[i] >> 4);
        digits[2 * i + 1] = digit(bytes[i] & 15);
    }
}

static void take_block(unsigned char *restrict bytes, const char *restrict digits) {
    for (int i = 0; i < BLOCK; i++) bytes[i] = (unsigned char)(value(digits[2 * i]) << 4 | value(digits[2 * i + 1]));
}

void put_digits(char *digits, const unsigned char *bytes, size_t n) {
    for (; n >= BLOCK; n -= BLOCK, bytes += BLOCK, digits += 2 * BLOCK) put_block(digits, bytes);
    for (size_t i = 0; i < n; i++) {
        digits[2 * i] = digit(bytes[i] >> 4);
        digits[2 * i + 1] = digit(bytes[i] & 15);
    }
}

void take_digits(unsigned char *bytes, const char *digits, size_t n) {
    for (; n >= BLOCK; n -= BLOCK, bytes += BLOCK, digits += 2 * BLOCK) take_block(bytes, digits);
    for (size_t i = 0; i < n; i++) bytes[i] = (unsigned char)(value(digits[2 * i]) << 4 | value(digits[2 * i + 1]));
}
