// Writes the table that rows/numbers.py compares with: a line for each case, as
//     OPERATOR TYPE NUMBER [TYPE NUMBER] : TYPE NUMBER
// or with `zero` or `overflow` after the `:` for a division that has no result. Types are c, s, i and l for char,
// short, int and long, in capitals for the unsigned ones. gcc computes each case by its own promotions, conversions and
// operators; only what C leaves undefined is written out here: divisions that fault, and shift counts modulo the width.
//
//     gcc -O1 -fwrapv -w -o table table.c && ./table
#include <stdint.h>
#include <stdio.h>

typedef int8_t c;
typedef uint8_t C;
typedef int16_t s;
typedef uint16_t S;
typedef int32_t i;
typedef uint32_t I;
typedef int64_t l;
typedef uint64_t L;

#define EACH_TYPE(X) X(c) X(C) X(s) X(S) X(i) X(I) X(l) X(L)

#define LETTER(x) \
    _Generic((x), c: 'c', C: 'C', s: 's', S: 'S', i: 'i', I: 'I', l: 'l', L: 'L')

static void number(char type, uint64_t bits) {
    if (type == 'c' || type == 's' || type == 'i' || type == 'l')
        printf("%c %lld", type, (long long)bits);
    else
        printf("%c %llu", type, (unsigned long long)bits);
}

// Each signed type is widened with its sign, each unsigned one with zeros.
#define NUMBER(x) number(LETTER(x), (uint64_t)(x))

static uint64_t state = 88172645463325252u;

static uint64_t next(void) {
    state ^= state << 13;
    state ^= state >> 7;
    state ^= state << 17;
    return state;
}

// A corner of a width, or any bits.
static uint64_t pick(int width) {
    uint64_t half = (uint64_t)1 << (width - 1);
    switch (next() % 9) {
    case 0: return 0;
    case 1: return 1;
    case 2: return ~(uint64_t)0;
    case 3: return half;
    case 4: return half - 1;
    case 5: return half + 1;
    case 6: return next() % (2 * (uint64_t)width);
    default: return next();
    }
}

#define PICK(T) (T)pick(sizeof(T) * 8)

#define BEGIN(name, a, b) \
    do { \
        printf("%s ", name); \
        NUMBER(a); \
        printf(" "); \
        NUMBER(b); \
        printf(" : "); \
    } while (0)

#define CASE(name, a, b, result) \
    do { \
        BEGIN(name, a, b); \
        NUMBER(result); \
        printf("\n"); \
    } while (0)

#define DIVISION(name, a, b, op) \
    do { \
        __typeof__((a) + (b)) x = (a), y = (b); \
        BEGIN(name, a, b); \
        if (y == 0) \
            printf("zero"); \
        else if ((__typeof__(x))-1 < 0 && y == (__typeof__(x))-1 && \
                 x == (__typeof__(x))((uint64_t)1 << (sizeof x * 8 - 1))) \
            printf("overflow"); \
        else \
            NUMBER((a) op (b)); \
        printf("\n"); \
    } while (0)

#define COUNT(a, b) ((b) & (sizeof(+(a)) * 8 - 1))

#define BINARY(TA, TB) \
    static void binary_##TA##_##TB(void) { \
        for (int k = 0; k < 2; k++) { \
            TA a = PICK(TA); \
            TB b = PICK(TB); \
            CASE("+", a, b, a + b); \
            CASE("-", a, b, a - b); \
            CASE("*", a, b, a * b); \
            DIVISION("/", a, b, /); \
            DIVISION("%", a, b, %); \
            CASE("<<", a, b, a << COUNT(a, b)); \
            CASE(">>", a, b, a >> COUNT(a, b)); \
            CASE("<", a, b, a < b); \
            CASE(">", a, b, a > b); \
            CASE("<=", a, b, a <= b); \
            CASE(">=", a, b, a >= b); \
            CASE("==", a, b, a == b); \
            CASE("!=", a, b, a != b); \
            CASE("&", a, b, a & b); \
            CASE("^", a, b, a ^ b); \
            CASE("|", a, b, a | b); \
        } \
        TA a = PICK(TA); \
        printf("as "); \
        NUMBER(a); \
        printf(" : "); \
        NUMBER((TB)a); \
        printf("\n"); \
    }

#define EACH_SECOND(TA) \
    BINARY(TA, c) BINARY(TA, C) BINARY(TA, s) BINARY(TA, S) BINARY(TA, i) BINARY(TA, I) BINARY(TA, l) BINARY(TA, L)
EACH_TYPE(EACH_SECOND)

#define ONE(name, a, result) \
    do { \
        printf("%s ", name); \
        NUMBER(a); \
        printf(" : "); \
        NUMBER(result); \
        printf("\n"); \
    } while (0)

#define UNSIGNED(x) \
    _Generic((x), c: (C)(x), C: (C)(x), s: (S)(x), S: (S)(x), i: (I)(x), I: (I)(x), l: (L)(x), L: (L)(x))

static int clz(uint64_t bits, int width) {
    int zeros = 0;
    for (int k = width - 1; k >= 0 && !(bits >> k & 1); k--)
        zeros++;
    return zeros;
}

#define SINGLE(T) \
    static void single_##T(void) { \
        int width = sizeof(T) * 8; \
        for (int k = 0; k < 7; k++) { \
            T a = PICK(T), b = PICK(T); \
            __typeof__(UNSIGNED(a)) bits = a; \
            int count = b & (width - 1); \
            ONE("plus", a, +a); \
            ONE("negate", a, -a); \
            ONE("~", a, ~a); \
            ONE("!", a, !a); \
            ONE("abs", a, (__typeof__(bits))(a < 0 ? -a : a)); \
            ONE("clz", a, (T)clz(bits, width)); \
            ONE("popcount", a, (T)__builtin_popcountll(bits)); \
            CASE("min", a, b, (T)(b < a ? b : a)); \
            CASE("max", a, b, (T)(a < b ? b : a)); \
            CASE("rotate", a, b, \
                 (T)(count == 0 ? bits : (__typeof__(bits))(bits << count | bits >> (width - count)))); \
        } \
    }
EACH_TYPE(SINGLE)

#define RUN(TA) \
    binary_##TA##_c(); binary_##TA##_C(); binary_##TA##_s(); binary_##TA##_S(); \
    binary_##TA##_i(); binary_##TA##_I(); binary_##TA##_l(); binary_##TA##_L(); \
    single_##TA();

// The quotients that no type holds, and their neighbours that one does.
#define LEAST(TA, TB) \
    do { \
        TA a = (TA)((uint64_t)1 << (sizeof(TA) * 8 - 1)); \
        TB b = (TB)-1; \
        DIVISION("/", a, b, /); \
        DIVISION("%", a, b, %); \
    } while (0)
#define EACH_DIVISOR(TA) LEAST(TA, c); LEAST(TA, s); LEAST(TA, i); LEAST(TA, I); LEAST(TA, l); LEAST(TA, L);

int main(void) {
    EACH_TYPE(RUN)
    EACH_TYPE(EACH_DIVISOR)
    return 0;
}
