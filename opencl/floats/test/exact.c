// The exact operations: addition to square root, fused multiplication and addition, comparisons, conversions.
//   exact [COUNT [SEED]]   all arguments of a format of 8 bits, and COUNT arguments by chance of float and double
//   exact chance COUNT [SEED]   only those by chance
//   exact all [PART PARTS]      all arguments of the operations of one float, or of PARTS parts the one of this number
//                               from 0: an hour or two for the whole; the largest error of rsqrt is told, too
// The last line tells how many answers were wrong; the status is 0 where none was.
#include "floats.cl"
#include "tiny.cl"

#include "tests.h"
#include <fenv.h>
#include <math.h>
#include <stdlib.h>
#include <string.h>

#define REAL float
#define WORD uint
#define WIDTH 32
#define FRACTION 23
#define H(NAME) float_##NAME
#define M(NAME) NAME##f
#define EACH(NAME) host_float_##NAME
#include "against_host.h"
#undef REAL
#undef WORD
#undef WIDTH
#undef FRACTION
#undef H
#undef M
#undef EACH

#define REAL double
#define WORD ulong
#define WIDTH 64
#define FRACTION 52
#define H(NAME) double_##NAME
#define M(NAME) NAME
#define EACH(NAME) host_double_##NAME
#include "against_host.h"
#undef H
#undef M
#undef EACH

// ---- between formats ----

static void want_between(const char *operation, ulong a, int mode, ulong came, ulong wanted) {
    ulong arguments[] = {a, (ulong)mode, 0};
    if (came != wanted) tell(operation, arguments, came, wanted);
}

static void test_widened(uint a) {
    host_double_want("double_from_float", a, 0, 0, double_from_float(a), (double)host_float_value(a));
}

static void test_narrowed(ulong a) {
    for (int mode = 0; mode < 4; mode++) {
        fesetround(host_double_directions[mode]);
        volatile double x = host_double_value(a);
        volatile float wanted = (float)x;
        fesetround(FE_TONEAREST);
        host_float_want("float_from_double", a, (ulong)mode, 0, float_from_double(mode, a), wanted);
    }
}

// A half's magnitude, by its definition.
static double half_value(uint bits) {
    uint exponent = bits >> 10, fraction = bits & 1023;
    return exponent ? ldexp(1024 + fraction, (int)exponent - 25) : ldexp(fraction, -24);
}

// The bits of the half that x is rounded to; the half `low` is the last that isn't above it.
static uint half_rounded(int mode, uint sign, uint low, double x) {
    double below = x - half_value(low), above = half_value(low + 1) - x;
    bool up = mode == 0 ? above < below || (above == below && low % 2) : below > 0 && mode == (sign ? 3 : 2);
    return sign | (low + up);
}

// The same, found by halving.
static uint half_bits(int mode, double x) {
    if (isnan(x)) return 0x7e00;
    uint sign = signbit(x) ? 0x8000 : 0, low = 0, high = 0x7c00;
    x = fabs(x);
    if (isinf(x)) return sign | high;
    while (high - low > 1) {
        uint middle = (low + high) / 2;
        if (half_value(middle) <= x) low = middle;
        else high = middle;
    }
    return half_rounded(mode, sign, low, x);
}

static void test_halved(uint a, ulong b) {
    for (int mode = 0; mode < 4; mode++) {
        want_between("half_from_float", a, mode, half_from_float(mode, a), half_bits(mode, host_float_value(a)));
        want_between("half_from_double", b, mode, half_from_double(mode, b), half_bits(mode, host_double_value(b)));
    }
}

// A double near a half, or near the middle of two.
static ulong near_half(void) {
    ulong bits = double_from_float(float_from_half((ushort)chance()));
    return bits + (chance() & 1) * (1ul << 41) + chance() % 3 - 1;
}

// The quotient by products alone (floats/common.cl) is that of the unit.
static void test_quotients(unsigned long count) {
    for (unsigned long i = 0; i < count; i++) {
        ulong x = chance() >> chance() % 64, y = chance() >> chance() % 64;
        if (chance() % 4 == 0) x = ~0ul >> chance() % 64;
        if (chance() % 4 == 0) y = 1ul << chance() % 64;
        if (chance() % 4 == 0) x = x / (y | !y) * (y | !y) - chance() % 2;
        if (y) want_between("whole_quotient", x, 0, whole_quotient(x, y), x / y);
    }
}

static void test_between(unsigned long count) {
    for (uint a = 0; a < 0x10000; a++) {
        double sign = a & 0x8000 ? -1 : 1, magnitude = half_value(a & 0x7fff);
        if ((a & 0x7fff) >= 0x7c00) magnitude = a & 0x3ff ? (double)NAN : INFINITY;
        host_float_want("float_from_half", a, 0, 0, float_from_half((ushort)a), (float)(sign * magnitude));
        if ((a & 0x7fff) <= 0x7c00) want_between("half and back", a, 0, half_from_float(0, float_from_half((ushort)a)), a);
    }
    for (unsigned long i = 0; i < count; i++) {
        ulong a = chosen(64, 52, chance()), b = chosen(32, 23, chance());
        test_widened((uint)b);
        test_narrowed(a);
        test_narrowed(double_from_float((uint)b) + (chance() & 1) * (1ul << 28) + chance() % 3 - 1);
        test_halved((uint)b, a);
        ulong near = near_half();
        test_halved(float_from_double(1, near), near);
    }
}

// ---- the format of 8 bits: the nearest of all its values, found by a table of them ----

static double tiny_value(uint bits) {
    double sign = bits & 0x80 ? -1 : 1;
    uint exponent = bits >> 3 & 15, fraction = bits & 7;
    if (exponent == 15) return fraction ? (double)NAN : sign * INFINITY;
    return sign * (exponent ? ldexp(8 + fraction, (int)exponent - 10) : ldexp(fraction, -9));
}

static double magnitudes[0x79];

// The bits of the value nearest to x; of two that are as near those of the even one.
static uint tiny_bits(double x) {
    if (isnan(x)) return 0x7c;
    uint sign = signbit(x) ? 0x80 : 0, low = 0, high = 0x78;
    x = fabs(x);
    while (high - low > 1) {
        uint middle = (low + high) / 2;
        if (magnitudes[middle] <= x) low = middle;
        else high = middle;
    }
    double below = x - magnitudes[low], above = magnitudes[high] - x;
    return sign | (below < above || (below == above && low % 2 == 0) ? low : high);
}

// Infinity stands where the next value would (IEEE 754-2008, 4.3.1).
static void fill_magnitudes(void) {
    for (uint i = 0; i < 0x78; i++) magnitudes[i] = tiny_value(i);
    magnitudes[0x78] = 256;
}

static double copysign_of_zero(double x, double sign) { return x == 0 ? copysign(0, sign) : x; }

#define H(NAME) tiny32_##NAME
#define EACH(NAME) test_tiny32_##NAME
#include "tiny.h"
#undef H
#undef EACH
#define H(NAME) tiny64_##NAME
#define EACH(NAME) test_tiny64_##NAME
#include "tiny.h"

// ---- all floats ----

// The largest error of rsqrt in units of the last place, and the bits of its argument.
static double worst_root;
static uint worst_root_of;

static void note_root(uint a) {
    long double root = 1 / sqrtl((long double)host_float_value(a));
    double error = (double)fabsl((long double)host_float_value(float_rsqrt(a)) - root);
    error = ldexp(error, 23 - ilogbl(root));
    if (error > worst_root) {
        worst_root = error;
        worst_root_of = a;
    }
}

// The last half that isn't above the number of these bits. They ascend from call to call.
static uint last_half(double x) {
    static uint low;
    while (low < 0x7bff && half_value(low + 1) <= x) low++;
    return low;
}

static void test_every_half(uint a, uint low) {
    float x = host_float_value(a);
    for (int mode = 0; mode < 4; mode++) {
        uint wanted = 0x7e00, sign = a >> 31 << 15;
        if (isinf(x)) wanted = sign | 0x7c00;
        else if (!isnan(x)) wanted = half_rounded(mode, sign, low, fabs((double)x));
        want_between("half_from_float", a, mode, half_from_float(mode, a), wanted);
    }
}

static void test_every(uint a) {
    float x = host_float_value(a);
    host_float_one_argument(a);
    host_float_to_ints(a);
    host_float_from_ints(a);
    host_double_from_ints(a);
    host_double_want("double_from_float", a, 0, 0, double_from_float(a), (double)x);
    long whole = x != x ? 0 : x >= 0x1p63f ? INT64_MAX : x <= -0x1p63f ? INT64_MIN : (long)x;
    want_between("to_signed", a, 1, (ulong)float_to_signed(1, a, INT64_MAX), (ulong)whole);
    want_between("float and back", a, 0, float_from_double(0, double_from_float(a)), x != x ? 0x7fc00000 : a);
}

static int test_all(ulong part, ulong parts) {
    ulong first = (part << 31) / parts, end = ((part + 1) << 31) / parts;
    for (ulong a = first; a < end; a++) {
        uint low = last_half(host_float_value((uint)a)), negative = (uint)a | 0x80000000;
        test_every((uint)a);
        test_every(negative);
        test_every_half((uint)a, low);
        test_every_half(negative, low);
        if (a > 0 && a < 0x7f800000) note_root((uint)a);
    }
    printf("exact: all floats, part %lu of %lu, %lu wrong; rsqrt errs by at most %.4f ulp, of %#x\n", part, parts,
           failures, worst_root, worst_root_of);
    return failures != 0;
}

int main(int argc, char **argv) {
    if (argc > 1 && strcmp(argv[1], "all") == 0)
        return argc > 3 ? test_all(strtoul(argv[2], NULL, 10), strtoul(argv[3], NULL, 10)) : test_all(0, 1);
    bool is_by_chance = argc > 1 && strcmp(argv[1], "chance") == 0;
    argv += is_by_chance;
    argc -= is_by_chance;
    unsigned long count = argc > 1 ? strtoul(argv[1], NULL, 10) : 100000;
    set_seed(argc > 2 ? strtoul(argv[2], NULL, 10) : 1);
    fill_magnitudes();
    if (!is_by_chance) {
        test_tiny32_test();
        test_tiny64_test();
    }
    host_float_test(count);
    host_double_test(count);
    test_between(count);
    test_quotients(count);
    printf("exact: %lu arguments by chance, %lu wrong\n", count, failures);
    return failures != 0;
}
