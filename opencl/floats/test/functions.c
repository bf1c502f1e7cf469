// The elementary functions against MPFR.
//   functions [COUNT [SEED [NAME]]]   COUNT arguments by chance for each function, or for that of this name
// A line for each function and format: the largest error in ulp, and where. The status is 0 where no error is above the
// bound of OpenCL 1.2, 7.4, and what isn't finite is as it should be.
#include "floats.cl"

#include "tests.h"
#include <math.h>
#include <mpfr.h>
#include <string.h>

static float float_value(uint bits) {
    float value;
    memcpy(&value, &bits, sizeof value);
    return value;
}
static double double_value(ulong bits) {
    double value;
    memcpy(&value, &bits, sizeof value);
    return value;
}
static uint float_bits(float value) {
    uint bits;
    memcpy(&bits, &value, sizeof bits);
    return bits;
}
static ulong double_bits(double value) {
    ulong bits;
    memcpy(&bits, &value, sizeof bits);
    return bits;
}

typedef int exact(mpfr_t, const mpfr_t, mpfr_rnd_t);
typedef int exact_two(mpfr_t, const mpfr_t, const mpfr_t, mpfr_rnd_t);
typedef int exact_whole(mpfr_t, const mpfr_t, long, mpfr_rnd_t);

// ---- what MPFR 4.0 hasn't ----

static mpfr_t pi;

static int exact_sinpi(mpfr_t y, const mpfr_t x, mpfr_rnd_t r) {
    mpfr_t z;
    mpfr_init2(z, 2200);
    mpfr_fmod_ui(z, x, 2, MPFR_RNDN);
    mpfr_mul(z, z, pi, MPFR_RNDN);
    int inexact = mpfr_sin(y, z, r);
    mpfr_clear(z);
    return inexact;
}
static int exact_cospi(mpfr_t y, const mpfr_t x, mpfr_rnd_t r) {
    mpfr_t z;
    mpfr_init2(z, 2200);
    mpfr_fmod_ui(z, x, 2, MPFR_RNDN);
    mpfr_mul(z, z, pi, MPFR_RNDN);
    int inexact = mpfr_cos(y, z, r);
    mpfr_clear(z);
    return inexact;
}
static int exact_tanpi(mpfr_t y, const mpfr_t x, mpfr_rnd_t r) {
    mpfr_t z;
    mpfr_init2(z, 2200);
    mpfr_fmod_ui(z, x, 2, MPFR_RNDN);
    // Poles and zeros by OpenCL 1.2, 7.5.1.
    int inexact = 0;
    double rest = mpfr_get_d(z, MPFR_RNDN);
    if (fabs(rest) == 0.5 || fabs(rest) == 1.5) {
        mpfr_set_inf(y, rest == 0.5 || rest == -1.5 ? 1 : -1);
    } else if (fabs(rest) == 1) {
        mpfr_set_zero(y, rest < 0 ? 1 : -1);
    } else {
        mpfr_mul(z, z, pi, MPFR_RNDN);
        inexact = mpfr_tan(y, z, r);
    }
    mpfr_clear(z);
    return inexact;
}
#define PER_PI(NAME)                                                                  \
    static int exact_##NAME##pi(mpfr_t y, const mpfr_t x, mpfr_rnd_t r) {             \
        mpfr_##NAME(y, x, r);                                                         \
        return mpfr_div(y, y, pi, r);                                                 \
    }
PER_PI(asin)
PER_PI(acos)
PER_PI(atan)
static int exact_atan2pi(mpfr_t z, const mpfr_t y, const mpfr_t x, mpfr_rnd_t r) {
    mpfr_atan2(z, y, x, r);
    return mpfr_div(z, z, pi, r);
}
static int exact_rootn(mpfr_t y, const mpfr_t x, long n, mpfr_rnd_t r) {
    if (n >= 0) return mpfr_rootn_ui(y, x, (unsigned long)n, r);
    mpfr_rootn_ui(y, x, (unsigned long)-n, r);
    return mpfr_ui_div(y, 1, y, r);
}

static int exact_lgamma(mpfr_t y, const mpfr_t x, mpfr_rnd_t r) {
    int sign;
    return mpfr_lgamma(y, &sign, x, r);
}

// ---- arguments ----

enum domain { ANY, EXPONENT, POSITIVE, UNIT_INTERVAL, ANGLE, FACTORIAL };

// A number of a domain, as a double; of a float's range if `is_float`.
static double argument(enum domain domain, bool is_float) {
    double sign = chance() & 1 ? -1 : 1, part = ldexp((double)chance(), -64);
    bool any = chance() % 8 == 0;
    double wide = is_float ? float_value((uint)chosen(32, 23, chance())) : double_value(chosen(64, 52, chance()));
    int most = is_float ? 24 : 53;
    if (any) return domain == POSITIVE ? fabs(wide) : wide;
    switch (domain) {
    case ANY: return wide;
    case EXPONENT: return sign * ldexp(part, (int)(chance() % 12)) * (is_float ? 0.08 : 0.6);
    case POSITIVE: return chance() & 1 ? fabs(wide) : 1 + sign * ldexp(part, -(int)(chance() % (ulong)most));
    case UNIT_INTERVAL:
        return sign * (chance() & 1 ? ldexp(part, -(int)(chance() % 30)) : 1 - ldexp(part, -(int)(chance() % (ulong)most)));
    case ANGLE: return sign * (chance() & 1 ? part * 7 : ldexp(part, (int)(chance() % 70)));
    case FACTORIAL: return sign * part * (is_float ? 40 : 180);
    }
    return wide;
}

// ---- errors ----

static mpfr_t x, y, exact_result, came;
static bool is_wrong;

struct worst {
    double error, first, second;
};

// The error of a number against the exact result in units of the last place of the format; 0 if both are infinite, or
// not numbers, or zeros of the same sign.
static double error_in_ulp(double number, bool is_float) {
    int digits = is_float ? 24 : 53, least = is_float ? -149 : -1074, most = is_float ? 128 : 1024;
    if (mpfr_nan_p(exact_result)) return isnan(number) ? 0 : INFINITY;
    if (isnan(number)) return INFINITY;
    if (mpfr_inf_p(exact_result)) return number == mpfr_get_d(exact_result, MPFR_RNDN) ? 0 : INFINITY;
    if (mpfr_zero_p(exact_result)) return number == 0 && !signbit(number) == !mpfr_signbit(exact_result) ? 0 : INFINITY;
    long exponent = mpfr_get_exp(exact_result);
    long place = exponent - digits < least ? least : exponent - digits;
    if (isinf(number)) {
        if ((number < 0) != (mpfr_sgn(exact_result) < 0)) return INFINITY;
        mpfr_set_si_2exp(came, number < 0 ? -1 : 1, most, MPFR_RNDN);
        if (place > most - digits) return 0;
    } else {
        if (place > most - digits) place = most - digits;
        mpfr_set_d(came, number, MPFR_RNDN);
    }
    mpfr_sub(came, came, exact_result, MPFR_RNDN);
    mpfr_mul_2si(came, came, -place, MPFR_RNDN);
    return fabs(mpfr_get_d(came, MPFR_RNDN));
}

static void note(struct worst *worst, double error, double first, double second) {
    if (error > worst->error) *worst = (struct worst){error, first, second};
}

static void tell_worst(const char *name, const char *format, struct worst worst, double bound) {
    bool bad = !(worst.error <= bound);
    printf("%-8s %-6s %8.4f ulp of %g at %a %a%s\n", name, format, worst.error, bound, worst.first, worst.second,
           bad ? "  WRONG" : "");
    is_wrong |= bad;
}

// ---- the functions ----

struct one {
    const char *name;
    uint (*of_float)(uint);
    ulong (*of_double)(ulong);
    exact *exact;
    enum domain domain;
    double float_bound, double_bound;
};
#define ONE(NAME, EXACT, DOMAIN, F, D) {#NAME, float_##NAME, double_##NAME, EXACT, DOMAIN, F, D}
// The bounds are those of tables 7.1 and 7.2 for the full profile.
static const struct one ones[] = {
    ONE(exp, mpfr_exp, EXPONENT, 3, 3),         ONE(exp2, mpfr_exp2, EXPONENT, 3, 3),
    ONE(exp10, mpfr_exp10, EXPONENT, 3, 3),     ONE(expm1, mpfr_expm1, EXPONENT, 3, 3),
    ONE(log, mpfr_log, POSITIVE, 3, 3),         ONE(log2, mpfr_log2, POSITIVE, 3, 3),
    ONE(log10, mpfr_log10, POSITIVE, 3, 3),     ONE(log1p, mpfr_log1p, UNIT_INTERVAL, 2, 2),
    ONE(sin, mpfr_sin, ANGLE, 4, 4),            ONE(cos, mpfr_cos, ANGLE, 4, 4),
    ONE(tan, mpfr_tan, ANGLE, 5, 5),            ONE(sinpi, exact_sinpi, ANGLE, 4, 4),
    ONE(cospi, exact_cospi, ANGLE, 4, 4),       ONE(tanpi, exact_tanpi, ANGLE, 6, 6),
    ONE(asin, mpfr_asin, UNIT_INTERVAL, 4, 4),  ONE(acos, mpfr_acos, UNIT_INTERVAL, 4, 4),
    ONE(atan, mpfr_atan, ANGLE, 5, 5),          ONE(asinpi, exact_asinpi, UNIT_INTERVAL, 5, 5),
    ONE(acospi, exact_acospi, UNIT_INTERVAL, 5, 5), ONE(atanpi, exact_atanpi, ANGLE, 5, 5),
    ONE(sinh, mpfr_sinh, EXPONENT, 4, 4),       ONE(cosh, mpfr_cosh, EXPONENT, 4, 4),
    ONE(tanh, mpfr_tanh, EXPONENT, 5, 5),       ONE(asinh, mpfr_asinh, ANY, 4, 4),
    ONE(acosh, mpfr_acosh, POSITIVE, 4, 4),     ONE(atanh, mpfr_atanh, UNIT_INTERVAL, 5, 5),
    ONE(erf, mpfr_erf, EXPONENT, 16, 16),       ONE(erfc, mpfr_erfc, EXPONENT, 16, 16),
    ONE(tgamma, mpfr_gamma, FACTORIAL, 16, 16),
    // OpenCL gives no bound for lgamma; below 0, near its zeros, the error of a double is that of 1.
    ONE(lgamma, exact_lgamma, FACTORIAL, 16, INFINITY),
    ONE(rsqrt, mpfr_rec_sqrt, POSITIVE, 2, 2),  ONE(cbrt, mpfr_cbrt, ANY, 2, 2),
};

struct two {
    const char *name;
    uint (*of_float)(uint, uint);
    ulong (*of_double)(ulong, ulong);
    exact_two *exact;
    enum domain first, second;
    double float_bound, double_bound;
};
static const struct two twos[] = {
    {"pow", float_pow, double_pow, mpfr_pow, POSITIVE, EXPONENT, 16, 16},
    {"atan2", float_atan2, double_atan2, mpfr_atan2, ANY, ANY, 6, 6},
    {"atan2pi", float_atan2pi, double_atan2pi, exact_atan2pi, ANY, ANY, 6, 6},
    {"hypot", float_hypot, double_hypot, mpfr_hypot, ANY, ANY, 4, 4},
};

struct whole {
    const char *name;
    uint (*of_float)(uint, int);
    ulong (*of_double)(ulong, int);
    exact_whole *exact;
};
static const struct whole wholes[] = {{"pown", float_pown, double_pown, mpfr_pow_si},
                                      {"rootn", float_rootn, double_rootn, exact_rootn}};

static void test_one(const struct one *row, unsigned long count) {
    struct worst of_float = {0, 0, 0}, of_double = {0, 0, 0};
    for (unsigned long i = 0; i < count; i++) {
        float a = (float)argument(row->domain, true);
        mpfr_set_flt(x, a, MPFR_RNDN);
        row->exact(exact_result, x, MPFR_RNDN);
        note(&of_float, error_in_ulp(float_value(row->of_float(float_bits(a))), true), a, 0);
        double b = argument(row->domain, false);
        mpfr_set_d(x, b, MPFR_RNDN);
        row->exact(exact_result, x, MPFR_RNDN);
        note(&of_double, error_in_ulp(double_value(row->of_double(double_bits(b))), false), b, 0);
    }
    tell_worst(row->name, "float", of_float, row->float_bound);
    tell_worst(row->name, "double", of_double, row->double_bound);
}

static void test_two(const struct two *row, unsigned long count) {
    struct worst of_float = {0, 0, 0}, of_double = {0, 0, 0};
    for (unsigned long i = 0; i < count; i++) {
        float a = (float)argument(row->first, true), b = (float)argument(row->second, true);
        if (row->first == ANY && chance() & 1) b = a * (float)(1 + ldexp((double)chance(), -66));
        mpfr_set_flt(x, a, MPFR_RNDN);
        mpfr_set_flt(y, b, MPFR_RNDN);
        row->exact(exact_result, x, y, MPFR_RNDN);
        note(&of_float, error_in_ulp(float_value(row->of_float(float_bits(a), float_bits(b))), true), a, b);
        double c = argument(row->first, false), d = argument(row->second, false);
        if (row->first == ANY && chance() & 1) d = c * (1 + ldexp((double)chance(), -66));
        mpfr_set_d(x, c, MPFR_RNDN);
        mpfr_set_d(y, d, MPFR_RNDN);
        row->exact(exact_result, x, y, MPFR_RNDN);
        note(&of_double, error_in_ulp(double_value(row->of_double(double_bits(c), double_bits(d))), false), c, d);
    }
    tell_worst(row->name, "float", of_float, row->float_bound);
    tell_worst(row->name, "double", of_double, row->double_bound);
}

static void test_whole(const struct whole *row, unsigned long count) {
    struct worst of_float = {0, 0, 0}, of_double = {0, 0, 0};
    for (unsigned long i = 0; i < count; i++) {
        int n = (int)(chance() % 41) - 20;
        if (chance() % 4 == 0) n = (int)chance() >> chance() % 31;
        if (n == 0) n = 1;
        float a = (float)(argument(POSITIVE, true) * (chance() & 1 ? 1 : -1));
        mpfr_set_flt(x, a, MPFR_RNDN);
        row->exact(exact_result, x, n, MPFR_RNDN);
        note(&of_float, error_in_ulp(float_value(row->of_float(float_bits(a), n)), true), a, n);
        double b = argument(POSITIVE, false) * (chance() & 1 ? 1 : -1);
        mpfr_set_d(x, b, MPFR_RNDN);
        row->exact(exact_result, x, n, MPFR_RNDN);
        note(&of_double, error_in_ulp(double_value(row->of_double(double_bits(b), n)), false), b, n);
    }
    tell_worst(row->name, "float", of_float, 16);
    tell_worst(row->name, "double", of_double, 16);
}

int main(int argc, char **argv) {
    unsigned long count = argc > 1 ? strtoul(argv[1], NULL, 10) : 5000;
    ulong seed = argc > 2 ? strtoul(argv[2], NULL, 10) : 1;
    const char *name = argc > 3 ? argv[3] : NULL;
    mpfr_inits2(160, x, y, exact_result, came, (mpfr_ptr)0);
    mpfr_init2(pi, 2200);
    mpfr_const_pi(pi, MPFR_RNDN);
#define EACH_OF(ROWS, TEST)                                                        \
    for (size_t i = 0; i < sizeof ROWS / sizeof *ROWS; i++) {                      \
        set_seed(seed);                                                            \
        if (!name || strcmp(name, ROWS[i].name) == 0) TEST(&ROWS[i], count);       \
    }
    EACH_OF(ones, test_one)
    EACH_OF(twos, test_two)
    EACH_OF(wholes, test_whole)
    return is_wrong;
}
