/* ---- subtraction, division, square root (5.4.1) ---- */

/* a - b */
WORD FORMAT_sub(WORD a, WORD b) {
    WORD result = FORMAT_add(a, b ^ SIGN_BIT);
    return result;
}

/* a / b where one of the magnitudes x and y is 0, infinite or not a number. A finite number by 0 is infinite (7.3). */
WORD FORMAT_div_special(WORD sign, WORD x, WORD y) {
    if (x > INFINITY_BITS || y > INFINITY_BITS) return NAN_BITS;
    if (x == y) return NAN_BITS;
    if (x == INFINITY_BITS || y == 0) return sign | INFINITY_BITS;
    return sign;
}

/* a / b. `exponent` is the difference of the biased exponents, plus BIAS. */
WORD FORMAT_div(WORD a, WORD b) {
    WORD sign = a ^ b;
    sign &= SIGN_BIT;
    a &= MAGNITUDE_MASK;
    b &= MAGNITUDE_MASK;
    if (a != 0) if (b != 0) if (a < INFINITY_BITS) if (b < INFINITY_BITS) {
        WORD exponent = (a >> FRACTION_BITS) - (b >> FRACTION_BITS);
        exponent += BIAS;
        if (a < SMALLEST_NORMAL) {
            WORD up = clz(a) - TOP_SHIFT;
            a <<= up;
            exponent += 1 - up;
        }
        if (b < SMALLEST_NORMAL) {
            WORD up = clz(b) - TOP_SHIFT;
            b <<= up;
            exponent -= 1 - up;
        }
        a <<= TOP_SHIFT;
        a |= TOP_BIT;
        b <<= TOP_SHIFT;
        b |= TOP_BIT;
        a = FORMAT_quotient(a, b);
        if (a < SECOND_BIT) {
            a <<= 1;
            exponent -= 1;
        }
        if (exponent != 0) {
            if (exponent < LARGEST_EXPONENT) {
                exponent -= 1;
                a = FORMAT_pack(sign + (exponent << FRACTION_BITS), a);
                return a;
            }
        }
        a = FORMAT_round(sign, (int)exponent, a);
        return a;
    }
    a = FORMAT_div_special(sign, a, b);
    return a;
}

/* The square root of a; that of -0 is -0. */
WORD FORMAT_sqrt(WORD a) {
    if ((a & MAGNITUDE_MASK) > INFINITY_BITS) return NAN_BITS;
    if ((a & MAGNITUDE_MASK) == 0 || a == INFINITY_BITS) return a;
    if (a >= SIGN_BIT) return NAN_BITS;
    int exponent = FORMAT_exponent_of(a);
    exponent -= BIAS;
    a = FORMAT_significand_of(a);
    a = FORMAT_root(a, exponent & 1);
    a = FORMAT_pack((WORD)((exponent >> 1) + BIAS - 1) << FRACTION_BITS, a);
    return a;
}

/* ---- fused multiplication and addition (5.4.1) ---- */

/* a * b + c where one of them is infinite or not a number, or a or b is 0; `sign` is that of a * b. */
WORD FORMAT_fma_special(WORD sign, WORD a, WORD b, WORD c) {
    WORD z = c & MAGNITUDE_MASK;
    a &= MAGNITUDE_MASK;
    b &= MAGNITUDE_MASK;
    if (z > INFINITY_BITS) return NAN_BITS;
    if (a < INFINITY_BITS && b < INFINITY_BITS) {
        if (z != 0 || (sign ^ c) < SIGN_BIT) return c;
        return 0;
    }
    a = FORMAT_mul_special(sign, a, b);
    if (z == INFINITY_BITS && (sign ^ c) >= SIGN_BIT) return NAN_BITS;
    return a;
}

/* a * b + c, rounded once. The exact sum 0 is +0, but for two zeros of one sign. */
WORD FORMAT_fma(WORD a, WORD b, WORD c) {
    WORD sign = (a ^ b) & SIGN_BIT;
    WORD x = a & MAGNITUDE_MASK;
    WORD y = b & MAGNITUDE_MASK;
    WORD result = 0;
    if (x == 0 || y == 0 || x >= INFINITY_BITS || y >= INFINITY_BITS || (c & MAGNITUDE_MASK) >= INFINITY_BITS)
        result = FORMAT_fma_special(sign, a, b, c);
    else
        result = FORMAT_fma_finite(sign, a, b, c);
    return result;
}

/* ---- comparisons (5.11); a NaN is unordered ---- */

/* 1 if a is not a number */
int FORMAT_isnan(WORD a) {
    return (a & MAGNITUDE_MASK) > INFINITY_BITS;
}

/* a == b */
int FORMAT_equal(WORD a, WORD b) {
    if (a == b) return (a & MAGNITUDE_MASK) <= INFINITY_BITS;
    return ((a | b) & MAGNITUDE_MASK) == 0;
}

/* a < b. Bits without a sign are in the order of the values, those with one in the reverse order. */
int FORMAT_less(WORD a, WORD b) {
    if (a < SIGN_BIT) {
        if (b > INFINITY_BITS) return 0;
        return a < b;
    }
    if (a > NEGATIVE_INFINITY) return 0;
    if (b >= SIGN_BIT) return a > b;
    if (b > INFINITY_BITS) return 0;
    return ((a | b) & MAGNITUDE_MASK) != 0;
}

/* a <= b */
int FORMAT_less_equal(WORD a, WORD b) {
    if (a < SIGN_BIT) {
        if (b <= INFINITY_BITS) return a <= b;
        return (a | b) == SIGN_BIT;
    }
    if (a > NEGATIVE_INFINITY) return 0;
    if (b >= SIGN_BIT) return a >= b;
    return b <= INFINITY_BITS;
}

/* a < b or a > b */
int FORMAT_less_greater(WORD a, WORD b) {
    if ((a & MAGNITUDE_MASK) > INFINITY_BITS || (b & MAGNITUDE_MASK) > INFINITY_BITS) return 0;
    int equal = FORMAT_equal(a, b);
    return !equal;
}

/* ---- conversions between whole numbers and the format (5.4.1) ---- */

/* A whole number of this sign and magnitude. */
WORD FORMAT_from_magnitude(int mode, WORD sign, ulong magnitude) {
    if (magnitude == 0) return 0;
    int up = (int)clz(magnitude);
    magnitude <<= up;
    WORD significand = (WORD)(magnitude >> (65 - WIDTH));
    if ((ulong)significand << (65 - WIDTH) != magnitude) significand |= UNIT;
    significand = FORMAT_round_in(mode, sign, BIAS + 63 - up, significand);
    return significand;
}

/* A whole number, rounded. */
WORD FORMAT_from_long(int mode, long a) {
    ulong magnitude = a < 0 ? 0 - (ulong)a : (ulong)a;
    WORD result = FORMAT_from_magnitude(mode, a < 0 ? SIGN_BIT : 0, magnitude);
    return result;
}

/* The same of one without a sign. */
WORD FORMAT_from_ulong(int mode, ulong a) {
    WORD result = FORMAT_from_magnitude(mode, 0, a);
    return result;
}

/* The magnitude of a as a whole number, at most 2^64 - 1. Of a NaN it is 0. */
ulong FORMAT_magnitude(int mode, WORD a) {
    WORD x = a & MAGNITUDE_MASK;
    if (x > INFINITY_BITS || x == 0) return 0ul;
    int exponent = (int)(x >> FRACTION_BITS) - BIAS;
    if (exponent > 63) return 0xfffffffffffffffful;
    ulong significand = (ulong)((x & FRACTION_MASK) | SMALLEST_NORMAL);
    if (exponent >= FRACTION_BITS) return significand << (exponent - FRACTION_BITS);
    if (exponent < -1) {
        significand = 1ul;
        exponent = FRACTION_BITS - 2;
    }
    int cut = FRACTION_BITS - exponent;
    ulong unit = 1ul << cut;
    WORD kept = (WORD)(significand >> cut);
    int up = FORMAT_increases(mode, a & SIGN_BIT, kept, (WORD)(significand & (unit - 1ul)), (WORD)(unit >> 1));
    return (ulong)kept + (ulong)up;
}

/* a as a whole number from -largest - 1 to largest; what lies outside is the nearest of them (OpenCL 1.2, 6.2.3.3). */
long FORMAT_to_signed(int mode, WORD a, ulong largest) {
    ulong magnitude = FORMAT_magnitude(mode, a);
    if (a < SIGN_BIT) return (long)min(magnitude, largest);
    magnitude = min(magnitude, largest + 1ul);
    return (long)(0ul - magnitude);
}

/* The same from 0 to largest. */
ulong FORMAT_to_unsigned(int mode, WORD a, ulong largest) {
    ulong magnitude = FORMAT_magnitude(mode, a);
    if (a >= SIGN_BIT) return 0ul;
    return min(magnitude, largest);
}

/* a as a whole number of the format (5.9): trunc, floor, ceil, rint and round by their modes. BIAS is odd, so that the
   lowest bit of the exponent of 1 is that of the whole number 1. */
WORD FORMAT_to_integral(int mode, WORD a) {
    WORD x = a & MAGNITUDE_MASK;
    int exponent = (int)(x >> FRACTION_BITS) - BIAS;
    if (exponent >= FRACTION_BITS) return x > INFINITY_BITS ? NAN_BITS : a;
    if (x == 0) return a;
    int up = 0;
    if (exponent < 0) {
        WORD rest = x > HALF_BITS ? 3 : x == HALF_BITS ? 2 : 1;
        up = FORMAT_increases(mode, a & SIGN_BIT, 0, rest, 2);
        return (a & SIGN_BIT) | (up != 0 ? ONE_BITS : 0);
    }
    int cut = FRACTION_BITS - exponent;
    WORD unit = UNIT << cut;
    WORD rest = x & (unit - UNIT);
    up = FORMAT_increases(mode, a & SIGN_BIT, x >> cut, rest, unit >> 1);
    return a - rest + (up != 0 ? unit : 0);
}

/* ---- remainders (5.3.1; C99 7.12.10) ---- */

/* The magnitude of a finite number in units of the smallest subnormal number, divided by 2 to the power of
   FORMAT_scale_of. */
ulong FORMAT_digits_of(WORD x) {
    if (x < SMALLEST_NORMAL) return (ulong)x;
    return (ulong)((x & FRACTION_MASK) | SMALLEST_NORMAL);
}

/* The power of 2 that such digits are multiplied by. */
int FORMAT_scale_of(WORD x) {
    if (x < SMALLEST_NORMAL) return 0;
    return (int)(x >> FRACTION_BITS) - 1;
}

/* `digits` below 2^(FRACTION_BITS + 1), times 2^scale, in the units of FORMAT_digits_of. */
WORD FORMAT_from_digits(WORD sign, ulong digits, int scale) {
    if (digits == 0ul) return sign;
    WORD significand = (WORD)digits;
    int up = (int)clz(significand);
    significand <<= up;
    significand >>= 1;
    significand = FORMAT_round(sign, scale + TOP_SHIFT + 1 - up, significand);
    return significand;
}

/* The rest of x, divided by y, two finite magnitudes with y not 0 and x not less than y; in units of y's scale. Long
   division, CHUNK_BITS bits of the quotient at a time. */
ulong FORMAT_rest_of(WORD x, WORD y) {
    ulong rest = FORMAT_digits_of(x);
    ulong divisor = FORMAT_digits_of(y);
    int scale = FORMAT_scale_of(x);
    int other = FORMAT_scale_of(y);
    scale -= other;
    while (scale > CHUNK_BITS) {
        rest = (rest << CHUNK_BITS) % divisor;
        scale -= CHUNK_BITS;
    }
    return (rest << scale) % divisor;
}

/* The last 32 bits of the whole quotient of the same x and y. */
uint FORMAT_last_of_quotient(WORD x, WORD y) {
    ulong rest = FORMAT_digits_of(x);
    ulong divisor = FORMAT_digits_of(y);
    int scale = FORMAT_scale_of(x);
    int other = FORMAT_scale_of(y);
    ulong quotient = 0ul;
    scale -= other;
    while (scale > CHUNK_BITS) {
        rest <<= CHUNK_BITS;
        quotient = (quotient << CHUNK_BITS) + rest / divisor;
        rest %= divisor;
        scale -= CHUNK_BITS;
    }
    rest <<= scale;
    return (uint)((quotient << scale) + rest / divisor);
}

/* 1 if the remainder of a and b is not a number: a is infinite, b is 0, or one is not a number. */
int FORMAT_has_no_remainder(WORD a, WORD b) {
    WORD y = b & MAGNITUDE_MASK;
    return (a & MAGNITUDE_MASK) >= INFINITY_BITS || y > INFINITY_BITS || y == 0;
}

/* a - n * b for the whole part n of a / b; with the sign of a. */
WORD FORMAT_fmod(WORD a, WORD b) {
    WORD sign = a & SIGN_BIT;
    int none = FORMAT_has_no_remainder(a, b);
    if (none != 0) return NAN_BITS;
    WORD x = a & MAGNITUDE_MASK;
    WORD y = b & MAGNITUDE_MASK;
    if (x < y) return a;
    ulong rest = FORMAT_rest_of(x, y);
    int scale = FORMAT_scale_of(y);
    x = FORMAT_from_digits(sign, rest, scale);
    return x;
}

/* 1 if twice the rest of a by b is more than b, or is b and the whole part of the quotient is odd: then the whole number
   nearest to the quotient, or the even one of two, is one more. `rest` is the magnitude of fmod(a, b), not 0. */
int FORMAT_is_past_half(WORD a, WORD b, WORD rest) {
    WORD x = a & MAGNITUDE_MASK;
    WORD y = b & MAGNITUDE_MASK;
    WORD other = FORMAT_sub(y, rest);
    if (rest != other) return rest > other;
    if (x < y) return 0;
    uint quotient = FORMAT_last_of_quotient(x, y);
    return (int)(quotient & 1u);
}

/* a - n * b for the whole number n nearest to a / b, the even one of two; exact. A zero has the sign of a. */
WORD FORMAT_remainder(WORD a, WORD b) {
    WORD rest = FORMAT_fmod(a, b);
    WORD x = rest & MAGNITUDE_MASK;
    if (x > INFINITY_BITS || x == 0 || (b & MAGNITUDE_MASK) == INFINITY_BITS) return rest;
    int past = FORMAT_is_past_half(a, b, x);
    if (past == 0) return rest;
    b = (b & MAGNITUDE_MASK) | (a & SIGN_BIT);
    rest = FORMAT_sub(rest, b);
    return rest;
}

/* The last 7 bits of that n, with the sign of a / b: what remquo stores (OpenCL 1.2, 6.12.2). */
int FORMAT_quotient_of(WORD a, WORD b) {
    WORD x = a & MAGNITUDE_MASK;
    WORD y = b & MAGNITUDE_MASK;
    int none = FORMAT_has_no_remainder(a, b);
    if (none != 0 || y == INFINITY_BITS) return 0;
    uint quotient = 0u;
    WORD rest = x;
    if (x >= y) {
        quotient = FORMAT_last_of_quotient(x, y);
        rest = FORMAT_fmod(x, y);
    }
    int past = 0;
    if (rest != 0) past = FORMAT_is_past_half(x, y, rest);
    int last = (int)((quotient + (uint)past) & 127u);
    return (a ^ b) >= SIGN_BIT ? -last : last;
}

/* ---- parts and neighbours of a number (OpenCL 1.2, 6.12.2) ---- */

/* |a| */
WORD FORMAT_fabs(WORD a) {
    return a & MAGNITUDE_MASK;
}

/* a with the sign of b */
WORD FORMAT_copysign(WORD a, WORD b) {
    return (a & MAGNITUDE_MASK) | (b & SIGN_BIT);
}

/* a * 2^n, rounded once */
WORD FORMAT_ldexp(WORD a, int n) {
    WORD x = a & MAGNITUDE_MASK;
    if (x >= INFINITY_BITS) return x > INFINITY_BITS ? NAN_BITS : a;
    if (x == 0) return a;
    int exponent = FORMAT_exponent_of(x);
    x = FORMAT_significand_of(x);
    n = max(min(n, 4 * BIAS), -4 * BIAS);
    x = FORMAT_round(a & SIGN_BIT, exponent + n, x >> 1);
    return x;
}

/* a = m * 2^n with |m| from 1/2 to below 1: m; of 0, an infinity and a NaN itself */
WORD FORMAT_frexp(WORD a) {
    WORD x = a & MAGNITUDE_MASK;
    if (x == 0 || x == INFINITY_BITS) return a;
    if (x > INFINITY_BITS) return NAN_BITS;
    x = FORMAT_significand_of(x);
    return (a & SIGN_BIT) | ((x >> TOP_SHIFT & FRACTION_MASK) | HALF_BITS);
}

/* That n; of 0, an infinity and a NaN 0 */
int FORMAT_frexp_exponent(WORD a) {
    WORD x = a & MAGNITUDE_MASK;
    if (x == 0 || x >= INFINITY_BITS) return 0;
    int exponent = FORMAT_exponent_of(x);
    return exponent - (BIAS - 1);
}

/* The exponent of a as a whole number; of 0 FP_ILOGB0, of an infinity and a NaN FP_ILOGBNAN */
int FORMAT_ilogb(WORD a) {
    WORD x = a & MAGNITUDE_MASK;
    if (x == 0) return -2147483647 - 1;
    if (x >= INFINITY_BITS) return 2147483647;
    int exponent = FORMAT_exponent_of(x);
    return exponent - BIAS;
}

/* The same as a number of the format; of 0 -infinity, of an infinity +infinity */
WORD FORMAT_logb(WORD a) {
    WORD x = a & MAGNITUDE_MASK;
    if (x == 0) return NEGATIVE_INFINITY;
    if (x >= INFINITY_BITS) return x > INFINITY_BITS ? NAN_BITS : x;
    int exponent = FORMAT_exponent_of(x);
    x = FORMAT_from_long(0, (long)(exponent - BIAS));
    return x;
}

/* The next number after a toward b (IEEE 754-2008, 5.3.1, C99 7.12.11.3) */
WORD FORMAT_nextafter(WORD a, WORD b) {
    WORD x = a & MAGNITUDE_MASK;
    if (x > INFINITY_BITS || (b & MAGNITUDE_MASK) > INFINITY_BITS) return NAN_BITS;
    if (x == 0) return (b & MAGNITUDE_MASK) == 0 ? b : (b & SIGN_BIT) | UNIT;
    if (a == b) return a;
    int less = FORMAT_less(a, b);
    return (less != 0) == (a < SIGN_BIT) ? a + UNIT : a - UNIT;
}

/* ---- choices (OpenCL 1.2, 6.12.2, 6.12.4) ---- */

/* The smaller one; of a number and a NaN the number */
WORD FORMAT_fmin(WORD a, WORD b) {
    if ((a & MAGNITUDE_MASK) > INFINITY_BITS) return (b & MAGNITUDE_MASK) > INFINITY_BITS ? NAN_BITS : b;
    int less = FORMAT_less(b, a);
    return less != 0 ? b : a;
}

/* The larger one; of a number and a NaN the number */
WORD FORMAT_fmax(WORD a, WORD b) {
    if ((a & MAGNITUDE_MASK) > INFINITY_BITS) return (b & MAGNITUDE_MASK) > INFINITY_BITS ? NAN_BITS : b;
    int less = FORMAT_less(a, b);
    return less != 0 ? b : a;
}

/* The one of the smaller magnitude; of equal ones fmin */
WORD FORMAT_minmag(WORD a, WORD b) {
    WORD x = a & MAGNITUDE_MASK;
    WORD y = b & MAGNITUDE_MASK;
    if (x <= INFINITY_BITS && y <= INFINITY_BITS && x != y) return x < y ? a : b;
    a = FORMAT_fmin(a, b);
    return a;
}

/* The one of the larger magnitude; of equal ones fmax */
WORD FORMAT_maxmag(WORD a, WORD b) {
    WORD x = a & MAGNITUDE_MASK;
    WORD y = b & MAGNITUDE_MASK;
    if (x <= INFINITY_BITS && y <= INFINITY_BITS && x != y) return x > y ? a : b;
    a = FORMAT_fmax(a, b);
    return a;
}

/* a - b where a is larger, else +0 */
WORD FORMAT_fdim(WORD a, WORD b) {
    int less = FORMAT_less_equal(a, b);
    if (less != 0) return 0;
    a = FORMAT_sub(a, b);
    return a;
}

/* 0 where x is below the edge, else 1 */
WORD FORMAT_step(WORD edge, WORD x) {
    int less = FORMAT_less(x, edge);
    return less != 0 ? 0 : ONE_BITS;
}

/* fmin(fmax(x, least), most) */
WORD FORMAT_clamp(WORD x, WORD least, WORD most) {
    x = FORMAT_fmax(x, least);
    x = FORMAT_fmin(x, most);
    return x;
}

/* 1 or -1 by the sign of a, zeros as they are; of a NaN 0 */
WORD FORMAT_sign(WORD a) {
    WORD x = a & MAGNITUDE_MASK;
    if (x > INFINITY_BITS) return 0;
    return x == 0 ? a : (a & SIGN_BIT) | ONE_BITS;
}

/* ---- the part behind the point (OpenCL 1.2, 6.12.2) ---- */

/* a less trunc(a), with the sign of a: what modf gives. It stores trunc(a). */
WORD FORMAT_modf(WORD a) {
    WORD x = a & MAGNITUDE_MASK;
    if (x > INFINITY_BITS) return NAN_BITS;
    if (x == INFINITY_BITS) return a & SIGN_BIT;
    WORD whole = FORMAT_to_integral(1, a);
    x = FORMAT_sub(a, whole);
    return (x & MAGNITUDE_MASK) | (a & SIGN_BIT);
}

/* a less floor(a), and below 1: what fract gives. It stores floor(a). (OpenCL 1.2, 7.5.1) */
WORD FORMAT_fract(WORD a) {
    WORD x = a & MAGNITUDE_MASK;
    if (x > INFINITY_BITS) return NAN_BITS;
    if (x == INFINITY_BITS || x == 0) return a & SIGN_BIT;
    WORD whole = FORMAT_to_integral(3, a);
    x = FORMAT_sub(a, whole);
    return min(x, ONE_BITS - UNIT);
}

/* ---- classes (IEEE 754-2008, 5.7.2) ---- */

/* 1 if a is an infinity */
int FORMAT_isinf(WORD a) {
    return (a & MAGNITUDE_MASK) == INFINITY_BITS;
}

/* 1 if a is neither an infinity nor a NaN */
int FORMAT_isfinite(WORD a) {
    return (a & MAGNITUDE_MASK) < INFINITY_BITS;
}

/* 1 if a is neither 0, subnormal, infinite nor a NaN */
int FORMAT_isnormal(WORD a) {
    WORD x = a & MAGNITUDE_MASK;
    return x >= SMALLEST_NORMAL && x < INFINITY_BITS;
}

/* 1 if one of them is a NaN */
int FORMAT_isunordered(WORD a, WORD b) {
    return (a & MAGNITUDE_MASK) > INFINITY_BITS || (b & MAGNITUDE_MASK) > INFINITY_BITS;
}

/* 1 if the sign is minus, also of a zero or a NaN */
int FORMAT_signbit(WORD a) {
    return a >= SIGN_BIT;
}

/* -a */
WORD FORMAT_negate(WORD a) {
    return a ^ SIGN_BIT;
}

/* 1 / a */
WORD FORMAT_recip(WORD a) {
    a = FORMAT_div(ONE_BITS, a);
    return a;
}

/* ---- blends (OpenCL 1.2, 6.12.4) ---- */

/* x + (y - x) * a */
WORD FORMAT_mix(WORD x, WORD y, WORD a) {
    y = FORMAT_sub(y, x);
    y = FORMAT_mul(y, a);
    y = FORMAT_add(x, y);
    return y;
}

/* t * t * (3 - 2 * t) for t = clamp((x - low) / (high - low), 0, 1) */
WORD FORMAT_smoothstep(WORD low, WORD high, WORD x) {
    x = FORMAT_sub(x, low);
    high = FORMAT_sub(high, low);
    x = FORMAT_div(x, high);
    x = FORMAT_clamp(x, 0, ONE_BITS);
    high = FORMAT_add(x, x);
    high = FORMAT_sub(THREE_BITS, high);
    x = FORMAT_mul(x, x);
    x = FORMAT_mul(x, high);
    return x;
}

/* a * (180 / pi) */
WORD FORMAT_degrees(WORD a) {
    a = FORMAT_mul(a, DEGREES_BITS);
    return a;
}

/* a * (pi / 180) */
WORD FORMAT_radians(WORD a) {
    a = FORMAT_mul(a, RADIANS_BITS);
    return a;
}

