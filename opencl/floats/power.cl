/* ---- powers and roots of any number, by double words: x^y is 2^(y * log2(x)) (IEEE 754-2008, 9.2.1) ---- */

/* 2 if the number is an even whole number, 1 if it is an odd one, else 0. An infinity is even. BIAS is odd, so that the
   lowest bit of the exponent of 1 is that of the whole number 1. */
int FORMAT_parity(WORD a) {
    WORD x = a & MAGNITUDE_MASK;
    int exponent = (int)(x >> FRACTION_BITS) - BIAS;
    if (x == 0 || exponent > FRACTION_BITS) return 2;
    if (exponent < 0) return 0;
    WORD unit = SMALLEST_NORMAL >> exponent;
    if ((x & (unit - UNIT)) != 0) return 0;
    return (x & unit) != 0 ? 1 : 2;
}

/* 2^t for t = v * 2^(scale - 64) * y * 2^(e - 63), or with `is_negative` 2^-t. */
WORD FORMAT_power_finite(WORD sign, int is_negative, int scale, ulong v, int e, ulong y) {
    if (v == 0ul) return sign | ONE_BITS;
    int up = (int)clz(v);
    v <<= up;
    int n = scale - up + e + 1;
    if (n > 14) return is_negative != 0 ? sign : sign | INFINITY_BITS;
    if (n < -62) return sign | ONE_BITS;
    ulong upper = double_product_upper(v, y);
    ulong lower = v * y;
    int whole = double_whole_of(upper, n);
    ulong part = double_part_of(upper, lower, n);
    if (is_negative != 0) {
        whole = -whole - (int)(part != 0ul);
        part = 0ul - part;
    }
    sign = FORMAT_two_to(sign, whole, (WORD)(part >> (64 - WIDTH)));
    return sign;
}

/* |a|^y of a finite number other than 0, y being m * 2^(e - 63), or with `below` -m * 2^(e - 63). */
WORD FORMAT_power_of(WORD sign, WORD a, int below, int e, ulong m) {
    int exponent = FORMAT_exponent_of(a);
    a = FORMAT_significand_of(a);
    exponent -= BIAS;
    ulong x = (ulong)a << (64 - WIDTH);
    ulong v = double_log_value(exponent, x, 0x8000000000000000ul, 1, 0xb8aa3b295c17f0bcul);
    int scale = double_log_scale(exponent, x, 1);
    int is_negative = double_log_is_negative(exponent, x);
    a = FORMAT_power_finite(sign, (int)(is_negative != below), scale, v, e, m);
    return a;
}

/* The power of 0 or an infinity, the exponent being negative or odd. */
WORD FORMAT_power_special(WORD a, int below, int odd) {
    WORD x = a & MAGNITUDE_MASK;
    WORD sign = odd != 0 ? a & SIGN_BIT : 0;
    return (x == 0) == (below != 0) ? sign | INFINITY_BITS : sign;
}

/* a to the power of an infinity: the base is a magnitude. */
WORD FORMAT_power_to_infinity(WORD x, int below) {
    if (x == ONE_BITS) return ONE_BITS;
    return (x > ONE_BITS) == (below == 0) ? INFINITY_BITS : 0;
}

/* a^b (C99 F.9.4.4) */
WORD FORMAT_pow(WORD a, WORD b) {
    WORD x = a & MAGNITUDE_MASK;
    WORD y = b & MAGNITUDE_MASK;
    int below = b >= SIGN_BIT;
    if (y == 0 || a == ONE_BITS) return ONE_BITS;
    if (x > INFINITY_BITS || y > INFINITY_BITS) return NAN_BITS;
    if (y == INFINITY_BITS) {
        x = FORMAT_power_to_infinity(x, below);
        return x;
    }
    int parity = FORMAT_parity(y);
    if (x == 0 || x == INFINITY_BITS) {
        x = FORMAT_power_special(a, below, (int)(parity == 1));
        return x;
    }
    if (a >= SIGN_BIT && parity == 0) return NAN_BITS;
    int e = FORMAT_exponent_of(y);
    y = FORMAT_significand_of(y);
    x = FORMAT_power_of(parity == 1 ? a & SIGN_BIT : 0, x, below, e - BIAS, (ulong)y << (64 - WIDTH));
    return x;
}

/* a^b for a from 0 on (OpenCL 1.2, 7.5.1) */
WORD FORMAT_powr(WORD a, WORD b) {
    WORD x = a & MAGNITUDE_MASK;
    WORD y = b & MAGNITUDE_MASK;
    if (x > INFINITY_BITS || y > INFINITY_BITS || (a >= SIGN_BIT && x != 0)) return NAN_BITS;
    if (y == 0 && (x == 0 || x == INFINITY_BITS)) return NAN_BITS;
    if (x == ONE_BITS && y == INFINITY_BITS) return NAN_BITS;
    x = FORMAT_pow(x, b);
    return x;
}

/* a^n (OpenCL 1.2, 7.5.1) */
WORD FORMAT_pown(WORD a, int n) {
    WORD x = a & MAGNITUDE_MASK;
    if (n == 0) return ONE_BITS;
    if (x > INFINITY_BITS) return NAN_BITS;
    int odd = n & 1;
    if (x == 0 || x == INFINITY_BITS) {
        x = FORMAT_power_special(a, (int)(n < 0), odd);
        return x;
    }
    ulong size = (ulong)abs(n);
    int up = (int)clz(size);
    x = FORMAT_power_of(odd != 0 ? a & SIGN_BIT : 0, x, (int)(n < 0), 63 - up, size << up);
    return x;
}

/* The root of a of the order n: a^(1 / n) (OpenCL 1.2, 7.5.1) */
WORD FORMAT_rootn(WORD a, int n) {
    WORD x = a & MAGNITUDE_MASK;
    int odd = n & 1;
    if (n == 0 || x > INFINITY_BITS) return NAN_BITS;
    if (x == 0 || x == INFINITY_BITS) {
        if (a == NEGATIVE_INFINITY && odd == 0) return NAN_BITS;
        x = FORMAT_power_special(a, (int)(n < 0), odd);
        return x;
    }
    if (a >= SIGN_BIT && odd == 0) return NAN_BITS;
    ulong size = (ulong)abs(n);
    int up = (int)clz(size);
    size <<= up;
    int e = up - 63;
    if (size != 0x8000000000000000ul) {
        size = double_ratio(0x8000000000000000ul, size);
        size <<= 1;
        e -= 1;
    }
    x = FORMAT_power_of(a & SIGN_BIT, x, (int)(n < 0), e, size);
    return x;
}

/* The cube root of a */
WORD FORMAT_cbrt(WORD a) {
    a = FORMAT_rootn(a, 3);
    return a;
}

