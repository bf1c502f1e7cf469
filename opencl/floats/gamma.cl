/* ---- the gamma function (C99 7.12.8.4), by double words ---- */

/* gamma(x) for x = m * 2^(e - 63) below 256, or for -x with `is_negative`; in the second case x isn't whole. For the
   whole part n of x and the rest u, gamma(n + u) is gamma(3 + u) times or divided by the numbers i + u in between. For w =
   1 - u, gamma(-n - u) is gamma(3 + w), divided by w, 1 + w, 2 + w, and all i + u up to n. */
WORD FORMAT_gamma_finite(int is_negative, int e, ulong m) {
    int n = 0;
    ulong u = double_down(m, e < 0 ? -e - 1 : 0);
    if (e >= 0) {
        n = (int)(m >> (63 - e));
        u = m << (e + 1);
    }
    ulong w = is_negative != 0 ? 0ul - u : u;
    ulong product = 0x8000000000000000ul;
    int exponent = 0;
    if (n == 0) {
        product = m;
        exponent = e;
    } else if (is_negative != 0) {
        exponent = -1 - (int)clz(u);
        product = u << clz(u);
    }
    ulong factor = w;
    int i = n;
    int last = n > 2 ? n - 1 : 2;
    if (n > 2) i = 3;
    if (n == 0) i = 1;
    if (is_negative != 0) {
        i = -2;
        last = n;
    }
    for (; i <= last; i += 1) {
        if (is_negative != 0 && i <= 0) factor = ((ulong)(i + 2) << 56) + (w >> 8);
        else factor = ((ulong)i << 56) + (u >> 8);
        int up = (int)clz(factor);
        product = double_product_upper(product, factor << up);
        exponent += 8 - up;
        up = (int)clz(product);
        product <<= up;
        exponent -= up;
    }
    ulong value = double_gamma_part(w);
    int up = (int)clz(value);
    value <<= up;
    if (is_negative == 0 && n > 2) {
        value = double_product_upper(value, product);
        exponent += 3 - up;
    } else {
        value = double_ratio(value, product);
        exponent = 2 - up - exponent;
    }
    WORD result = FORMAT_rounded(is_negative != 0 && (n & 1) == 0 ? SIGN_BIT : 0, exponent, (WORD)(value >> (64 - WIDTH)));
    return result;
}

/* gamma(a), which is 1 / a near 0 */
WORD FORMAT_tgamma(WORD a) {
    WORD x = a & MAGNITUDE_MASK;
    if (x > INFINITY_BITS || a == NEGATIVE_INFINITY) return NAN_BITS;
    if (x == 0) return a | INFINITY_BITS;
    int parity = FORMAT_parity(x);
    if (a >= SIGN_BIT && parity != 0) return NAN_BITS;
    int e = FORMAT_exponent_of(x);
    e -= BIAS;
    if (e > 7) {
        if (a < SIGN_BIT) return INFINITY_BITS;
        WORD whole = FORMAT_to_integral(1, x);
        parity = FORMAT_parity(whole);
        return parity == 2 ? SIGN_BIT : 0;
    }
    if (e < -FRACTION_BITS - 4) {
        a = FORMAT_div(ONE_BITS, a);
        return a;
    }
    x = FORMAT_significand_of(x);
    x = FORMAT_gamma_finite((int)(a >= SIGN_BIT), e, (ulong)x << (64 - WIDTH));
    return x;
}

/* The sign of gamma(a): 1, -1, or 0 where a is 0 or a negative whole number (OpenCL 1.2, 7.5.1). */
int FORMAT_gamma_sign(WORD a) {
    WORD x = a & MAGNITUDE_MASK;
    if (x == 0) return 0;
    if (a < SIGN_BIT || x >= INFINITY_BITS) return 1;
    int parity = FORMAT_parity(x);
    if (parity != 0) return 0;
    x = FORMAT_to_integral(1, x);
    parity = FORMAT_parity(x);
    return parity == 2 ? -1 : 1;
}

