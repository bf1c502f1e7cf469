/* ---- what float alone has, in words of 32 bits ---- */

/* ---- conversions between ints and float (5.4.1): the same as those of 64 bits, in fewer steps ---- */

/* A whole number, rounded to nearest, ties to even. Its leading one adds 1 to the exponent. */
uint float_from_uint(uint a) {
    if (a == 0u) return 0u;
    uint up = clz(a);
    a <<= up;
    up ^= 31u;
    up += 126u;
    up <<= 23;
    up += a >> 8;
    a &= 0xffu;
    if (a >= 0x80u) {
        if (a == 0x80u) up += up & 1u;
        else up += 1u;
    }
    return up;
}

/* The same of one with a sign. */
uint float_from_int(int a) {
    uint x = a;
    if (a >= 0) {
        x = float_from_uint(x);
        return x;
    }
    x = 0u - x;
    x = float_from_uint(x);
    return x | 0x80000000u;
}

/* a toward zero as an int; what lies outside is the nearest one, and of a NaN 0 (OpenCL 1.2, 6.2.3.3). From 2^31 on
   there is none but the least one. */
int float_to_int(uint a) {
    uint x = a & 0x7fffffffu;
    if (x < 0x3f800000u) return 0;
    if (x >= 0x4f000000u) {
        if (x > 0x7f800000u) return 0;
        return a >= 0x80000000u ? -2147483647 - 1 : 2147483647;
    }
    x >>= 23;
    x ^= 255u;
    x -= 97u;
    uint whole = a << 8;
    whole |= 0x80000000u;
    whole >>= x;
    if (a >= 0x80000000u) whole = 0u - whole;
    return (int)whole;
}

/* The same as a uint; below 0 it is 0. */
uint float_to_uint(uint a) {
    if (a < 0x3f800000u) return 0u;
    if (a >= 0x4f800000u) return a > 0x7f800000u ? 0u : 0xffffffffu;
    uint up = a >> 23;
    up ^= 255u;
    up -= 97u;
    a <<= 8;
    a |= 0x80000000u;
    return a >> up;
}

/* ---- roots ---- */

/* 1 / sqrt(a). A positive number is m * 4^k, m from 1 to 4. r is 1 / sqrt(m) as a fraction of 2^16: first by a polynomial
   in 2 less the significand, which errs by less than 1 in 256, then by Newton's rule, r * (3 - m * r^2) / 2. With
   d = 1 - m * r^2, from -2^-13 to 2^-12, the result is r + r * d / 2 as a fraction of 2^31; what follows in the series
   is below the 7 bits that are cut off. */
uint float_rsqrt(uint a) {
    if (a >= 0x7f800000u) {
        if (a == 0x7f800000u) return 0u;
        return a == 0x80000000u ? 0xff800000u : 0x7fc00000u;
    }
    uint e = a >> 23;
    if (e == 0u) {
        if (a == 0u) return 0x7f800000u;
        e = clz(a) - 8u;
        a <<= e;
        e = 1u - e;
    }
    a <<= 8;
    a |= 0x80000000u;
    uint x = a >> 15;
    x &= 0xffffu;
    x ^= 0xffffu;
    uint r = x * 9500u;
    r >>= 16;
    r += 9331u;
    r *= x;
    r >>= 16;
    r += 46469u;
    if (e & 1u) {
        a >>= 1;
    } else {
        r *= 46341u;
        r >>= 16;
    }
    /* By Newton's rule; x is m times r^2 as a fraction of 2^30. */
    x = r * r;
    x += 0x8000u;
    x >>= 16;
    x *= a >> 16;
    x ^= 0xffffffffu;
    x -= 0x40000000u;
    x >>= 15;
    r *= x;
    r >>= 16;
    /* x is d + 2^-13 as a fraction of 2^28. */
    x = r * r;
    ulong wide = a;
    x = wide * x >> 32;
    x >>= 2;
    x ^= 0x1fffffffu;
    x -= 0x0fff7fffu;
    x *= r;
    x >>= 14;
    r *= 32766u;
    r += x;
    r += 0x40u;
    e = 378u - e;
    e >>= 1;
    e <<= 23;
    return e + (r >> 7);
}
