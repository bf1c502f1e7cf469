/* ---- what double alone has ---- */

/* ---- conversions between ints and double (5.4.1): the same as those of 64 bits, in fewer steps ---- */

/* A whole number; exact. Its leading one adds 1 to the exponent. */
ulong double_from_uint(uint a) {
    if (a == 0u) return 0ul;
    uint up = clz(a);
    ulong upper = up ^ 31u;
    upper += 1022u;
    upper <<= 52;
    ulong x = a << up;
    x <<= 21;
    return upper + x;
}

/* The same of one with a sign. */
ulong double_from_int(int a) {
    uint x = a;
    if (a < 0) x = 0u - x;
    ulong result = double_from_uint(x);
    if (a < 0) result |= 0x8000000000000000ul;
    return result;
}

/* a toward zero as an int; what lies outside is the nearest one, and of a NaN 0 (OpenCL 1.2, 6.2.3.3). The upper word
   tells all but which bits of a NaN are set: from 2^31 on there is no int but the least one. */
int double_to_int(ulong a) {
    uint upper = a >> 32;
    uint x = upper & 0x7fffffffu;
    if (x < 0x3ff00000u) return 0;
    if (x >= 0x41e00000u) {
        if (a << 1 > 0xffe0000000000000ul) return 0;
        return upper >= 0x80000000u ? -2147483647 - 1 : 2147483647;
    }
    x >>= 20;
    x ^= 2047u;
    x -= 993u;
    uint whole = a >> 21;
    whole |= 0x80000000u;
    whole >>= x;
    if (upper >= 0x80000000u) whole = 0u - whole;
    return (int)whole;
}

/* The same as a uint; below 0 it is 0. */
uint double_to_uint(ulong a) {
    uint x = a >> 32;
    if (x < 0x3ff00000u) return 0u;
    if (x >= 0x41f00000u) {
        if (x >= 0x80000000u) return 0u;
        return a > 0x7ff0000000000000ul ? 0u : 0xffffffffu;
    }
    x >>= 20;
    x ^= 2047u;
    x -= 993u;
    uint whole = a >> 21;
    whole |= 0x80000000u;
    return whole >> x;
}

/* ---- roots ---- */

/* 1 / sqrt(a) */
WORD FORMAT_rsqrt(WORD a) {
    WORD x = a & MAGNITUDE_MASK;
    if (x > INFINITY_BITS) return NAN_BITS;
    if (x == 0) return a | INFINITY_BITS;
    if (a >= SIGN_BIT) return NAN_BITS;
    if (x == INFINITY_BITS) return 0;
    int e = FORMAT_exponent_of(x);
    e -= BIAS;
    x = FORMAT_significand_of(x);
    x = FORMAT_root(x, e & 1);
    if (x == SECOND_BIT) {
        x = FORMAT_round(0, BIAS - (e >> 1), SECOND_BIT);
        return x;
    }
    x = FORMAT_ratio(TOP_BIT, x << 1);
    x = FORMAT_rounded(0, -(e >> 1), x);
    return x;
}
