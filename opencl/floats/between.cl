/* ---- conversions between formats (IEEE 754-2008, 5.4.2); the modes are those of float_increases ---- */

/* A float as a double; exact. */
ulong double_from_float(uint a) {
    uint x = a & 0x7fffffffu;
    ulong sign = (ulong)(a ^ x) << 32;
    if (x >= 0x7f800000u) return x > 0x7f800000u ? 0x7ff8000000000000ul : sign | 0x7ff0000000000000ul;
    if (x >= 0x00800000u) return sign | (((ulong)x << 29) + 0x3800000000000000ul);
    if (x == 0u) return sign;
    int up = (int)clz(x);
    return sign + ((ulong)(905 - up - 1) << 52) + ((ulong)x << (21 + up));
}

/* A double as a float, rounded. */
uint float_from_double(int mode, ulong a) {
    ulong x = a & 0x7ffffffffffffffful;
    uint sign = (uint)(a >> 32) & 0x80000000u;
    if (x >= 0x7ff0000000000000ul) return x > 0x7ff0000000000000ul ? 0x7fc00000u : sign | 0x7f800000u;
    if (x == 0ul) return sign;
    int exponent = double_exponent_of(x);
    x = double_significand_of(x);
    x = shift_right_sticky(x, 33);
    sign = float_round_in(mode, sign, exponent - 896, (uint)x);
    return sign;
}

/* A half as a float; exact (vload_half). */
uint float_from_half(ushort a) {
    uint x = (uint)a & 0x7fffu;
    uint sign = ((uint)a ^ x) << 16;
    if (x >= 0x7c00u) return x > 0x7c00u ? 0x7fc00000u : sign | 0x7f800000u;
    if (x >= 0x0400u) return sign | ((x << 13) + 0x38000000u);
    if (x == 0u) return sign;
    uint up = clz(x);
    return sign + ((134u - up - 1u) << 23) + (x << (up - 8u));
}

/* A float as a half, rounded (vstore_half). */
ushort half_from_float(int mode, uint a) {
    uint x = a & 0x7fffffffu;
    uint sign = (a ^ x) >> 16;
    if (x >= 0x7f800000u) return (ushort)(x > 0x7f800000u ? 0x7e00u : sign | 0x7c00u);
    if (x == 0u) return (ushort)sign;
    int exponent = float_exponent_of(x);
    x = float_significand_of(x);
    x = half_round_in(mode, sign, exponent - 112, x >> 1);
    return (ushort)x;
}

/* A double as a half, rounded (vstore_half). */
ushort half_from_double(int mode, ulong a) {
    ulong x = a & 0x7ffffffffffffffful;
    uint sign = (uint)(a >> 48) & 0x8000u;
    if (x >= 0x7ff0000000000000ul) return (ushort)(x > 0x7ff0000000000000ul ? 0x7e00u : sign | 0x7c00u);
    if (x == 0ul) return (ushort)sign;
    int exponent = double_exponent_of(x);
    x = double_significand_of(x);
    x = shift_right_sticky(x, 33);
    sign = half_round_in(mode, sign, exponent - 1008, (uint)x);
    return (ushort)sign;
}
