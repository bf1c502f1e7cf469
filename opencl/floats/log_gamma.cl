/* ---- the logarithm of the gamma function (C99 7.12.8.3) ---- */

/* log(gamma(y)) for y from 16 on, by Stirling's series: (y - 1/2) * (log(y) - 1) + log(2 * pi) / 2 - 1/2 + 1 / (12 * y)
   - 1 / (360 * y^3) + 1 / (1260 * y^5) - 1 / (1680 * y^7) + 1 / (1188 * y^9). Its sums are those of fewer nodes. */
ulong double_stirling(ulong y) {
    ulong part = double_div(0x3ff0000000000000ul, y);
    ulong z = double_mul(part, part);
    ulong sum = 0x3f4b951e2b18ff23ul;
    sum = double_mul(sum, z);
    sum = double_add_rare(sum, 0xbf43813813813814ul);
    sum = double_mul(sum, z);
    sum = double_add_rare(sum, 0x3f4a01a01a01a01aul);
    sum = double_mul(sum, z);
    sum = double_add_rare(sum, 0xbf66c16c16c16c17ul);
    sum = double_mul(sum, z);
    sum = double_add_rare(sum, 0x3fb5555555555555ul);
    sum = double_mul(sum, part);
    sum = double_add_rare(sum, 0x3fdacfe390c97d69ul);
    part = double_log(y);
    part = double_add_rare(part, 0xbff0000000000000ul);
    y = double_add_rare(y, 0xbfe0000000000000ul);
    y = double_mul(y, part);
    y = double_add_rare(y, sum);
    return y;
}

/* log(|gamma(a)|), which is -log(|a|) below 2^-63; for a below -16 by gamma(a) * gamma(-a) = -pi / (a * sin(pi * a)) */
ulong double_lgamma(ulong a) {
    ulong y = a & 0x7ffffffffffffffful;
    if (y > 0x7ff0000000000000ul) return 0x7ff8000000000000ul;
    if (y == 0ul || y == 0x7ff0000000000000ul) return 0x7ff0000000000000ul;
    ulong value = y;
    if (y < 0x4030000000000000ul) {
        if (y >= 0x3c00000000000000ul) value = double_tgamma(a);
        if (value == 0x7ff8000000000000ul) return 0x7ff0000000000000ul;
        value = double_log(value & 0x7ffffffffffffffful);
        return y >= 0x3c00000000000000ul ? value : value ^ 0x8000000000000000ul;
    }
    value = double_stirling(y);
    if (a < 0x8000000000000000ul) return value;
    ulong sine = double_sinpi(y);
    sine = double_mul(sine, y);
    if (sine == 0ul) return 0x7ff0000000000000ul;
    sine = double_log(sine & 0x7ffffffffffffffful);
    sine = double_sub(0x3ff250d048e7a1bdul, sine);
    value = double_sub(sine, value);
    return value;
}

/* log(|gamma(a)|), by that of doubles */
uint float_lgamma(uint a) {
    ulong value = double_from_float(a);
    value = double_lgamma(value);
    a = float_from_double(0, value);
    return a;
}

