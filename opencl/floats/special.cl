/* ---- the error function (C99 7.12.8) ---- */

/* erf(x) for x = m * 2^(e - (WIDTH - 1)) below 1, with the exponent e + 1. */
WORD FORMAT_erf_near(int e, WORD m) {
    WORD z = FORMAT_down(m, -e - 1);
    z = FORMAT_product_upper(z, z);
    WORD part = FORMAT_erf_part(z);
    part = FORMAT_product_upper(part, z);
    m = FORMAT_product_upper(m, ONE_OVER_SQRT_PI - (part >> 1));
    return m;
}

/* 2^e * e^(x^2) * erfc(x) for x = m * 2^(e - (WIDTH - 1)) from 1 to below 32, as a fraction of 2^WIDTH. */
WORD FORMAT_erfcx_of(int e, WORD m) {
    m <<= 1;
    if (e == 0) m = FORMAT_erfcx_part_0(m);
    else if (e == 1) m = FORMAT_erfcx_part_1(m);
    else if (e == 2) m = FORMAT_erfcx_part_2(m);
    else if (e == 3) m = FORMAT_erfcx_part_3(m);
    else m = FORMAT_erfcx_part_4(m);
    return m;
}

/* Of x^2 * log2(e) for such an x the upper and the lower word; the point is behind 2 * e + 3 bits. */
WORD FORMAT_lower_of_square(WORD m) {
    WORD square = FORMAT_product_upper(m, m);
    WORD lower = FORMAT_lower_of_product(square, LOG2_E_UPPER, LOG2_E_LOWER);
    square = FORMAT_product_upper(m * m, LOG2_E_UPPER);
    return lower + square;
}
/* The upper word of that. */
WORD FORMAT_upper_of_square(WORD m) {
    WORD square = FORMAT_product_upper(m, m);
    WORD upper = FORMAT_upper_of_product(square, LOG2_E_UPPER, LOG2_E_LOWER);
    WORD lower = FORMAT_lower_of_product(square, LOG2_E_UPPER, LOG2_E_LOWER);
    square = FORMAT_product_upper(m * m, LOG2_E_UPPER);
    return upper + (WORD)(lower + square < square);
}

/* erfc(x) for such an x, with the exponent -1 - e - whole, `whole` being that of x^2 * log2(e). */
WORD FORMAT_erfc_far(int e, WORD m) {
    WORD upper = FORMAT_upper_of_square(m);
    WORD lower = FORMAT_lower_of_square(m);
    WORD part = FORMAT_part_of(upper, lower, 2 * e + 3);
    part = ~part;
    lower = FORMAT_exp2_part(part);
    lower = FORMAT_product_upper(lower, part);
    part = FORMAT_erfcx_of(e, m);
    part = FORMAT_product_upper(TOP_BIT + lower, part);
    return part;
}

/* erf(a), or with `complement` 1 - erf(a). */
WORD FORMAT_error_function(int complement, WORD a) {
    WORD x = a & MAGNITUDE_MASK;
    WORD sign = a & SIGN_BIT;
    if (x > INFINITY_BITS) return NAN_BITS;
    if (x == 0) return complement != 0 ? ONE_BITS : a;
    int e = FORMAT_exponent_of(x);
    e -= BIAS;
    if (e > 4) {
        if (complement == 0) return sign | ONE_BITS;
        return sign == 0 ? 0 : TWO_BITS;
    }
    WORD m = FORMAT_significand_of(x);
    int exponent = e + 1;
    if (e < 0) {
        m = FORMAT_erf_near(e, m);
        if (complement != 0) {
            m = FORMAT_down(m, -e - 1);
            m = sign == 0 ? TOP_BIT - m : TOP_BIT + m;
            exponent = 0;
            sign = 0;
        }
    } else {
        WORD upper = FORMAT_upper_of_square(m);
        int whole = FORMAT_whole_of(upper, 2 * e + 3);
        m = FORMAT_erfc_far(e, m);
        exponent = -1 - e - whole;
        if (complement == 0 || sign != 0) {
            m = FORMAT_down(m, -1 - exponent + complement);
            m = ~m;
            exponent = complement - 1;
        }
        if (complement != 0) sign = 0;
    }
    x = FORMAT_rounded(sign, exponent, m);
    return x;
}

/* erf(a) */
WORD FORMAT_erf(WORD a) {
    a = FORMAT_error_function(0, a);
    return a;
}

/* erfc(a), which is 1 - erf(a) */
WORD FORMAT_erfc(WORD a) {
    a = FORMAT_error_function(1, a);
    return a;
}

