/* ---- multiplication (5.4.1) ---- */

/* a * b where one of the magnitudes x and y is 0, infinite or not a number. */
WORD FORMAT_mul_special(WORD sign, WORD x, WORD y) {
    if (x > INFINITY_BITS || y > INFINITY_BITS) return NAN_BITS;
    if (x != INFINITY_BITS && y != INFINITY_BITS) return sign;
    if (x == 0 || y == 0) return NAN_BITS;
    return sign | INFINITY_BITS;
}

/* a * b, whatever they are. */
WORD FORMAT_mul_rare(WORD a, WORD b) {
    WORD sign = (a ^ b) & SIGN_BIT;
    a &= MAGNITUDE_MASK;
    b &= MAGNITUDE_MASK;
    if (a != 0) if (b != 0) if (a < INFINITY_BITS) if (b < INFINITY_BITS) {
        int exponent = FORMAT_exponent_of(a);
        int other = FORMAT_exponent_of(b);
        a = FORMAT_significand_of(a);
        b = FORMAT_significand_of(b);
        a = FORMAT_product(a, b);
        if (a < TOP_BIT) a <<= 1;
        else exponent += 1;
        a = FORMAT_shift_right(a, 1);
        a = FORMAT_round(sign, exponent + other - BIAS, a);
        return a;
    }
    a = FORMAT_mul_special(sign, a, b);
    return a;
}
