/* The operations of a binary interchange format of IEEE 754-2008 (3.4) in whole numbers, the format's numbers left
   open. The words in capital letters are those of binary32.sed and binary64.sed.

   A value of the format is a WORD with its bits. `WORD significand` with `int exponent` stands for
   significand * 2^(exponent - BIAS - (WIDTH - 2)): with the leading one at bit WIDTH - 2 the exponent is the biased
   one. Below the FRACTION_BITS + 1 bits of the format it has GUARD_BITS more, of which the lowest is sticky: it is set
   if any bit of the exact value below it is. Every NaN that is answered is NAN_BITS (6.2.3 leaves the payload open). */

/* x / 2^count for count from 0 on, the lowest bit sticky. */
WORD FORMAT_shift_right(WORD x, int count) {
    if (count >= WIDTH) return x != 0 ? UNIT : 0;
    WORD kept = x >> count;
    if (kept << count != x) kept |= UNIT;
    return kept;
}

/* Rounds to nearest, ties to even (4.3.1). `upper` has the sign and the biased exponent less 1; the significand's
   leading one adds the 1, and a carry of the rounding leads to the next exponent. Without the leading one, and with
   the exponent 1, the result is subnormal. */
WORD FORMAT_pack(WORD upper, WORD significand) {
    WORD rest = significand & GUARD_MASK;
    significand >>= GUARD_BITS;
    if (rest >= GUARD_HALF) {
        if (rest == GUARD_HALF) significand += significand & UNIT;
        else significand += UNIT;
    }
    return upper + significand;
}

/* The same for any exponent below 4 * BIAS: overflow to infinity (7.4), and gradual underflow. */
WORD FORMAT_round(WORD sign, int exponent, WORD significand) {
    if (exponent >= LARGEST_EXPONENT) return sign | INFINITY_BITS;
    if (exponent < 1) {
        significand = FORMAT_shift_right(significand, 1 - exponent);
        exponent = 1;
    }
    WORD result = FORMAT_pack(sign + ((WORD)(exponent - 1) << FRACTION_BITS), significand);
    return result;
}

/* ---- rounding in a given direction (4.3) ----
   mode 0: to nearest, ties to even; 1: toward zero; 2: upward; 3: downward; 4: to nearest, ties away from zero */

/* 1 if the magnitude is to be increased: `rest` is what is cut off, of a unit of 2 * middle; `odd` is what is kept. */
int FORMAT_increases(int mode, WORD sign, WORD odd, WORD rest, WORD middle) {
    if (mode == 1 || rest == 0) return 0;
    if (mode == 2) return sign == 0;
    if (mode == 3) return sign != 0;
    if (rest != middle) return rest > middle;
    return mode == 4 || (odd & UNIT) != 0;
}

/* FORMAT_round in a given direction, and for any exponent. */
WORD FORMAT_round_in(int mode, WORD sign, int exponent, WORD significand) {
    if (exponent >= LARGEST_EXPONENT) {
        int up = FORMAT_increases(mode, sign, UNIT, 3, 2);
        return (sign | INFINITY_BITS) - (up != 0 ? 0 : UNIT);
    }
    if (exponent < 1) {
        significand = FORMAT_shift_right(significand, 1 - exponent);
        exponent = 1;
    }
    WORD kept = significand >> GUARD_BITS;
    int increased = FORMAT_increases(mode, sign, kept, significand & GUARD_MASK, GUARD_HALF);
    return sign + ((WORD)(exponent - 1) << FRACTION_BITS) + kept + (WORD)increased;
}

/* ---- the parts of a number ---- */

/* The biased exponent of a finite number other than 0, below 1 for the subnormal ones: that of its leading bit. */
int FORMAT_exponent_of(WORD a) {
    WORD x = a & MAGNITUDE_MASK;
    if (x >= SMALLEST_NORMAL) return (int)(x >> FRACTION_BITS);
    return TOP_SHIFT + 1 - (int)clz(x);
}

/* The significand of a finite number other than 0, its leading one at bit WIDTH - 1. */
WORD FORMAT_significand_of(WORD a) {
    WORD x = a & MAGNITUDE_MASK;
    if (x >= SMALLEST_NORMAL) return (x << TOP_SHIFT) | TOP_BIT;
    return x << clz(x);
}

