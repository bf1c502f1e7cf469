/* ---- multiplication in one word ---- */

/* a * b. Where both exponents are far from their ends, that of the product is none of them. `upper` has the sum of the
   exponents with that of the signs, whose carry leaves the word. Both significands have their leading one at bit
   WIDTH - 1; the upper word of their product, which is a then, has it there, or at the bit below, and adds 1 to the
   exponent. The lower word counts where a half is cut off. (A declaration makes 64 bits of a word in fewer steps than a
   cast.) */
WORD FORMAT_mul(WORD a, WORD b) {
    WORD upper = a & MAGNITUDE_MASK;
    if (upper >= SMALL_BITS) if (upper < LARGE_BITS) {
        upper = b & MAGNITUDE_MASK;
        if (upper >= SMALL_BITS) if (upper < LARGE_BITS) {
            upper = (a & EXPONENT_AND_SIGN) + (b & EXPONENT_AND_SIGN);
            a <<= TOP_SHIFT;
            a |= TOP_BIT;
            b <<= TOP_SHIFT;
            b |= TOP_BIT;
            ulong wide = a;
            a = UPPER_PRODUCT(wide, b);
            if (a < TOP_BIT) {
                upper -= ONE_BITS + SMALLEST_NORMAL;
                a += REST_HALF >> 1;
                if (a & (REST_MASK >> 1)) return upper + (a >> (TOP_SHIFT - 1));
                upper += a >> (TOP_SHIFT - 1);
            } else {
                upper -= ONE_BITS;
                a += REST_HALF;
                if (a & REST_MASK) return upper + (a >> TOP_SHIFT);
                upper += a >> TOP_SHIFT;
            }
            if ((WORD)(wide * b) == 0) upper &= EVEN_MASK;
            return upper;
        }
    }
    a = FORMAT_mul_rare(a, b);
    return a;
}

/* a * a: the same with one number in place of two, whose sign doesn't count. */
WORD FORMAT_square(WORD a) {
    WORD upper = a & MAGNITUDE_MASK;
    if (upper >= SMALL_BITS) if (upper < LARGE_BITS) {
        upper &= EXPONENT_AND_SIGN;
        upper <<= 1;
        a <<= TOP_SHIFT;
        a |= TOP_BIT;
        ulong wide = a;
        a = UPPER_PRODUCT(wide, a);
        if (a < TOP_BIT) {
            upper -= ONE_BITS + SMALLEST_NORMAL;
            a += REST_HALF >> 1;
            if (a & (REST_MASK >> 1)) return upper + (a >> (TOP_SHIFT - 1));
            upper += a >> (TOP_SHIFT - 1);
        } else {
            upper -= ONE_BITS;
            a += REST_HALF;
            if (a & REST_MASK) return upper + (a >> TOP_SHIFT);
            upper += a >> TOP_SHIFT;
        }
        if ((WORD)(wide * wide) == 0) upper &= EVEN_MASK;
        return upper;
    }
    a = FORMAT_mul_rare(a, a);
    return a;
}

/* a * 2^n, where `power` has n in the place of the exponent, from -63 to 63. So where a usual a stands, the exponent of
   the product is neither of its ends, and the fraction stays. */
WORD FORMAT_mul_power(WORD a, WORD power) {
    WORD x = a & MAGNITUDE_MASK;
    if (x >= SMALL_BITS) if (x < LARGE_BITS) return a + power;
    a = FORMAT_mul(a, power + ONE_BITS);
    return a;
}
