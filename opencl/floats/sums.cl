/* ---- addition (5.4.1) ---- */

/* a + b of which y is the smaller magnitude, where a isn't finite, or both are 0 or subnormal: their sum has the bits
   of a whole number's. `signs` has the sign bit where the signs differ. */
WORD FORMAT_add_special(WORD a, WORD y, WORD signs) {
    WORD x = a & MAGNITUDE_MASK;
    if (x > INFINITY_BITS) return NAN_BITS;
    if (x == INFINITY_BITS) return y == INFINITY_BITS && signs >= SIGN_BIT ? NAN_BITS : a;
    if (signs < SIGN_BIT) return a + y;
    if (x == y) return 0;
    return a - y;
}

/* a + b. The exact sum 0 is +0, but for two zeros of one sign (6.3). Here a has the larger magnitude, and b the sign
   bit where the signs differ. The significands x and y have the leading one at bit WIDTH - 1; y is moved to its place
   below x, its lowest bit sticky. What is cut off has half of a unit added to it: where no bit of it is left then, it
   was a half, and the result is made even. (A variable that is declared costs a step: each has several uses.) */
WORD FORMAT_add(WORD a, WORD b) {
    WORD x = a & MAGNITUDE_MASK;
    WORD y = b & MAGNITUDE_MASK;
    b ^= a;
    if (x < y) {
        a ^= b;
        y = x;
        x = a & MAGNITUDE_MASK;
    }
    if (x >= INFINITY_BITS) {
        a = FORMAT_add_special(a, y, b);
        return a;
    }
    if (y < SMALLEST_NORMAL) {
        if (x < SMALLEST_NORMAL) {
            a = FORMAT_add_special(a, y, b);
            return a;
        }
        if (y == 0) return a;
        WORD up = clz(y) - TOP_SHIFT;
        y <<= up;
        x >>= FRACTION_BITS;
        x += up - 1;
    } else {
        x = (x >> FRACTION_BITS) - (y >> FRACTION_BITS);
    }
    y <<= TOP_SHIFT;
    y |= TOP_BIT;
    if (x > TOP_SHIFT) {
        if (x >= WIDTH) x = WIDTH - 1;
        WORD lost = y << ((WORD)WIDTH - x);
        y >>= x;
        if (lost != 0) y |= UNIT;
    } else {
        y >>= x;
    }
    x = a << TOP_SHIFT;
    x |= TOP_BIT;
    if (b < SIGN_BIT) {
        /* Here x is the largest y whose sum with the significand of a is below 2^WIDTH. */
        x ^= ALL_ONES;
        if (y <= x) {
            y += REST_HALF;
            if (y & REST_MASK) return a + (y >> TOP_SHIFT);
            a += y >> TOP_SHIFT;
            return a & EVEN_MASK;
        }
        /* The sum is 2^WIDTH + y - x - 1: the next exponent, which may be that of infinity. */
        y -= x;
        y += CARRY_HALF - 1;
        a &= EXPONENT_AND_SIGN;
        a += SMALLEST_NORMAL;
        a += y >> (TOP_SHIFT + 1);
        y &= CARRY_MASK;
        if (y == 0) a &= EVEN_MASK;
        y = a & MAGNITUDE_MASK;
        if (y >= INFINITY_BITS) a &= EXPONENT_AND_SIGN;
        return a;
    }
    /* The leading one moves up, at most to the exponent 1: below that the difference is subnormal, and exact. */
    x -= y;
    a &= EXPONENT_AND_SIGN;
    if (x < TOP_BIT) {
        if (x == 0) return 0;
        y = a & MAGNITUDE_MASK;
        y >>= FRACTION_BITS;
        b = clz(x);
        if (b >= y) b = y - 1;
        x <<= b;
        a -= b << FRACTION_BITS;
        if (x >= ROUNDED_TO_NEXT) return a + SMALLEST_NORMAL;
    }
    a -= SMALLEST_NORMAL;
    x += REST_HALF;
    if (x & REST_MASK) return a + (x >> TOP_SHIFT);
    a += x >> TOP_SHIFT;
    return a & EVEN_MASK;
}
