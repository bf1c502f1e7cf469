/* ---- what the operations of binary32 are made of: words of 32 bits, with 64 bits for what is between ---- */

/* The upper 32 bits of x * y. */
WORD FORMAT_product_upper(WORD x, WORD y) {
    return (WORD)((ulong)x * y >> 32);
}

/* The same, the lowest bit sticky. */
WORD FORMAT_product(WORD x, WORD y) {
    ulong product = (ulong)x * y;
    WORD upper = (WORD)(product >> 32);
    if ((WORD)product != 0) upper |= UNIT;
    return upper;
}

/* x * 2^30 / y for x and y from 2^31 on, the lowest bit sticky. */
WORD FORMAT_quotient(WORD x, WORD y) {
    ulong dividend = (ulong)x << 30;
    ulong quotient = dividend / y;
    if (quotient * y != dividend) quotient |= 1ul;
    return (WORD)quotient;
}

/* x * 2^31 / y for x and y from 2^31 on, without what is behind the point. */
WORD FORMAT_ratio(WORD x, WORD y) {
    return (WORD)(((ulong)x << 31) / y);
}

/* The square root of x * 2^29, or if `odd` is 1 of x * 2^30, for x from 2^31 on; the lowest bit sticky. */
WORD FORMAT_root(WORD x, int odd) {
    ulong n = (ulong)x << (29 + odd);
    ulong root = whole_root(n);
    if (root * root != n) root |= 1ul;
    return (WORD)root;
}

/* ---- a * b + c in words of 32 bits ---- */

/* a * b + c, rounded once, where a and b are finite and not 0, c is finite, and `sign` is that of a * b. The sum is
   taken in 64 bits, where the product has 48. The leading bit of what is lost to the sticky bit is so far below that of
   the larger summand that the sum keeps the larger one's leading bit or the next. */
WORD FORMAT_fma_finite(WORD sign, WORD a, WORD b, WORD c) {
    int exponent = FORMAT_exponent_of(a);
    int other = FORMAT_exponent_of(b);
    exponent += other - BIAS;
    a = FORMAT_significand_of(a);
    b = FORMAT_significand_of(b);
    ulong sum = (ulong)a * b >> 2;
    if ((c & MAGNITUDE_MASK) != 0) {
        other = FORMAT_exponent_of(c);
        a = FORMAT_significand_of(c);
        ulong addend = (ulong)a << 29;
        if (other < exponent) addend = shift_right_sticky(addend, exponent - other);
        if (other > exponent) {
            sum = shift_right_sticky(sum, other - exponent);
            exponent = other;
        }
        if ((sign ^ c) < SIGN_BIT) {
            sum += addend;
        } else if (sum >= addend) {
            sum -= addend;
        } else {
            sum = addend - sum;
            sign ^= SIGN_BIT;
        }
    }
    if (sum == 0ul) return 0;
    int up = (int)clz(sum);
    sum = shift_right_sticky(sum << up, 33);
    a = FORMAT_round(sign, exponent + 3 - up, (WORD)sum);
    return a;
}

