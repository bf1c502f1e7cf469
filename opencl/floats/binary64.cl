/* ---- what the operations of binary64 are made of: words of 64 bits, with two of them for what is between ---- */

/* The upper 64 bits of x * y, by four products of 32 bits. */
WORD FORMAT_product_upper(WORD x, WORD y) {
    WORD x_lower = x & 0xfffffffful;
    WORD x_upper = x >> 32;
    WORD y_lower = y & 0xfffffffful;
    WORD y_upper = y >> 32;
    WORD middle = x_upper * y_lower + (x_lower * y_lower >> 32);
    WORD other = x_lower * y_upper + (middle & 0xfffffffful);
    return x_upper * y_upper + (middle >> 32) + (other >> 32);
}

/* The same, the lowest bit sticky. */
WORD FORMAT_product(WORD x, WORD y) {
    WORD upper = FORMAT_product_upper(x, y);
    if (x * y != 0ul) upper |= UNIT;
    return upper;
}

/* x * 2^62 / y for x and y from 2^63 on with 11 zero bits at the end; the lowest bit sticky. Long division, whose
   digits have 11 bits each. */
WORD FORMAT_quotient(WORD x, WORD y) {
    WORD divisor = y >> 11;
    WORD rest = x >> 11;
    WORD quotient = 0;
    if (rest >= divisor) {
        quotient = UNIT;
        rest -= divisor;
    }
    WORD digit = (rest << 11) / divisor;
    rest = (rest << 11) - digit * divisor;
    quotient = quotient << 11 | digit;
    digit = (rest << 11) / divisor;
    rest = (rest << 11) - digit * divisor;
    quotient = quotient << 11 | digit;
    digit = (rest << 11) / divisor;
    rest = (rest << 11) - digit * divisor;
    quotient = quotient << 11 | digit;
    digit = (rest << 11) / divisor;
    rest = (rest << 11) - digit * divisor;
    quotient = quotient << 11 | digit;
    digit = (rest << 11) / divisor;
    quotient = (quotient << 11 | digit) << 7;
    if (digit * divisor != rest << 11) quotient |= UNIT;
    return quotient;
}

/* x * 2^63 / y for x and y from 2^63 on, too large by at most 2: two digits of 32 bits by the upper half of y, of which
   the first is set right (Knuth, The Art of Computer Programming 2, 4.3.1, algorithm D). */
WORD FORMAT_ratio(WORD x, WORD y) {
    WORD divisor = y >> 32;
    WORD lower = y & 0xfffffffful;
    WORD digit = (x >> 1) / divisor;
    WORD rest = (x >> 1) - digit * divisor;
    if (digit * lower > (rest << 32 | (x & UNIT) << 31)) {
        digit -= UNIT;
        rest += divisor;
        if (rest <= 0xfffffffful) {
            if (digit * lower > (rest << 32 | (x & UNIT) << 31)) digit -= UNIT;
        }
    }
    rest = (x << 31) - digit * y;
    return digit << 32 | min(rest / divisor, 0xfffffffful);
}

/* The square root of x * 2^61, or if `odd` is 1 of x * 2^62, for x from 2^63 on with 11 zero bits at the end; the
   lowest bit sticky. The upper 31 bits of the root are that of the upper half of the radicand. The next 31 are what is
   left of it, divided by twice the upper bits: at most 1 too large, since these are at least 2^30. */
WORD FORMAT_root(WORD x, int odd) {
    WORD n = x >> (3 - odd);
    WORD upper = whole_root(n);
    WORD rest = n - upper * upper;
    WORD twice = upper << 1;
    WORD lower = min((rest << 31) / twice, 0x7ffffffful);
    rest = ((rest << 31) - lower * twice) << 31;
    WORD root = upper << 31 | lower;
    if (rest < lower * lower) root -= UNIT;
    root <<= 1;
    if (rest != lower * lower) root |= UNIT;
    return root;
}

/* ---- a * b + c in two words of 64 bits ---- */

/* The lower 64 bits of (upper * 2^64 + lower) / 2^count for count from 0 to 127, the lowest sticky. */
WORD FORMAT_lower_shifted(WORD upper, WORD lower, int count) {
    if (count == 0) return lower;
    WORD shifted = 0;
    if (count < 64) {
        shifted = lower >> count | upper << (64 - count);
        if (lower << (64 - count) != 0) shifted |= UNIT;
        return shifted;
    }
    shifted = FORMAT_shift_right(upper, count - 64);
    if (lower != 0) shifted |= UNIT;
    return shifted;
}

/* The number of 128 bits, rounded. Its exponent is for a leading one at bit 124. */
WORD FORMAT_round_wide(WORD sign, int exponent, WORD upper, WORD lower) {
    if (upper == 0) {
        if (lower == 0) return 0;
        upper = lower;
        lower = 0;
        exponent -= 64;
    }
    int up = (int)clz(upper);
    if (up != 0) upper = upper << up | lower >> (64 - up);
    lower <<= up;
    upper = upper >> 1 | (upper & UNIT);
    if (lower != 0) upper |= UNIT;
    upper = FORMAT_round(sign, exponent + 3 - up, upper);
    return upper;
}

/* The sum of two numbers of 128 bits, or with `opposite` their difference, rounded. The exponent is for a leading one at
   bit 124, the sign that of the first. */
WORD FORMAT_add_wide(WORD sign, int exponent, WORD upper, WORD lower, int opposite, WORD other_upper, WORD other_lower) {
    WORD result = 0;
    if (opposite == 0) {
        lower += other_lower;
        upper += other_upper + (WORD)(lower < other_lower);
    } else if (upper > other_upper || (upper == other_upper && lower >= other_lower)) {
        upper -= other_upper + (WORD)(lower < other_lower);
        lower -= other_lower;
    } else {
        upper = other_upper - upper - (WORD)(other_lower < lower);
        lower = other_lower - lower;
        sign ^= SIGN_BIT;
    }
    result = FORMAT_round_wide(sign, exponent, upper, lower);
    return result;
}

/* a * b + c, rounded once, where a and b are finite and not 0, c is finite, and `sign` is that of a * b. The sum is
   taken in 128 bits, where the product has 106. The leading bit of what is lost to the sticky bit is so far below that
   of the larger summand that the sum keeps the larger one's leading bit or the next. */
WORD FORMAT_fma_finite(WORD sign, WORD a, WORD b, WORD c) {
    int exponent = FORMAT_exponent_of(a);
    int other = FORMAT_exponent_of(b);
    exponent += other - BIAS;
    a = FORMAT_significand_of(a);
    b = FORMAT_significand_of(b);
    WORD upper = FORMAT_product_upper(a, b);
    WORD lower = a * b >> 2 | upper << 62;
    upper >>= 2;
    if ((c & MAGNITUDE_MASK) == 0) {
        a = FORMAT_round_wide(sign, exponent, upper, lower);
        return a;
    }
    other = FORMAT_exponent_of(c);
    a = FORMAT_significand_of(c);
    a >>= 3;
    b = 0;
    if (other < exponent) {
        int count = min(exponent - other, 127);
        b = FORMAT_lower_shifted(a, 0, count);
        a = count > 63 ? 0 : a >> count;
    } else if (other > exponent) {
        int count = min(other - exponent, 127);
        lower = FORMAT_lower_shifted(upper, lower, count);
        upper = count > 63 ? 0 : upper >> count;
        exponent = other;
    }
    a = FORMAT_add_wide(sign, exponent, upper, lower, (int)((sign ^ c) >= SIGN_BIT), a, b);
    return a;
}

