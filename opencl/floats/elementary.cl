/* ---- elementary functions (IEEE 754-2008, 9.2; OpenCL 1.2, 6.12.2) ----

   They compute with fractions of 2^WIDTH, and round once. A positive number is often given by a significand m with its
   leading one at bit WIDTH - 1, and an exponent e: it is m * 2^(e - (WIDTH - 1)). The polynomials are those of
   polynomials32.cl and polynomials64.cl. The result of a function that is irrational is rounded with the sticky bit
   set. */

/* m * 2^(e - (WIDTH - 1)), m any number but 0, rounded. */
WORD FORMAT_rounded(WORD sign, int e, WORD m) {
    int up = (int)clz(m);
    m <<= up;
    m = FORMAT_round(sign, e - up + BIAS, (m >> 1) | UNIT);
    return m;
}

/* m / 2^count, 0 where the count is WIDTH or more. */
WORD FORMAT_down(WORD m, int count) {
    return count < WIDTH ? m >> count : 0;
}

/* ---- powers of 2, e, 10 ---- */

/* 2^(k + f / 2^WIDTH) */
WORD FORMAT_two_to(WORD sign, int k, WORD f) {
    if (f == 0) {
        f = FORMAT_round(sign, k + BIAS, SECOND_BIT);
        return f;
    }
    WORD part = FORMAT_exp2_part(f);
    f = FORMAT_product_upper(f, part);
    f = FORMAT_round(sign, k + BIAS, (SECOND_BIT + (f >> 1)) | UNIT);
    return f;
}

/* Of t = (upper + lower / 2^WIDTH) * 2^(n - WIDTH) the whole part, below 2^(WIDTH / 2), and what is behind the point as
   a fraction of 2^WIDTH. */
int FORMAT_whole_of(WORD upper, int n) {
    return n > 0 ? (int)(upper >> (WIDTH - n)) : 0;
}
/* What is behind the point. */
WORD FORMAT_part_of(WORD upper, WORD lower, int n) {
    if (n > 0) return upper << n | lower >> (WIDTH - n);
    upper = FORMAT_down(upper, -n);
    return upper;
}

/* 2^t or 2^-t, t being as above. */
WORD FORMAT_two_to_product(WORD sign, int is_negative, WORD upper, WORD lower, int n) {
    int whole = FORMAT_whole_of(upper, n);
    WORD part = FORMAT_part_of(upper, lower, n);
    if (is_negative != 0) {
        whole = -whole - (int)(part != 0);
        part = 0 - part;
    }
    part = FORMAT_two_to(sign, whole, part);
    return part;
}

/* The lower word of m * (upper + lower / 2^WIDTH), and the upper one. */
WORD FORMAT_lower_of_product(WORD m, WORD upper, WORD lower) {
    WORD more = FORMAT_product_upper(m, lower);
    return m * upper + more;
}
/* The upper word of the same product. */
WORD FORMAT_upper_of_product(WORD m, WORD upper, WORD lower) {
    WORD more = FORMAT_product_upper(m, lower);
    WORD product = FORMAT_product_upper(m, upper);
    return product + (WORD)(m * upper + more < more);
}

/* base^a; log2(base) is (upper + lower / 2^WIDTH) * 2^(scale - WIDTH). */
WORD FORMAT_power_of_base(WORD a, WORD upper, WORD lower, int scale) {
    WORD x = a & MAGNITUDE_MASK;
    if (x > INFINITY_BITS) return NAN_BITS;
    if (x == 0) return ONE_BITS;
    int e = FORMAT_exponent_of(x);
    e -= BIAS;
    if (e > EXPONENT_BITS) return a >= SIGN_BIT ? 0 : INFINITY_BITS;
    if (e < -FRACTION_BITS - 4) return ONE_BITS;
    x = FORMAT_significand_of(x);
    WORD first = FORMAT_upper_of_product(x, upper, lower);
    WORD second = FORMAT_lower_of_product(x, upper, lower);
    x = FORMAT_two_to_product(0, (int)(a >= SIGN_BIT), first, second, e + 1 + scale);
    return x;
}

/* e^a */
WORD FORMAT_exp(WORD a) {
    a = FORMAT_power_of_base(a, LOG2_E_UPPER, LOG2_E_LOWER, 1);
    return a;
}

/* 2^a */
WORD FORMAT_exp2(WORD a) {
    a = FORMAT_power_of_base(a, TOP_BIT, 0, 1);
    return a;
}

/* 10^a */
WORD FORMAT_exp10(WORD a) {
    a = FORMAT_power_of_base(a, LOG2_10_UPPER, LOG2_10_LOWER, 2);
    return a;
}

/* e^x - 1 for the magnitude x = m * 2^(e - (WIDTH - 1)) from 1/2 on and below 2^(EXPONENT_BITS + 1), or e^-x - 1. */
WORD FORMAT_expm1_far(int is_negative, int e, WORD m) {
    WORD upper = FORMAT_upper_of_product(m, LOG2_E_UPPER, LOG2_E_LOWER);
    WORD lower = FORMAT_lower_of_product(m, LOG2_E_UPPER, LOG2_E_LOWER);
    int whole = FORMAT_whole_of(upper, e + 2);
    WORD part = FORMAT_part_of(upper, lower, e + 2);
    if (is_negative != 0) part = ~part;
    m = FORMAT_exp2_part(part);
    m = FORMAT_product_upper(m, part);
    m += TOP_BIT;
    if (is_negative != 0) {
        m = FORMAT_down(m, whole + 1);
        m = FORMAT_rounded(SIGN_BIT, 0, TOP_BIT - m);
        return m;
    }
    upper = FORMAT_down(TOP_BIT, whole);
    m = FORMAT_rounded(0, whole, m - upper);
    return m;
}

/* e^a - 1 */
WORD FORMAT_expm1(WORD a) {
    WORD x = a & MAGNITUDE_MASK;
    if (x > INFINITY_BITS) return NAN_BITS;
    if (x == 0) return a;
    int e = FORMAT_exponent_of(x);
    e -= BIAS;
    if (e > EXPONENT_BITS) return a >= SIGN_BIT ? SIGN_BIT | ONE_BITS : INFINITY_BITS;
    if (e < -FRACTION_BITS - 2) return a;
    x = FORMAT_significand_of(x);
    if (e >= -1) {
        x = FORMAT_expm1_far((int)(a >= SIGN_BIT), e, x);
        return x;
    }
    WORD z = x >> (-e - 1);
    z = FORMAT_expm1_part(a >= SIGN_BIT ? TOP_BIT - z : TOP_BIT + z);
    x = FORMAT_product_upper(x, z);
    x = FORMAT_rounded(a & SIGN_BIT, e + 1, x);
    return x;
}

/* ---- logarithms ---- */

/* atanh(s) / 2 for s = q * 2^(e - (WIDTH - 1)) below 0.1717, with the same exponent. */
WORD FORMAT_atanh_of(int e, WORD q) {
    WORD z = FORMAT_down(q, -e - 1);
    z = FORMAT_product_upper(z, z);
    WORD part = FORMAT_atanh_part(z);
    part = FORMAT_product_upper(part, z);
    q >>= 1;
    part = FORMAT_product_upper(part, q);
    return q + part;
}

/* A positive number is m * 2^(e - (WIDTH - 1)), and its logarithm the sum of k * log(2) and the logarithm of a number
   r from sqrt(1/2) to sqrt(2), that is 2 * atanh(s) for s = (r - 1) / (r + 1). k is e, or e + 1 where m is large. */
int FORMAT_log_multiple(int e, WORD m) {
    return m >= SQRT_2 ? e + 1 : e;
}

/* |r - 1|, as a fraction of 2^(WIDTH - 1) */
WORD FORMAT_log_distance(WORD m) {
    return m >= SQRT_2 ? 0 - m : m - TOP_BIT;
}

/* 1 if r is below 1 */
int FORMAT_log_is_below(WORD m) {
    return m >= SQRT_2;
}

/* The exponent of s, if it isn't 0. */
int FORMAT_log_exponent(WORD m) {
    WORD distance = FORMAT_log_distance(m);
    return -1 - (int)clz(distance);
}

/* v such that |log(r)| is v * 2^(e + 4 - WIDTH), e the exponent of s. The factor is 1 / log(b) as a fraction of
   2^(WIDTH - 1), b the base. */
WORD FORMAT_log_of_rest(WORD m, WORD factor) {
    WORD distance = FORMAT_log_distance(m);
    if (distance == 0) return 0;
    WORD sum = (m >> 1) + (m >= SQRT_2 ? TOP_BIT : SECOND_BIT);
    int up = (int)clz(distance);
    m = FORMAT_ratio(distance << up, sum);
    m = FORMAT_atanh_of(-1 - up, m);
    m = FORMAT_product_upper(m, factor);
    return m;
}

/* The magnitude of the logarithm: v such that it is v * 2^(scale - WIDTH), with the scale of FORMAT_log_scale.
   log(2) to the base is log_2 * 2^(log_scale - WIDTH). */
WORD FORMAT_log_value(int e, WORD m, WORD log_2, int log_scale, WORD factor) {
    WORD rest = FORMAT_log_of_rest(m, factor);
    int k = FORMAT_log_multiple(e, m);
    if (k == 0) return rest;
    uint size = abs(k);
    int up = (int)clz(size);
    e = FORMAT_log_exponent(m);
    rest = FORMAT_down(rest, 28 - up + log_scale - e);
    WORD multiple = (WORD)size << (WIDTH - 32 + up);
    multiple = FORMAT_product_upper(multiple, log_2);
    return (m >= SQRT_2) == (k < 0) ? multiple + rest : multiple - rest;
}

/* The scale of that logarithm: a fraction of 2^WIDTH times 2 to its power. */
int FORMAT_log_scale(int e, WORD m, int log_scale) {
    int k = FORMAT_log_multiple(e, m);
    int exponent = FORMAT_log_exponent(m);
    if (k == 0) return exponent + 4;
    return 32 - (int)clz(abs(k)) + log_scale;
}

/* 1 if the logarithm is below 0 */
int FORMAT_log_is_negative(int e, WORD m) {
    int k = FORMAT_log_multiple(e, m);
    return k == 0 ? m >= SQRT_2 : k < 0;
}

/* The logarithm of a to a base. */
WORD FORMAT_log_to_base(WORD a, WORD log_2, int log_scale, WORD factor) {
    WORD x = a & MAGNITUDE_MASK;
    if (x > INFINITY_BITS) return NAN_BITS;
    if (x == 0) return NEGATIVE_INFINITY;
    if (a >= SIGN_BIT) return NAN_BITS;
    if (x == INFINITY_BITS) return x;
    int e = FORMAT_exponent_of(x);
    e -= BIAS;
    x = FORMAT_significand_of(x);
    WORD value = FORMAT_log_value(e, x, log_2, log_scale, factor);
    if (value == 0) return 0;
    int scale = FORMAT_log_scale(e, x, log_scale);
    int is_negative = FORMAT_log_is_negative(e, x);
    x = FORMAT_rounded(is_negative != 0 ? SIGN_BIT : 0, scale - 1, value);
    return x;
}

/* The natural logarithm of a */
WORD FORMAT_log(WORD a) {
    a = FORMAT_log_to_base(a, LOG_2, 1, TOP_BIT);
    return a;
}

/* The logarithm of a to the base 2 */
WORD FORMAT_log2(WORD a) {
    a = FORMAT_log_to_base(a, TOP_BIT, 1, LOG2_E);
    return a;
}

/* The logarithm of a to the base 10 */
WORD FORMAT_log10(WORD a) {
    a = FORMAT_log_to_base(a, LOG10_2, 1, LOG10_E);
    return a;
}

/* log(1 + x) or log(1 - x), x = m * 2^(e - (WIDTH - 1)), that is 2 * atanh(x / (2 + x)); from sqrt(1/2) to sqrt(2). */
WORD FORMAT_log1p_near(WORD sign, int e, WORD m) {
    WORD sum = m >> (1 - e);
    sum = sign == 0 ? TOP_BIT + sum : TOP_BIT - sum;
    e -= 1;
    if (sum < TOP_BIT) {
        sum <<= 1;
        e += 1;
    }
    m = FORMAT_ratio(m, sum);
    m = FORMAT_atanh_of(e, m);
    m = FORMAT_rounded(sign, e + 2, m);
    return m;
}

/* The same outside of that interval. */
WORD FORMAT_log1p_far(WORD sign, int e, WORD m) {
    int exponent = 0;
    if (sign == 0) {
        exponent = max(e, 0) + 1;
        m >>= exponent - e;
        WORD one = FORMAT_down(TOP_BIT, exponent);
        m += one;
    } else {
        m = TOP_BIT - (m >> -e);
    }
    int up = (int)clz(m);
    m <<= up;
    exponent -= up;
    WORD value = FORMAT_log_value(exponent, m, LOG_2, 1, TOP_BIT);
    int scale = FORMAT_log_scale(exponent, m, 1);
    m = FORMAT_rounded(sign, scale - 1, value);
    return m;
}

/* log(1 + a) */
WORD FORMAT_log1p(WORD a) {
    WORD x = a & MAGNITUDE_MASK;
    if (x > INFINITY_BITS || (a >= SIGN_BIT && x > ONE_BITS)) return NAN_BITS;
    if (x == 0 || a == INFINITY_BITS) return a;
    if (a == (SIGN_BIT | ONE_BITS)) return NEGATIVE_INFINITY;
    int e = FORMAT_exponent_of(x);
    e -= BIAS;
    if (e < -FRACTION_BITS - 2) return a;
    x = FORMAT_significand_of(x);
    int is_far = e >= 0;
    if (e < 0) is_far = x >> (-e - 1) > (a >= SIGN_BIT ? ONE_LESS_SQRT_HALF : SQRT_2_LESS_ONE);
    if (is_far != 0) x = FORMAT_log1p_far(a & SIGN_BIT, e, x);
    else x = FORMAT_log1p_near(a & SIGN_BIT, e, x);
    return x;
}

/* ---- sine, cosine, tangent ---- */

/* sin(r) for r = m * 2^(e - (WIDTH - 1)) up to pi / 4, with the same exponent. */
WORD FORMAT_sine_of(int e, WORD m) {
    WORD z = FORMAT_down(m, -e - 1);
    z = FORMAT_product_upper(z, z);
    WORD part = FORMAT_sine_part(z);
    part = FORMAT_product_upper(part, z);
    part = FORMAT_product_upper(part, m);
    return m - part;
}

/* cos(r) of the same r, as a fraction of 2^WIDTH; of 1 the largest one. */
WORD FORMAT_cosine_of(int e, WORD m) {
    m = FORMAT_down(m, -e - 1);
    m = FORMAT_product_upper(m, m);
    WORD part = FORMAT_cosine_part(m);
    part = FORMAT_product_upper(part, m);
    return ~part;
}

/* The sine (kind 0), cosine (1) or tangent (2) of quadrant * pi / 2 + r; r has this sign. */
WORD FORMAT_circular(int kind, int quadrant, WORD sign, int e, WORD m) {
    if (kind == 1) quadrant += 1;
    int odd = quadrant & 1;
    if (kind != 2 && odd != 0) sign = 0;
    if (kind == 2 ? odd != 0 : (quadrant & 2) != 0) sign ^= SIGN_BIT;
    WORD sine = 0;
    WORD cosine = 0;
    if (kind == 2 || odd == 0) sine = FORMAT_sine_of(e, m);
    if (kind == 2 || odd != 0) cosine = FORMAT_cosine_of(e, m);
    if (kind == 2) {
        int up = (int)clz(sine);
        sine <<= up;
        e -= up;
        m = FORMAT_ratio(odd != 0 ? cosine : sine, odd != 0 ? sine : cosine);
        e = odd != 0 ? -1 - e : e + 1;
    } else {
        m = odd != 0 ? cosine : sine;
        if (odd != 0) e = -1;
    }
    m = FORMAT_rounded(sign, e, m);
    return m;
}

/* The same of an argument of this sign. Its magnitude is pi / 2 times (upper + lower / 2^WIDTH) * 2^(2 - WIDTH), but for
   whole turns, where that number of quadrants isn't whole; or, where it is 0, m * 2^(e - (WIDTH - 1)), up to pi / 4. */
WORD FORMAT_circular_of_quadrants(int kind, WORD sign, int e, WORD m, WORD upper, WORD lower) {
    int quadrant = 0;
    if (upper != 0 || lower != 0) {
        quadrant = (int)(upper >> (WIDTH - 2));
        if (sign != 0) quadrant = -quadrant;
        upper = upper << 2 | lower >> (WIDTH - 2);
        lower <<= 2;
        if (upper >= TOP_BIT) {
            quadrant += sign != 0 ? -1 : 1;
            sign ^= SIGN_BIT;
            lower = 0 - lower;
            upper = ~upper + (WORD)(lower == 0);
        }
        e = 0;
        if (upper == 0) {
            upper = lower;
            lower = 0;
            e = -WIDTH;
        }
        int up = (int)clz(upper);
        if (up != 0) upper = upper << up | lower >> (WIDTH - up);
        m = FORMAT_product_upper(upper, PI_QUARTER);
        e -= up;
        up = (int)clz(m);
        m <<= up;
        e -= up;
    }
    m = FORMAT_circular(kind, quadrant & 3, sign, e, m);
    return m;
}

/* 64 bits of 2 / pi from a place of its fraction on, which is counted as in FORMAT_two_over_pi. */
ulong FORMAT_bits_of_two_over_pi(int place) {
    ulong first = FORMAT_two_over_pi(place >> 6);
    int up = place & 63;
    if (up == 0) return first;
    ulong second = FORMAT_two_over_pi((place >> 6) + 1);
    return first << up | second >> (64 - up);
}

/* The same as a word. */
WORD FORMAT_word_of_two_over_pi(int place) {
    ulong bits = FORMAT_bits_of_two_over_pi(place);
    return (WORD)(bits >> (64 - WIDTH));
}

/* The sine, cosine or tangent of a. The number of quadrants is m times those bits of 2 / pi that don't give multiples
   of 4, in three words (Payne and Hanek). */
WORD FORMAT_circular_of(int kind, WORD a) {
    WORD x = a & MAGNITUDE_MASK;
    if (x >= INFINITY_BITS) return NAN_BITS;
    if (x == 0) return kind == 1 ? ONE_BITS : a;
    int e = FORMAT_exponent_of(x);
    e -= BIAS;
    x = FORMAT_significand_of(x);
    WORD upper = 0;
    WORD lower = 0;
    if (e >= -1) {
        int place = e + WIDTH - 1;
        WORD first = FORMAT_word_of_two_over_pi(place);
        WORD second = FORMAT_word_of_two_over_pi(place + WIDTH);
        WORD third = FORMAT_word_of_two_over_pi(place + 2 * WIDTH);
        third = FORMAT_product_upper(x, third);
        lower = x * second + third;
        second = FORMAT_product_upper(x, second);
        upper = x * first + second + (WORD)(lower < third);
    }
    x = FORMAT_circular_of_quadrants(kind, a & SIGN_BIT, e, x, upper, lower);
    return x;
}

/* sin(a) */
WORD FORMAT_sin(WORD a) {
    a = FORMAT_circular_of(0, a);
    return a;
}

/* cos(a) */
WORD FORMAT_cos(WORD a) {
    a = FORMAT_circular_of(1, a);
    return a;
}

/* tan(a) */
WORD FORMAT_tan(WORD a) {
    a = FORMAT_circular_of(2, a);
    return a;
}

/* The sine, cosine or tangent of pi * a (IEEE 754-2008, 9.2; OpenCL 1.2, 7.5.1), where 2 * a is a whole number modulo
   4. */
WORD FORMAT_circular_of_whole(int kind, WORD sign, int quadrant) {
    if (kind == 2) {
        WORD odd = (quadrant & 2) != 0 ? SIGN_BIT : 0;
        if ((quadrant & 1) == 0) return sign ^ odd;
        return (sign ^ odd) | INFINITY_BITS;
    }
    if (((quadrant + kind) & 1) == 0) return kind == 0 ? sign : 0;
    return ((quadrant + kind) & 2) == 0 ? (kind == 0 ? sign : 0) | ONE_BITS : ((kind == 0 ? sign : 0) ^ SIGN_BIT) | ONE_BITS;
}

/* The sine, cosine or tangent of pi * a. */
WORD FORMAT_circular_of_pi(int kind, WORD a) {
    WORD x = a & MAGNITUDE_MASK;
    WORD sign = a & SIGN_BIT;
    if (x >= INFINITY_BITS) return NAN_BITS;
    if (x == 0) return kind == 1 ? ONE_BITS : a;
    int e = FORMAT_exponent_of(x);
    e -= BIAS;
    x = FORMAT_significand_of(x);
    WORD quadrants = 0;
    if (e >= -2) {
        quadrants = e >= WIDTH ? 0 : e < 0 ? x >> -e : x << e;
        if (quadrants << 2 == 0) {
            x = FORMAT_circular_of_whole(kind, sign, (int)(quadrants >> (WIDTH - 2)));
            return x;
        }
    }
    x = FORMAT_product_upper(x, PI_QUARTER);
    x = FORMAT_circular_of_quadrants(kind, sign, e + 2, x, quadrants, 0);
    return x;
}

/* sin(pi * a) */
WORD FORMAT_sinpi(WORD a) {
    a = FORMAT_circular_of_pi(0, a);
    return a;
}

/* cos(pi * a) */
WORD FORMAT_cospi(WORD a) {
    a = FORMAT_circular_of_pi(1, a);
    return a;
}

/* tan(pi * a) */
WORD FORMAT_tanpi(WORD a) {
    a = FORMAT_circular_of_pi(2, a);
    return a;
}

/* ---- arc sine, arc cosine, arc tangent ---- */

/* An angle of this sign, base + v or with `less` base - v: the base as a fraction of 2^(WIDTH - 2), v being
   m * 2^(e - (WIDTH - 1)). With `per_pi` it is divided by pi. */
WORD FORMAT_angle(WORD sign, WORD base, int less, int e, WORD m, int per_pi) {
    if (base != 0) {
        m = FORMAT_down(m, 1 - e);
        m = less != 0 ? base - m : base + m;
        e = 1;
    }
    if (per_pi != 0) {
        int up = (int)clz(m);
        m <<= up;
        e -= up + 1;
        m = FORMAT_product_upper(m, TWO_OVER_PI);
    }
    m = FORMAT_rounded(sign, e, m);
    return m;
}

/* atan(s) for s = q * 2^(e - (WIDTH - 1)) up to tan(pi / 8), with the same exponent. */
WORD FORMAT_atan_of(int e, WORD q) {
    WORD z = FORMAT_down(q, -e - 1);
    z = FORMAT_product_upper(z, z);
    WORD part = FORMAT_atan_part(z);
    part = FORMAT_product_upper(part, z);
    part = FORMAT_product_upper(part, q);
    return q - part;
}

/* The angle at which a point of the first quadrant is seen whose coordinates' significands are y and x, y's exponent
   larger by e; or with `left` pi less it. It is atan(y / x), or pi / 2 - atan(x / y), or where y and x are near each
   other pi / 4 + atan((y - x) / (y + x)). */
WORD FORMAT_angle_of(WORD sign, int left, int e, WORD y, WORD x, int per_pi) {
    WORD up = FORMAT_down(y, e < 0 ? 1 - e : 1);
    WORD along = FORMAT_down(x, e > 0 ? 1 + e : 1);
    int above = up > along;
    WORD bound = FORMAT_product_upper(above != 0 ? up : along, TAN_PI_EIGHTH);
    WORD base = 0;
    int less = 0;
    if (up > bound && along > bound) {
        base = QUARTER_PI;
        less = !above;
        y = above != 0 ? up - along : along - up;
        x = up + along;
        e = (int)clz(x) - (int)clz(y);
        x <<= clz(x);
        if (y != 0) y <<= clz(y);
    } else if (above != 0) {
        base = HALF_PI;
        less = 1;
        up = x;
        x = y;
        y = up;
        e = -e;
    }
    if (left != 0) {
        base = WHOLE_PI - base;
        less = !less;
    }
    if (y != 0) {
        y = FORMAT_ratio(y, x);
        y = FORMAT_atan_of(e, y);
    }
    y = FORMAT_angle(sign, base, less, e, y, per_pi);
    return y;
}

/* atan2 of magnitudes of which one is 0 or infinite. */
WORD FORMAT_atan2_special(WORD sign, int left, WORD y, WORD x, int per_pi) {
    WORD base = left != 0 ? WHOLE_PI : 0;
    if (y == INFINITY_BITS && x == INFINITY_BITS) base = left != 0 ? WHOLE_PI - QUARTER_PI : QUARTER_PI;
    else if (y == INFINITY_BITS || (x == 0 && y != 0)) base = HALF_PI;
    if (base == 0) return sign;
    base = FORMAT_angle(sign, base, 0, 0, 0, per_pi);
    return base;
}

/* The angle at which the point (x, y) is seen from the origin, from -pi to pi; with `per_pi` divided by pi. */
WORD FORMAT_atan2_per(WORD y, WORD x, int per_pi) {
    WORD sign = y & SIGN_BIT;
    int left = x >= SIGN_BIT;
    y &= MAGNITUDE_MASK;
    x &= MAGNITUDE_MASK;
    if (y > INFINITY_BITS || x > INFINITY_BITS) return NAN_BITS;
    if (y == 0 || x == 0 || y == INFINITY_BITS || x == INFINITY_BITS) {
        y = FORMAT_atan2_special(sign, left, y, x, per_pi);
        return y;
    }
    int e = FORMAT_exponent_of(y);
    int other = FORMAT_exponent_of(x);
    y = FORMAT_significand_of(y);
    x = FORMAT_significand_of(x);
    y = FORMAT_angle_of(sign, left, e - other, y, x, per_pi);
    return y;
}

/* The angle of the point with these coordinates */
WORD FORMAT_atan2(WORD y, WORD x) {
    y = FORMAT_atan2_per(y, x, 0);
    return y;
}

/* The same divided by pi */
WORD FORMAT_atan2pi(WORD y, WORD x) {
    y = FORMAT_atan2_per(y, x, 1);
    return y;
}

/* atan(a) */
WORD FORMAT_atan(WORD a) {
    a = FORMAT_atan2_per(a, ONE_BITS, 0);
    return a;
}

/* atan(a) / pi */
WORD FORMAT_atanpi(WORD a) {
    a = FORMAT_atan2_per(a, ONE_BITS, 1);
    return a;
}

/* asin(s) / 2 for s = m * 2^(e - (WIDTH - 1)) up to 1/2, with the same exponent; z is s^2. */
WORD FORMAT_asin_of(WORD m, WORD z) {
    WORD part = FORMAT_asin_part(z);
    part = FORMAT_product_upper(part, z);
    m >>= 1;
    part = FORMAT_product_upper(part, m);
    return m + part;
}

/* The arc sine of a, or with `complement` the arc cosine; with `per_pi` divided by pi. Above 1/2 the arc cosine of a
   magnitude x is 2 * asin(sqrt((1 - x) / 2)). */
WORD FORMAT_arc(int complement, WORD a, int per_pi) {
    WORD x = a & MAGNITUDE_MASK;
    WORD sign = a & SIGN_BIT;
    if (x > ONE_BITS) return NAN_BITS;
    if (x == 0 && complement == 0) return a;
    if (a == ONE_BITS && complement != 0) return 0;
    int e = -WIDTH;
    WORD m = 0;
    WORD z = 0;
    int far = x > HALF_BITS;
    if (x != 0 && x != ONE_BITS) {
        e = FORMAT_exponent_of(x);
        e -= BIAS;
        m = FORMAT_significand_of(x);
        if (far != 0) {
            z = (0 - m) >> 1;
            int up = (int)clz(z);
            e = -1 - up;
            m = FORMAT_root(z << up, e & 1);
            m <<= 1;
            e = (e >> 1) + 1;
        } else {
            z = FORMAT_down(m, -e - 1);
            z = FORMAT_product_upper(z, z);
        }
        m = FORMAT_asin_of(m, z);
        e += 1;
    }
    WORD base = 0;
    if (complement != far) base = HALF_PI;
    else if (complement != 0 && sign != 0) base = WHOLE_PI;
    x = FORMAT_angle(complement != 0 ? 0 : sign, base, (int)(far != 0 || sign == 0), e, m, per_pi);
    return x;
}

/* asin(a) */
WORD FORMAT_asin(WORD a) {
    a = FORMAT_arc(0, a, 0);
    return a;
}

/* acos(a) */
WORD FORMAT_acos(WORD a) {
    a = FORMAT_arc(1, a, 0);
    return a;
}

/* asin(a) / pi */
WORD FORMAT_asinpi(WORD a) {
    a = FORMAT_arc(0, a, 1);
    return a;
}

/* acos(a) / pi */
WORD FORMAT_acospi(WORD a) {
    a = FORMAT_arc(1, a, 1);
    return a;
}

/* ---- roots and lengths ---- */

/* sqrt(a^2 + b^2) */
WORD FORMAT_hypot(WORD a, WORD b) {
    WORD x = a & MAGNITUDE_MASK;
    WORD y = b & MAGNITUDE_MASK;
    if (x == INFINITY_BITS || y == INFINITY_BITS) return INFINITY_BITS;
    if (x > INFINITY_BITS || y > INFINITY_BITS) return NAN_BITS;
    if (x < y) {
        x = y;
        y = a & MAGNITUDE_MASK;
    }
    if (y == 0) return x;
    int e = FORMAT_exponent_of(x);
    int other = FORMAT_exponent_of(y);
    x = FORMAT_significand_of(x);
    y = FORMAT_significand_of(y);
    x = FORMAT_product(x, x >> 1);
    y = FORMAT_product(y, y >> 1);
    e -= BIAS;
    other -= BIAS;
    y = FORMAT_shift_right(y, min(2 * (e - other), WIDTH));
    x += y;
    int up = (int)clz(x);
    e = 2 * e + 2 - up;
    x = FORMAT_root(x << up, e & 1);
    x = FORMAT_round(0, (e >> 1) + BIAS, x);
    return x;
}

/* ---- hyperbolic functions ---- */

/* (e^x - e^-x) / 2, or with `plus` the sum of both, for x = m * 2^(e - (WIDTH - 1)) below 2^(EXPONENT_BITS + 1); the
   difference for x from 1 on. */
WORD FORMAT_hyperbolic_far(WORD sign, int plus, int e, WORD m) {
    WORD upper = FORMAT_upper_of_product(m, LOG2_E_UPPER, LOG2_E_LOWER);
    WORD lower = FORMAT_lower_of_product(m, LOG2_E_UPPER, LOG2_E_LOWER);
    int whole = FORMAT_whole_of(upper, e + 2);
    WORD part = FORMAT_part_of(upper, lower, e + 2);
    lower = FORMAT_exp2_part(part);
    upper = FORMAT_product_upper(part, lower);
    part = ~part;
    lower = FORMAT_exp2_part(part);
    lower = FORMAT_product_upper(part, lower);
    upper = SECOND_BIT + (upper >> 1);
    lower = FORMAT_down(SECOND_BIT + (lower >> 1), 2 * whole + 1);
    m = FORMAT_rounded(sign, whole, plus != 0 ? upper + lower : upper - lower);
    return m;
}

/* (e^a - e^-a) / 2 */
WORD FORMAT_sinh(WORD a) {
    WORD x = a & MAGNITUDE_MASK;
    if (x > INFINITY_BITS) return NAN_BITS;
    if (x == 0 || x == INFINITY_BITS) return a;
    int e = FORMAT_exponent_of(x);
    e -= BIAS;
    if (e > EXPONENT_BITS) return (a & SIGN_BIT) | INFINITY_BITS;
    x = FORMAT_significand_of(x);
    if (e >= 0) {
        x = FORMAT_hyperbolic_far(a & SIGN_BIT, 0, e, x);
        return x;
    }
    WORD z = FORMAT_down(x, -e - 1);
    z = FORMAT_product_upper(z, z);
    WORD part = FORMAT_sinh_part(z);
    part = FORMAT_product_upper(part, z);
    x >>= 1;
    part = FORMAT_product_upper(part, x);
    x = FORMAT_rounded(a & SIGN_BIT, e + 1, x + part);
    return x;
}

/* (e^a + e^-a) / 2 */
WORD FORMAT_cosh(WORD a) {
    WORD x = a & MAGNITUDE_MASK;
    if (x > INFINITY_BITS) return NAN_BITS;
    if (x == 0) return ONE_BITS;
    int e = FORMAT_exponent_of(x);
    e -= BIAS;
    if (e > EXPONENT_BITS) return INFINITY_BITS;
    if (e < -FRACTION_BITS - 2) return ONE_BITS;
    x = FORMAT_significand_of(x);
    x = FORMAT_hyperbolic_far(0, 1, e, x);
    return x;
}

/* tanh(x) for x = m * 2^(e - (WIDTH - 1)) from 1/4 on: 1 - 2 / (e^(2 * x) + 1). */
WORD FORMAT_tanh_far(WORD sign, int e, WORD m) {
    WORD upper = FORMAT_upper_of_product(m, LOG2_E_UPPER, LOG2_E_LOWER);
    WORD lower = FORMAT_lower_of_product(m, LOG2_E_UPPER, LOG2_E_LOWER);
    int whole = FORMAT_whole_of(upper, e + 3);
    WORD part = FORMAT_part_of(upper, lower, e + 3);
    part = ~part;
    upper = FORMAT_exp2_part(part);
    upper = FORMAT_product_upper(upper, part);
    upper = FORMAT_down(SECOND_BIT + (upper >> 1), whole + 1);
    lower = SECOND_BIT + upper;
    upper = SECOND_BIT - upper;
    int up = (int)clz(upper);
    m = FORMAT_ratio(upper << up, lower << 1);
    m = FORMAT_rounded(sign, 1 - up, m);
    return m;
}

/* The same for x below 1/4: for y = e^(2 * x) - 1 it is y / (y + 2). */
WORD FORMAT_tanh_near(WORD sign, int e, WORD m) {
    WORD part = FORMAT_down(m, -e - 2);
    part = FORMAT_expm1_part(TOP_BIT + part);
    m = FORMAT_product_upper(m, part);
    int up = (int)clz(m);
    m <<= up;
    e += 2 - up;
    part = FORMAT_down(m, 1 - e);
    m = FORMAT_ratio(m, TOP_BIT + part);
    m = FORMAT_rounded(sign, e - 1, m);
    return m;
}

/* sinh(a) / cosh(a) */
WORD FORMAT_tanh(WORD a) {
    WORD x = a & MAGNITUDE_MASK;
    if (x > INFINITY_BITS) return NAN_BITS;
    if (x == 0) return a;
    int e = FORMAT_exponent_of(x);
    e -= BIAS;
    if (e > EXPONENT_BITS - 3) return (a & SIGN_BIT) | ONE_BITS;
    if (e < -FRACTION_BITS - 2) return a;
    x = FORMAT_significand_of(x);
    if (e < -2) x = FORMAT_tanh_near(a & SIGN_BIT, e, x);
    else x = FORMAT_tanh_far(a & SIGN_BIT, e, x);
    return x;
}

/* ---- inverse hyperbolic functions ---- */

/* log(m * 2^(e - (WIDTH - 1))) / 2^halved of a number above 1. */
WORD FORMAT_log_above_one(WORD sign, int halved, int e, WORD m) {
    int up = (int)clz(m);
    m <<= up;
    WORD value = FORMAT_log_value(e - up, m, LOG_2, 1, TOP_BIT);
    int scale = FORMAT_log_scale(e - up, m, 1);
    m = FORMAT_rounded(sign, scale - 1 - halved, value);
    return m;
}

/* The exponent of x^2 + 1, or with `minus` of x^2 - 1, for x = m * 2^(e - (WIDTH - 1)) and e from -3 to WIDTH / 2, and
   its significand. */
WORD FORMAT_square_and_one(int minus, int e, WORD m) {
    WORD square = FORMAT_product_upper(m, m >> 1);
    if (e < 0) square >>= -2 * e;
    WORD one = FORMAT_down(SECOND_BIT >> 1, max(2 * e, 0));
    return minus != 0 ? square - one : square + one;
}

/* log(x + sqrt(x^2 + 1)), or with `minus` of x^2 - 1, for x = m * 2^(e - (WIDTH - 1)). */
WORD FORMAT_log_of_sum(WORD sign, int minus, int e, WORD m) {
    if (e > WIDTH / 2) {
        m = FORMAT_log_above_one(sign, 0, e + 1, m);
        return m;
    }
    WORD sum = FORMAT_square_and_one(minus, e, m);
    int up = (int)clz(sum);
    int other = 2 * max(e, 0) + 2 - up;
    sum = FORMAT_root(sum << up, other & 1);
    other >>= 1;
    int exponent = max(e, other) + 1;
    m = (m >> (exponent - e)) + (sum >> (exponent - other - 1));
    m = FORMAT_log_above_one(sign, 0, exponent, m);
    return m;
}

/* log(a + sqrt(a^2 + 1)); near 0 it is 2 * atanh(a / (1 + sqrt(a^2 + 1))). */
WORD FORMAT_asinh(WORD a) {
    WORD x = a & MAGNITUDE_MASK;
    if (x > INFINITY_BITS) return NAN_BITS;
    if (x == 0 || x == INFINITY_BITS) return a;
    int e = FORMAT_exponent_of(x);
    e -= BIAS;
    if (e < -FRACTION_BITS - 2) return a;
    x = FORMAT_significand_of(x);
    if (e >= -2) {
        x = FORMAT_log_of_sum(a & SIGN_BIT, 0, e, x);
        return x;
    }
    WORD z = FORMAT_down(x, -e - 1);
    z = FORMAT_product_upper(z, z);
    z = FORMAT_root(TOP_BIT + (z >> 1), 0);
    x = FORMAT_ratio(x, SECOND_BIT + z);
    x = FORMAT_atanh_of(e - 1, x);
    x = FORMAT_rounded(a & SIGN_BIT, e + 1, x);
    return x;
}

/* log(a + sqrt(a^2 - 1)); near 1 it is 2 * atanh(sqrt((a - 1) / (a + 1))). */
WORD FORMAT_acosh(WORD a) {
    if (a == ONE_BITS) return 0;
    if (a < ONE_BITS || a > INFINITY_BITS) return NAN_BITS;
    if (a == INFINITY_BITS) return a;
    int e = FORMAT_exponent_of(a);
    e -= BIAS;
    a = FORMAT_significand_of(a);
    WORD distance = a - TOP_BIT;
    if (e > 0 || distance > TOP_BIT >> 5) {
        a = FORMAT_log_of_sum(0, 1, e, a);
        return a;
    }
    int up = (int)clz(distance);
    a = FORMAT_ratio(distance << up, (a >> 1) + SECOND_BIT);
    e = -1 - up;
    if (a < TOP_BIT) {
        a <<= 1;
        e -= 1;
    }
    a = FORMAT_root(a, e & 1);
    e >>= 1;
    a = FORMAT_atanh_of(e, a << 1);
    a = FORMAT_rounded(0, e + 2, a);
    return a;
}

/* log((1 + a) / (1 - a)) / 2 */
WORD FORMAT_atanh(WORD a) {
    WORD x = a & MAGNITUDE_MASK;
    if (x > ONE_BITS) return NAN_BITS;
    if (x == ONE_BITS) return (a & SIGN_BIT) | INFINITY_BITS;
    if (x == 0) return a;
    int e = FORMAT_exponent_of(x);
    e -= BIAS;
    x = FORMAT_significand_of(x);
    if (e < -3) {
        x = FORMAT_atanh_of(e, x);
        x = FORMAT_rounded(a & SIGN_BIT, e + 1, x);
        return x;
    }
    x >>= -e;
    WORD rest = TOP_BIT - x;
    int up = (int)clz(rest);
    x = FORMAT_ratio(TOP_BIT + x, rest << up);
    x = FORMAT_log_above_one(a & SIGN_BIT, 1, up, x);
    return x;
}

