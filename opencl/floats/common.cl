/* The upper 64 bits of x * y, by four products of 32 bits. */
ulong whole_product_upper(ulong x, ulong y) {
    ulong x_lower = x & 0xfffffffful;
    ulong x_upper = x >> 32;
    ulong y_lower = y & 0xfffffffful;
    ulong y_upper = y >> 32;
    ulong middle = x_upper * y_lower + (x_lower * y_lower >> 32);
    ulong other = x_lower * y_upper + (middle & 0xfffffffful);
    return x_upper * y_upper + (middle >> 32) + (other >> 32);
}

/* r * (2 - d * r) for a fraction d of 2^64 and r as one of 2^63: nearer to 1 / d than r, and below it, by at most 16 more
   than Newton's rule has it. */
ulong whole_nearer(ulong d, ulong r) {
    ulong rest = whole_product_upper(d, r);
    ulong result = whole_product_upper(r, 0ul - rest);
    return (result << 1) - 8ul;
}

/* x / y without a division: the texts that have no branches call it (front/straight.c). The divisor, shifted up, is a
   fraction d of 2^64 from 1/2 to 1. Newton's rule doubles the right digits of 1 / d four times, from a line that is at
   most a 17th off, and stays below it. The quotient by it is too small by less than 64; that of the rest by less than 2.
   For y = 0 it is any number. */
ulong whole_quotient(ulong x, ulong y) {
    ulong d = y << clz(y);
    ulong r = whole_product_upper(d, 17361641481138401520ul);
    r = 7595718147998050665ul - r;
    r = whole_nearer(d, r);
    r = whole_nearer(d, r);
    r = whole_nearer(d, r);
    r = whole_nearer(d, r);
    ulong quotient = whole_product_upper(x, r);
    quotient >>= 63ul - clz(y);
    ulong rest = x - quotient * y;
    ulong more = whole_product_upper(rest, r);
    more >>= 63ul - clz(y);
    quotient += more;
    rest -= more * y;
    more = (ulong)(rest >= y);
    quotient += more;
    rest -= y & (0ul - more);
    more = (ulong)(rest >= y);
    return quotient + more;
}

/* The whole part of the square root of n, for n from 2^60 to 2^62 - 1: Heron's rule from a line that is at most a
   24th off, whose error is at most halved and squared three times. Each mean is at least the root. */
ulong whole_root(ulong n) {
    ulong root = (n >> 30) / 3ul + 760567125ul;
    root = (root + n / root) >> 1;
    root = (root + n / root) >> 1;
    root = (root + n / root) >> 1;
    if (root * root > n) root -= 1ul;
    return root;
}

/* x / 2^count for count from 0 on; the lowest bit is sticky: set if any bit below it was. */
ulong shift_right_sticky(ulong x, int count) {
    if (count > 63) return x != 0ul ? 1ul : 0ul;
    ulong kept = x >> count;
    if (kept << count != x) kept |= 1ul;
    return kept;
}

