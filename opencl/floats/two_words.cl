/* ---- addition and multiplication of doubles, in words of 32 bits: what is usual ---- */

/* a + b. As in one word, p and r are the words of the one with the larger magnitude, and the sign bit of q is set where
   the signs differ. The other one, moved to its place below it, has the words y, s and t, of which t is behind the
   point. So nothing is lost where the exponents differ by less than 32. Others, and differences of which less than one
   bit is left in the upper word, are left to double_add_rare. */
ulong double_add(ulong a, ulong b) {
    uint p = a >> 32;
    uint q = b >> 32;
    uint x = p & 0x7fffffffu;
    uint y = q & 0x7fffffffu;
    uint r = a;
    uint s = b;
    q ^= p;
    if (x < y) {
        p ^= q;
        y = x;
        x = p & 0x7fffffffu;
        r = b;
        s = a;
    }
    if (x < 0x7fe00000u) if (y >= 0x04000000u) {
        x = (x >> 20) - (y >> 20);
        if (x < 32u) {
            y &= 0x000fffffu;
            y |= 0x00100000u;
            uint t = 0u;
            if (x != 0u) {
                uint up = 32u - x;
                t = s << up;
                s >>= x;
                s |= y << up;
                y >>= x;
            }
            x = p & 0x000fffffu;
            if (q < 0x80000000u) {
                r += s;
                if (r < s) y += 1u;
                x += y;
                if (x < 0x00100000u) {
                    p += y;
                } else {
                    /* The next exponent. */
                    if (t != 0u) t = 1u;
                    t |= r << 31;
                    r >>= 1;
                    r |= x << 31;
                    p &= 0xfff00000u;
                    p += 0x00080000u;
                    p += x >> 1;
                }
                if (t >= 0x80000000u) {
                    r += 1u;
                    if (r == 0u) p += 1u;
                    if (t == 0x80000000u) r &= 0xfffffffeu;
                }
                a = p;
                return a << 32 | r;
            }
            if (t != 0u) {
                t = 0u - t;
                s += 1u;
                if (s == 0u) y += 1u;
            }
            if (r < s) y += 1u;
            r -= s;
            x |= 0x00100000u;
            x -= y;
            if (x != 0u) if (x < 0x00200000u) {
                p &= 0xfff00000u;
                if (x < 0x00100000u) {
                    q = clz(x);
                    q -= 11u;
                    y = 32u - q;
                    x <<= q;
                    x |= r >> y;
                    r <<= q;
                    r |= t >> y;
                    t <<= q;
                    p -= q << 20;
                }
                p -= 0x00100000u;
                p += x;
                if (t >= 0x80000000u) {
                    r += 1u;
                    if (r == 0u) p += 1u;
                    if (t == 0x80000000u) r &= 0xfffffffeu;
                }
                a = p;
                return a << 32 | r;
            }
        }
    }
    a = double_add_rare(a, b);
    return a;
}

/* a * b. As float_mul does, this has one path for exponents that are far from their ends. The significands have p and q
   as their upper words, with the leading one at bit 31, and r and s as their lower ones. Of their product x has the
   upper 64 bits, or is too small by 1 or 2, since r * s and two carries are left out. So what is cut off of it, with
   half of a unit added, tells how it is rounded unless it is 0, or so large that these matter. */
ulong double_mul(ulong a, ulong b) {
    uint p = a >> 32;
    uint q = b >> 32;
    uint upper = p & 0x7fffffffu;
    if (upper >= 0x20000000u) if (upper < 0x5ff00000u) {
        upper = q & 0x7fffffffu;
        if (upper >= 0x20000000u) if (upper < 0x5ff00000u) {
            upper = (p & 0xfff00000u) + (q & 0xfff00000u);
            uint r = a;
            uint s = b;
            p <<= 11;
            p |= r >> 21;
            p |= 0x80000000u;
            r <<= 11;
            q <<= 11;
            q |= s >> 21;
            q |= 0x80000000u;
            s <<= 11;
            ulong x = p;
            ulong y = r;
            x = x * q + (x * s >> 32) + (y * q >> 32);
            p = x >> 32;
            r = x;
            if (p < 0x80000000u) {
                upper -= 0x40000000u;
                s = r + 0x200u;
                if (s < 0x200u) p += 1u;
                r = s & 0x3ffu;
                r -= 1u;
                if (r < 0x3fdu) {
                    x = upper + (p >> 10);
                    return x << 32 | (s >> 10 | p << 22);
                }
            } else {
                upper -= 0x3ff00000u;
                s = r + 0x400u;
                if (s < 0x400u) p += 1u;
                r = s & 0x7ffu;
                r -= 1u;
                if (r < 0x7fdu) {
                    x = upper + (p >> 11);
                    return x << 32 | (s >> 11 | p << 21);
                }
            }
        }
    }
    a = double_mul_rare(a, b);
    return a;
}

/* a * a: the same with one number in place of two, whose sign doesn't count. The product of its two words, which counts
   twice, is shifted by one less. x is right, or too small by 1. */
ulong double_square(ulong a) {
    uint p = a >> 32;
    uint upper = p & 0x7fffffffu;
    if (upper >= 0x20000000u) if (upper < 0x5ff00000u) {
        upper &= 0xfff00000u;
        upper <<= 1;
        uint r = a;
        p <<= 11;
        p |= r >> 21;
        p |= 0x80000000u;
        r <<= 11;
        ulong x = p;
        x = x * x + (x * r >> 31);
        p = x >> 32;
        r = x;
        if (p < 0x80000000u) {
            upper -= 0x40000000u;
            r += 0x200u;
            if (r < 0x200u) p += 1u;
            uint rest = r & 0x3ffu;
            rest -= 1u;
            if (rest < 0x3fdu) {
                x = upper + (p >> 10);
                return x << 32 | (r >> 10 | p << 22);
            }
        } else {
            upper -= 0x3ff00000u;
            r += 0x400u;
            if (r < 0x400u) p += 1u;
            uint rest = r & 0x7ffu;
            rest -= 1u;
            if (rest < 0x7fdu) {
                x = upper + (p >> 11);
                return x << 32 | (r >> 11 | p << 21);
            }
        }
    }
    a = double_mul_rare(a, a);
    return a;
}

/* a * 2^n, where `power` has n in the place of the exponent, from -511 to 511. So where a usual a stands, the exponent
   of the product is neither of its ends, and the fraction stays. */
ulong double_mul_power(ulong a, ulong power) {
    uint x = a >> 32;
    x &= 0x7fffffffu;
    if (x >= 0x20000000u) if (x < 0x5ff00000u) return a + power;
    a = double_mul(a, power + 0x3ff0000000000000ul);
    return a;
}
