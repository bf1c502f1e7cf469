# a format of 8 bits: a sign, 4 bits of exponent, 3 of fraction; in words of 32 bits
# (what leaves the format at its upper end stays in so much longer words)
s/upper -= ONE_BITS\(.*\);/upper -= ONE_BITS\1;\n                upper \&= 0xffu;/
s/FORMAT_/tiny32_/g
s/SIGNED_WORD/int/g
s/WORD/uint/g
s/UNIT/1u/g
s/WIDTH/32/g
s/FRACTION_BITS/3/g
s/FRACTION_MASK/0x07u/g
s/GUARD_BITS/27/g
s/GUARD_MASK/0x7ffffffu/g
s/GUARD_HALF/0x4000000u/g
s/UPPER_PRODUCT(\(.*\), \(.*\))/\1 * \2 >> 32/g
s/SMALL_BITS/0x20u/g
s/LARGE_BITS/0x58u/g
s/REST_MASK/0xfffffffu/g
s/REST_HALF/0x8000000u/g
s/ROUNDED_TO_NEXT/0xf8000000u/g
s/ALL_ONES/0xffffffffu/g
s/EVEN_MASK/0xfeu/g
s/CARRY_MASK/0x1fffffffu/g
s/CARRY_HALF/0x10000000u/g
s/TOP_SHIFT/28/g
s/TOP_BIT/0x80000000u/g
s/SECOND_BIT/0x40000000u/g
s/LARGEST_EXPONENT/15/g
s/BIAS/7/g
s/SIGN_BIT/0x80u/g
s/MAGNITUDE_MASK/0x7fu/g
s/EXPONENT_AND_SIGN/0xf8u/g
s/SMALLEST_NORMAL/0x08u/g
s/INFINITY_BITS/0x78u/g
s/NAN_BITS/0x7cu/g
s/HALF_BITS/0x30u/g
s/ONE_BITS/0x38u/g
s/CHUNK_BITS/2/g
s/NEGATIVE_INFINITY/0xf8u/g
s/THREE_BITS/0x44u/g
s/DEGREES_BITS/0x66u/g
s/RADIANS_BITS/0x09u/g
