#include "integers.h"

unsigned width_of(integer_type t) { return 1u << t / 2; }
bool is_signed(integer_type t) { return t % 2 == 0; }

const char *name_of(integer_type t) {
    static const char *const names[] = {"char", "uchar", "short", "ushort", "int", "uint", "long", "ulong"};
    return names[t];
}

integer_type integer_of(unsigned width, bool is_signed) {
    integer_type t = width == 1 ? CHAR : width == 2 ? SHORT : width == 4 ? INT : LONG;
    return is_signed ? t : t + 1;
}
integer_type unsigned_of(integer_type t) { return integer_of(width_of(t), false); }
integer_type signed_of(integer_type t) { return integer_of(width_of(t), true); }
integer_type promoted(integer_type t) { return t < INT ? INT : t; }

integer_type common(integer_type a, integer_type b) {
    a = promoted(a);
    b = promoted(b);
    return a > b ? a : b; // of two types of one width the unsigned one stands behind
}

uint64_t converted(uint64_t value, integer_type to) {
    switch (to) {
    case CHAR: return (uint64_t)(int8_t)value;
    case UCHAR: return (uint8_t)value;
    case SHORT: return (uint64_t)(int16_t)value;
    case USHORT: return (uint16_t)value;
    case INT: return (uint64_t)(int32_t)value;
    case UINT: return (uint32_t)value;
    default: return value;
    }
}

uint64_t least(integer_type t) { return is_signed(t) ? ~UINT64_C(0) << (8 * width_of(t) - 1) : 0; }
uint64_t greatest(integer_type t) { return is_signed(t) ? ~least(t) : ~UINT64_C(0) >> (64 - 8 * width_of(t)); }
