// What the helpers need of OpenCL C that a host's C hasn't: its integer types, and its functions on them.
#ifndef HOST_H
#define HOST_H

#include <stdint.h>
#include <stdlib.h>

typedef int8_t schar;
typedef uint8_t uchar;
typedef uint16_t ushort;
typedef uint32_t uint;
typedef unsigned long ulong;
_Static_assert(sizeof(ulong) == 8 && sizeof(long) == 8, "a long of OpenCL C has 64 bits");

#define clz(x) _Generic((x), uint: clz_uint, ulong: clz_ulong)(x)
#define abs(x) _Generic((x), int: abs_int)(x)
#define min(x, y) _Generic((x), int: min_int, uint: min_uint, long: min_long, ulong: min_ulong)(x, y)
#define max(x, y) _Generic((x), int: max_int, uint: max_uint, long: max_long, ulong: max_ulong)(x, y)

static inline uint clz_uint(uint x) { return x ? (uint)__builtin_clz(x) : 32; }
static inline uint abs_int(int x) { return x < 0 ? 0u - (uint)x : (uint)x; }
static inline ulong clz_ulong(ulong x) { return x ? (ulong)__builtin_clzl(x) : 64; }

#define DEFINE_ENDS(TYPE)                                                       \
    static inline TYPE min_##TYPE(TYPE x, TYPE y) { return x < y ? x : y; }     \
    static inline TYPE max_##TYPE(TYPE x, TYPE y) { return x > y ? x : y; }
DEFINE_ENDS(int)
DEFINE_ENDS(uint)
DEFINE_ENDS(long)
DEFINE_ENDS(ulong)

#endif
