// What the tests share.
#include "tests.h"

unsigned long failures;

void tell(const char *operation, const ulong *arguments, ulong came, ulong wanted) {
    if (failures++ < 20)
        printf("%s of %lx %lx %lx is %lx, not %lx\n", operation, arguments[0], arguments[1], arguments[2], came, wanted);
}

static ulong state = 1;

void set_seed(ulong seed) { state = seed * 2 + 1; }

// Vigna's splitmix64.
ulong chance(void) {
    ulong x = state += 0x9e3779b97f4a7c15;
    x = (x ^ x >> 30) * 0xbf58476d1ce4e5b9;
    x = (x ^ x >> 27) * 0x94d049bb133111eb;
    return x ^ x >> 31;
}

// A fraction of few ones, few zeros, or any.
static ulong chosen_fraction(int fraction) {
    ulong any = chance(), mask = (1ul << fraction) - 1, bit = 1ul << chance() % fraction;
    switch (chance() % 8) {
    case 0: return 0;
    case 1: return mask;
    case 2: return bit;
    case 3: return mask ^ bit;
    case 4: return any & mask & ~(bit - 1);
    case 5: return (bit | 1ul << any % fraction) & mask;
    default: return any & mask;
    }
}

ulong chosen(int width, int fraction, ulong near) {
    ulong most = (1ul << (width - 1 - fraction)) - 1, exponent = chance() & most;
    ulong beside = (near >> fraction & most) + chance() % (fraction + 4) - (fraction + 4) / 2;
    switch (chance() % 16) {
    case 0: exponent = 0; break;
    case 1: exponent = most; break;
    case 2: exponent = chance() % 3; break;
    case 3: exponent = most - chance() % 3; break;
    case 4: exponent = most / 2 + chance() % 3; break;
    case 5:
    case 6: exponent = most / 2 + chance() % (2 * fraction) - fraction; break;
    case 7:
    case 8:
    case 9:
    case 10: exponent = beside; break;
    case 11: return near ^ (chance() & 1) << (width - 1) ^ chance() % 3;
    default: break;
    }
    return (chance() & 1) << (width - 1) | (exponent & most) << fraction | chosen_fraction(fraction);
}
