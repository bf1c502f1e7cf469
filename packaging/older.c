// What the kit has a program ask of the C library as it starts, and one as old as Debian 11's hasn't: which
// instructions the processor has (`__x86_get_cpuid_feature_leaf`, since 2.33). It becomes a library beside the program
// of the archive that runs from any folder, which packaging/older.py names to the loader, and is taken where the C
// library has no such function.
#include <cpuid.h>

// As <sys/platform/x86.h> has it: of a leaf the registers eax, ebx, ecx and edx, and their bits that may be used.
struct cpuid_feature {
    unsigned int cpuid_array[4];
    unsigned int active_array[4];
};

const struct cpuid_feature *__x86_get_cpuid_feature_leaf(unsigned int leaf);

enum { LEAF_1, LEAF_7, LEAF_80000001, LEAVES };

static struct cpuid_feature features[LEAVES + 1];

// Bits of ecx that also take registers which the system has to save, and which it isn't asked for here.
enum { VECTORS_OF_1 = 1 << 12 | 1 << 28 | 1 << 29, VECTORS_OF_80000001 = 1 << 11 | 1 << 16 };

static void read_leaf(struct cpuid_feature *to, unsigned int number, unsigned int left_out) {
    unsigned int *at = to->cpuid_array;
    if (!__get_cpuid(number, &at[0], &at[1], &at[2], &at[3])) return;
    to->active_array[2] = at[2] & ~left_out;
    to->active_array[3] = at[3];
}

// A program asks as it starts, before there are threads, and maybe before this library is begun. Of a leaf that isn't
// read nothing is there, so that nothing is used of it.
const struct cpuid_feature *__x86_get_cpuid_feature_leaf(unsigned int leaf) {
    if (leaf == LEAF_1) read_leaf(&features[leaf], 1, VECTORS_OF_1);
    if (leaf == LEAF_80000001) read_leaf(&features[leaf], 0x80000001, VECTORS_OF_80000001);
    return &features[leaf < LEAVES ? leaf : LEAVES];
}
