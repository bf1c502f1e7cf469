// The helpers of opencl/floats: their texts, and what they give for arguments that are known, which is worked out by
// the same text, as C.
#include "floats.h"
#include "../floats/test/host.h"
#include "../floats/floats.cl"
#include <string.h>

#undef min
#undef max
#undef abs
#undef clz

static const struct {
    helper helper;
    void (*native)(void);
} helpers[] = {
#define TYPE_uint UINT
#define TYPE_int INT
#define TYPE_ulong ULONG
#define TYPE_long LONG
#define TYPE_ushort USHORT
#define HELPER(NAME, RESULT, PARAMETERS, CALLS, TEXT) \
    {{#NAME, TYPE_##RESULT, PARAMETERS, CALLS, TEXT}, (void (*)(void))(NAME)},
#include "../floats/helpers.h"
};

unsigned helper_count(void) { return sizeof helpers / sizeof *helpers; }

const helper *helper_at(unsigned number) { return &helpers[number].helper; }

int helper_named(const char *name) {
    for (unsigned i = 0; i < helper_count(); i++)
        if (!strcmp(helpers[i].helper.name, name)) return (int)i;
    return NO_HELPER;
}

// A turn of a loop is a tick.
bool has_loop(unsigned number) {
    static signed char known[sizeof helpers / sizeof *helpers]; // 1 for one that has, -1 for one that hasn't
    const helper *h = &helpers[number].helper;
    if (known[number]) return known[number] > 0;
    bool has = strstr(h->text, "while(") || strstr(h->text, "while (") || strstr(h->text, "for (");
    for (unsigned i = 0; i < number && !has; i++) {
        const char *name = helpers[i].helper.name, *at = strstr(h->calls, name);
        size_t n = strlen(name);
        for (; at && !has; at = strstr(at + n, name))
            has = (at == h->calls || at[-1] == ' ') && (at[n] == ' ' || !at[n]) && has_loop(i);
    }
    known[number] = has ? 1 : -1;
    return has;
}

static integer_type type_named(const char *word, size_t length) {
    for (integer_type i = CHAR; i <= ULONG; i++)
        if (strlen(name_of(i)) == length && !memcmp(word, name_of(i), length)) return i;
    return UINT;
}

unsigned parameters_of(const helper *h, integer_type *types) {
    unsigned count = 0;
    for (const char *at = h->parameters; *at && count < MOST_PARAMETERS;) {
        size_t n = strcspn(at, " ");
        types[count++] = type_named(at, n);
        at += n + strspn(at + n, " ");
    }
    return count;
}

// The types of the helpers that operators, conversions and functions are.
#define ONE(RESULT, A) \
    if (h->result == TYPE_##RESULT && !strcmp(h->parameters, #A)) { \
        *result = (uint64_t)((RESULT(*)(A))native)((A)x[0]); \
        return true; \
    }
#define TWO(RESULT, A, B) \
    if (h->result == TYPE_##RESULT && !strcmp(h->parameters, #A " " #B)) { \
        *result = (uint64_t)((RESULT(*)(A, B))native)((A)x[0], (B)x[1]); \
        return true; \
    }
#define THREE(RESULT, A, B, C) \
    if (h->result == TYPE_##RESULT && !strcmp(h->parameters, #A " " #B " " #C)) { \
        *result = (uint64_t)((RESULT(*)(A, B, C))native)((A)x[0], (B)x[1], (C)x[2]); \
        return true; \
    }

bool known_result(unsigned number, const uint64_t *x, uint64_t *result) {
    const helper *h = &helpers[number].helper;
    void (*native)(void) = helpers[number].native;
    ONE(uint, uint)
    ONE(ulong, ulong)
    ONE(int, uint)
    ONE(int, ulong)
    ONE(ulong, uint)
    ONE(uint, ushort)
    ONE(uint, int)
    ONE(ulong, int)
    ONE(uint, ulong)
    TWO(uint, uint, uint)
    TWO(ulong, ulong, ulong)
    TWO(int, uint, uint)
    TWO(int, ulong, ulong)
    TWO(uint, int, uint)
    TWO(ulong, int, ulong)
    TWO(uint, uint, int)
    TWO(ulong, ulong, int)
    TWO(uint, int, long)
    TWO(ulong, int, long)
    TWO(uint, int, ulong)
    TWO(ushort, int, uint)
    TWO(ushort, int, ulong)
    THREE(uint, uint, uint, uint)
    THREE(ulong, ulong, ulong, ulong)
    THREE(long, int, uint, ulong)
    THREE(ulong, int, uint, ulong)
    THREE(long, int, ulong, ulong)
    THREE(ulong, int, ulong, ulong)
    return false;
}
