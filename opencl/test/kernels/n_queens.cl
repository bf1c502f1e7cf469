// How many ways there are to place n queens, for each place of the first one: a search with a stack in private memory.
typedef unsigned int mask_t;
#ifdef BUG // too small a stack
enum { DEPTH = 2 };
#else
enum { DEPTH = 16 };
#endif
__kernel void queens(__global const mask_t *first, __global mask_t *solutions, int n)
{
    const size_t item = get_global_id(0);
    mask_t all = (1u << n) - 1, columns[DEPTH], lefts[DEPTH], rights[DEPTH], free[DEPTH];
    mask_t c = first[item], l = c << 1, r = c >> 1, m = all & ~(c | l | r);
    int found = 0, level = 0;
    while (level >= 0) {
        if (!m) {
            if (--level >= 0) c = columns[level], l = lefts[level], r = rights[level], m = free[level];
            continue;
        }
        mask_t bit = m & -m;
        m ^= bit;
        if ((c | bit) == all) { found++; continue; }
        columns[level] = c, lefts[level] = l, rights[level] = r, free[level++] = m;
        c |= bit, l = (l | bit) << 1, r = (r | bit) >> 1;
        m = all & ~(c | l | r);
    }
    solutions[item] = found;
}
