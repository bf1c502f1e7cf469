// A product of square matrices in tiles of local memory.
#define TILE 4
__kernel __attribute__((reqd_work_group_size(TILE, TILE, 1)))
void multiply(const __global int *restrict a, const __global int *restrict b, __global int *restrict c, const unsigned int n)
{
    __local int left[TILE][TILE], top[TILE][TILE];
    const size_t x = get_local_id(0), y = get_local_id(1), column = get_global_id(0), row = get_global_id(1);
    int sum = 0;
    for (unsigned int t = 0; t < n; t += TILE) {
        left[y][x] = a[row * n + t + x];
        top[y][x] = b[(t + y) * n + column];
        barrier(CLK_LOCAL_MEM_FENCE);
        for (int k = 0; k < TILE; k++) sum += left[y][k] * top[k][x];
#ifndef BUG // without it the next tile is stored while others still read this one
        barrier(CLK_LOCAL_MEM_FENCE);
#endif
    }
    c[row * n + column] = sum;
}
