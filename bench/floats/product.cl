// c = a * b for matrices of n by n floats, in tiles of 16 by 16 in local memory.
__kernel void product(__global const float *a, __global const float *b, __global float *c, int n) {
    __local float left[16][16], right[16][16];
    int x = get_global_id(0), y = get_global_id(1), column = get_local_id(0), row = get_local_id(1);
    float sum = 0;
    for (int k = 0; k < n; k += 16) {
        left[row][column] = a[y * n + k + column];
        right[row][column] = b[(k + row) * n + x];
        barrier(CLK_LOCAL_MEM_FENCE);
        for (int j = 0; j < 16; j++) sum += left[row][j] * right[j][column];
        barrier(CLK_LOCAL_MEM_FENCE);
    }
    c[y * n + x] = sum;
}
