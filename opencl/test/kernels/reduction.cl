// The sum of each group's part of an array, by halves in local memory.
#ifndef T
#define T int
#endif
__kernel void sum(__global const T *in, __global T *out, unsigned int n, __local T *part)
{
    unsigned int item = get_local_id(0), i = get_global_id(0);
    part[item] = (i < n) ? in[i] : 0;
    barrier(CLK_LOCAL_MEM_FENCE);
    #pragma unroll 1
    for (unsigned int s = get_local_size(0) / 2; s > 0; s >>= 1) {
        if (item < s) part[item] += part[item + s];
#ifndef BUG // without it a work-item adds what another one hasn't summed yet
        barrier(CLK_LOCAL_MEM_FENCE);
#endif
    }
    if (!item) out[get_group_id(0)] = part[0];
}
