// How often each byte's upper four bits come, counted in local memory first.
#define BINS 16
__kernel void histogram(__global const uchar *data, const uint n, __global uint *bins)
{
    __local uint counts[BINS];
    const uint item = get_local_id(0);
    if (item < BINS) counts[item] = 0;
    barrier(CLK_LOCAL_MEM_FENCE);
    for (uint i = get_global_id(0); i < n; i += get_global_size(0)) {
#ifdef BUG // two work-items may count in one place at once
        counts[data[i] >> 4]++;
#else
        atomic_inc(&counts[data[i] >> 4]);
#endif
    }
    barrier(CLK_LOCAL_MEM_FENCE);
    if (item < BINS) atomic_add(&bins[item], counts[item]);
}
