// The sums of all elements in front of each one, a group at a time: up and down a tree in local memory.
__kernel void scan(__global const int *in, __global int *out, __global int *totals, __local int *tree)
{
    const int item = get_local_id(0), n = 2 * get_local_size(0), base = get_group_id(0) * n;
    int offset = 1;
    tree[2 * item] = in[base + 2 * item];
    tree[2 * item + 1] = in[base + 2 * item + 1];
    for (int d = n >> 1; d > 0; d >>= 1, offset *= 2) {
        barrier(CLK_LOCAL_MEM_FENCE);
        if (item < d) tree[offset * (2 * item + 2) - 1] += tree[offset * (2 * item + 1) - 1];
    }
    if (item == 0) { totals[get_group_id(0)] = tree[n - 1]; tree[n - 1] = 0; }
    for (int d = 1; d < n; d *= 2) {
        offset >>= 1;
#ifndef BUG // without it the tree is read while others still change it
        barrier(CLK_LOCAL_MEM_FENCE);
#endif
        if (item < d) {
            int a = offset * (2 * item + 1) - 1, b = offset * (2 * item + 2) - 1, t = tree[a];
            tree[a] = tree[b], tree[b] += t;
        }
    }
    barrier(CLK_LOCAL_MEM_FENCE);
    out[base + 2 * item] = tree[2 * item];
    out[base + 2 * item + 1] = tree[2 * item + 1];
}
