// A level of a breadth-first search: a node that isn't reached looks at its neighbours, and takes the next level from one that is.
#define FAR 0xffffffff
__kernel void visit(__global const int *starts, __global const int *neighbours, __global const uint *old, __global uint *fresh, __global uint *changed, uint level)
{
    size_t node = get_global_id(0);
    uint mine = old[node];
#ifdef BUG // each node that is reached stores into its neighbours: two of them meet in one
    if (mine == level)
        for (int i = starts[node]; i < starts[node + 1]; i++)
            if (old[neighbours[i]] == FAR) fresh[neighbours[i]] = level + 1, atomic_inc(changed);
    if (mine != FAR) fresh[node] = mine;
#else
    for (int i = starts[node], end = starts[node + 1]; mine == FAR && i < end; i++)
        if (old[neighbours[i]] == level) { mine = level + 1; atomic_inc(changed); }
    fresh[node] = mine;
#endif
}
