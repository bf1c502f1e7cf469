// Shortest paths between all pairs of nodes: one launch for each node k that may lie between.
__kernel void pass(__global uint *distance, __global uint *through, const unsigned int nodes, const unsigned int k)
{
    const int x = get_global_id(0), y = get_global_id(1);
#ifdef BUG // the step of all nodes in one launch: no work-item waits for the others
    for (unsigned int k = 0; k < nodes; k++)
#endif
    {
        uint old = distance[y * nodes + x], detour = distance[y * nodes + k] + distance[k * nodes + x];
        if (detour < old) {
            distance[y * nodes + x] = detour;
            through[y * nodes + x] = k;
        }
    }
}
