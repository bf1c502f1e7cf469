// One pass of a stage of a bitonic sort: each work-item orders one pair.
__kernel void sort_pairs(__global uint *keys, const uint stage, const uint pass)
{
    uint item = get_global_id(0), distance = 1u << (stage - pass);
#ifdef BUG // blocks that overlap: a key is in two pairs
    uint width = distance;
#else
    uint width = 2 * distance;
#endif
    uint left = item % distance + item / distance * width, right = left + distance;
    uint a = keys[left], b = keys[right];
    bool rising = (item / (1u << stage)) % 2 == 0;
    uint lesser = a < b ? a : b, greater = a < b ? b : a;
    keys[left] = rising ? lesser : greater;
    keys[right] = rising ? greater : lesser;
}
