// One step of bodies that attract one another: x, y, z and the mass of each, and its speed.
__kernel void step(__global const float4 *at, __global float4 *next, __global float4 *speed, int count, float time) {
    __local float4 tile[64];
    int i = get_global_id(0), l = get_local_id(0);
    float4 here = at[i], pull = (float4)(0);
    for (int first = 0; first < count; first += 64) {
        tile[l] = at[first + l];
        barrier(CLK_LOCAL_MEM_FENCE);
        for (int j = 0; j < 64; j++) {
            float4 way = tile[j] - here;
            float close = rsqrt(way.x * way.x + way.y * way.y + way.z * way.z + 0.01f);
            float force = tile[j].w * close * close * close;
            pull.x += way.x * force;
            pull.y += way.y * force;
            pull.z += way.z * force;
        }
        barrier(CLK_LOCAL_MEM_FENCE);
    }
    float4 moved = speed[i] + pull * time;
    speed[i] = moved;
    next[i] = (float4)(here.xyz + moved.xyz * time, here.w);
}
