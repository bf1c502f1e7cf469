// A step of the game of life on a torus, from a tile with its border in local memory.
#define SIDE 8
typedef unsigned char cell;
static inline int lives(int neighbours, int self) { return (neighbours == 3 || (self && neighbours == 2)) ? 1 : 0; }
kernel void life(global const cell *restrict old, global cell *restrict fresh, const int width, const int height)
{
    local cell tile[SIDE + 2][SIDE + 2];
    const int lx = get_local_id(0), ly = get_local_id(1), left = get_group_id(0) * SIDE - 1, top = get_group_id(1) * SIDE - 1;
    for (int y = ly; y < SIDE + 2; y += SIDE)
        for (int x = lx; x < SIDE + 2; x += SIDE)
            tile[y][x] = old[(top + y + height) % height * width + (left + x + width) % width];
#ifndef BUG // without it a work-item reads what another one hasn't stored yet
    barrier(CLK_LOCAL_MEM_FENCE);
#endif
    int n = 0;
    for (int j = 0; j <= 2; j++)
        for (int i = 0; i <= 2; i++)
            n += i == 1 && j == 1 ? 0 : tile[ly + j][lx + i];
    fresh[get_global_id(1) * width + get_global_id(0)] = lives(n, tile[ly + 1][lx + 1]);
}
