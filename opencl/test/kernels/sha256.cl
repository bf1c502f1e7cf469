// SHA-256 of messages of one block each, already padded (FIPS 180-4, 6.2).
#define CH(x, y, z) (((x) & (y)) ^ (~(x) & (z)))
#define MAJ(x, y, z) (((x) & (y)) ^ ((x) & (z)) ^ ((y) & (z)))
__constant uint K[64] = {
    0x428a2f98, 0x71374491, 0xb5c0fbcf, 0xe9b5dba5, 0x3956c25b, 0x59f111f1, 0x923f82a4, 0xab1c5ed5, 0xd807aa98, 0x12835b01, 0x243185be, 0x550c7dc3,
    0x72be5d74, 0x80deb1fe, 0x9bdc06a7, 0xc19bf174, 0xe49b69c1, 0xefbe4786, 0x0fc19dc6, 0x240ca1cc, 0x2de92c6f, 0x4a7484aa, 0x5cb0a9dc, 0x76f988da,
    0x983e5152, 0xa831c66d, 0xb00327c8, 0xbf597fc7, 0xc6e00bf3, 0xd5a79147, 0x06ca6351, 0x14292967, 0x27b70a85, 0x2e1b2138, 0x4d2c6dfc, 0x53380d13,
    0x650a7354, 0x766a0abb, 0x81c2c92e, 0x92722c85, 0xa2bfe8a1, 0xa81a664b, 0xc24b8b70, 0xc76c51a3, 0xd192e819, 0xd6990624, 0xf40e3585, 0x106aa070,
    0x19a4c116, 0x1e376c08, 0x2748774c, 0x34b0bcb5, 0x391c0cb3, 0x4ed8aa4a, 0x5b9cca4f, 0x682e6ff3, 0x748f82ee, 0x78a5636f, 0x84c87814, 0x8cc70208,
    0x90befffa, 0xa4506ceb, 0xbef9a3f7, 0xc67178f2};
__constant uint START[8] = {0x6a09e667, 0xbb67ae85, 0x3c6ef372, 0xa54ff53a, 0x510e527f, 0x9b05688c, 0x1f83d9ab, 0x5be0cd19};

inline uint right(uint x, uint n) { return rotate(x, 32 - n); }
uint sigma0(uint x) { return right(x, 7) ^ right(x, 18) ^ (x >> 3); }
uint sigma1(uint x) { return right(x, 17) ^ right(x, 19) ^ (x >> 10); }

__kernel void sha256(__global const uint *messages, __global uint *digests)
{
    uint w[64], i;
    __global const uint *m = messages + get_global_id(0) * 16;
    for (i = 0; i < 16; i++) w[i] = *m++;
    for (; i < 64; i++) w[i] = sigma1(w[i - 2]) + w[i - 7] + sigma0(w[i - 15]) + w[i - 16];
    uint a = START[0], b = START[1], c = START[2], d = START[3], e = START[4], f = START[5], g = START[6], h = START[7];
#ifdef BUG // one round too many
    for (i = 0; i <= 64; i++) {
#else
    for (i = 0; i < 64; i++) {
#endif
        uint s1 = right(e, 6) ^ right(e, 11) ^ right(e, 25), s0 = right(a, 2) ^ right(a, 13) ^ right(a, 22);
        uint t1 = h + s1 + CH(e, f, g) + K[i] + w[i], t2 = s0 + MAJ(a, b, c);
        h = g, g = f, f = e, e = d + t1, d = c, c = b, b = a, a = t1 + t2;
    }
    __global uint *out = digests + get_global_id(0) * 8;
    *out++ = START[0] + a, *out++ = START[1] + b, *out++ = START[2] + c, *out++ = START[3] + d;
    *out++ = START[4] + e, *out++ = START[5] + f, *out++ = START[6] + g, *out = START[7] + h;
}
