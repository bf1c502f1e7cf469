// kernels FOLDER NAME [bug]: runs one of ten kernels of FOLDER on data made here, and compares with what this program
// works out itself. Status 0: the same. 1: something else. 3: a call failed.
#include "host.h"
#include <stdint.h>

static host h;
static cl_program program;
static int is_right = 1;

static cl_mem buffer_of(const void *bytes, size_t n) {
    cl_int fault;
    cl_mem m = clCreateBuffer(h.context, CL_MEM_READ_WRITE | CL_MEM_COPY_HOST_PTR, n, (void *)(uintptr_t)bytes, &fault);
    OK(fault);
    return m;
}
static void read_back(cl_mem m, void *to, size_t n) {
    OK(clEnqueueReadBuffer(h.queue, m, CL_TRUE, 0, n, to, 0, NULL, NULL));
}
static void compare(cl_mem m, const void *wanted, size_t n) {
    unsigned char *got = malloc(n);
    read_back(m, got, n);
    if (memcmp(got, wanted, n)) is_right = 0;
    free(got);
    OK(clReleaseMemObject(m));
}
static cl_kernel kernel(const char *name) {
    cl_int fault;
    cl_kernel k = clCreateKernel(program, name, &fault);
    OK(fault);
    return k;
}
static void give(cl_kernel k, cl_uint index, size_t n, const void *value) { OK(clSetKernelArg(k, index, n, value)); }
#define GIVE(K, INDEX, X) give(K, INDEX, sizeof(X), &(X))
static void launch(cl_kernel k, cl_uint dimensions, size_t x, size_t y, size_t lx, size_t ly) {
    size_t global[] = {x, y}, local[] = {lx, ly};
    OK(clEnqueueNDRangeKernel(h.queue, k, dimensions, NULL, global, local, 0, NULL, NULL));
    OK(clFinish(h.queue));
}
static uint32_t next_number(void) { // xorshift: the same data in each run
    static uint32_t state = 2463534242u;
    state ^= state << 13;
    state ^= state >> 17;
    return state ^= state << 5;
}

static void floyd_warshall(void) {
    enum { N = 12 };
    uint32_t distance[N * N], through[N * N] = {0}, wanted[N * N];
    for (int i = 0; i < N * N; i++) distance[i] = i % (N + 1) ? 1 + next_number() % 100 : 0;
    memcpy(wanted, distance, sizeof wanted);
    cl_mem d = buffer_of(distance, sizeof distance), t = buffer_of(through, sizeof through);
    cl_kernel k = kernel("pass");
    cl_uint nodes = N;
    GIVE(k, 0, d);
    GIVE(k, 1, t);
    GIVE(k, 2, nodes);
    for (cl_uint pass = 0; pass < N; pass++) {
        GIVE(k, 3, pass);
        launch(k, 2, N, N, 4, 4);
        for (int y = 0; y < N; y++)
            for (int x = 0; x < N; x++) {
                uint32_t detour = wanted[y * N + pass] + wanted[pass * N + x];
                if (detour < wanted[y * N + x]) {
                    wanted[y * N + x] = detour;
                    through[y * N + x] = pass;
                }
            }
    }
    compare(d, wanted, sizeof wanted);
    compare(t, through, sizeof through);
    OK(clReleaseKernel(k));
}

static int by_number(const void *a, const void *b) {
    uint32_t x = *(const uint32_t *)a, y = *(const uint32_t *)b;
    return x < y ? -1 : x > y;
}
static void bitonic_sort(void) {
    enum { N = 64 };
    uint32_t keys[N];
    for (int i = 0; i < N; i++) keys[i] = next_number();
    cl_mem m = buffer_of(keys, sizeof keys);
    cl_kernel k = kernel("sort_pairs");
    GIVE(k, 0, m);
    for (cl_uint stage = 0; 1u << stage < N; stage++)
        for (cl_uint pass = 0; pass <= stage; pass++) {
            GIVE(k, 1, stage);
            GIVE(k, 2, pass);
            launch(k, 1, N / 2, 1, 8, 1);
        }
    qsort(keys, N, sizeof *keys, by_number);
    compare(m, keys, sizeof keys);
    OK(clReleaseKernel(k));
}

static void reduction(void) {
    enum { N = 100, ITEMS = 128, GROUP = 32 };
    int32_t in[N], sums[ITEMS / GROUP] = {0};
    for (int i = 0; i < N; i++) {
        in[i] = (int32_t)(next_number() % 2001) - 1000;
        sums[i / GROUP] += in[i];
    }
    cl_mem a = buffer_of(in, sizeof in), b = buffer_of((int32_t[ITEMS / GROUP]){0}, sizeof sums);
    cl_kernel k = kernel("sum");
    cl_uint n = N;
    GIVE(k, 0, a);
    GIVE(k, 1, b);
    GIVE(k, 2, n);
    give(k, 3, GROUP * sizeof(int32_t), NULL);
    launch(k, 1, ITEMS, 1, GROUP, 1);
    compare(b, sums, sizeof sums);
    compare(a, in, sizeof in);
    OK(clReleaseKernel(k));
}

static void life(void) {
    enum { W = 16, H = 24 };
    unsigned char cells[W * H], fresh[W * H];
    for (int i = 0; i < W * H; i++) cells[i] = next_number() % 3 == 0;
    cl_mem a = buffer_of(cells, sizeof cells), b = buffer_of(cells, sizeof cells);
    cl_kernel k = kernel("life");
    cl_int width = W, height = H;
    GIVE(k, 2, width);
    GIVE(k, 3, height);
    for (int turn = 0; turn < 2; turn++) {
        GIVE(k, 0, a);
        GIVE(k, 1, b);
        launch(k, 2, W, H, 8, 8);
        for (int y = 0; y < H; y++)
            for (int x = 0; x < W; x++) {
                int n = 0;
                for (int j = -1; j <= 1; j++)
                    for (int i = -1; i <= 1; i++) n += (i || j) && cells[(y + j + H) % H * W + (x + i + W) % W];
                fresh[y * W + x] = n == 3 || (n == 2 && cells[y * W + x]);
            }
        memcpy(cells, fresh, sizeof cells);
        cl_mem swapped = a;
        a = b;
        b = swapped;
    }
    compare(a, cells, sizeof cells);
    OK(clReleaseMemObject(b));
    OK(clReleaseKernel(k));
}

static unsigned ways(unsigned columns, unsigned lefts, unsigned rights, unsigned all) {
    unsigned n = 0;
    if (columns == all) return 1;
    for (unsigned bit = 1; bit <= all; bit <<= 1)
        if (!((columns | lefts | rights) & bit)) n += ways(columns | bit, (lefts | bit) << 1, (rights | bit) >> 1, all);
    return n;
}
static void n_queens(void) {
    enum { N = 6 };
    uint32_t first[N], wanted[N];
    for (int i = 0; i < N; i++) {
        first[i] = 1u << i;
        wanted[i] = ways(first[i], first[i] << 1, first[i] >> 1, (1u << N) - 1);
    }
    cl_mem a = buffer_of(first, sizeof first), b = buffer_of(first, sizeof first);
    cl_kernel k = kernel("queens");
    cl_int n = N;
    GIVE(k, 0, a);
    GIVE(k, 1, b);
    GIVE(k, 2, n);
    launch(k, 1, N, 1, 3, 1);
    compare(b, wanted, sizeof wanted);
    OK(clReleaseMemObject(a));
    OK(clReleaseKernel(k));
}

static void breadth_first(void) {
    enum { N = 32, DEGREE = 3, FAR = -1 };
    int32_t starts[N + 1], neighbours[2 * N * DEGREE], edges[N][N] = {{0}}, n = 0;
    uint32_t levels[N], queue[N], head = 0, tail = 0, wanted[N];
    for (int i = 1; i < N; i++) {
        int j = (int)(next_number() % (unsigned)i);
        edges[i][j] = edges[j][i] = 1;
        j = (int)(next_number() % N);
        if (j != i) edges[i][j] = edges[j][i] = 1;
    }
    for (int i = 0; i < N; i++) {
        starts[i] = n;
        for (int j = 0; j < N; j++)
            if (edges[i][j]) neighbours[n++] = j;
        levels[i] = wanted[i] = (uint32_t)FAR;
    }
    starts[N] = n;
    levels[0] = wanted[0] = 0;
    queue[tail++] = 0;
    for (; head < tail; head++)
        for (int i = starts[queue[head]]; i < starts[queue[head] + 1]; i++)
            if (wanted[neighbours[i]] == (uint32_t)FAR) {
                wanted[neighbours[i]] = wanted[queue[head]] + 1;
                queue[tail++] = (uint32_t)neighbours[i];
            }
    cl_mem s = buffer_of(starts, sizeof starts), e = buffer_of(neighbours, sizeof neighbours),
           a = buffer_of(levels, sizeof levels), b = buffer_of(levels, sizeof levels);
    cl_kernel k = kernel("visit");
    GIVE(k, 0, s);
    GIVE(k, 1, e);
    cl_uint changed = 1;
    for (cl_uint level = 0; changed; level++) {
        changed = 0;
        cl_mem c = buffer_of(&changed, sizeof changed);
        GIVE(k, 2, a);
        GIVE(k, 3, b);
        GIVE(k, 4, c);
        GIVE(k, 5, level);
        launch(k, 1, N, 1, 8, 1);
        read_back(c, &changed, sizeof changed);
        OK(clReleaseMemObject(c));
        cl_mem swapped = a;
        a = b;
        b = swapped;
    }
    compare(a, wanted, sizeof wanted);
    OK(clReleaseMemObject(b));
    OK(clReleaseMemObject(s));
    OK(clReleaseMemObject(e));
    OK(clReleaseKernel(k));
}

static void prefix_sum(void) {
    enum { ITEMS = 32, GROUP = 16, N = 2 * ITEMS, GROUPS = ITEMS / GROUP };
    int32_t in[N], wanted[N], totals[GROUPS] = {0};
    for (int i = 0; i < N; i++) {
        int g = i / (2 * GROUP);
        in[i] = (int32_t)(next_number() % 100);
        wanted[i] = totals[g];
        totals[g] += in[i];
    }
    cl_mem a = buffer_of(in, sizeof in), b = buffer_of(in, sizeof in),
           t = buffer_of((int32_t[GROUPS]){0}, sizeof totals);
    cl_kernel k = kernel("scan");
    GIVE(k, 0, a);
    GIVE(k, 1, b);
    GIVE(k, 2, t);
    give(k, 3, 2 * GROUP * sizeof(int32_t), NULL);
    launch(k, 1, ITEMS, 1, GROUP, 1);
    compare(b, wanted, sizeof wanted);
    compare(t, totals, sizeof totals);
    OK(clReleaseMemObject(a));
    OK(clReleaseKernel(k));
}

static void sha256(void) {
    // "abc" and the empty message, padded; the digests stand in FIPS 180-4's examples
    uint32_t messages[2][16] = {{0x61626380, [15] = 24}, {0x80000000}};
    static const uint32_t wanted[2][8] = {
        {0xba7816bf, 0x8f01cfea, 0x414140de, 0x5dae2223, 0xb00361a3, 0x96177a9c, 0xb410ff61, 0xf20015ad},
        {0xe3b0c442, 0x98fc1c14, 0x9afbf4c8, 0x996fb924, 0x27ae41e4, 0x649b934c, 0xa495991b, 0x7852b855}};
    cl_mem a = buffer_of(messages, sizeof messages), b = buffer_of(wanted + 1, 32),
           c = buffer_of(messages, sizeof wanted);
    cl_kernel k = kernel("sha256");
    GIVE(k, 0, a);
    GIVE(k, 1, c);
    launch(k, 1, 2, 1, 1, 1);
    compare(c, wanted, sizeof wanted);
    OK(clReleaseMemObject(a));
    OK(clReleaseMemObject(b));
    OK(clReleaseKernel(k));
}

static void histogram(void) {
    enum { N = 300 };
    unsigned char data[N];
    uint32_t bins[16] = {0};
    for (int i = 0; i < N; i++) bins[(data[i] = (unsigned char)next_number()) >> 4]++;
    cl_mem a = buffer_of(data, sizeof data), b = buffer_of((uint32_t[16]){0}, sizeof bins);
    cl_kernel k = kernel("histogram");
    cl_uint n = N;
    GIVE(k, 0, a);
    GIVE(k, 1, n);
    GIVE(k, 2, b);
    launch(k, 1, 64, 1, 32, 1);
    compare(b, bins, sizeof bins);
    OK(clReleaseMemObject(a));
    OK(clReleaseKernel(k));
}

static void matrix_product(void) {
    enum { N = 8 };
    int32_t left[N * N], right[N * N], wanted[N * N] = {0};
    for (int i = 0; i < N * N; i++) {
        left[i] = (int32_t)(next_number() % 200) - 100;
        right[i] = (int32_t)(next_number() % 200) - 100;
    }
    for (int y = 0; y < N; y++)
        for (int x = 0; x < N; x++)
            for (int i = 0; i < N; i++) wanted[y * N + x] += left[y * N + i] * right[i * N + x];
    cl_mem a = buffer_of(left, sizeof left), b = buffer_of(right, sizeof right), c = buffer_of(left, sizeof left);
    cl_kernel k = kernel("multiply");
    cl_uint n = N;
    GIVE(k, 0, a);
    GIVE(k, 1, b);
    GIVE(k, 2, c);
    GIVE(k, 3, n);
    launch(k, 2, N, N, 4, 4);
    compare(c, wanted, sizeof wanted);
    OK(clReleaseMemObject(a));
    OK(clReleaseMemObject(b));
    OK(clReleaseKernel(k));
}

int main(int count, char **words) {
    static const struct {
        const char *name;
        void (*run)(void);
    } all[] = {{"floyd_warshall", floyd_warshall},
               {"bitonic_sort", bitonic_sort},
               {"reduction", reduction},
               {"life", life},
               {"n_queens", n_queens},
               {"breadth_first", breadth_first},
               {"prefix_sum", prefix_sum},
               {"sha256", sha256},
               {"histogram", histogram},
               {"matrix_product", matrix_product}};
    static char source[65536], path[4096];
    if (count != 3 && !(count == 4 && !strcmp(words[3], "bug"))) {
        fprintf(stderr, "kernels: FOLDER NAME [bug]\n");
        return 2;
    }
    snprintf(path, sizeof path, "%s/%s.cl", words[1], words[2]);
    FILE *file = fopen(path, "rb");
    if (!file) {
        fprintf(stderr, "kernels: cannot read %s\n", path);
        return 2;
    }
    source[fread(source, 1, sizeof source - 1, file)] = 0;
    fclose(file);
    h = open_host();
    program = build_program(&h, source, count == 4 ? "-DBUG" : "");
    for (size_t i = 0; i < sizeof all / sizeof *all; i++)
        if (!strcmp(words[2], all[i].name)) all[i].run();
    OK(clReleaseProgram(program));
    close_host(&h);
    printf("%s is %s\n", words[2], is_right ? "right" : "wrong");
    return is_right ? 0 : 1;
}
