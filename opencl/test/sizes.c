// Sizes as programs have them, and the bounds of a device by its limits: sizes CASE [ARGUMENTS]. Status 0: all of it.
#include "host.h"
#include <stdint.h>

#define WANT(CONDITION) \
    do { \
        if (!(CONDITION)) { \
            fprintf(stderr, "line %d: not so: %s\n", __LINE__, #CONDITION); \
            exit(4); \
        } \
    } while (0)

enum { MIB = 1 << 20 };

static host h;

static cl_mem buffer_of(cl_mem_flags flags, size_t n, void *host) {
    cl_int fault;
    cl_mem m = clCreateBuffer(h.context, flags, n, host, &fault);
    OK(fault);
    return m;
}

static cl_kernel kernel_of(cl_program p, const char *name) {
    cl_int fault;
    cl_kernel k = clCreateKernel(p, name, &fault);
    OK(fault);
    return k;
}

static void write_to(cl_mem m, size_t offset, size_t n, const void *from) {
    OK(clEnqueueWriteBuffer(h.queue, m, CL_TRUE, offset, n, from, 0, NULL, NULL));
}

static void read_from(cl_mem m, size_t offset, size_t n, void *to) {
    OK(clEnqueueReadBuffer(h.queue, m, CL_TRUE, offset, n, to, 0, NULL, NULL));
}

static cl_int launch(cl_kernel k, cl_uint dimensions, const size_t *global, const size_t *local) {
    return clEnqueueNDRangeKernel(h.queue, k, dimensions, NULL, global, local, 0, NULL, NULL);
}

// Bytes by chance, the same each time.
static void put_chance(unsigned char *bytes, size_t n) {
    uint64_t state = 1;
    for (size_t i = 0; i < n; i++) {
        state = state * 6364136223846793005u + 1442695040888963407u;
        bytes[i] = (unsigned char)(state >> 56);
    }
}

// vectors N GROUP: two vectors of N ints, added in groups of GROUP items.
static void vectors(char **words) {
    static const char source[] =
        "__kernel void add(__global const int *a, __global const int *b, __global int *c, int n) {\n"
        "    int i = get_global_id(0);\n"
        "    if (i < n) c[i] = a[i] + b[i];\n"
        "}\n";
    cl_int n = (cl_int)strtol(words[0], NULL, 10);
    size_t local = strtoul(words[1], NULL, 10), global = ((size_t)n + local - 1) / local * local,
           bytes = (size_t)n * sizeof(cl_int);
    cl_int *numbers = malloc(bytes);
    WANT(numbers);
    cl_mem a = buffer_of(CL_MEM_READ_ONLY, bytes, NULL), c = buffer_of(CL_MEM_WRITE_ONLY, bytes, NULL);
    for (cl_int i = 0; i < n; i++) numbers[i] = 7 * i;
    write_to(a, 0, bytes, numbers);
    for (cl_int i = 0; i < n; i++) numbers[i] = n - i;
    cl_mem b = buffer_of(CL_MEM_READ_ONLY | CL_MEM_COPY_HOST_PTR, bytes, numbers);
    cl_program p = build_program(&h, source, "");
    cl_kernel k = kernel_of(p, "add");
    OK(clSetKernelArg(k, 0, sizeof a, &a));
    OK(clSetKernelArg(k, 1, sizeof b, &b));
    OK(clSetKernelArg(k, 2, sizeof c, &c));
    OK(clSetKernelArg(k, 3, sizeof n, &n));
    OK(launch(k, 1, &global, &local));
    read_from(c, 0, bytes, numbers);
    for (cl_int i = 0; i < n; i++) WANT(numbers[i] == 6 * i + n);
    free(numbers);
    OK(clReleaseKernel(k));
    OK(clReleaseProgram(p));
    OK(clReleaseMemObject(a));
    OK(clReleaseMemObject(b));
    OK(clReleaseMemObject(c));
}

// race N GROUP: all items store in their own place, and the last one where the first did.
static void race(char **words) {
    static const char source[] = "__kernel void race(__global int *a, int n) {\n"
                                 "    int i = get_global_id(0);\n"
                                 "    a[i == n - 1 ? 0 : i] = i;\n"
                                 "}\n";
    cl_int n = (cl_int)strtol(words[0], NULL, 10), got = 1;
    size_t local = strtoul(words[1], NULL, 10), global = (size_t)n;
    cl_mem a = buffer_of(CL_MEM_READ_WRITE, global * sizeof(cl_int), NULL);
    cl_program p = build_program(&h, source, "");
    cl_kernel k = kernel_of(p, "race");
    OK(clSetKernelArg(k, 0, sizeof a, &a));
    OK(clSetKernelArg(k, 1, sizeof n, &n));
    WANT(launch(k, 1, &global, &local) == CL_INVALID_OPERATION);
    read_from(a, (global - 2) * sizeof got, sizeof got, &got);
    WANT(got == 0);
    OK(clReleaseKernel(k));
    OK(clReleaseProgram(p));
    OK(clReleaseMemObject(a));
}

// A buffer of 64 MiB of which a launch touches 1,024 ints, one in each 64 KiB; the bytes beside them stay 0.
static void sparse(char **words) {
    static const char source[] = "__kernel void mark(__global int *a) {\n"
                                 "    int i = get_global_id(0);\n"
                                 "    a[i * 16384 + 5] += i + 1;\n"
                                 "}\n";
    (void)words;
    size_t n = 1024, local = 64;
    cl_mem m = buffer_of(CL_MEM_READ_WRITE, 64 * (size_t)MIB, NULL);
    cl_program p = build_program(&h, source, "");
    cl_kernel k = kernel_of(p, "mark");
    OK(clSetKernelArg(k, 0, sizeof m, &m));
    for (int turn = 0; turn < 2; turn++) OK(launch(k, 1, &n, &local));
    for (size_t i = 0; i < n; i++) {
        cl_int got[3] = {9, 9, 9};
        read_from(m, (i * 16384 + 4) * sizeof *got, sizeof got, got);
        WANT(got[0] == 0 && got[1] == 2 * (cl_int)(i + 1) && got[2] == 0);
    }
    OK(clReleaseKernel(k));
    OK(clReleaseProgram(p));
    OK(clReleaseMemObject(m));
}

// Writes and reads at the bounds of pieces, and whole ones.
static void pieces_of(cl_mem m, unsigned char *wanted, unsigned char *got, size_t size) {
    static const size_t lengths[] = {1, MIB - 1, MIB, MIB + 1, 2 * MIB, 2 * MIB + 3}, offsets[] = {0, 1, MIB - 1, MIB};
    for (size_t i = 0; i < sizeof lengths / sizeof *lengths; i++)
        for (size_t j = 0; j < sizeof offsets / sizeof *offsets; j++) {
            size_t n = lengths[i], at = offsets[j];
            if (at + n > size) continue;
            for (size_t b = 0; b < n; b++) wanted[at + b] ^= (unsigned char)(17 * i + j + 1);
            write_to(m, at, n, wanted + at);
            memset(got, 0xee, size);
            read_from(m, at, n, got + at);
            WANT(!memcmp(got + at, wanted + at, n));
            WANT((!at || got[at - 1] == 0xee) && (at + n == size || got[at + n] == 0xee));
        }
    read_from(m, 0, size, got);
    WANT(!memcmp(got, wanted, size));
}

// The same by maps: one that is read and written, and one whose bytes aren't read.
static void pieces_by_maps(cl_mem m, unsigned char *wanted, unsigned char *got, size_t size) {
    static const cl_map_flags flags[] = {CL_MAP_READ | CL_MAP_WRITE, CL_MAP_WRITE_INVALIDATE_REGION};
    for (int i = 0; i < 2; i++) {
        size_t at = 7, n = size - 9;
        cl_int fault;
        unsigned char *map = clEnqueueMapBuffer(h.queue, m, CL_TRUE, flags[i], at, n, 0, NULL, NULL, &fault);
        OK(fault);
        WANT(i || !memcmp(map, wanted + at, n));
        for (size_t b = 0; b < n; b++) wanted[at + b] ^= 0x5a;
        memcpy(map, wanted + at, n);
        OK(clEnqueueUnmapMemObject(h.queue, m, map, 0, NULL, NULL));
        read_from(m, 0, size, got);
        WANT(!memcmp(got, wanted, size));
    }
}

// A rectangle of two rows that are each longer than a piece.
static void pieces_by_rows(cl_mem m, unsigned char *wanted, unsigned char *got, size_t size) {
    size_t row = size / 2, origin[3] = {3, 0, 0}, region[3] = {row - 5, 2, 1};
    for (size_t y = 0; y < 2; y++)
        for (size_t x = 0; x < region[0]; x++) wanted[y * row + origin[0] + x] ^= 0x33;
    OK(clEnqueueWriteBufferRect(h.queue, m, CL_TRUE, origin, origin, region, row, 0, row, 0, wanted, 0, NULL, NULL));
    memset(got, 0xee, size);
    OK(clEnqueueReadBufferRect(h.queue, m, CL_TRUE, origin, origin, region, row, 0, row, 0, got, 0, NULL, NULL));
    for (size_t y = 0; y < 2; y++) WANT(!memcmp(got + y * row + origin[0], wanted + y * row + origin[0], region[0]));
    WANT(got[2] == 0xee && got[row - 2] == 0xee && got[row + 2] == 0xee);
    read_from(m, 0, size, got);
    WANT(!memcmp(got, wanted, size));
}

// Bytes that go to the device and come back in pieces, by each call that moves bytes.
static void pieces(char **words) {
    (void)words;
    size_t size = 3 * (size_t)MIB + 4;
    unsigned char *wanted = malloc(size), *got = malloc(size), *own = malloc(size), pattern[4] = {1, 2, 3, 4};
    WANT(wanted && got && own);
    put_chance(wanted, size);
    memcpy(own, wanted, size);
    cl_mem m = buffer_of(CL_MEM_COPY_HOST_PTR, size, wanted), u = buffer_of(CL_MEM_USE_HOST_PTR, size, own);
    read_from(m, 0, size, got);
    WANT(!memcmp(got, wanted, size));
    pieces_of(m, wanted, got, size);
    pieces_by_maps(m, wanted, got, size);
    pieces_by_rows(m, wanted, got, size);
    OK(clEnqueueCopyBuffer(h.queue, m, u, 0, 0, size, 0, NULL, NULL));
    pieces_by_maps(u, wanted, got, size);
    OK(clEnqueueFillBuffer(h.queue, u, pattern, 4, 0, size, 0, NULL, NULL));
    read_from(u, 0, size, got);
    for (size_t i = 0; i < size; i++) WANT(got[i] == 1 + i % 4);
    free(wanted);
    free(got);
    OK(clReleaseMemObject(m));
    OK(clReleaseMemObject(u));
    free(own);
}

// What is wanted of a device (docs/use/script.md, "Limits").
typedef struct {
    const char *name;
    size_t items, group, buffers, bytes, memory, local;
    cl_uint constants;
} bounds;
static const bounds all_bounds[] = {
    {"profile", 65536, 256, 64, MIB, 64 * (size_t)MIB, 32768, 64},
    {"large", 67108864, 1024, 4096, 1024 * (size_t)MIB, 4096 * (size_t)MIB, 65536, 128},
};
static const bounds *bounds_of(const char *name) {
    for (size_t i = 0; i < 2; i++)
        if (!strcmp(all_bounds[i].name, name)) return &all_bounds[i];
    fprintf(stderr, "no limits: %s\n", name);
    exit(2);
}

static cl_ulong number_of(cl_device_info name) {
    cl_ulong n = 0;
    size_t size = 0;
    OK(clGetDeviceInfo(h.device, name, sizeof n, &n, &size));
    WANT(size == 4 || size == 8); // (the numbers of 4 bytes are little-endian, as those of 8 are)
    return n;
}

// infos LIMITS: what the device says of itself (OpenCL 1.2, table 4.3) and of a kernel (table 5.22).
static void infos(char **words) {
    const bounds *b = bounds_of(words[0]);
    size_t sizes[3] = {0}, group = 0;
    cl_program p = build_program(&h, "__kernel void f(__global int *a) { a[0] = 1; }\n", "");
    cl_kernel k = kernel_of(p, "f");
    WANT(number_of(CL_DEVICE_MAX_WORK_GROUP_SIZE) == b->group);
    OK(clGetDeviceInfo(h.device, CL_DEVICE_MAX_WORK_ITEM_SIZES, sizeof sizes, sizes, NULL));
    WANT(sizes[0] == b->group && sizes[1] == b->group && sizes[2] == b->group);
    WANT(number_of(CL_DEVICE_MAX_MEM_ALLOC_SIZE) == b->bytes);
    WANT(number_of(CL_DEVICE_MAX_CONSTANT_BUFFER_SIZE) == b->bytes);
    WANT(number_of(CL_DEVICE_MAX_CONSTANT_ARGS) == b->constants);
    WANT(number_of(CL_DEVICE_GLOBAL_MEM_SIZE) == b->memory);
    WANT(number_of(CL_DEVICE_LOCAL_MEM_SIZE) == b->local);
    WANT(number_of(CL_DEVICE_MAX_PARAMETER_SIZE) == 1024);
    OK(clGetKernelWorkGroupInfo(k, h.device, CL_KERNEL_WORK_GROUP_SIZE, sizeof group, &group, NULL));
    WANT(group == b->group);
    OK(clReleaseKernel(k));
    OK(clReleaseProgram(p));
}

// The largest group, and those that are one item too large, in one dimension and as a product.
static void groups_at(const bounds *b, cl_kernel k) {
    size_t whole[3] = {b->group, 1, 1}, more[3] = {b->group + 1, 1, 1}, twice[3] = {b->group / 2, 2, 2},
           half[3] = {b->group / 4, 2, 2};
    OK(launch(k, 1, whole, whole));
    OK(launch(k, 3, half, half));
    WANT(launch(k, 1, more, more) == CL_INVALID_WORK_ITEM_SIZE);
    WANT(launch(k, 3, twice, twice) == CL_INVALID_WORK_GROUP_SIZE);
}

// Launches that are too large, by one item and by more than 64 bits hold. (The largest one takes minutes.)
static void launches_at(const bounds *b, cl_kernel k) {
    static const size_t huge[][3] = {{SIZE_MAX, 1, 1},
                                     {(size_t)1 << 63, 1, 1},
                                     {(size_t)1 << 63, 2, 1},
                                     {(size_t)1 << 32, (size_t)1 << 32, 1},
                                     {(size_t)1 << 32, (size_t)1 << 32, (size_t)1 << 32},
                                     {SIZE_MAX, SIZE_MAX, SIZE_MAX},
                                     {(size_t)1 << 22, (size_t)1 << 22, (size_t)1 << 20}};
    size_t more[3] = {b->items + 1, 1, 1}, rows[3] = {b->items / 2, 3, 1}, one[3] = {1, 1, 1};
    WANT(launch(k, 1, more, one) == CL_INVALID_GLOBAL_WORK_SIZE);
    WANT(launch(k, 1, more, NULL) == CL_INVALID_GLOBAL_WORK_SIZE);
    WANT(launch(k, 2, rows, one) == CL_INVALID_GLOBAL_WORK_SIZE);
    for (size_t i = 0; i < sizeof huge / sizeof *huge; i++) {
        WANT(launch(k, 3, huge[i], one) == CL_INVALID_GLOBAL_WORK_SIZE);
        WANT(launch(k, 3, huge[i], NULL) == CL_INVALID_GLOBAL_WORK_SIZE);
    }
    WANT(launch(k, 1, huge[0], huge[0]) == CL_INVALID_WORK_ITEM_SIZE);
}

// A buffer of so many bytes, and as many more as there may be; what is too large, and one too many.
static void buffers_at(const bounds *b, size_t n) {
    static const size_t huge[] = {(size_t)1 << 32, (size_t)1 << 63, SIZE_MAX};
    cl_mem *all = calloc(b->buffers, sizeof *all);
    cl_int fault;
    WANT(all);
    WANT(!clCreateBuffer(h.context, 0, b->bytes + 1, NULL, &fault) && fault == CL_INVALID_BUFFER_SIZE);
    for (size_t i = 0; i < sizeof huge / sizeof *huge; i++)
        WANT(!clCreateBuffer(h.context, 0, huge[i], NULL, &fault) && fault == CL_INVALID_BUFFER_SIZE);
    for (size_t i = 0; i < b->buffers; i++) all[i] = buffer_of(0, i ? 1 : n, NULL);
    WANT(!clCreateBuffer(h.context, 0, 1, NULL, &fault) && fault == CL_MEM_OBJECT_ALLOCATION_FAILURE);
    unsigned char last = 9;
    read_from(all[0], n - 1, 1, &last);
    WANT(last == 0);
    WANT(clEnqueueReadBuffer(h.queue, all[0], CL_TRUE, n, 1, &last, 0, NULL, NULL) == CL_INVALID_VALUE);
    WANT(clEnqueueReadBuffer(h.queue, all[0], CL_TRUE, 1, SIZE_MAX, &last, 0, NULL, NULL) == CL_INVALID_VALUE);
    WANT(clEnqueueReadBuffer(h.queue, all[0], CL_TRUE, SIZE_MAX, 1, &last, 0, NULL, NULL) == CL_INVALID_VALUE);
    for (size_t i = 0; i < b->buffers; i++) OK(clReleaseMemObject(all[i]));
    free(all);
}

// The most local memory of one argument, and of a launch, each with its neighbour behind the limit.
static void local_at(const bounds *b) {
    cl_program p = build_program(&h, "__kernel void g(__local char *t, __local char *u) { }\n", "");
    cl_kernel k = kernel_of(p, "g");
    size_t one[3] = {1, 1, 1};
    WANT(clSetKernelArg(k, 0, b->local + 1, NULL) == CL_INVALID_ARG_SIZE);
    OK(clSetKernelArg(k, 0, b->local, NULL));
    OK(clSetKernelArg(k, 0, b->local - 1, NULL));
    OK(clSetKernelArg(k, 1, 1, NULL));
    OK(launch(k, 1, one, one));
    OK(clSetKernelArg(k, 1, 2, NULL));
    WANT(launch(k, 1, one, one) == CL_OUT_OF_RESOURCES);
    OK(clReleaseKernel(k));
    OK(clReleaseProgram(p));
}

// bounds LIMITS BYTES: what the device does at its bounds, with a buffer of so many bytes. (The largest one of a large
// device takes 1 GiB of memory.)
static void at_bounds(char **words) {
    const bounds *b = bounds_of(words[0]);
    cl_program p = build_program(&h, "__kernel void f(int n) { }\n", "");
    cl_kernel k = kernel_of(p, "f");
    cl_int n = 1;
    OK(clSetKernelArg(k, 0, sizeof n, &n));
    groups_at(b, k);
    launches_at(b, k);
    buffers_at(b, strtoul(words[1], NULL, 10));
    local_at(b);
    OK(clReleaseKernel(k));
    OK(clReleaseProgram(p));
}

// room LIMITS: the largest buffer, on a device that has too little memory for it.
static void room(char **words) {
    const bounds *b = bounds_of(words[0]);
    cl_int fault;
    WANT(!clCreateBuffer(h.context, 0, b->bytes, NULL, &fault) && fault == CL_OUT_OF_HOST_MEMORY);
    WANT(!clCreateBuffer(h.context, 0, b->bytes + 1, NULL, &fault) && fault == CL_INVALID_BUFFER_SIZE);
    OK(clReleaseMemObject(buffer_of(0, MIB, NULL)));
}

// local N: 3,072 items in groups whose size is left open, which have N items.
static void local(char **words) {
    cl_int wanted = (cl_int)strtol(words[0], NULL, 10), got = 0;
    size_t global = 3072;
    cl_mem m = buffer_of(CL_MEM_READ_WRITE, sizeof got, NULL);
    cl_program p = build_program(
        &h, "__kernel void f(__global int *a) { if (get_global_id(0) == 0) a[0] = get_local_size(0); }\n", "");
    cl_kernel k = kernel_of(p, "f");
    OK(clSetKernelArg(k, 0, sizeof m, &m));
    OK(launch(k, 1, &global, NULL));
    read_from(m, 0, sizeof got, &got);
    if (got != wanted) fprintf(stderr, "%d items a group in place of %d\n", got, wanted);
    WANT(got == wanted);
    OK(clReleaseKernel(k));
    OK(clReleaseProgram(p));
    OK(clReleaseMemObject(m));
}

int main(int count, char **words) {
    static const struct {
        const char *name;
        int arguments;
        void (*call)(char **);
    } all[] = {{"vectors", 2, vectors}, {"race", 2, race},        {"sparse", 0, sparse}, {"pieces", 0, pieces},
               {"infos", 1, infos},     {"bounds", 2, at_bounds}, {"room", 1, room},     {"local", 1, local}};
    for (size_t i = 0; i < sizeof all / sizeof *all; i++) {
        if (count < 2 || strcmp(words[1], all[i].name) || count != 2 + all[i].arguments) continue;
        h = open_host();
        all[i].call(words + 2);
        close_host(&h);
        puts("sizes are right");
        return 0;
    }
    fprintf(stderr, "sizes: vectors N GROUP | race N GROUP | sparse | pieces | infos LIMITS | bounds LIMITS BYTES | "
                    "room LIMITS | local N\n");
    return 2;
}
