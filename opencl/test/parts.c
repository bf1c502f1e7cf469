// parts [own]: sub-buffers (OpenCL 1.2, 5.2.1), and arguments that are NULL (5.7.2). With `own` those of sources in
// Clsim's language without clang. Status 0: each call answers and leaves what it should.
#include "host.h"
#include <stdbool.h>
#include <stdint.h>

#define WANT(CONDITION) \
    do { \
        if (!(CONDITION)) { \
            fprintf(stderr, "line %d: not so: %s\n", __LINE__, #CONDITION); \
            exit(4); \
        } \
    } while (0)

enum { N = 128, BYTES = N * sizeof(int32_t), ALIGN = 128 };

static host h;
static int32_t numbers[N];

// A buffer of the numbers from 0 on.
static cl_mem numbered(cl_mem_flags flags) {
    cl_int fault;
    for (int i = 0; i < N; i++) numbers[i] = i;
    cl_mem m = clCreateBuffer(h.context, flags | CL_MEM_COPY_HOST_PTR, BYTES, numbers, &fault);
    OK(fault);
    return m;
}

static cl_mem part_by(cl_mem m, cl_mem_flags flags, size_t origin, size_t size, cl_int *fault) {
    cl_buffer_region region = {origin, size};
    return clCreateSubBuffer(m, flags, CL_BUFFER_CREATE_TYPE_REGION, &region, fault);
}
static cl_mem part_of(cl_mem m, size_t origin, size_t size) {
    cl_int fault;
    cl_mem part = part_by(m, 0, origin, size, &fault);
    OK(fault);
    return part;
}
static cl_int part_fault(cl_mem m, cl_mem_flags flags, size_t origin, size_t size) {
    cl_int fault;
    cl_mem part = part_by(m, flags, origin, size, &fault);
    WANT(!part == !!fault);
    if (part) OK(clReleaseMemObject(part));
    return fault;
}

static int32_t at(cl_mem m, size_t index) {
    int32_t n;
    OK(clEnqueueReadBuffer(h.queue, m, CL_TRUE, index * sizeof n, sizeof n, &n, 0, NULL, NULL));
    return n;
}
static void release(int n, const cl_mem *all) {
    for (int i = 0; i < n; i++) OK(clReleaseMemObject(all[i]));
}

// ---- what they are ----

#define WANT_INFO(M, NAME, TYPE, VALUE) \
    do { \
        TYPE got_; \
        OK(clGetMemObjectInfo(M, NAME, sizeof got_, &got_, NULL)); \
        WANT(got_ == (VALUE)); \
    } while (0)

static int ended;
static void CL_CALLBACK end(cl_mem m, void *user) {
    (void)m;
    WANT(ended == *(int *)user);
    ended++;
}

static void infos(void) {
    static int first = 0, second = 1;
    cl_uint bits = 0;
    cl_int fault;
    OK(clGetDeviceInfo(h.device, CL_DEVICE_MEM_BASE_ADDR_ALIGN, sizeof bits, &bits, NULL));
    WANT(bits == 8 * ALIGN);
    cl_mem m = clCreateBuffer(h.context, CL_MEM_USE_HOST_PTR | CL_MEM_HOST_READ_ONLY, BYTES, numbers, &fault), part;
    OK(fault);
    part = part_by(m, CL_MEM_READ_ONLY, ALIGN, 40, &fault);
    OK(fault);
    WANT_INFO(part, CL_MEM_TYPE, cl_mem_object_type, CL_MEM_OBJECT_BUFFER);
    WANT_INFO(part, CL_MEM_FLAGS, cl_mem_flags, CL_MEM_READ_ONLY | CL_MEM_USE_HOST_PTR | CL_MEM_HOST_READ_ONLY);
    WANT_INFO(part, CL_MEM_SIZE, size_t, 40);
    WANT_INFO(part, CL_MEM_OFFSET, size_t, ALIGN);
    WANT_INFO(part, CL_MEM_HOST_PTR, void *, (void *)((char *)numbers + ALIGN));
    WANT_INFO(part, CL_MEM_ASSOCIATED_MEMOBJECT, cl_mem, m);
    WANT_INFO(part, CL_MEM_CONTEXT, cl_context, h.context);
    WANT_INFO(m, CL_MEM_ASSOCIATED_MEMOBJECT, cl_mem, NULL);
    WANT_INFO(m, CL_MEM_REFERENCE_COUNT, cl_uint, 1);
    int32_t n = 1;
    WANT(clEnqueueWriteBuffer(h.queue, part, CL_TRUE, 0, 4, &n, 0, NULL, NULL) == CL_INVALID_OPERATION);
    WANT(part_fault(part, 0, 0, 4) == CL_INVALID_MEM_OBJECT && part_fault(NULL, 0, 0, 4) == CL_INVALID_MEM_OBJECT);
    OK(clSetMemObjectDestructorCallback(part, end, &first));
    OK(clSetMemObjectDestructorCallback(m, end, &second));
    OK(clReleaseMemObject(m)); // it stays as long as its part
    WANT(!ended);
    OK(clReleaseMemObject(part));
    WANT(ended == 2);
}

static void flags_of(cl_mem_flags of, cl_mem_flags right, cl_mem_flags wrong, cl_mem_flags inherited) {
    cl_mem m = numbered(of), part = part_of(m, 0, 4);
    WANT_INFO(part, CL_MEM_FLAGS, cl_mem_flags, inherited | CL_MEM_COPY_HOST_PTR);
    OK(clReleaseMemObject(part));
    for (cl_mem_flags bit = 1; bit < 1 << 10; bit <<= 1)
        if ((right | wrong) & bit) WANT(part_fault(m, bit, 0, 4) == (right & bit ? CL_SUCCESS : CL_INVALID_VALUE));
    OK(clReleaseMemObject(m));
}

static void errors(void) {
    static const cl_mem_flags pointers = CL_MEM_USE_HOST_PTR | CL_MEM_ALLOC_HOST_PTR | CL_MEM_COPY_HOST_PTR;
    cl_mem m = numbered(CL_MEM_READ_WRITE);
    cl_int fault;
    WANT(part_fault(m, 0, 0, 0) == CL_INVALID_BUFFER_SIZE);
    WANT(part_fault(m, 0, 0, BYTES + 1) == CL_INVALID_VALUE);
    WANT(part_fault(m, 0, 2 * ALIGN, BYTES - ALIGN) == CL_INVALID_VALUE);
    WANT(part_fault(m, 0, ALIGN, SIZE_MAX) == CL_INVALID_VALUE);
    WANT(part_fault(m, 0, ALIGN / 2, 4) == CL_MISALIGNED_SUB_BUFFER_OFFSET);
    WANT(part_fault(m, 0, BYTES - ALIGN, ALIGN) == CL_SUCCESS);
    WANT(part_fault(m, CL_MEM_READ_ONLY | CL_MEM_WRITE_ONLY, 0, 4) == CL_INVALID_VALUE);
    WANT(!clCreateSubBuffer(m, 0, 0, &(cl_buffer_region){0, 4}, &fault) && fault == CL_INVALID_VALUE);
    WANT(!clCreateSubBuffer(m, 0, CL_BUFFER_CREATE_TYPE_REGION, NULL, &fault) && fault == CL_INVALID_VALUE);
    OK(clReleaseMemObject(m));
    flags_of(0, 7 | 7 << 7, pointers, 0);
    flags_of(CL_MEM_WRITE_ONLY, CL_MEM_WRITE_ONLY, CL_MEM_READ_ONLY | CL_MEM_READ_WRITE, CL_MEM_WRITE_ONLY);
    flags_of(CL_MEM_READ_ONLY, CL_MEM_READ_ONLY, CL_MEM_WRITE_ONLY | CL_MEM_READ_WRITE, CL_MEM_READ_ONLY);
    flags_of(CL_MEM_READ_WRITE | CL_MEM_HOST_READ_ONLY, CL_MEM_HOST_READ_ONLY | CL_MEM_HOST_NO_ACCESS,
             CL_MEM_HOST_WRITE_ONLY, CL_MEM_READ_WRITE | CL_MEM_HOST_READ_ONLY);
    flags_of(CL_MEM_READ_WRITE | CL_MEM_HOST_WRITE_ONLY, CL_MEM_HOST_WRITE_ONLY | CL_MEM_HOST_NO_ACCESS,
             CL_MEM_HOST_READ_ONLY, CL_MEM_READ_WRITE | CL_MEM_HOST_WRITE_ONLY);
    flags_of(CL_MEM_READ_WRITE | CL_MEM_HOST_NO_ACCESS, CL_MEM_HOST_NO_ACCESS,
             CL_MEM_HOST_READ_ONLY | CL_MEM_HOST_WRITE_ONLY, CL_MEM_READ_WRITE | CL_MEM_HOST_NO_ACCESS);
}

// ---- commands of the host ----

static void commands(void) {
    cl_mem m = numbered(0), one = part_of(m, ALIGN, 2 * ALIGN), two = part_of(m, 2 * ALIGN, 2 * ALIGN);
    int32_t n = 1000, pattern = -1, row[2];
    cl_int fault;
    size_t a[3] = {0, 0, 0}, b[3] = {8, 1, 0}, size[3] = {4, 2, 1};
    WANT(at(one, 0) == 32 && at(two, 31) == 95);
    OK(clEnqueueWriteBuffer(h.queue, one, CL_TRUE, 4, sizeof n, &n, 0, NULL, NULL));
    WANT(at(m, 33) == 1000);
    WANT(clEnqueueReadBuffer(h.queue, one, CL_TRUE, 2 * ALIGN - 3, 4, &n, 0, NULL, NULL) == CL_INVALID_VALUE);
    OK(clEnqueueFillBuffer(h.queue, two, &pattern, 4, 8, 8, 0, NULL, NULL));
    WANT(at(m, 65) == 65 && at(m, 66) == -1 && at(m, 67) == -1 && at(m, 68) == 68 && at(one, 34) == -1);
    WANT(clEnqueueCopyBuffer(h.queue, one, two, ALIGN, 0, 4, 0, NULL, NULL) == CL_MEM_COPY_OVERLAP);
    WANT(clEnqueueCopyBuffer(h.queue, m, two, 2 * ALIGN + 4, 0, 8, 0, NULL, NULL) == CL_MEM_COPY_OVERLAP);
    OK(clEnqueueCopyBuffer(h.queue, one, two, 4, 12, 4, 0, NULL, NULL));
    WANT(at(m, 67) == 1000);
    WANT(clEnqueueCopyBufferRect(h.queue, one, two, (size_t[]){ALIGN, 0, 0}, a, size, 16, 0, 16, 0, 0, NULL, NULL) ==
         CL_MEM_COPY_OVERLAP);
    OK(clEnqueueCopyBufferRect(h.queue, one, two, a, b, size, 16, 0, 16, 0, 0, NULL, NULL));
    WANT(at(two, 6) == 32 && at(two, 10) == 36 && at(two, 7) == 71);
    OK(clEnqueueReadBufferRect(h.queue, two, CL_TRUE, b, a, size, 16, 0, 4, 0, row, 0, NULL, NULL));
    WANT(row[0] == 32 && row[1] == 36);
    int32_t *map = clEnqueueMapBuffer(h.queue, two, CL_TRUE, CL_MAP_READ | CL_MAP_WRITE, 16, 8, 0, NULL, NULL, &fault);
    OK(fault);
    WANT(map[0] == 68 && map[1] == 69);
    map[1] = 7;
    OK(clEnqueueUnmapMemObject(h.queue, two, map, 0, NULL, NULL));
    WANT(at(m, 69) == 7);
    release(3, (cl_mem[]){one, m, two});
}

// A part of a buffer whose memory is the client's.
static void client_memory(void) {
    static int32_t mine[N];
    cl_int fault;
    cl_mem m = clCreateBuffer(h.context, CL_MEM_USE_HOST_PTR, sizeof mine, mine, &fault), part = part_of(m, ALIGN, 8);
    OK(fault);
    int32_t *map = clEnqueueMapBuffer(h.queue, part, CL_TRUE, CL_MAP_WRITE, 4, 4, 0, NULL, NULL, &fault);
    OK(fault);
    WANT(map == mine + 33);
    *map = 5;
    OK(clEnqueueUnmapMemObject(h.queue, part, map, 0, NULL, NULL));
    WANT(at(m, 33) == 5);
    release(2, (cl_mem[]){m, part});
}

// ---- launches ----

static cl_kernel kernel_of(const char *source, const char *name) {
    cl_int fault;
    cl_program p = build_program(&h, source, "");
    cl_kernel k = clCreateKernel(p, name, &fault);
    OK(fault);
    OK(clReleaseProgram(p));
    return k;
}

static cl_int launch(cl_kernel k, size_t global, cl_mem a, cl_mem b, int32_t n) {
    fprintf(stderr, "--\n");
    OK(clSetKernelArg(k, 0, sizeof a, &a));
    OK(clSetKernelArg(k, 1, sizeof b, &b));
    OK(clSetKernelArg(k, 2, sizeof n, &n));
    return clEnqueueNDRangeKernel(h.queue, k, 1, NULL, &global, &global, 0, NULL, NULL);
}

static const char own_source[] = "__kernel void f(__global int *a, __global int *b, int n)\n"
                                 "{\n"
                                 "    b[get_global_id(0)] = a[get_global_id(0) + n] + 1;\n"
                                 "}\n";

// Parts without common bytes: an access stays in its own one.
static void apart(void) {
    cl_kernel k = kernel_of(own_source, "f");
    cl_mem m = numbered(0), one = part_of(m, 0, ALIGN), two = part_of(m, 2 * ALIGN, ALIGN + 4);
    OK(launch(k, 8, one, two, 10));
    WANT(at(m, 64) == 11 && at(m, 71) == 18 && at(m, 72) == 72 && at(m, 10) == 10);
    OK(clEnqueueFillBuffer(h.queue, m, numbers, 4, 0, BYTES, 0, NULL, NULL));
    OK(launch(k, 8, one, two, 10)); // (what the host wrote since is seen)
    WANT(at(m, 64) == 1 && at(m, 72) == 0);
    WANT(launch(k, 8, one, two, 25) == CL_INVALID_OPERATION); // a[32] of 32
    OK(launch(k, 8, two, one, 25));
    WANT(at(m, 0) == 1);
    OK(launch(k, 8, one, one, 16)); // one part twice
    WANT(at(m, 0) == 1 && at(m, 7) == 1);
    release(3, (cl_mem[]){m, one, two});
    OK(clReleaseKernel(k));
}

static const char shared_source[] = "kernel void f(global int *a, global uchar4 *b, int n) {\n"
                                    "    int i = get_local_id(0);\n"
                                    "    a[32 + i] = 0x01010101 * i;\n"
                                    "    if (n & 1) barrier(CLK_GLOBAL_MEM_FENCE);\n"
                                    "    if (n & 2) b[i ^ 1].y += 3;\n"
                                    "    if (n & 4) a[i] = b[32 + (n >> 3)].x;\n"
                                    "    if (n == 64) atomic_inc((global int *)b + i + 32);\n"
                                    "    if (n == 128) a[-1 - i] = 1;\n"
                                    "}\n";

// Parts with common bytes are one memory: what one stores the other one loads, and races are told.
static void together(void) {
    cl_kernel k = kernel_of(shared_source, "f");
    cl_mem m = numbered(0), one = part_of(m, 0, 2 * ALIGN), two = part_of(m, ALIGN, 2 * ALIGN);
    OK(launch(k, 4, one, two, 0));
    WANT(at(m, 31) == 31 && at(m, 33) == 0x01010101 && at(two, 3) == 0x03030303);
    OK(launch(k, 4, one, two, 3));
    WANT(at(m, 32) == 0x00000300 && at(m, 33) == 0x01010401 && at(m, 35) == 0x03030603);
    WANT(launch(k, 4, one, two, 2) == CL_INVALID_OPERATION);          // no barrier: a race
    WANT(launch(k, 4, one, two, 4 + 32 * 8) == CL_INVALID_OPERATION); // b[64] of 64
    OK(launch(k, 1, one, two, 4 + 31 * 8));                           // b[63] is m[95]
    WANT(at(m, 0) == 95);
    OK(launch(k, 4, one, two, 64));
    WANT(at(m, 64) == 65 && at(m, 67) == 68);
    WANT(launch(k, 4, one, two, 128) == CL_INVALID_OPERATION); // a[-1]
    OK(launch(k, 4, m, two, 3));                               // a buffer and a part of it
    WANT(at(m, 33) == 0x01010401);
    OK(launch(k, 4, m, two, 0));                               // (of the buffer, a[-1] - ..)
    WANT(launch(k, 4, two, one, 128) == CL_INVALID_OPERATION); // in front of its part, in the buffer still
    WANT(at(m, 31) == 31);
    release(3, (cl_mem[]){m, one, two});
    OK(clReleaseKernel(k));
}

// A part that may only be read, of a buffer that may be written.
static void with_flags(void) {
    cl_kernel k = kernel_of(shared_source, "f");
    cl_int fault;
    cl_mem m = numbered(0), one = part_by(m, CL_MEM_READ_ONLY, 0, 2 * ALIGN, &fault), two = part_of(m, ALIGN, ALIGN);
    OK(fault);
    WANT(launch(k, 1, one, two, 0) == CL_INVALID_OPERATION);
    release(3, (cl_mem[]){m, one, two});
    OK(clReleaseKernel(k));
}

static const char null_source[] = "kernel void f(global int *a, constant int *b, int n) {\n"
                                  "    int i = get_global_id(0);\n"
                                  "    if (a != 0) a[i] = b ? b[i] : 7;\n"
                                  "    if (n) a[i] = n;\n"
                                  "}\n";

static void null(void) {
    cl_kernel k = kernel_of(null_source, "f");
    cl_mem m = numbered(0), other = numbered(0);
    OK(launch(k, 4, m, NULL, 0));
    WANT(at(m, 0) == 7 && at(m, 3) == 7 && at(m, 4) == 4);
    OK(launch(k, 4, m, other, 0));
    WANT(at(m, 3) == 3);
    OK(launch(k, 4, NULL, other, 0));
    OK(launch(k, 4, NULL, NULL, 0));
    WANT(launch(k, 4, NULL, NULL, 1) == CL_INVALID_OPERATION);
    OK(clSetKernelArg(k, 0, sizeof(cl_mem), NULL)); // (the pointer to it may be NULL itself)
    OK(launch(k, 4, m, m, 5));
    WANT(at(m, 1) == 5);
    WANT(clSetKernelArg(k, 0, 4, NULL) == CL_INVALID_ARG_SIZE);
    release(2, (cl_mem[]){m, other});
    OK(clReleaseKernel(k));
}

// Without clang a launch that has to be written anew is refused, and changes nothing.
static void without_clang(void) {
    cl_kernel k = kernel_of(own_source, "f");
    cl_mem m = numbered(0), one = part_of(m, 0, 2 * ALIGN), two = part_of(m, ALIGN, ALIGN);
    WANT(launch(k, 1, one, two, 0) == CL_INVALID_OPERATION);
    WANT(launch(k, 1, NULL, two, 0) == CL_INVALID_OPERATION);
    WANT(at(m, 32) == 32);
    OK(launch(k, 1, two, two, 1));
    WANT(at(m, 32) == 34);
    release(3, (cl_mem[]){m, one, two});
    OK(clReleaseKernel(k));
}

int main(int count, char **words) {
    bool is_own = count > 1 && !strcmp(words[1], "own");
    h = open_host();
    infos();
    errors();
    commands();
    client_memory();
    apart();
    if (is_own) without_clang();
    else {
        together();
        with_flags();
        null();
    }
    close_host(&h);
    puts("parts are right");
    return 0;
}
