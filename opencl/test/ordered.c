// ordered CASE [mistake]: kernels whose result depends on the order of their items, each launched three times: twice at
// once, each time by a kernel of its own, and once behind a user event. What a launch and its event answer is written,
// and what they leave is compared with what is so in every order. With a mistake a race stands beside what is ordered.
// Status 0: all is right. 1: it isn't. 3: a call failed.
#include "host.h"
#include <stdbool.h>
#include <stdint.h>

enum { ITEMS = 16, GROUP = 4, TASKS = 24, LAUNCHES = 3 };

static host h;
static cl_program program;

static const char source[] =
    "__kernel void queue(__global int *next, __global int *out, __global int *done) {\n"
    "    int task = atomic_inc(next);\n"
    "    while (task < 24) {\n"
    "        out[task] = task * task;\n"
    "        task = atomic_inc(next);\n"
    "    }\n"
    "#ifdef MISTAKE\n"
    "    done[0] = task;\n"
    "#endif\n"
    "}\n"
    "__kernel void compact(__global int *count, __global int *out, __global const int *in) {\n"
    "    int i = get_global_id(0);\n"
    "    if (in[i] % 3 == 0)\n"
    "#ifdef MISTAKE\n"
    "        out[i] = count[0];\n"
    "    if (in[i] % 3 == 1)\n"
    "#endif\n"
    "        out[atomic_inc(count)] = in[i];\n"
    "}\n"
    "int root_of(__global int *parent, int a) {\n"
    "    int above = atomic_or(parent + a, 0);\n"
    "    while (above != a) {\n"
    "        a = above;\n"
    "        above = atomic_or(parent + a, 0);\n"
    "    }\n"
    "    return a;\n"
    "}\n"
    "__kernel void unite(__global int *parent, __global int *edges, __global int *joined) {\n"
    "    int e = get_global_id(0), open = 1, a = edges[2 * e], b = edges[2 * e + 1];\n"
    "    while (open) {\n"
    "        a = root_of(parent, a);\n"
    "        b = root_of(parent, b);\n"
    "        open = a != b && atomic_cmpxchg(parent + max(a, b), max(a, b), min(a, b)) != max(a, b);\n"
    "    }\n"
    "#ifdef MISTAKE\n"
    "    joined[e] = parent[a];\n"
    "#endif\n"
    "}\n"
    "__kernel void own(__global int *a, __global int *b, __global int *c) {\n"
    "    b[get_global_id(0)] = atomic_inc(a + get_global_id(0));\n"
    "}\n"
    "__kernel void says(__global int *a, __global int *b, __global int *c) {\n"
    "    printf(\"item %d\\n\", (int)get_global_id(0));\n"
    "    b[atomic_inc(a)] = 1;\n"
    "}\n";

// ---- what a case begins with, and whether what it leaves is right ----

typedef struct {
    int32_t numbers[2 * TASKS];
} contents;

static void begin_nothing(contents *c) { memset(c, 0, 3 * sizeof *c); }
static void begin_compact(contents *c) {
    begin_nothing(c);
    for (int i = 0; i < ITEMS; i++) c[2].numbers[i] = 5 * i + 2;
}
// Rings of four, whose edges are turned round here and there.
static void begin_unite(contents *c) {
    begin_nothing(c);
    for (int i = 0; i < ITEMS; i++) c[0].numbers[i] = i;
    for (int i = 0; i < ITEMS; i++) {
        c[1].numbers[2 * i + i % 2] = i;
        c[1].numbers[2 * i + 1 - i % 2] = i / 4 * 4 + (i + 1) % 4;
    }
}

// Each task is done, and each item asked once more in vain.
static bool is_queue(const contents *c) {
    bool right = c[0].numbers[0] == TASKS + ITEMS;
    for (int i = 0; i < TASKS; i++) right &= c[1].numbers[i] == i * i;
    return right;
}
static bool is_compact(const contents *c) {
    int count = 0, found = 0;
    for (int i = 0; i < ITEMS; i++) {
        int is_wanted = c[2].numbers[i] % 3 == 0;
        count += is_wanted;
        for (int j = 0; is_wanted && j < ITEMS; j++) found += c[1].numbers[j] == c[2].numbers[i];
    }
    return c[0].numbers[0] == count && found == count && !c[1].numbers[count];
}
static bool is_united(const contents *c) {
    bool right = true;
    for (int i = 0; i < ITEMS; i++) {
        int a = i;
        while (c[0].numbers[a] != a) a = c[0].numbers[a];
        right &= a == i / 4 * 4;
    }
    return right;
}
static bool is_own(const contents *c) {
    bool right = true;
    for (int i = 0; i < ITEMS; i++) right &= c[0].numbers[i] == 1 && !c[1].numbers[i];
    return right;
}
static bool is_said(const contents *c) { return c[0].numbers[0] == ITEMS && c[1].numbers[ITEMS - 1] == 1; }

// ---- launches ----

static cl_event begin_launch(const char *name, cl_mem *m, cl_uint count, const cl_event *waits) {
    size_t items = ITEMS, group = GROUP;
    cl_event event = NULL;
    cl_int fault;
    cl_kernel k = clCreateKernel(program, name, &fault);
    OK(fault);
    for (cl_uint i = 0; i < 3; i++) OK(clSetKernelArg(k, i, sizeof m[i], &m[i]));
    fault = clEnqueueNDRangeKernel(h.queue, k, 1, NULL, &items, &group, count, waits, &event);
    printf("the launch answers %d\n", fault);
    OK(clReleaseKernel(k));
    return event;
}

static void end_launch(cl_event event) {
    cl_int status;
    if (!event) return;
    OK(clFinish(h.queue));
    OK(clGetEventInfo(event, CL_EVENT_COMMAND_EXECUTION_STATUS, sizeof status, &status, NULL));
    printf("its event is %d\n", status);
    OK(clReleaseEvent(event));
}

static void launch(const char *name, cl_mem *m, bool waits) {
    cl_int fault;
    cl_event user = waits ? clCreateUserEvent(h.context, &fault) : NULL;
    cl_event event = begin_launch(name, m, waits, waits ? &user : NULL);
    if (user) {
        OK(clSetUserEventStatus(user, CL_COMPLETE));
        OK(clReleaseEvent(user));
    }
    end_launch(event);
}

// The first of the buffers is a part of a larger one.
static bool run_once(const char *name, void (*begin)(contents *), bool (*is_right)(const contents *), bool waits) {
    contents all[3];
    cl_mem m[3], whole;
    cl_int fault;
    cl_buffer_region region = {128, sizeof all[0]};
    begin(all);
    whole = clCreateBuffer(h.context, CL_MEM_READ_WRITE, 128 + sizeof all[0], NULL, &fault);
    OK(fault);
    m[0] = clCreateSubBuffer(whole, CL_MEM_READ_WRITE, CL_BUFFER_CREATE_TYPE_REGION, &region, &fault);
    OK(fault);
    for (int i = 1; i < 3; i++) {
        m[i] = clCreateBuffer(h.context, CL_MEM_READ_WRITE, sizeof all[i], NULL, &fault);
        OK(fault);
    }
    for (int i = 0; i < 3; i++)
        OK(clEnqueueWriteBuffer(h.queue, m[i], CL_TRUE, 0, sizeof all[i], &all[i], 0, NULL, NULL));
    launch(name, m, waits);
    for (int i = 0; i < 3; i++) {
        OK(clEnqueueReadBuffer(h.queue, m[i], CL_TRUE, 0, sizeof all[i], &all[i], 0, NULL, NULL));
        OK(clReleaseMemObject(m[i]));
    }
    OK(clReleaseMemObject(whole));
    return is_right(all);
}

int main(int count, char **words) {
    static const struct {
        const char *name;
        void (*begin)(contents *);
        bool (*is_right)(const contents *);
    } cases[] = {{"queue", begin_nothing, is_queue},
                 {"compact", begin_compact, is_compact},
                 {"unite", begin_unite, is_united},
                 {"own", begin_nothing, is_own},
                 {"says", begin_nothing, is_said}};
    bool is_right = count > 1;
    setvbuf(stdout, NULL, _IOLBF, 0);
    h = open_host();
    program = build_program(&h, source, count > 2 ? "-DMISTAKE" : "");
    for (size_t c = 0; count > 1 && c < sizeof cases / sizeof *cases; c++)
        for (int i = 0; i < LAUNCHES && !strcmp(cases[c].name, words[1]); i++)
            is_right &= run_once(cases[c].name, cases[c].begin, cases[c].is_right, i + 1 == LAUNCHES);
    OK(clReleaseProgram(program));
    close_host(&h);
    puts(is_right ? "they are right" : "they are wrong");
    return !is_right;
}
