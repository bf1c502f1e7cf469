// Eight threads on one context, each with a queue, a kernel and a buffer of its own, by map and unmap; a buffer goes
// before its kernel. Events that one thread waits for and another lets go. Callbacks that wait for another thread; with
// the argument `errors` only those of errors.
#include "host.h"
#include <pthread.h>
#include <stdint.h>
#include <unistd.h>

enum { THREADS = 8, ITEMS = 64, TURNS = 20 };
static host h;
static cl_program program;

static void *work(void *number) {
    int id = (int)(intptr_t)number;
    cl_int fault;
    cl_command_queue q = clCreateCommandQueue(h.context, h.device, CL_QUEUE_PROFILING_ENABLE, &fault);
    OK(fault);
    cl_kernel k = clCreateKernel(program, "step", &fault);
    OK(fault);
    cl_mem m = clCreateBuffer(h.context, CL_MEM_ALLOC_HOST_PTR, ITEMS * sizeof(cl_int), NULL, &fault);
    OK(fault);
    cl_int *p = clEnqueueMapBuffer(q, m, CL_TRUE, CL_MAP_WRITE, 0, ITEMS * sizeof(cl_int), 0, NULL, NULL, &fault);
    OK(fault);
    for (int i = 0; i < ITEMS; i++) p[i] = i * id;
    OK(clEnqueueUnmapMemObject(q, m, p, 0, NULL, NULL));
    OK(clSetKernelArg(k, 0, sizeof m, &m));
    for (cl_int turn = 0; turn < TURNS; turn++) {
        size_t global = ITEMS, local = 16;
        cl_event event;
        cl_ulong start, end;
        OK(clSetKernelArg(k, 1, sizeof turn, &turn));
        OK(clEnqueueNDRangeKernel(q, k, 1, NULL, &global, &local, 0, NULL, &event));
        OK(clWaitForEvents(1, &event));
        OK(clGetEventProfilingInfo(event, CL_PROFILING_COMMAND_START, sizeof start, &start, NULL));
        OK(clGetEventProfilingInfo(event, CL_PROFILING_COMMAND_END, sizeof end, &end, NULL));
        if (end < start) exit(4);
        OK(clReleaseEvent(event));
    }
    p = clEnqueueMapBuffer(q, m, CL_TRUE, CL_MAP_READ, 0, ITEMS * sizeof(cl_int), 0, NULL, NULL, &fault);
    OK(fault);
    for (int i = 0; i < ITEMS; i++)
        if (p[i] != i * id + TURNS * (TURNS - 1) / 2) exit(5);
    OK(clEnqueueUnmapMemObject(q, m, p, 0, NULL, NULL));
    OK(clReleaseMemObject(m));
    OK(clReleaseKernel(k));
    OK(clReleaseCommandQueue(q));
    return NULL;
}

static void CL_CALLBACK set_flag(cl_event e, cl_int status, void *flag) {
    (void)e;
    *(cl_int *)flag = status + 7;
}

// User events and their callbacks.
static void events(void) {
    cl_int fault, flag = 0;
    cl_event e = clCreateUserEvent(h.context, &fault);
    OK(fault);
    OK(clSetEventCallback(e, CL_COMPLETE, set_flag, &flag));
    if (flag) exit(6);
    OK(clEnqueueBarrierWithWaitList(h.queue, 1, &e, NULL));
    OK(clSetUserEventStatus(e, CL_COMPLETE));
    if (flag != 7) exit(7);
    OK(clEnqueueBarrierWithWaitList(h.queue, 1, &e, NULL));
    OK(clReleaseEvent(e));
}

// Objects that are gone, or are of another kind, are told.
static void dead_objects(void) {
    cl_int fault;
    cl_mem m = clCreateBuffer(h.context, CL_MEM_READ_WRITE, 4, NULL, &fault);
    OK(fault);
    OK(clReleaseMemObject(m));
    size_t n;
    if (getenv("TEST_DIRECT") && clGetMemObjectInfo(m, CL_MEM_SIZE, sizeof n, &n, NULL) != CL_INVALID_MEM_OBJECT)
        exit(8);
    if (clRetainMemObject((cl_mem)h.queue) != CL_INVALID_MEM_OBJECT ||
        clRetainContext((cl_context)h.queue) != CL_INVALID_CONTEXT)
        exit(9);
    if (clCreateBuffer(h.context, CL_MEM_READ_ONLY | CL_MEM_WRITE_ONLY, 4, NULL, &fault) || fault != CL_INVALID_VALUE)
        exit(10);
}

// Rectangles of a buffer, row by row.
static void rectangles(void) {
    unsigned char bytes[64], out[16];
    cl_int fault;
    for (int i = 0; i < 64; i++) bytes[i] = (unsigned char)i;
    cl_mem m = clCreateBuffer(h.context, CL_MEM_COPY_HOST_PTR, 64, bytes, &fault);
    OK(fault);
    size_t origin[] = {2, 1, 0}, zero[] = {0, 0, 0}, region[] = {4, 4, 1}, outside[] = {6, 5, 0};
    OK(clEnqueueReadBufferRect(h.queue, m, CL_TRUE, origin, zero, region, 8, 0, 4, 0, out, 0, NULL, NULL));
    for (int i = 0; i < 16; i++)
        if (out[i] != (i / 4 + 1) * 8 + 2 + i % 4) exit(11);
    if (clEnqueueReadBufferRect(h.queue, m, CL_TRUE, outside, zero, region, 8, 0, 4, 0, out, 0, NULL, NULL) !=
        CL_INVALID_VALUE)
        exit(12);
    OK(clEnqueueCopyBufferRect(h.queue, m, m, zero, (size_t[]){0, 6, 0}, (size_t[]){8, 2, 1}, 8, 0, 8, 0, 0, NULL,
                               NULL));
    OK(clEnqueueReadBuffer(h.queue, m, CL_TRUE, 48, 16, out, 0, NULL, NULL));
    for (int i = 0; i < 16; i++)
        if (out[i] != i) exit(13);
    // what is outside by numbers that don't fit, and what would be copied onto itself, is found before a byte moves
    size_t wrapped[] = {0, 0, (size_t)1 << 63}, rows[] = {1, 2, 1}, below[] = {2, 2, 0};
    if (clEnqueueReadBufferRect(h.queue, m, CL_TRUE, wrapped, zero, rows, 1, 2, 0, 0, out, 0, NULL, NULL) !=
        CL_INVALID_VALUE)
        exit(14);
    if (clEnqueueCopyBufferRect(h.queue, m, m, zero, below, region, 8, 0, 8, 0, 0, NULL, NULL) != CL_MEM_COPY_OVERLAP)
        exit(15);
    OK(clEnqueueReadBuffer(h.queue, m, CL_TRUE, 16, 16, out, 0, NULL, NULL));
    for (int i = 0; i < 16; i++)
        if (out[i] != i + 16) exit(16);
    // columns side by side have no byte in common
    OK(clEnqueueCopyBufferRect(h.queue, m, m, zero, (size_t[]){4, 0, 0}, (size_t[]){4, 6, 1}, 8, 0, 8, 0, 0, NULL,
                               NULL));
    OK(clEnqueueReadBuffer(h.queue, m, CL_TRUE, 40, 8, out, 0, NULL, NULL));
    for (int i = 0; i < 8; i++)
        if (out[i] != 40 + i % 4) exit(17);
    OK(clReleaseMemObject(m));
}

// A byte 0 that a client counts along at the end of a string is as a space; what stands behind another isn't left out.
static void zeros(void) {
    static const char ends[] = "__kernel void f(__global int *a) { a[0] = 1; }",
                      middle[] = "__kernel void f(__global int *a) { a[0] = 1; }\0 float x;";
    const char *texts[] = {ends, ends + sizeof ends - 1}, *whole = middle;
    size_t lengths[] = {sizeof ends, 1}, length = sizeof middle;
    cl_int fault;
    char log[256];
    cl_program p = clCreateProgramWithSource(h.context, 2, texts, lengths, &fault);
    OK(fault);
    OK(clBuildProgram(p, 0, NULL, "", NULL, NULL));
    OK(clReleaseProgram(p));
    p = clCreateProgramWithSource(h.context, 1, &whole, &length, &fault);
    OK(fault);
    if (clBuildProgram(p, 0, NULL, "", NULL, NULL) != CL_BUILD_PROGRAM_FAILURE) exit(18);
    OK(clGetProgramBuildInfo(p, h.device, CL_PROGRAM_BUILD_LOG, sizeof log, log, NULL));
    if (!strstr(log, "a byte 0 stands in the source")) exit(19);
    OK(clReleaseProgram(p));
}

// A call that fails hands out no event.
static void failures(void) {
    cl_event event = NULL;
    cl_int fault, value = 1;
    cl_mem m = clCreateBuffer(h.context, CL_MEM_READ_WRITE, 4, NULL, &fault);
    OK(fault);
    if (clEnqueueWriteBuffer(h.queue, m, CL_TRUE, 1, 4, &value, 0, NULL, &event) != CL_INVALID_VALUE || event) exit(20);
    if (clEnqueueCopyBuffer(h.queue, m, m, 0, 0, 4, 0, NULL, &event) != CL_MEM_COPY_OVERLAP || event) exit(21);
    OK(clEnqueueWriteBuffer(h.queue, m, CL_TRUE, 0, 4, &value, 0, NULL, &event));
    cl_command_type type;
    OK(clGetEventInfo(event, CL_EVENT_COMMAND_TYPE, sizeof type, &type, NULL));
    if (type != CL_COMMAND_WRITE_BUFFER) exit(22);
    OK(clReleaseEvent(event));
    OK(clReleaseMemObject(m));
}

static void *wait_for_two(void *list) { return (void *)(intptr_t)clWaitForEvents(2, list); }

// One thread waits for two events. Another lets the second one go meanwhile, and sets the first one then.
static void released_meanwhile(void) {
    intptr_t got = CL_INVALID_EVENT;
    // (a thread that begins too late finds an event that is gone: then once more, with more time)
    for (useconds_t time = 10000; got == CL_INVALID_EVENT && time < 10000000; time *= 4) {
        pthread_t thread;
        void *status;
        cl_int fault;
        cl_event list[2] = {clCreateUserEvent(h.context, &fault), NULL};
        OK(fault);
        OK(clEnqueueMarkerWithWaitList(h.queue, 0, NULL, &list[1]));
        pthread_create(&thread, NULL, wait_for_two, list);
        usleep(time);
        OK(clReleaseEvent(list[1]));
        OK(clSetUserEventStatus(list[0], CL_COMPLETE));
        pthread_join(thread, &status);
        got = (intptr_t)status;
        OK(clReleaseEvent(list[0]));
    }
    if (got) exit(23);
}

static void CL_CALLBACK release(cl_event e, cl_int status, void *unused) {
    (void)status;
    (void)unused;
    OK(clReleaseEvent(e));
}
static void CL_CALLBACK look(cl_event e, cl_int status, void *unused) {
    cl_command_type type = 0;
    (void)status;
    (void)unused;
    OK(clGetEventInfo(e, CL_EVENT_COMMAND_TYPE, sizeof type, &type, NULL));
    if (type != CL_COMMAND_USER) exit(24);
}

// A callback lets its event go, in front of another one or behind it.
static void released_in_callback(void) {
    for (int first = 0; first < 2; first++) {
        cl_int fault;
        cl_event e = clCreateUserEvent(h.context, &fault);
        OK(fault);
        OK(clSetEventCallback(e, CL_COMPLETE, first ? release : look, NULL));
        OK(clSetEventCallback(e, CL_COMPLETE, first ? look : release, NULL));
        OK(clSetUserEventStatus(e, CL_COMPLETE));
    }
}

static cl_event awaited;
static unsigned turns; // how often a callback waited for another thread
static char order[8];  // which callbacks were called

// The other thread.
static void *set_awaited(void *unused) {
    OK(clSetUserEventStatus(awaited, CL_COMPLETE));
    return unused;
}
// What a callback does here: it waits for an event that another thread sets.
static void wait_for_another(const char *name) {
    pthread_t thread;
    cl_int fault;
    strcat(order, name);
    awaited = clCreateUserEvent(h.context, &fault);
    OK(fault);
    pthread_create(&thread, NULL, set_awaited, NULL);
    OK(clWaitForEvents(1, &awaited));
    pthread_join(thread, NULL);
    OK(clReleaseEvent(awaited));
    turns++;
}
// The memory object isn't living any more (5.4.1).
static void CL_CALLBACK memory_goes(cl_mem m, void *name) {
    if (getenv("TEST_DIRECT") && clRetainMemObject(m) != CL_INVALID_MEM_OBJECT) exit(25);
    wait_for_another(name);
}
// A context's callback: with a line, and no more (4.4).
static void CL_CALLBACK error_comes(const char *line, const void *info, size_t n, void *name) {
    if (!*line || info || n) exit(26);
    printf("called back: %s\n", line);
    wait_for_another(name);
}
// A buffer with two callbacks; the second one is called first.
static cl_mem memory_with_callbacks(char *first, char *second) {
    cl_int fault;
    cl_mem m = clCreateBuffer(h.context, CL_MEM_READ_WRITE, 64, NULL, &fault);
    OK(fault);
    OK(clSetMemObjectDestructorCallback(m, memory_goes, first));
    OK(clSetMemObjectDestructorCallback(m, memory_goes, second));
    return m;
}

// Callbacks of memory objects, the last one first (5.4.1), by a release of their own, by another argument in their
// place, and by the release of a kernel.
static void waiting_for_memory(void) {
    cl_int fault;
    alarm(60); // (where the other thread can't go on, a callback waits for ever)
    cl_mem alone = memory_with_callbacks("b", "a"), first = memory_with_callbacks("d", "c"),
           second = memory_with_callbacks("f", "e");
    cl_kernel k = clCreateKernel(program, "step", &fault);
    OK(fault);
    OK(clReleaseMemObject(alone));
    OK(clSetKernelArg(k, 0, sizeof first, &first));
    OK(clReleaseMemObject(first));
    if (strcmp(order, "ab")) exit(27);
    OK(clSetKernelArg(k, 0, sizeof second, &second));
    OK(clReleaseMemObject(second));
    if (strcmp(order, "abcd")) exit(28);
    OK(clReleaseKernel(k));
    if (strcmp(order, "abcdef") || turns != 6) exit(29);
    *order = 0;
}

// Callbacks of a context: a buffer is refused, a user event that a command waits for is released, and a launch has a
// fault.
static void waiting_in_errors(void) {
    cl_int fault, at = 16;
    host other = h;
    alarm(60);
    other.context = clCreateContext(NULL, 1, &h.device, error_comes, "x", &fault);
    OK(fault);
    other.queue = clCreateCommandQueue(other.context, h.device, 0, &fault);
    OK(fault);
    if (clCreateBuffer(other.context, 0, (size_t)1 << 31, NULL, &fault) || strcmp(order, "x")) exit(30);
    cl_event never = clCreateUserEvent(other.context, &fault);
    OK(clEnqueueMarkerWithWaitList(other.queue, 1, &never, NULL));
    if (strcmp(order, "x")) exit(31);
    OK(clReleaseEvent(never));
    if (strcmp(order, "xxx")) exit(32);
    cl_program p = build_program(&other, "__kernel void f(__global int *a, int i) { a[i] = 1; }", "");
    cl_kernel k = clCreateKernel(p, "f", &fault);
    cl_mem m = clCreateBuffer(other.context, 0, 64, NULL, &fault);
    OK(clSetKernelArg(k, 0, sizeof m, &m));
    OK(clSetKernelArg(k, 1, sizeof at, &at));
    if (clEnqueueTask(other.queue, k, 0, NULL, NULL) != CL_INVALID_OPERATION || strcmp(order, "xxxx")) exit(33);
    OK(clReleaseMemObject(m));
    OK(clReleaseKernel(k));
    OK(clReleaseProgram(p));
    close_host(&other);
}

int main(int count, char **words) {
    pthread_t threads[THREADS];
    h = open_host();
    if (count > 1 && !strcmp(words[1], "errors")) {
        waiting_in_errors();
        return 0;
    }
    program = build_program(&h, "__kernel void step(__global int *a, int t) { a[get_global_id(0)] += t; }", "");
    for (intptr_t i = 0; i < THREADS; i++) pthread_create(&threads[i], NULL, work, (void *)i);
    for (int i = 0; i < THREADS; i++) pthread_join(threads[i], NULL);
    events();
    dead_objects();
    rectangles();
    zeros();
    failures();
    released_meanwhile();
    released_in_callback();
    waiting_for_memory();
    waiting_in_errors();
    OK(clReleaseProgram(program));
    close_host(&h);
    puts("8 threads are right");
    return 0;
}
