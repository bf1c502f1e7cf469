// Commands that wait for user events, and queues that are out of order: what is done when, by the rules of OpenCL 1.2
// (5.9 to 5.11), and of which commands it is told that another order could change them. What comes is worked out by
// hand. With the name of a part it does that one.
#define CL_USE_DEPRECATED_OPENCL_1_1_APIS
#include "host.h"
#include <pthread.h>
#include <stdbool.h>
#include <stdint.h>
#include <unistd.h>

enum { N = 8, BYTES = N * sizeof(cl_int) };
static host h;
static cl_program program;

static void fail_at(int line, const char *what) {
    fprintf(stderr, "line %d: %s\n", line, what);
    exit(4);
}
#define WANT(CONDITION) \
    do { \
        if (!(CONDITION)) fail_at(__LINE__, #CONDITION); \
    } while (0)

static cl_command_queue queue_with(cl_command_queue_properties properties) {
    cl_int fault;
    cl_command_queue q = clCreateCommandQueue(h.context, h.device, properties | CL_QUEUE_PROFILING_ENABLE, &fault);
    OK(fault);
    return q;
}
static cl_command_queue out_of_order(void) { return queue_with(CL_QUEUE_OUT_OF_ORDER_EXEC_MODE_ENABLE); }
static cl_event user_event(void) {
    cl_int fault;
    cl_event e = clCreateUserEvent(h.context, &fault);
    OK(fault);
    return e;
}
static cl_mem buffer(void) {
    static const cl_int zeros[N];
    cl_int fault;
    cl_mem m = clCreateBuffer(h.context, CL_MEM_COPY_HOST_PTR, BYTES, (void *)zeros, &fault);
    OK(fault);
    return m;
}
static cl_int status_of(cl_event e) {
    cl_int status = 99;
    OK(clGetEventInfo(e, CL_EVENT_COMMAND_EXECUTION_STATUS, sizeof status, &status, NULL));
    return status;
}
// A fill of the whole buffer, with the number in each element.
static cl_event fill(cl_command_queue q, cl_mem m, cl_int number, cl_uint n, const cl_event *list) {
    cl_event e;
    OK(clEnqueueFillBuffer(q, m, &number, sizeof number, 0, BYTES, n, list, &e));
    return e;
}
// What the elements are now: all the same, read by a queue of its own, so that no wait of another one counts.
static cl_int number_in(cl_mem m) {
    cl_command_queue q = queue_with(0);
    cl_int got[N];
    OK(clEnqueueReadBuffer(q, m, CL_TRUE, 0, BYTES, got, 0, NULL, NULL));
    for (int i = 1; i < N; i++) WANT(got[i] == got[0]);
    OK(clReleaseCommandQueue(q));
    return got[0];
}
// a[i] = a[i] * times + more
static cl_kernel kernel_with(cl_mem m, cl_int times, cl_int more) {
    cl_int fault;
    cl_kernel k = clCreateKernel(program, "f", &fault);
    OK(fault);
    OK(clSetKernelArg(k, 0, sizeof m, &m));
    OK(clSetKernelArg(k, 1, sizeof times, &times));
    OK(clSetKernelArg(k, 2, sizeof more, &more));
    return k;
}
static cl_event launch(cl_command_queue q, cl_kernel k, cl_uint n, const cl_event *list) {
    size_t global = N;
    cl_event e;
    OK(clEnqueueNDRangeKernel(q, k, 1, NULL, &global, NULL, n, list, &e));
    return e;
}
static void release(cl_event e) { OK(clReleaseEvent(e)); }

// A queue that is in order: what stands behind a command that waits does so too. A kernel has the arguments that it had
// when it was launched; what a client reads and writes is its memory when the command is done.
static void in_order(void) {
    cl_command_queue q = queue_with(0);
    cl_mem m = buffer();
    cl_int numbers[N], got[N] = {0}, seven = 7;
    cl_event u = user_event(), events[4];
    cl_kernel k = kernel_with(m, 10, 3);
    for (int i = 0; i < N; i++) numbers[i] = 1;
    OK(clEnqueueWriteBuffer(q, m, CL_FALSE, 0, BYTES, numbers, 1, &u, &events[0]));
    events[1] = launch(q, k, 0, NULL);
    OK(clSetKernelArg(k, 2, sizeof seven, &seven));
    events[2] = launch(q, k, 0, NULL);
    OK(clEnqueueReadBuffer(q, m, CL_FALSE, 0, BYTES, got, 0, NULL, &events[3]));
    for (int i = 0; i < 4; i++) WANT(status_of(events[i]) == CL_QUEUED);
    OK(clFlush(q));
    OK(clReleaseKernel(k)); // (what waits for them keeps them)
    OK(clReleaseMemObject(m));
    for (int i = 0; i < N; i++) numbers[i] = 2;
    OK(clSetUserEventStatus(u, CL_COMPLETE));
    cl_ulong last = 0;
    for (int i = 0; i < 4; i++) {
        cl_ulong queued, start, end;
        WANT(status_of(events[i]) == CL_COMPLETE);
        OK(clGetEventProfilingInfo(events[i], CL_PROFILING_COMMAND_QUEUED, sizeof queued, &queued, NULL));
        OK(clGetEventProfilingInfo(events[i], CL_PROFILING_COMMAND_START, sizeof start, &start, NULL));
        OK(clGetEventProfilingInfo(events[i], CL_PROFILING_COMMAND_END, sizeof end, &end, NULL));
        WANT(queued < start && start <= end && last <= start);
        last = end;
        release(events[i]);
    }
    for (int i = 0; i < N; i++) WANT(got[i] == (2 * 10 + 3) * 10 + 7);
    release(u);
    OK(clReleaseCommandQueue(q));
}

// A queue that is out of order: what waits for nothing is done at once, so that the fill of 1 comes last; told. Where
// the client has found the fill of 2 complete in front of setting the event, that one comes first in each order: not
// told.
static void overtaken(void) {
    for (int looks = 0; looks < 2; looks++) {
        cl_command_queue q = out_of_order();
        cl_mem m = buffer();
        cl_event u = user_event(), a = fill(q, m, 1, 1, &u), b = fill(q, m, 2, 0, NULL);
        if (looks) WANT(status_of(b) == CL_COMPLETE && number_in(m) == 2);
        WANT(status_of(a) == CL_QUEUED);
        OK(clSetUserEventStatus(u, CL_COMPLETE));
        OK(clFinish(q));
        WANT(status_of(a) == CL_COMPLETE && number_in(m) == 1);
        cl_event all[] = {a, b, u};
        for (int i = 0; i < 3; i++) release(all[i]);
        OK(clReleaseMemObject(m));
        OK(clReleaseCommandQueue(q));
    }
}

// By a wait list, a barrier, a barrier with a wait list, a marker: commands of a queue that is out of order are done in
// the order of the calls, and nothing is told.
static void ordered(int way) {
    cl_command_queue q = out_of_order();
    cl_mem m = buffer(), other = buffer();
    cl_event u = user_event(), marker = NULL, a = fill(q, m, 1, 1, &u), b, c = fill(q, other, 5, 0, NULL);
    if (way == 1) OK(clEnqueueBarrierWithWaitList(q, 0, NULL, NULL));
    if (way == 2) OK(clEnqueueBarrierWithWaitList(q, 1, &a, &marker));
    if (way == 3) OK(clEnqueueMarkerWithWaitList(q, 0, NULL, &marker));
    if (way == 4) OK(clEnqueueWaitForEvents(q, 1, &a));
    if (way == 5) OK(clEnqueueBarrier(q));
    if (way == 6) OK(clEnqueueMarker(q, &marker));
    bool by_list = way == 0 || way == 3 || way == 6;
    b = fill(q, m, 2, by_list, by_list ? (marker ? &marker : &a) : NULL);
    WANT(status_of(c) == CL_COMPLETE && status_of(a) == CL_QUEUED && status_of(b) == CL_QUEUED);
    if (marker) WANT(status_of(marker) == CL_QUEUED);
    cl_event behind = fill(q, other, 6, 1, &c); // a marker lets what comes pass, a barrier doesn't
    WANT(status_of(behind) == (by_list ? CL_COMPLETE : CL_QUEUED));
    OK(clSetUserEventStatus(u, CL_COMPLETE));
    WANT(status_of(a) == CL_COMPLETE && status_of(b) == CL_COMPLETE && number_in(m) == 2);
    WANT(status_of(behind) == CL_COMPLETE && number_in(other) == 6);
    cl_event all[] = {a, b, c, u, behind};
    for (int i = 0; i < 5; i++) release(all[i]);
    if (marker) release(marker);
    OK(clReleaseMemObject(m));
    OK(clReleaseMemObject(other));
    OK(clReleaseCommandQueue(q));
}
static void orders(void) {
    for (int way = 0; way < 7; way++) ordered(way);
}

static char calls[16];
static void CL_CALLBACK note(cl_event e, cl_int status, void *name) {
    (void)e;
    snprintf(calls + strlen(calls), sizeof calls - strlen(calls), "%s%d", (const char *)name, status);
}

// A user event that stands for an error: what waits for it by a list isn't done, nor what waits for that; a queue that
// is in order goes on behind it (5.9 leaves that open). Callbacks get the error.
static void errors(void) {
    cl_command_queue q = queue_with(0), other = out_of_order();
    cl_mem m = buffer();
    cl_event u = user_event(), a = fill(q, m, 1, 1, &u), b = fill(other, m, 2, 1, &a), c = fill(q, m, 3, 0, NULL);
    *calls = 0;
    OK(clSetEventCallback(a, CL_COMPLETE, note, "a"));
    OK(clSetEventCallback(c, CL_COMPLETE, note, "c"));
    OK(clSetUserEventStatus(u, -5));
    WANT(status_of(u) == -5 && status_of(a) == CL_EXEC_STATUS_ERROR_FOR_EVENTS_IN_WAIT_LIST);
    WANT(status_of(b) == CL_EXEC_STATUS_ERROR_FOR_EVENTS_IN_WAIT_LIST && status_of(c) == CL_COMPLETE);
    WANT(number_in(m) == 3 && !strcmp(calls, "a-14c0"));
    WANT(clWaitForEvents(1, &b) == CL_EXEC_STATUS_ERROR_FOR_EVENTS_IN_WAIT_LIST);
    WANT(clEnqueueMarkerWithWaitList(q, 1, &a, NULL) == CL_EXEC_STATUS_ERROR_FOR_EVENTS_IN_WAIT_LIST);
    cl_event all[] = {u, a, b, c};
    for (int i = 0; i < 4; i++) release(all[i]);
    OK(clReleaseMemObject(m));
    OK(clReleaseCommandQueue(q));
    OK(clReleaseCommandQueue(other));
}

// A user event that is released before it is set: nobody can set it, and what waits for it isn't done.
static void released(void) {
    cl_command_queue q = queue_with(0);
    cl_mem m = buffer();
    cl_event u = user_event(), a = fill(q, m, 1, 1, &u), b = fill(q, m, 2, 0, NULL);
    release(u);
    WANT(status_of(a) == CL_EXEC_STATUS_ERROR_FOR_EVENTS_IN_WAIT_LIST && status_of(b) == CL_COMPLETE);
    WANT(number_in(m) == 2);
    release(a);
    release(b);
    OK(clReleaseMemObject(m));
    OK(clReleaseCommandQueue(q));
}

static void *set_later(void *e) {
    usleep(20000);
    OK(clSetUserEventStatus(e, CL_COMPLETE));
    return NULL;
}

// Calls that wait: for a queue, for a read that blocks, for a mapping, for a command's event.
static void blocking(void) {
    for (int way = 0; way < 4; way++) {
        cl_command_queue q = queue_with(0);
        cl_mem m = buffer();
        cl_int got[N] = {0}, fault, *at = NULL;
        cl_event u = user_event(), a = fill(q, m, 9, 1, &u);
        pthread_t thread;
        pthread_create(&thread, NULL, set_later, u);
        if (way == 0) OK(clFinish(q));
        if (way == 1) OK(clEnqueueReadBuffer(q, m, CL_TRUE, 0, BYTES, got, 0, NULL, NULL));
        if (way == 2) at = clEnqueueMapBuffer(q, m, CL_TRUE, CL_MAP_READ, 4, 8, 0, NULL, NULL, &fault);
        if (way == 3) OK(clWaitForEvents(1, &a));
        WANT(status_of(a) == CL_COMPLETE && got[3] == (way == 1 ? 9 : 0) && (way != 2 || (at && at[1] == 9)));
        pthread_join(thread, NULL);
        if (at) OK(clEnqueueUnmapMemObject(q, m, at, 0, NULL, NULL));
        release(a);
        release(u);
        OK(clReleaseMemObject(m));
        OK(clReleaseCommandQueue(q));
    }
}

// Regions that are mapped and unmapped behind an event, copies and rectangles.
static void moves(void) {
    cl_command_queue q = queue_with(0);
    cl_mem m = buffer(), to = buffer();
    cl_int fault;
    cl_uint count = 9;
    cl_event u = user_event(), a = fill(q, m, 4, 1, &u);
    cl_int *at = clEnqueueMapBuffer(q, m, CL_FALSE, CL_MAP_READ | CL_MAP_WRITE, 0, BYTES, 0, NULL, NULL, &fault);
    OK(fault);
    OK(clEnqueueUnmapMemObject(q, m, at, 0, NULL, NULL));
    WANT(clEnqueueUnmapMemObject(q, m, at, 0, NULL, NULL) == CL_INVALID_VALUE);
    OK(clGetMemObjectInfo(m, CL_MEM_MAP_COUNT, sizeof count, &count, NULL));
    WANT(!count);
    OK(clEnqueueCopyBuffer(q, m, to, 0, 16, 16, 0, NULL, NULL));
    size_t zero[3] = {0}, region[] = {4, 4, 1};
    OK(clEnqueueCopyBufferRect(q, m, to, zero, zero, region, 4, 0, 4, 0, 0, NULL, NULL));
    WANT(number_in(to) == 0);
    OK(clSetUserEventStatus(u, CL_COMPLETE));
    OK(clFinish(q));
    WANT(number_in(to) == 4 && number_in(m) == 4);
    release(u);
    release(a);
    // a region that is let go although it waits for an event that stands for an error stays mapped
    cl_event v = user_event();
    at = clEnqueueMapBuffer(q, m, CL_TRUE, CL_MAP_WRITE, 0, BYTES, 0, NULL, NULL, &fault);
    OK(fault);
    OK(clEnqueueUnmapMemObject(q, m, at, 1, &v, NULL));
    OK(clSetUserEventStatus(v, -1));
    OK(clEnqueueUnmapMemObject(q, m, at, 0, NULL, NULL));
    release(v);
    OK(clReleaseMemObject(m));
    OK(clReleaseMemObject(to));
    OK(clReleaseCommandQueue(q));
}

static void *mapped_at(cl_command_queue q, cl_mem m, cl_map_flags flags, size_t first, size_t n, cl_int wanted) {
    cl_int fault;
    void *at = clEnqueueMapBuffer(q, m, CL_FALSE, flags, first, n, 0, NULL, NULL, &fault);
    WANT(fault == wanted && !at == (wanted != CL_SUCCESS));
    return at;
}

// Commands on what is mapped (5.4.3). Told: 2, 3 and 5, which access what 1 and 4 have mapped for writing, by a
// kernel in other bytes too; 9 and 10, which store to what 8 has mapped for reading. Not told: 7, behind the end of the
// first mapping; 11, which loads from what is mapped for reading.
static void mapped(void) {
    cl_command_queue q = queue_with(0);
    cl_mem m = buffer(), other = buffer();
    cl_kernel k = kernel_with(m, 1, 1);
    cl_int got[N];
    void *one = mapped_at(q, m, CL_MAP_WRITE, 0, 4, CL_SUCCESS);
    release(launch(q, k, 0, NULL));
    OK(clEnqueueCopyBuffer(q, m, other, 8, 8, 8, 0, NULL, NULL));
    void *two = mapped_at(q, other, CL_MAP_WRITE_INVALIDATE_REGION, 0, 4, CL_SUCCESS);
    OK(clEnqueueCopyBuffer(q, m, other, 8, 8, 8, 0, NULL, NULL));
    mapped_at(q, m, CL_MAP_READ | CL_MAP_WRITE, 3, 8, CL_INVALID_OPERATION);
    OK(clEnqueueUnmapMemObject(q, m, one, 0, NULL, NULL));
    release(launch(q, k, 0, NULL));
    one = mapped_at(q, m, CL_MAP_READ, 0, 4, CL_SUCCESS);
    release(launch(q, k, 0, NULL));
    release(fill(q, m, 1, 0, NULL));
    OK(clEnqueueReadBuffer(q, m, CL_TRUE, 0, BYTES, got, 0, NULL, NULL));
    OK(clEnqueueUnmapMemObject(q, m, one, 0, NULL, NULL));
    OK(clEnqueueUnmapMemObject(q, other, two, 0, NULL, NULL));
    OK(clReleaseKernel(k));
    OK(clReleaseMemObject(m));
    OK(clReleaseMemObject(other));
    OK(clReleaseCommandQueue(q));
}

// A buffer and its parts. Told: 2, on the buffer of the part that 1 maps; 6, on a part of the buffer that 4 maps. Not
// told: 3, on the part beside it. A part that goes while it is mapped takes its mapping along: 9 isn't told.
static void mapped_parts(void) {
    enum { PART = 128 };
    cl_command_queue q = queue_with(0);
    cl_int fault, five = 5;
    cl_mem m = clCreateBuffer(h.context, 0, 3 * PART, NULL, &fault), parts[3];
    OK(fault);
    for (size_t i = 0; i < 3; i++) {
        cl_buffer_region region = {i * PART, PART};
        parts[i] = clCreateSubBuffer(m, 0, CL_BUFFER_CREATE_TYPE_REGION, &region, &fault);
        OK(fault);
    }
    void *at = mapped_at(q, parts[1], CL_MAP_WRITE, 4, 8, CL_SUCCESS);
    OK(clEnqueueFillBuffer(q, m, &five, 4, 0, 4, 0, NULL, NULL));
    OK(clEnqueueFillBuffer(q, parts[2], &five, 4, 0, 4, 0, NULL, NULL));
    mapped_at(q, m, CL_MAP_WRITE, PART, 8, CL_INVALID_OPERATION);
    void *end = mapped_at(q, m, CL_MAP_WRITE, 2 * PART, 8, CL_SUCCESS);
    mapped_at(q, parts[2], CL_MAP_WRITE, 0, 4, CL_INVALID_OPERATION);
    OK(clEnqueueUnmapMemObject(q, parts[1], at, 0, NULL, NULL));
    OK(clEnqueueFillBuffer(q, parts[0], &five, 4, 0, 4, 0, NULL, NULL));
    OK(clEnqueueUnmapMemObject(q, m, end, 0, NULL, NULL));
    mapped_at(q, parts[2], CL_MAP_WRITE, 0, 4, CL_SUCCESS);
    for (int i = 0; i < 3; i++) OK(clReleaseMemObject(parts[i]));
    OK(clEnqueueFillBuffer(q, m, &five, 4, 0, 4, 0, NULL, NULL));
    OK(clReleaseMemObject(m));
    OK(clReleaseCommandQueue(q));
}

// A mapping that waits isn't there for the command in front of it, 1, and is there for the launch behind it, 3. A
// second one over the same bytes is refused by its call all the same.
static void mapped_later(void) {
    cl_command_queue q = queue_with(0);
    cl_mem m = buffer();
    cl_kernel k = kernel_with(m, 1, 1);
    cl_event u = user_event(), a;
    cl_int one = 1;
    OK(clEnqueueFillBuffer(q, m, &one, 4, 0, 4, 1, &u, &a));
    void *at = mapped_at(q, m, CL_MAP_WRITE, 0, 4, CL_SUCCESS);
    mapped_at(q, m, CL_MAP_WRITE, 0, 4, CL_INVALID_OPERATION);
    OK(clSetUserEventStatus(u, CL_COMPLETE));
    release(launch(q, k, 0, NULL));
    OK(clEnqueueUnmapMemObject(q, m, at, 0, NULL, NULL));
    release(launch(q, k, 0, NULL));
    release(a);
    release(u);
    OK(clReleaseKernel(k));
    OK(clReleaseMemObject(m));
    OK(clReleaseCommandQueue(q));
}

// A launch with a fault behind an event: its event has the error, and what waits for that isn't done.
static void faults(void) {
    cl_command_queue q = queue_with(0);
    cl_mem m = buffer();
    cl_event u = user_event();
    cl_int fault;
    size_t global = N;
    cl_kernel k = clCreateKernel(program, "race", &fault);
    OK(fault);
    OK(clSetKernelArg(k, 0, sizeof m, &m));
    cl_event a, b;
    OK(clEnqueueNDRangeKernel(q, k, 1, NULL, &global, &global, 1, &u, &a));
    b = fill(q, m, 1, 1, &a);
    OK(clSetUserEventStatus(u, CL_COMPLETE));
    WANT(status_of(a) == CL_INVALID_OPERATION && status_of(b) == CL_EXEC_STATUS_ERROR_FOR_EVENTS_IN_WAIT_LIST);
    WANT(number_in(m) == 0);
    cl_event all[] = {u, a, b};
    for (int i = 0; i < 3; i++) release(all[i]);
    OK(clReleaseKernel(k));
    OK(clReleaseMemObject(m));
    OK(clReleaseCommandQueue(q));
}

// A fill and a launch of two queues, with something between them or nothing. Whether that is told `run` looks at.
static void two_queues(int way) {
    cl_command_queue q = queue_with(0), other = queue_with(0);
    cl_mem m = buffer();
    cl_kernel k = kernel_with(m, 2, 1);
    cl_event a = fill(q, m, 1, 0, NULL);
    cl_int got[N];
    if (way == 1) OK(clFinish(q));
    if (way == 2) OK(clWaitForEvents(1, &a));
    if (way == 3) WANT(status_of(a) == CL_COMPLETE);
    if (way == 4) OK(clEnqueueReadBuffer(q, m, CL_TRUE, 0, BYTES, got, 0, NULL, NULL));
    if (way == 5) OK(clEnqueueBarrierWithWaitList(other, 1, &a, NULL));
    cl_event b = launch(other, k, way == 6, way == 6 ? &a : NULL);
    release(a);
    release(b);
    OK(clReleaseKernel(k));
    OK(clReleaseMemObject(m));
    OK(clReleaseCommandQueue(q));
    OK(clReleaseCommandQueue(other));
}
static void queues(void) {
    for (int way = 0; way < 7; way++) two_queues(way);
}

// What doesn't conflict: two reads, other bytes, columns side by side.
static void apart(void) {
    cl_command_queue q = out_of_order();
    cl_mem m = buffer();
    cl_int got[N], number = 1;
    unsigned char bytes[N] = {0};
    size_t zero[3] = {0}, right[] = {2, 0, 0}, region[] = {2, 4, 1};
    OK(clEnqueueReadBuffer(q, m, CL_FALSE, 0, BYTES, got, 0, NULL, NULL));
    OK(clEnqueueReadBuffer(q, m, CL_FALSE, 0, BYTES, got, 0, NULL, NULL));
    OK(clFinish(q));
    OK(clEnqueueFillBuffer(q, m, &number, 4, 0, 16, 0, NULL, NULL));
    OK(clEnqueueFillBuffer(q, m, &number, 4, 16, 16, 0, NULL, NULL));
    OK(clFinish(q));
    OK(clEnqueueWriteBufferRect(q, m, CL_FALSE, zero, zero, region, 4, 0, 2, 0, bytes, 0, NULL, NULL));
    OK(clEnqueueWriteBufferRect(q, m, CL_FALSE, right, zero, region, 4, 0, 2, 0, bytes, 0, NULL, NULL));
    OK(clReleaseMemObject(m));
    OK(clReleaseCommandQueue(q));
}

static void CL_CALLBACK go_on(cl_event e, cl_int status, void *m) {
    cl_command_queue q = queue_with(0);
    (void)e;
    WANT(status == CL_COMPLETE);
    release(fill(q, m, 2, 0, NULL));
    OK(clFinish(q));
    OK(clReleaseCommandQueue(q));
}

// What a callback enqueues comes after its event; so does what waits for a user event that is set behind a call that
// waited, though it was enqueued in front of that.
static void after_host(void) {
    cl_command_queue q = out_of_order(), other = queue_with(0);
    cl_mem m = buffer();
    cl_event u = user_event(), a = fill(q, m, 1, 1, &u), v = user_event();
    OK(clSetEventCallback(a, CL_COMPLETE, go_on, m));
    OK(clSetUserEventStatus(u, CL_COMPLETE));
    WANT(number_in(m) == 2);
    cl_event b = fill(other, m, 3, 0, NULL), c = fill(q, m, 4, 1, &v);
    OK(clFinish(other));
    OK(clSetUserEventStatus(v, CL_COMPLETE));
    WANT(status_of(c) == CL_COMPLETE && number_in(m) == 4);
    cl_event all[] = {u, a, v, b, c};
    for (int i = 0; i < 5; i++) release(all[i]);
    OK(clReleaseMemObject(m));
    OK(clReleaseCommandQueue(q));
    OK(clReleaseCommandQueue(other));
}

// Launches of a queue that is out of order: told once for each command, with its argument.
static void launches(void) {
    cl_command_queue q = out_of_order();
    cl_mem m = buffer(), to = buffer();
    cl_kernel k = kernel_with(m, 1, 1), copy;
    cl_int fault;
    copy = clCreateKernel(program, "copy", &fault);
    OK(fault);
    OK(clSetKernelArg(copy, 0, sizeof to, &to));
    OK(clSetKernelArg(copy, 1, sizeof m, &m));
    cl_event a = launch(q, k, 0, NULL), b = launch(q, copy, 0, NULL), c = launch(q, copy, 1, &b);
    cl_event all[] = {a, b, c};
    OK(clWaitForEvents(3, all));
    for (int i = 0; i < 3; i++) release(all[i]);
    OK(clReleaseKernel(k));
    OK(clReleaseKernel(copy));
    OK(clReleaseMemObject(m));
    OK(clReleaseMemObject(to));
    OK(clReleaseCommandQueue(q));
}

// A thousand commands, of which each waits for the one before, and a thousand that nothing orders, on other bytes.
static void many(void) {
    cl_command_queue q = out_of_order();
    cl_mem m = buffer();
    cl_event u = user_event(), last = u;
    cl_int one = 1;
    for (int i = 0; i < 1000; i++) {
        cl_event next = fill(q, m, i, 1, &last);
        if (last != u) release(last);
        last = next;
    }
    OK(clSetUserEventStatus(u, CL_COMPLETE));
    WANT(status_of(last) == CL_COMPLETE && number_in(m) == 999);
    for (size_t i = 0; i < 1000; i++) OK(clEnqueueFillBuffer(q, m, &one, 1, i % BYTES, 1, 0, NULL, NULL));
    release(last);
    release(u);
    OK(clReleaseMemObject(m));
    OK(clReleaseCommandQueue(q));
}

// Commands that are never done, with all that they use: told at the end.
static void left(void) {
    cl_command_queue q = queue_with(0);
    cl_mem m = buffer();
    cl_event u = user_event(), a = fill(q, m, 1, 1, &u), b = fill(q, m, 1, 0, NULL);
    release(a);
    release(b);
    OK(clReleaseMemObject(m));
    OK(clReleaseCommandQueue(q));
}

int main(int count, char **words) {
    static const struct {
        const char *name;
        void (*part)(void);
    } parts[] = {{"in order", in_order},
                 {"overtaken", overtaken},
                 {"orders", orders},
                 {"errors", errors},
                 {"released", released},
                 {"blocking", blocking},
                 {"moves", moves},
                 {"mapped", mapped},
                 {"mapped parts", mapped_parts},
                 {"mapped later", mapped_later},
                 {"faults", faults},
                 {"queues", queues},
                 {"apart", apart},
                 {"after host", after_host},
                 {"launches", launches},
                 {"many", many},
                 {"left", left}};
    h = open_host();
    program = build_program(&h,
                            "__kernel void f(__global int *a, int times, int more)\n"
                            "{\n"
                            "    int i = get_global_id(0);\n"
                            "    a[i] = a[i] * times + more;\n"
                            "}\n"
                            "__kernel void copy(__global int *to, __global const int *from)\n"
                            "{\n"
                            "    int i = get_global_id(0);\n"
                            "    to[i] = from[i];\n"
                            "}\n"
                            "__kernel void race(__global int *a)\n"
                            "{\n"
                            "    a[0] = get_global_id(0);\n"
                            "}\n",
                            "");
    for (size_t i = 0; i < sizeof parts / sizeof *parts; i++)
        if (count > 1 && !strcmp(parts[i].name, words[1])) parts[i].part();
    OK(clReleaseProgram(program));
    close_host(&h);
    puts("orders are right");
    return 0;
}
