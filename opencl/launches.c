#include "ordered.h"
#include "widening.h"
#include <stdint.h>
#include <stdio.h>
#include <stdlib.h>
#include <string.h>

// How many items a group has at most where the client leaves its size open, whatever a device allows: the groups of
// such a client, and with them its schedules, are the same under all limits.
enum { CHOSEN_GROUP = 256 };

// The local sizes where the client leaves them open: in each dimension, from the first on, the largest divisor of the
// global size that leaves at most 256 items a group, or as many as CLSIM_LOCAL says.
static void choose_local(cl_uint dimensions, const size_t *global, size_t *local) {
    const char *given = setting("CLSIM_LOCAL");
    size_t room = given ? strtoul(given, NULL, 10) : CHOSEN_GROUP;
    if (!room || room > limits_of_device()->group) room = CHOSEN_GROUP;
    for (cl_uint d = 0; d < dimensions; d++) {
        local[d] = 1;
        for (size_t n = room; n > 1; n--)
            if (global[d] % n == 0) {
                local[d] = n;
                break;
            }
        room /= local[d];
    }
}
// Tells why sizes are refused.
static cl_int refuse_sizes(cl_kernel k, cl_int fault, const char *why) {
    const device_limits *limits = limits_of_device();
    refuse(k->context, "kernel %s: %s (limits: %s, groups of at most %zu)", k->form->name, why, limits->name,
           limits->group);
    return fault;
}

// Judges the group of a launch. Where the client leaves it open it is chosen.
static cl_int take_group(cl_kernel k, launch_sizes *s, const size_t *local) {
    const size_t *wanted = k->form->group, most = limits_of_device()->group;
    size_t group = 1;
    if (wanted[0] && !local)
        return refuse_sizes(k, CL_INVALID_WORK_GROUP_SIZE, "it asks for a local size (reqd_work_group_size)");
    for (cl_uint d = 0; local && d < s->dimensions; d++) {
        if (!local[d] || s->global[d] % local[d])
            return refuse_sizes(k, CL_INVALID_WORK_GROUP_SIZE, "the local size doesn't divide the global size");
        if (local[d] > most) return refuse_sizes(k, CL_INVALID_WORK_ITEM_SIZE, "the local size is too large");
        group *= local[d];
        s->local[d] = local[d];
    }
    for (cl_uint d = 0; wanted[0] && d < 3; d++)
        if (wanted[d] != (d < s->dimensions ? s->local[d] : 1))
            return refuse_sizes(k, CL_INVALID_WORK_GROUP_SIZE,
                                "the local size isn't the one that it asks for (reqd_work_group_size)");
    if (group > most) return refuse_sizes(k, CL_INVALID_WORK_GROUP_SIZE, "the group is too large");
    if (!local) choose_local(s->dimensions, s->global, s->local);
    return CL_SUCCESS;
}

// The sizes of a launch, judged as far as the device doesn't judge them.
static cl_int take_sizes(cl_kernel k, launch_sizes *s, const size_t *offset, const size_t *global,
                         const size_t *local) {
    const device_limits *limits = limits_of_device();
    size_t items = 1;
    if (!global) return CL_INVALID_GLOBAL_WORK_SIZE;
    for (cl_uint d = 0; d < s->dimensions; d++) {
        if (!global[d]) return refuse_sizes(k, CL_INVALID_GLOBAL_WORK_SIZE, "a global size is 0");
        if (__builtin_mul_overflow(items, global[d], &items)) items = SIZE_MAX; // (no size is 0, so it stays too many)
        s->global[d] = global[d];
        s->offset[d] = offset ? offset[d] : 0;
    }
    cl_int fault = take_group(k, s, local);
    if (fault || items <= limits->items) return fault;
    refuse(k->context, "kernel %s: more than %zu work-items (limits: %s)", k->form->name, limits->items, limits->name);
    return CL_INVALID_GLOBAL_WORK_SIZE;
}

// Asks for a launch. The line of the reply, NULL where the device is gone.
static const char *ask_launch(cl_kernel k, const launch_sizes *s) {
    char global[80], local[80], offset[80];
    sizes_text(global, sizeof global, s->dimensions, s->global);
    sizes_text(local, sizeof local, s->dimensions, s->local);
    sizes_text(offset, sizeof offset, s->dimensions, s->offset);
    const char *reply = session_askf(k->context->session, "launch k%u %s %s %s%s%s\n", k->number, global, local, offset,
                                     s->uniform ? " uniform" : "", s->orders ? " orders" : "");
    if (reply && strncmp(reply, "refused ", 8)) note_launch(k, reply);
    return reply;
}

// What a launch that faults answers. It is none of the three errors that stand for want of memory: pyopencl launches
// again after those.
#define FAULTED CL_INVALID_OPERATION

// The end of a launch that wasn't clean or ordered. Where it was made once more, `order` is its fault before; that is
// its fault still where nothing is known of the second time.
static cl_int end_faulty(command *c, cl_kernel launched, const char *reply, const kept_fault *order) {
    bool is_fault = reply && !strncmp(reply, "fault ", 6);
    kept_fault last = {NULL, NULL};
    launch_sizes before = c->sizes;
    before.orders = false;
    if (reply && !is_fault) refuse(launched->context, "kernel %s: %s", launched->form->name, reply);
    if (!is_fault && !order) return reply ? error_of(reply) : CL_DEVICE_NOT_AVAILABLE;
    if (is_fault) keep_fault(&last, launched, reply, &c->sizes);
    if (order) tell_fault(launched, order, &before);
    tell_fault(launched, &last, &c->sizes);
    drop_fault(&last);
    count_fault();
    const char *then = setting("CLSIM_ON_FAULT");
    if (!then || strcmp(then, "go")) return FAULTED;
    c->went = FAULTED;
    return CL_SUCCESS;
}

// The end of a launch by its last reply.
static cl_int end_launch(command *c, cl_kernel launched, const char *reply, const kept_fault *order) {
    bool is_ordered = reply && !strcmp(reply, "ordered");
    if (is_ordered && note_ordered(c->kernel)) tell_ordered(launched, order, &c->sizes);
    if (!is_ordered && (!reply || strcmp(reply, "clean"))) return end_faulty(c, launched, reply, order);
    cl_int fault = copy_parts(c->kernel, launched, true);
    return fault ? fault : end_printing(launched, &c->sizes);
}

// Whether a launch that was answered so is made once more, without regard to flags of buffers: then they are told.
static bool is_made_past_flags(cl_kernel launched, const char *reply, const launch_sizes *s) {
    kept_fault fault;
    if (!reply || !goes_past_flags() || !is_fault_of_flags(reply)) return false;
    keep_fault(&fault, launched, reply, s);
    tell_fault(launched, &fault, s);
    tell("  it is made with that access, and so are all launches of the kernel by such buffers (CLSIM_FLAGS)");
    drop_fault(&fault);
    go_past_flags(launched);
    return true;
}

// Makes the kernel ready that is launched in the place of a launch's own.
static cl_int make_ready(command *c, cl_kernel *launched) {
    cl_int fault = launched_kernel(c->kernel, launched);
    if (!fault) fault = copy_parts(c->kernel, *launched, false);
    return fault ? fault : begin_printing(*launched, &c->sizes);
}

// Does a launch, by the arguments that its kernel has now.
static cl_int do_launch(command *c) {
    cl_kernel k = c->kernel, launched;
    kept_fault order;
    cl_int fault = make_ready(c, &launched);
    if (fault) return fault;
    k->context->launches++;
    c->sizes.orders = begins_with_orders(k);
    const char *reply = ask_launch(launched, &c->sizes);
    if (is_made_past_flags(launched, reply, &c->sizes)) {
        fault = make_ready(c, &launched);
        if (fault) return fault;
        reply = ask_launch(launched, &c->sizes);
    }
    if (!reply || !is_made_again(k, reply)) return end_launch(c, launched, reply, NULL);
    keep_fault(&order, launched, reply, &c->sizes);
    c->sizes.orders = true;
    fault = end_launch(c, launched, ask_launch(launched, &c->sizes), &order);
    drop_fault(&order);
    return fault;
}

// Launches a kernel by the call that the type of its event names.
static cl_int launch(cl_command_queue q, cl_kernel k, cl_uint dimensions, const size_t *offset, const size_t *global,
                     const size_t *local, cl_command_type type, cl_uint wait_count, const cl_event *wait_list,
                     cl_event *event) {
    BEGIN;
    launch_sizes sizes = {.dimensions = dimensions, .uniform = setting("CLSIM_UNIFORM") != NULL};
    if (!is_a(k, KERNEL)) return CL_INVALID_KERNEL;
    if (k->context != q->context) return CL_INVALID_CONTEXT;
    if (dimensions < 1 || dimensions > 3) return CL_INVALID_WORK_DIMENSION;
    for (unsigned i = 0; i < k->form->count; i++)
        if (!k->arguments[i].command) {
            refuse(k->context, "kernel %s: argument %u (%s) is not set", k->form->name, i, k->form->parameters[i].name);
            return CL_INVALID_KERNEL_ARGS;
        }
    cl_int fault = take_sizes(k, &sizes, offset, global, local);
    if (fault) return fault;
    SUBMIT(false, .type = type, .act = do_launch, .kernel = k, .sizes = sizes);
}
CL_API_ENTRY cl_int CL_API_CALL clEnqueueNDRangeKernel(cl_command_queue q, cl_kernel k, cl_uint dimensions,
                                                       const size_t *offset, const size_t *global, const size_t *local,
                                                       cl_uint wait_count, const cl_event *wait_list, cl_event *event) {
    return launch(q, k, dimensions, offset, global, local, CL_COMMAND_NDRANGE_KERNEL, wait_count, wait_list, event);
}
CL_API_ENTRY cl_int CL_API_CALL clEnqueueTask(cl_command_queue q, cl_kernel k, cl_uint wait_count,
                                              const cl_event *wait_list, cl_event *event) {
    size_t one = 1;
    return launch(q, k, 1, NULL, &one, &one, CL_COMMAND_TASK, wait_count, wait_list, event);
}
CL_API_ENTRY cl_int CL_API_CALL clEnqueueNativeKernel(cl_command_queue q, void(CL_CALLBACK *f)(void *), void *a,
                                                      size_t n, cl_uint m, const cl_mem *ms, const void **ps, cl_uint w,
                                                      const cl_event *ws, cl_event *e) {
    (void)f;
    (void)a;
    (void)n;
    (void)m;
    (void)ms;
    (void)ps;
    (void)w;
    (void)ws;
    (void)e;
    LOCKED;
    return is_a(q, QUEUE) ? CL_INVALID_OPERATION : CL_INVALID_COMMAND_QUEUE;
}
