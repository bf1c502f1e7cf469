#define _GNU_SOURCE
#include "ordered.h"
#include "widening.h"
#include <errno.h>
#include <stdlib.h>
#include <string.h>
#include <unistd.h>

// ---- contexts ----

void leave_context(cl_context c) {
    c->uses--;
    drop_context(c);
}

void drop_context(cl_context c) {
    if (c->references || c->uses) return;
    tell_widened(c);
    tell_ordered_launches(c);
    session_close(c->session);
    free(c->properties);
    free_object(c);
}
CL_API_ENTRY cl_context CL_API_CALL
clCreateContext(const cl_context_properties *properties, cl_uint n, const cl_device_id *devices,
                void(CL_CALLBACK *notify)(const char *, const void *, size_t, void *), void *user, cl_int *errcode) {
    LOCKED;
    size_t count = 0;
    if (properties) {
        for (; properties[count]; count += 2) {
            for (size_t i = 0; i < count; i += 2)
                if (properties[i] == properties[count]) return fail(errcode, CL_INVALID_PROPERTY);
            if (properties[count] != CL_CONTEXT_PLATFORM && properties[count] != CL_CONTEXT_INTEROP_USER_SYNC)
                return fail(errcode, CL_INVALID_PROPERTY);
            if (properties[count] == CL_CONTEXT_PLATFORM && (cl_platform_id)properties[count + 1] != &the_platform)
                return fail(errcode, CL_INVALID_PLATFORM);
        }
        count++;
    }
    if (!devices || !n || (!notify && user)) return fail(errcode, CL_INVALID_VALUE);
    for (cl_uint i = 0; i < n; i++)
        if (devices[i] != &the_device) return fail(errcode, CL_INVALID_DEVICE);
    check_settings();
    cl_context c = make_object(sizeof *c, CONTEXT);
    if (!c) return fail(errcode, CL_OUT_OF_HOST_MEMORY);
    if (count && !(c->properties = malloc(count * sizeof *properties))) {
        free_object(c);
        return fail(errcode, CL_OUT_OF_HOST_MEMORY);
    }
    if (count) memcpy(c->properties, properties, count * sizeof *properties);
    c->property_count = count;
    c->session = session_open();
    if (!c->session) {
        cl_int fault = errno == ENOMEM ? CL_OUT_OF_HOST_MEMORY : CL_DEVICE_NOT_AVAILABLE;
        free(c->properties);
        free_object(c);
        return fail(errcode, fault);
    }
    c->notify = notify;
    c->user = user;
    c->ready_end = &c->ready;
    c->noted_end = &c->noted;
    done(errcode);
    return c;
}
CL_API_ENTRY cl_context CL_API_CALL clCreateContextFromType(
    const cl_context_properties *properties, cl_device_type type,
    void(CL_CALLBACK *notify)(const char *, const void *, size_t, void *), void *user, cl_int *errcode) {
    cl_device_id d;
    cl_int fault = clGetDeviceIDs(NULL, type, 1, &d, NULL);
    return fault ? fail(errcode, fault) : clCreateContext(properties, 1, &d, notify, user, errcode);
}
COUNTED(cl_context, Context, CONTEXT, CL_INVALID_CONTEXT, drop_context)

CL_API_ENTRY cl_int CL_API_CALL clGetContextInfo(cl_context c, cl_context_info name, size_t room, void *to,
                                                 size_t *size) {
    LOCKED;
    if (!is_a(c, CONTEXT)) return CL_INVALID_CONTEXT;
    switch (name) {
    case CL_CONTEXT_REFERENCE_COUNT: GIVE(cl_uint, c->references);
    case CL_CONTEXT_NUM_DEVICES: GIVE(cl_uint, 1);
    case CL_CONTEXT_DEVICES: GIVE(cl_device_id, &the_device);
    case CL_CONTEXT_PROPERTIES: return give(c->properties, c->property_count * sizeof *c->properties, room, to, size);
    default: return CL_INVALID_VALUE;
    }
}

// ---- queues ----

void drop_queue(cl_command_queue q) {
    if (q->references || q->uses) return;
    cl_context c = q->context;
    free_object(q);
    leave_context(c);
}
COUNTED(cl_command_queue, CommandQueue, QUEUE, CL_INVALID_COMMAND_QUEUE, drop_queue)

CL_API_ENTRY cl_command_queue CL_API_CALL clCreateCommandQueue(cl_context c, cl_device_id d,
                                                               cl_command_queue_properties properties,
                                                               cl_int *errcode) {
    LOCKED;
    if (!is_a(c, CONTEXT)) return fail(errcode, CL_INVALID_CONTEXT);
    if (d != &the_device) return fail(errcode, CL_INVALID_DEVICE);
    if (properties & ~(cl_command_queue_properties)(CL_QUEUE_OUT_OF_ORDER_EXEC_MODE_ENABLE | CL_QUEUE_PROFILING_ENABLE))
        return fail(errcode, CL_INVALID_VALUE);
    cl_command_queue q = make_object(sizeof *q, QUEUE);
    if (!q) return fail(errcode, CL_OUT_OF_HOST_MEMORY);
    q->context = c;
    q->properties = properties;
    q->waiting_end = &q->waiting;
    c->uses++;
    done(errcode);
    return q;
}
CL_API_ENTRY cl_int CL_API_CALL clSetCommandQueueProperty(cl_command_queue q, cl_command_queue_properties p, cl_bool on,
                                                          cl_command_queue_properties *old) {
    (void)p;
    (void)on;
    LOCKED;
    if (!is_a(q, QUEUE)) return CL_INVALID_COMMAND_QUEUE;
    if (old) *old = q->properties;
    return CL_INVALID_OPERATION;
}
CL_API_ENTRY cl_int CL_API_CALL clGetCommandQueueInfo(cl_command_queue q, cl_command_queue_info name, size_t room,
                                                      void *to, size_t *size) {
    LOCKED;
    if (!is_a(q, QUEUE)) return CL_INVALID_COMMAND_QUEUE;
    switch (name) {
    case CL_QUEUE_CONTEXT: GIVE(cl_context, q->context);
    case CL_QUEUE_DEVICE: GIVE(cl_device_id, &the_device);
    case CL_QUEUE_REFERENCE_COUNT: GIVE(cl_uint, q->references);
    case CL_QUEUE_PROPERTIES: GIVE(cl_command_queue_properties, q->properties);
    default: return CL_INVALID_VALUE;
    }
}
// What can be done is done when its call returns.
CL_API_ENTRY cl_int CL_API_CALL clFlush(cl_command_queue q) {
    LOCKED;
    return is_a(q, QUEUE) ? CL_SUCCESS : CL_INVALID_COMMAND_QUEUE;
}
CL_API_ENTRY cl_int CL_API_CALL clFinish(cl_command_queue q) {
    LOCKED;
    if (!is_a(q, QUEUE)) return CL_INVALID_COMMAND_QUEUE;
    wait_for_queue(q, "clFinish");
    return CL_SUCCESS;
}
