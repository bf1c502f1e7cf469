#include "objects.h"
#include <stdlib.h>

// ---- events ----

// A user event that the client lets go, and nobody can set any more: what waits for it is never done (OpenCL 1.2, 5.9).
static void give_up(cl_event e) {
    refuse(e->context, "a user event was released before it was set: what waits for it isn't done");
    use_event(e);
    end_event(e, CL_EXEC_STATUS_ERROR_FOR_EVENTS_IN_WAIT_LIST);
    do_ready(e->context);
    e->uses--;
}

void drop_event(cl_event e) {
    if (!e->references && e->waits && e->type == CL_COMMAND_USER) give_up(e);
    if (e->references || e->uses) return;
    cl_context c = e->context;
    if (e->queue) {
        e->queue->uses--;
        drop_queue(e->queue);
    }
    while (e->ends) {
        event_end *end = e->ends;
        e->ends = end->next;
        free(end);
    }
    free_object(e);
    leave_context(c);
}
COUNTED(cl_event, Event, EVENT, CL_INVALID_EVENT, drop_event)

cl_event new_event(cl_context c, cl_command_queue q, cl_command_type type, cl_int status, cl_ulong queued) {
    cl_event e = make_object(sizeof *e, EVENT);
    if (!e) return NULL;
    e->context = c;
    e->queue = q;
    e->type = type;
    e->status = status;
    e->queued = e->start = e->end = queued;
    e->waits_end = &e->waits;
    c->uses++;
    if (q) q->uses++;
    return e;
}
void use_event(cl_event e) { e->uses++; }
void leave_event(cl_event e) {
    e->uses--;
    drop_event(e);
}
CL_API_ENTRY cl_int CL_API_CALL clWaitForEvents(cl_uint n, const cl_event *list) {
    LOCKED;
    cl_int fault = CL_SUCCESS;
    if (!n || !list) return CL_INVALID_VALUE;
    for (cl_uint i = 0; i < n; i++) {
        if (!is_a(list[i], EVENT)) return CL_INVALID_EVENT;
        if (list[i]->context != list[0]->context) return CL_INVALID_CONTEXT;
    }
    for (cl_uint i = 0; i < n; i++) use_event(list[i]);
    unsigned turns = 0;
    for (cl_uint i = 0; i < n; i++) {
        // a user event that another thread sets, or a command that waits for one
        while (list[i]->status > CL_COMPLETE && (list[i]->references || list[i]->type != CL_COMMAND_USER))
            let_others("clWaitForEvents", &turns);
        see(list[i]->context, &list[i]->at);
        if (list[i]->status > CL_COMPLETE) fault = CL_INVALID_EVENT; // it was released, and nobody sets it
        else if (list[i]->status < 0 && !fault) fault = CL_EXEC_STATUS_ERROR_FOR_EVENTS_IN_WAIT_LIST;
    }
    for (cl_uint i = 0; i < n; i++) leave_event(list[i]);
    return fault;
}
CL_API_ENTRY cl_int CL_API_CALL clGetEventInfo(cl_event e, cl_event_info name, size_t room, void *to, size_t *size) {
    LOCKED;
    if (!is_a(e, EVENT)) return CL_INVALID_EVENT;
    switch (name) {
    case CL_EVENT_COMMAND_QUEUE: GIVE(cl_command_queue, e->queue);
    case CL_EVENT_CONTEXT: GIVE(cl_context, e->context);
    case CL_EVENT_COMMAND_TYPE: GIVE(cl_command_type, e->type);
    case CL_EVENT_COMMAND_EXECUTION_STATUS:
        if (e->status <= CL_COMPLETE) see(e->context, &e->at);
        GIVE(cl_int, e->status);
    case CL_EVENT_REFERENCE_COUNT: GIVE(cl_uint, e->references);
    default: return CL_INVALID_VALUE;
    }
}
CL_API_ENTRY cl_int CL_API_CALL clGetEventProfilingInfo(cl_event e, cl_profiling_info name, size_t room, void *to,
                                                        size_t *size) {
    LOCKED;
    if (!is_a(e, EVENT)) return CL_INVALID_EVENT;
    if (!e->queue || !(e->queue->properties & CL_QUEUE_PROFILING_ENABLE) || e->status != CL_COMPLETE)
        return CL_PROFILING_INFO_NOT_AVAILABLE;
    see(e->context, &e->at);
    switch (name) {
    case CL_PROFILING_COMMAND_QUEUED:
    case CL_PROFILING_COMMAND_SUBMIT: GIVE(cl_ulong, e->queued);
    case CL_PROFILING_COMMAND_START: GIVE(cl_ulong, e->start);
    case CL_PROFILING_COMMAND_END: GIVE(cl_ulong, e->end);
    default: return CL_INVALID_VALUE;
    }
}
// Callbacks are called without the lock: at once where the event is done, else at the end of the call that it is done
// in.
CL_API_ENTRY cl_int CL_API_CALL clSetEventCallback(cl_event e, cl_int when,
                                                   void(CL_CALLBACK *call)(cl_event, cl_int, void *), void *user) {
    cl_int status;
    {
        LOCKED;
        if (!is_a(e, EVENT)) return CL_INVALID_EVENT;
        if (!call || when < CL_COMPLETE || when > CL_SUBMITTED) return CL_INVALID_VALUE;
        status = e->status;
        if (status > when) {
            event_end *end = malloc(sizeof *end);
            if (!end) return CL_OUT_OF_HOST_MEMORY;
            *end = (event_end){e->ends, e, when, call, user};
            e->ends = end;
            return CL_SUCCESS;
        }
        see(e->context, &e->at);
    }
    call(e, status < 0 ? status : when, user);
    return CL_SUCCESS;
}
CL_API_ENTRY cl_event CL_API_CALL clCreateUserEvent(cl_context c, cl_int *errcode) {
    LOCKED;
    if (!is_a(c, CONTEXT)) return fail(errcode, CL_INVALID_CONTEXT);
    cl_event e = new_event(c, NULL, CL_COMMAND_USER, CL_SUBMITTED, now());
    if (!e) return fail(errcode, CL_OUT_OF_HOST_MEMORY);
    done(errcode);
    return e;
}
CL_API_ENTRY cl_int CL_API_CALL clSetUserEventStatus(cl_event e, cl_int status) {
    LOCKED;
    if (!is_a(e, EVENT) || e->type != CL_COMMAND_USER) return CL_INVALID_EVENT;
    if (status > CL_COMPLETE) return CL_INVALID_VALUE;
    if (e->status <= CL_COMPLETE) return CL_INVALID_OPERATION;
    e->at = e->context->seen;
    use_event(e);
    end_event(e, status);
    do_ready(e->context);
    leave_event(e);
    return CL_SUCCESS;
}
