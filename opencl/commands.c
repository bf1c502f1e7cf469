// Commands: what is done when its call comes, and what waits. A command waits for the events of its wait list, for the
// commands of its queue where that is in order, for the barriers in front of it where it isn't; and a barrier or a
// marker without a wait list waits for all that its queue has (OpenCL 1.2, 5.10, 5.11). Only a user event that isn't
// set makes anything wait.
#include "objects.h"
#include <stdlib.h>
#include <string.h>
#include <unistd.h>

static unsigned never_done; // commands that wait

void tell_never_done(void) {
    if (never_done)
        tell("%u command%s never done: what %s for is a user event that isn't set", never_done,
             never_done == 1 ? " was" : "s were", never_done == 1 ? "it waits" : "they wait");
}

cl_int judge_waits(cl_context c, cl_uint n, const cl_event *list) {
    if ((!n) != (!list)) return CL_INVALID_EVENT_WAIT_LIST;
    for (cl_uint i = 0; i < n; i++) {
        if (!is_a(list[i], EVENT)) return CL_INVALID_EVENT_WAIT_LIST;
        if (list[i]->context != c) return CL_INVALID_CONTEXT;
        if (list[i]->status < 0) return CL_EXEC_STATUS_ERROR_FOR_EVENTS_IN_WAIT_LIST;
    }
    return CL_SUCCESS;
}

// ---- what a command waits for ----

static bool is_in_order(cl_command_queue q) { return !(q->properties & CL_QUEUE_OUT_OF_ORDER_EXEC_MODE_ENABLE); }

// Whether a command comes after all that its queue has.
static bool is_after_all(const command *c, cl_uint n) {
    return is_in_order(c->queue) || (!n && (c->type == CL_COMMAND_BARRIER || c->type == CL_COMMAND_MARKER));
}

// One wait of a command, from a count on: the command comes after the event, which is done, or will be. Where the
// command is kept, it is put among those that wait for it.
static unsigned wait_for(command *c, cl_event e, bool is_listed, bool is_kept, unsigned count) {
    if (!e || e->status <= CL_COMPLETE) {
        if (e) come_after(&c->after, &e->at);
        return count;
    }
    if (is_kept) {
        wait_link *w = &c->waits[count];
        *w = (wait_link){NULL, c, is_listed};
        *e->waits_end = w;
        e->waits_end = &w->next;
    }
    return count + 1;
}

// All waits of a command.
static unsigned wait_for_all(command *c, cl_uint n, const cl_event *list, bool is_kept) {
    cl_command_queue q = c->queue;
    unsigned count = wait_for(c, q->last, false, is_kept, 0);
    come_after(&c->after, is_after_all(c, n) ? &q->done : &q->fenced);
    if (!is_in_order(q) && is_after_all(c, n))
        for (command *other = q->waiting; other; other = other->next)
            count = wait_for(c, other->event, false, is_kept, count);
    for (cl_uint i = 0; i < n; i++) count = wait_for(c, list[i], true, is_kept, count);
    return count;
}

// ---- what is done ----

// Does a command. What it has accessed is looked at where it was done.
static cl_int perform(command *c) {
    cl_command_queue q = c->queue;
    take_place(c);
    look_at_mappings(c);
    cl_int fault = c->act ? c->act(c) : CL_SUCCESS;
    c->is_done = !fault;
    if (fault) return fault;
    if (c->type == CL_COMMAND_MAP_BUFFER) c->map->is_there = true;
    if (!c->went) note_accesses(c);
    come_after(&q->done, &c->after);
    if (c->type == CL_COMMAND_BARRIER) come_after(&q->fenced, &c->after);
    return CL_SUCCESS;
}

static cl_int do_at_once(command *c, bool is_blocking, cl_event *event) {
    cl_event made = event ? new_event(c->queue->context, c->queue, c->type, CL_QUEUED, c->queued) : NULL;
    if (event && !made) return CL_OUT_OF_HOST_MEMORY;
    if (made) made->start = now();
    cl_int fault = perform(c);
    if (fault) {
        if (made) {
            made->references = 0;
            drop_event(made);
        }
        return fault;
    }
    if (is_blocking) see(c->queue->context, &c->after);
    if (!made) return CL_SUCCESS;
    made->at = c->after;
    end_event(made, c->went);
    *event = made;
    return CL_SUCCESS;
}

// ---- what waits ----

static void use_memory(cl_mem m, int more) {
    if (!m) return;
    m->uses += (unsigned)more;
    drop_memory(m);
}

// Keeps a command with all that it needs. NULL where memory is refused.
static command *kept(const command *c, unsigned count) {
    command *k = malloc(sizeof *k + count * sizeof(wait_link));
    cl_event e = k ? new_event(c->queue->context, c->queue, c->type, CL_QUEUED, c->queued) : NULL;
    if (!e) {
        free(k);
        return NULL;
    }
    memcpy(k, c, sizeof *k);
    k->event = e;
    k->awaited = count;
    e->uses++;
    use_memory(k->memory, 1);
    use_memory(k->target, 1);
    if (k->map) k->map->uses++;
    return k;
}

// Lets a command go that waited.
static void drop_command(command *c) {
    cl_command_queue q = c->queue;
    if (c->map && c->type == CL_COMMAND_UNMAP_MEM_OBJECT && !c->is_done) keep_mapping(c->memory, c->map);
    else if (c->map) leave_mapping(c->memory, c->map);
    if (c->kernel) {
        c->kernel->references = 0;
        drop_kernel(c->kernel);
    }
    use_memory(c->target, -1);
    use_memory(c->memory, -1);
    *c->link = c->next;
    if (c->next) c->next->link = c->link;
    else q->waiting_end = c->link;
    if (q->last == c->event) q->last = NULL;
    q->context->waiting--;
    never_done--;
    leave_event(c->event); // (which uses the queue)
    free(c);
}

static cl_int put_off(command *c, bool is_blocking, cl_uint n, const cl_event *list, unsigned count, cl_event *event) {
    cl_command_queue q = c->queue;
    cl_kernel kernel = NULL;
    cl_int fault = c->kernel ? copy_kernel(c->kernel, &kernel) : CL_SUCCESS;
    if (fault) return fault;
    command *k = kept(c, count);
    if (!k) {
        if (kernel) {
            kernel->references = 0;
            drop_kernel(kernel);
        }
        return CL_OUT_OF_HOST_MEMORY;
    }
    k->kernel = kernel;
    wait_for_all(k, n, list, true);
    k->link = q->waiting_end;
    *q->waiting_end = k;
    q->waiting_end = &k->next;
    q->context->waiting++;
    never_done++;
    if (is_in_order(q) || c->type == CL_COMMAND_BARRIER) q->last = k->event;
    cl_event e = k->event;
    unsigned turns = 0;
    if (is_blocking) {
        use_event(e);
        while (e->status > CL_COMPLETE) let_others(name_of_call(c->type), &turns);
        see(q->context, &e->at);
        fault = e->status;
        leave_event(e);
    }
    if (!event || fault) {
        e->references = 0;
        drop_event(e);
    } else *event = e;
    return fault;
}

cl_int submit(command *c, bool is_blocking, cl_uint n, const cl_event *list, cl_event *event) {
    cl_context x = c->queue->context;
    c->number = ++x->commands;
    if (c->type == CL_COMMAND_MAP_BUFFER) c->map->command = c->number;
    c->after = x->seen;
    unsigned count = wait_for_all(c, n, list, false);
    return count ? put_off(c, is_blocking, n, list, count, event) : do_at_once(c, is_blocking, event);
}

// ---- what has waited ----

void end_event(cl_event e, cl_int status) {
    e->status = status;
    e->end = now();
    while (e->ends) {
        event_end *end = e->ends;
        e->ends = end->next;
        call_back_event(end);
    }
    wait_link *w = e->waits;
    e->waits = NULL;
    e->waits_end = &e->waits;
    for (; w; w = w->next) {
        command *c = w->command;
        cl_context x = e->context;
        come_after(&c->after, &e->at);
        if (status < 0 && w->is_listed) c->is_failed = true;
        if (--c->awaited) continue;
        *x->ready_end = c;
        x->ready_end = &c->next_ready;
    }
}

static void do_kept(command *c) {
    cl_event e = c->event;
    cl_int fault = CL_EXEC_STATUS_ERROR_FOR_EVENTS_IN_WAIT_LIST;
    e->start = now();
    if (c->is_failed)
        refuse(e->context, "command %u of its context, %s, isn't done: an event that it waits for stands for an error",
               c->number, name_of_call(c->type));
    else fault = perform(c);
    e->at = c->after;
    end_event(e, fault ? fault : c->went);
    drop_command(c);
}

void do_ready(cl_context x) {
    x->uses++;
    while (x->ready) {
        command *c = x->ready;
        x->ready = c->next_ready;
        if (!x->ready) x->ready_end = &x->ready;
        do_kept(c);
    }
    leave_context(x);
}

enum { TURN_MICROSECONDS = 1000, TURNS_TOLD = 5000 };

void let_others(const char *call, unsigned *turns) {
    if (++*turns == TURNS_TOLD) tell("%s waits for a user event that isn't set", call);
    unlock();
    usleep(TURN_MICROSECONDS);
    lock();
}

void wait_for_queue(cl_command_queue q, const char *call) {
    unsigned turns = 0;
    q->uses++;
    while (q->waiting) let_others(call, &turns);
    see(q->context, &q->done);
    q->uses--;
    drop_queue(q);
}
