#define _GNU_SOURCE
#include "objects.h"
#include <pthread.h>
#include <stdarg.h>
#include <stdint.h>
#include <stdio.h>
#include <stdlib.h>
#include <string.h>
#include <time.h>

// ---- the lock ----

static pthread_mutex_t mutex = PTHREAD_RECURSIVE_MUTEX_INITIALIZER_NP;
void lock(void) { pthread_mutex_lock(&mutex); }
void unlock(void) { pthread_mutex_unlock(&mutex); }

// ---- the living objects, so that a pointer of any kind can be judged: a table with open addresses ----

static object **living;
static size_t living_count, living_room;

static size_t slot_of(const void *o) {
    size_t at = ((uintptr_t)o >> 4) * 0x9e3779b97f4a7c15u;
    for (at &= living_room - 1; living[at] && living[at] != o; at = (at + 1) & (living_room - 1)) {}
    return at;
}

static bool add_living(object *o) {
    if (2 * (living_count + 1) > living_room) {
        size_t room = living_room ? 2 * living_room : 64, old_room = living_room;
        object **old = living, **more = calloc(room, sizeof *more);
        if (!more) return false;
        living = more;
        living_room = room;
        for (size_t i = 0; i < old_room; i++)
            if (old[i]) living[slot_of(old[i])] = old[i];
        free(old);
    }
    living[slot_of(o)] = o;
    living_count++;
    return true;
}

static void remove_living(const object *o) {
    size_t at = slot_of(o);
    living[at] = NULL;
    living_count--;
    for (at = (at + 1) & (living_room - 1); living[at]; at = (at + 1) & (living_room - 1)) { // those behind it move up
        object *moved = living[at];
        living[at] = NULL;
        living[slot_of(moved)] = moved;
    }
}

bool is_a(const void *o, object_kind kind) {
    if (!o || !living_room) return false;
    const object *found = living[slot_of(o)];
    return found && found->kind == kind;
}

void *make_object(size_t size, object_kind kind) {
    object *o = calloc(1, size);
    if (!o) return NULL;
    if (!add_living(o)) {
        free(o);
        return NULL;
    }
    o->dispatch = &dispatch_table;
    o->kind = kind;
    o->references = 1;
    return o;
}

void free_object(void *o) {
    remove_living(o);
    free(o);
}

// ---- callbacks: left to the end of the call, since one may wait for another thread, which needs the lock ----

typedef struct notice {
    struct notice *next;
    void(CL_CALLBACK *call)(const char *, const void *, size_t, void *);
    void *user;
    char line[];
} notice;

static notice *notices, **notices_end = &notices; // in their order
static cl_mem gone, *gone_end = &gone;
static event_end *ended, **ended_end = &ended;

void let_go(cl_mem m) {
    remove_living((object *)m);
    *gone_end = m;
    gone_end = &m->next_gone;
}

// Where memory is refused, the callback isn't called: the line is told anyway.
void call_back(cl_context c, const char *line) {
    size_t n = strlen(line) + 1;
    notice *t = c && c->notify ? malloc(sizeof *t + n) : NULL;
    if (!t) return;
    *t = (notice){.call = c->notify, .user = c->user};
    memcpy(t->line, line, n);
    *notices_end = t;
    notices_end = &t->next;
}

void call_back_event(event_end *end) {
    use_event(end->event);
    see(end->event->context, &end->event->at);
    end->next = NULL;
    *ended_end = end;
    ended_end = &end->next;
}

static void end_events(event_end *e) {
    while (e) {
        event_end *end = e;
        cl_int status = end->event->status;
        e = e->next;
        end->call(end->event, status < 0 ? status : end->when, end->user);
        lock();
        leave_event(end->event);
        free(end);
        end_call();
    }
}

void end_call(void) {
    notice *t = notices;
    cl_mem m = gone;
    event_end *e = ended;
    notices = NULL;
    notices_end = &notices;
    gone = NULL;
    gone_end = &gone;
    ended = NULL;
    ended_end = &ended;
    unlock();
    while (t) {
        notice *said = t;
        t = t->next;
        said->call(said->line, NULL, 0, said->user);
        free(said);
    }
    while (m) {
        cl_mem last = m;
        m = m->next_gone;
        end_memory(last);
    }
    end_events(e);
}

// ---- errors ----

void *fail(cl_int *errcode, cl_int fault) {
    if (errcode) *errcode = fault;
    return NULL;
}
void done(cl_int *errcode) {
    if (errcode) *errcode = CL_SUCCESS;
}
bool is_ok(const char *reply) { return reply && !strcmp(reply, "ok"); }

cl_int error_of(const char *reply) {
    static const cl_int errors[17] = {
        CL_OUT_OF_RESOURCES,      CL_OUT_OF_RESOURCES,        CL_INVALID_MEM_OBJECT,
        CL_INVALID_VALUE,         CL_INVALID_VALUE,           CL_MEM_OBJECT_ALLOCATION_FAILURE,
        CL_INVALID_GLOBAL_OFFSET, CL_INVALID_WORK_GROUP_SIZE, CL_INVALID_GLOBAL_WORK_SIZE,
        CL_MEM_COPY_OVERLAP,      CL_BUILD_PROGRAM_FAILURE,   CL_INVALID_KERNEL_NAME,
        CL_INVALID_ARG_VALUE,     CL_INVALID_KERNEL_ARGS,     CL_OUT_OF_RESOURCES,
        CL_INVALID_OPERATION,     CL_OUT_OF_HOST_MEMORY};
    unsigned n = 0;
    if (!reply) return CL_DEVICE_NOT_AVAILABLE;
    if (sscanf(reply, "refused %u", &n) == 1 && n <= 16) return errors[n];
    return is_ok(reply) ? CL_SUCCESS : CL_OUT_OF_RESOURCES;
}

void refuse(cl_context c, const char *format, ...) {
    char line[512];
    va_list values;
    va_start(values, format);
    vsnprintf(line, sizeof line, format, values);
    va_end(values);
    tell("%s", line);
    call_back(c, line);
}

// ---- infos ----

cl_int give(const void *from, size_t n, size_t room, void *to, size_t *size) {
    if (to && room < n) return CL_INVALID_VALUE;
    if (to && n) memcpy(to, from, n);
    if (size) *size = n;
    return CL_SUCCESS;
}
cl_int give_text(const char *s, size_t room, void *to, size_t *size) {
    return give(s ? s : "", strlen(s ? s : "") + 1, room, to, size);
}

cl_ulong now(void) {
    struct timespec t;
    clock_gettime(CLOCK_MONOTONIC, &t);
    return (cl_ulong)t.tv_sec * 1000000000u + (cl_ulong)t.tv_nsec;
}
