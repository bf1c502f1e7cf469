#define _GNU_SOURCE
#include "child.h"
#include <errno.h>
#include <fcntl.h>
#include <poll.h>
#include <signal.h>
#include <spawn.h>
#include <string.h>
#include <sys/mman.h>
#include <sys/resource.h>
#include <sys/wait.h>
#include <time.h>
#include <unistd.h>

extern char **environ;

// How much is kept of a child's standard error, and how long a look for its end takes, in milliseconds.
enum { TOLD_ROOM = 65536, LOOK = 50 };

static long long milliseconds(void) {
    struct timespec now = {0};
    clock_gettime(CLOCK_MONOTONIC, &now);
    return now.tv_sec * 1000LL + now.tv_nsec / 1000000;
}

static void close_end(int *fd) {
    if (*fd >= 0) close(*fd);
    *fd = -1;
}

// A descriptor in place of a standard one (a client may have closed those), so that none of the child's own is taken.
static int above_standard(int fd) {
    if (fd < 0 || fd > STDERR_FILENO) return fd;
    int other = fcntl(fd, F_DUPFD_CLOEXEC, STDERR_FILENO + 1), fault = errno;
    close(fd);
    errno = fault;
    return other;
}

int file_with(const char *bytes, size_t length) {
    int fd = above_standard(memfd_create("clsim", MFD_CLOEXEC));
    while (fd >= 0 && length) {
        ssize_t put = write(fd, bytes, length);
        if (put < 0 && errno == EINTR) continue;
        if (put <= 0) {
            close_end(&fd);
            break;
        }
        bytes += put;
        length -= (size_t)put;
    }
    if (fd >= 0) lseek(fd, 0, SEEK_SET);
    return fd;
}

// ---- the start ----

static bool open_pipe(int ends[2]) {
    if (pipe2(ends, O_CLOEXEC)) {
        ends[0] = ends[1] = -1;
        return false;
    }
    for (int i = 0; i < 2; i++) ends[i] = above_standard(ends[i]);
    return ends[0] >= 0 && ends[1] >= 0;
}

static int add_actions(posix_spawn_file_actions_t *actions, const int standard[3]) {
    int fault = 0;
    for (int i = 0; !fault && i < 3; i++) fault = posix_spawn_file_actions_adddup2(actions, standard[i], i);
#if __GLIBC_PREREQ(2, 34)
    if (!fault) fault = posix_spawn_file_actions_addclosefrom_np(actions, STDERR_FILENO + 1);
#endif
    return fault;
}

static int set_attributes(posix_spawnattr_t *attributes) {
    sigset_t none, all;
    sigemptyset(&none);
    sigfillset(&all);
    int fault = posix_spawnattr_setpgroup(attributes, 0);
    if (!fault) fault = posix_spawnattr_setsigmask(attributes, &none);
    if (!fault) fault = posix_spawnattr_setsigdefault(attributes, &all);
    short flags = POSIX_SPAWN_SETPGROUP | POSIX_SPAWN_SETSIGMASK | POSIX_SPAWN_SETSIGDEF;
    return fault ? fault : posix_spawnattr_setflags(attributes, flags);
}

static int spawn(pid_t *number, char *const *words, const int standard[3]) {
    posix_spawn_file_actions_t actions;
    posix_spawnattr_t attributes;
    int fault = posix_spawn_file_actions_init(&actions);
    if (fault) return fault;
    fault = posix_spawnattr_init(&attributes);
    if (!fault) {
        fault = add_actions(&actions, standard);
        if (!fault) fault = set_attributes(&attributes);
        if (!fault) fault = posix_spawnp(number, words[0], &actions, &attributes, words, environ);
        posix_spawnattr_destroy(&attributes);
    }
    posix_spawn_file_actions_destroy(&actions);
    return fault;
}

// Where the client's own limit is lower, that one stays.
static void set_limits(pid_t number, child_limits limits) {
    const struct rlimit memory = {limits.memory, limits.memory}, time = {limits.seconds, limits.seconds}, none = {0, 0};
    prlimit(number, RLIMIT_AS, &memory, NULL);
    prlimit(number, RLIMIT_CPU, &time, NULL);
    prlimit(number, RLIMIT_CORE, &none, NULL);
}

int start_child(child *c, arena *a, char *const *words, int input, child_limits limits) {
    int output[2] = {-1, -1}, errors[2] = {-1, -1};
    *c = (child){.output = -1, .errors = -1, .told = take(a, TOLD_ROOM + 1)};
    int fault = open_pipe(output) && open_pipe(errors) ? 0 : errno;
    if (!fault) fault = spawn(&c->number, words, (const int[]){input, output[1], errors[1]});
    close_end(&output[1]);
    close_end(&errors[1]);
    if (fault) {
        close_end(&output[0]);
        close_end(&errors[0]);
        return fault;
    }
    set_limits(c->number, limits);
    c->output = output[0];
    c->errors = errors[0];
    c->last = milliseconds() + limits.seconds * 1000LL;
    return 0;
}

// ---- what it writes ----

// Whether it has ended. Until it is waited for, its number stays its own.
static bool has_ended(child *c) {
    siginfo_t end = {.si_pid = 0};
    if (c->is_taken) return true;
    c->is_taken = waitid(P_PID, (id_t)c->number, &end, WEXITED | WNOHANG | WNOWAIT) && errno == ECHILD;
    return c->is_taken || end.si_pid == c->number;
}

static ssize_t read_end(int fd, char *to, size_t room) {
    ssize_t got;
    while ((got = read(fd, to, room)) < 0 && errno == EINTR) {}
    return got;
}

// Keeps what it tells, up to a length, and lets go the rest.
static void hear(child *c) {
    char rest[4096];
    size_t room = TOLD_ROOM - c->told_length;
    ssize_t got = room ? read_end(c->errors, c->told + c->told_length, room) : read_end(c->errors, rest, sizeof rest);
    if (got <= 0) close_end(&c->errors);
    else if (room) c->told_length += (size_t)got;
}

// What came of one look at both pipes.
typedef enum { NOTHING_CAME, OUTPUT_CAME, ALL_CAME, TIME_IS_OVER } event;

// Another process may hold a pipe open: where the child has ended and nothing comes any more, that is the end too.
static event look(child *c) {
    struct pollfd ends[] = {{c->output, POLLIN, 0}, {c->errors, POLLIN, 0}};
    if (c->output < 0 && c->errors < 0) return ALL_CAME;
    if (milliseconds() >= c->last) return TIME_IS_OVER;
    bool ended = has_ended(c);
    int came = poll(ends, 2, ended ? 0 : LOOK);
    if (came <= 0) return ended && came == 0 ? ALL_CAME : NOTHING_CAME;
    if (ends[1].revents) hear(c);
    return ends[0].revents ? OUTPUT_CAME : NOTHING_CAME;
}

ssize_t read_child(child *c, char *to, size_t room) {
    for (;;) {
        event e = look(c);
        if (e == ALL_CAME) return 0;
        c->is_late = e == TIME_IS_OVER;
        if (c->is_late) return -1;
        if (e == NOTHING_CAME) continue;
        ssize_t got = read_end(c->output, to, room);
        if (got) return got;
        close_end(&c->output);
    }
}

// ---- the end ----

// Waits until it has ended of itself or its time has run out. Any wait for a child's end without its status would do;
// there is none with a limit of time.
static void wait_for_end(child *c) {
    long long pause = 1;
    while (!has_ended(c) && milliseconds() < c->last) {
        poll(NULL, 0, (int)pause);
        if (pause < LOOK) pause *= 2;
    }
}

int end_child(child *c) {
    int status = -1;
    bool is_read = c->output < 0 && c->errors < 0;
    close_end(&c->output);
    close_end(&c->errors);
    if (is_read) wait_for_end(c);
    c->is_late = c->is_late || (is_read && !has_ended(c));
    // (the group may have more processes than the child, which holds the group's number until it is waited for)
    if (!has_ended(c) || !c->is_taken) kill(-c->number, SIGKILL);
    pid_t ended;
    while ((ended = waitpid(c->number, &status, 0)) < 0 && errno == EINTR) {}
    return ended == c->number ? status : -1;
}
