// What a command costs over `clsim serve`: small commands, and writes and reads of 1 MiB. Each is answered before the
// next is sent, as the driver in opencl/ does it. The commands are made beforehand, and no digit of a reply is looked
// at, so that the client's own work is nearly all that of the system's calls.
//
//     cc -O2 -std=gnu11 -Wall -Wextra -Werror -o serve_rate serve_rate.c && ./serve_rate PROGRAM
//
//   --pipes        two pipes in place of a socket pair
//   --room BYTES   asks for this much room in the pipes or in the socket pair
//   --spin MICROS  looks for the reply for so long before it sleeps
//   --together     client and device on one processor
//   --times N      how often 1 MiB is written and read: 100; small commands 100 times as often
//   --empty        in place of PROGRAM: a device that answers at once and does nothing, for what the way itself takes
#define _GNU_SOURCE
#include <errno.h>
#include <fcntl.h>
#include <sched.h>
#include <spawn.h>
#include <stdbool.h>
#include <stddef.h>
#include <stdio.h>
#include <stdlib.h>
#include <string.h>
#include <sys/ioctl.h>
#include <sys/socket.h>
#include <sys/wait.h>
#include <time.h>
#include <unistd.h>

extern char **environ;

enum { MIB = 1 << 20, TEXT_ROOM = 2 * MIB + 4096, READ_ROOM = 65536 };

typedef struct {
    bool pipes, together, empty;
    int room, times;
    double spin;
    const char *program;
} options;

// The ends of the ways to and from a device, and its process.
typedef struct {
    int to, from;
    pid_t child;
    clockid_t clock;
    double spin;
    char *reply;
} device;

// Times of the clock, in microseconds: of a whole command, until it was sent, until the first byte of its reply.
typedef struct {
    double whole, sent, first;
} lap;

static _Noreturn void fail(const char *what) {
    fprintf(stderr, "serve_rate: %s: %s\n", what, errno ? strerror(errno) : "not as it should be");
    exit(2);
}

static double micros(clockid_t clock) {
    struct timespec t;
    if (clock_gettime(clock, &t)) fail("clock_gettime");
    return (double)t.tv_sec * 1e6 + (double)t.tv_nsec / 1e3;
}

// ---- the empty device ----

static void write_all(int fd, const char *text, size_t length) {
    while (length) {
        ssize_t put = write(fd, text, length);
        if (put < 0) exit(2);
        text += put;
        length -= (size_t)put;
    }
}

// Answers a line by what it begins with.
static void answer(const char *line, char *data) {
    size_t count = 0;
    if (line[0] != 'r') return write_all(1, "ok\n", 3);
    sscanf(line, "read %*s %*u %zu", &count);
    data[5 + 2 * count] = '\n';
    write_all(1, data, 6 + 2 * count);
    data[5 + 2 * count] = '0';
}

// Reads lines as the device does, in pieces of 64 KiB, and of a longer line keeps the beginning only.
static int answer_all(void) {
    static char piece[READ_ROOM], data[TEXT_ROOM];
    char line[64] = "";
    size_t kept = 0;
    memset(data, '0', sizeof data);
    memcpy(data, "data ", 5);
    for (;;) {
        ssize_t got = read(0, piece, sizeof piece);
        if (got <= 0) return 0;
        char *feed = memchr(piece, '\n', (size_t)got);
        size_t length = feed ? (size_t)(feed - piece) : (size_t)got;
        size_t more = length < sizeof line - 1 - kept ? length : sizeof line - 1 - kept;
        memcpy(line + kept, piece, more);
        kept += more;
        if (!feed) continue;
        line[kept] = 0;
        kept = 0;
        if (strncmp(line, "__kernel", 8)) answer(line, data);
    }
}

// ---- the ways to and from a device ----

static void widen(const options *o, int fd) {
    if (!o->room) return;
    if (o->pipes ? fcntl(fd, F_SETPIPE_SZ, o->room) < 0
                 : setsockopt(fd, SOL_SOCKET, SO_SNDBUF, &o->room, sizeof o->room) < 0)
        fail("no such room");
}

// Makes the ways: the client's ends in d, the device's in `in` and `out`.
static void make_ways(const options *o, device *d, int *in, int *out) {
    int there[2], back[2];
    if (!o->pipes) {
        if (socketpair(AF_UNIX, SOCK_STREAM | SOCK_CLOEXEC, 0, there)) fail("socketpair");
        d->to = d->from = there[0];
        *in = *out = there[1];
        widen(o, there[0]);
        widen(o, there[1]);
        return;
    }
    if (pipe2(there, O_CLOEXEC) || pipe2(back, O_CLOEXEC)) fail("pipe2");
    d->to = there[1];
    d->from = back[0];
    *in = there[0];
    *out = back[1];
    widen(o, d->to);
    widen(o, d->from);
}

static void start(const options *o, device *d) {
  char *words[] = {(char *)(o->empty ? "/proc/self/exe" : o->program),
                   (char *)(o->empty ? "--answer" : "serve"), NULL};
    posix_spawn_file_actions_t actions;
    int in, out;
    make_ways(o, d, &in, &out);
    if (posix_spawn_file_actions_init(&actions) || posix_spawn_file_actions_adddup2(&actions, in, 0) ||
        posix_spawn_file_actions_adddup2(&actions, out, 1))
        fail("posix_spawn_file_actions");
    errno = posix_spawnp(&d->child, words[0], &actions, NULL, words, environ);
    if (errno) fail(words[0]);
    posix_spawn_file_actions_destroy(&actions);
    close(in);
    if (out != in) close(out);
    errno = clock_getcpuclockid(d->child, &d->clock);
    if (errno) fail("clock_getcpuclockid");
    d->spin = o->spin;
    d->reply = malloc(TEXT_ROOM);
    if (!d->reply) fail("malloc");
    memset(d->reply, 0, TEXT_ROOM); // so that no page of it is touched first in what is timed
}

static void end(device *d) {
    int status;
    close(d->to);
    if (d->from != d->to) close(d->from);
    if (waitpid(d->child, &status, 0) < 0) fail("waitpid");
    errno = 0;
    if (!WIFEXITED(status) || WEXITSTATUS(status)) fail("the device's status");
    free(d->reply);
}

// ---- commands ----

static void send_all(device *d, const char *text, size_t length) {
    while (length) {
        ssize_t put = write(d->to, text, length);
        if (put < 0) fail("write");
        text += put;
        length -= (size_t)put;
    }
}

// Looks for a reply, for as long as was asked for.
static void spin(const device *d) {
    if (d->spin <= 0) return;
    for (double last = micros(CLOCK_MONOTONIC) + d->spin; micros(CLOCK_MONOTONIC) < last;) {
        int there = 0;
        if (ioctl(d->from, FIONREAD, &there) || there) return;
    }
}

// Takes the line of a reply. Its length, without the line feed; `first` is when its first byte was there.
static size_t take_reply(device *d, double *first) {
    size_t length = 0;
    spin(d);
    do {
        ssize_t got = read(d->from, d->reply + length, TEXT_ROOM - length);
        if (got <= 0) fail("the device has ended");
        if (!length) *first = micros(CLOCK_MONOTONIC);
        length += (size_t)got;
    } while (d->reply[length - 1] != '\n');
    return length - 1;
}

static lap ask(device *d, const char *command, size_t length, size_t answered) {
    lap l;
    double begun = micros(CLOCK_MONOTONIC), first = 0;
    send_all(d, command, length);
    l.sent = micros(CLOCK_MONOTONIC) - begun;
    size_t got = take_reply(d, &first);
    l.whole = micros(CLOCK_MONOTONIC) - begun;
    l.first = first - begun;
    errno = 0;
    if (got != answered) fail("a reply");
    return l;
}

// ---- figures ----

static int by_size(const void *a, const void *b) {
    double x = *(const double *)a, y = *(const double *)b;
    return (x > y) - (x < y);
}

typedef struct {
    double least, median;
} spread;

static spread spread_of(const lap *laps, int times, size_t part) {
    double *all = malloc((size_t)times * sizeof *all);
    if (!all) fail("malloc");
    for (int i = 0; i < times; i++) memcpy(&all[i], (const char *)&laps[i] + part, sizeof all[i]);
    qsort(all, (size_t)times, sizeof *all, by_size);
    spread s = {all[0], all[times / 2]};
    free(all);
    return s;
}

// Asks the same command many times and prints a row. `answered` is the length of its reply.
static void measure(device *d, const char *name, int times, const char *command, size_t length, size_t answered) {
    lap *laps = malloc((size_t)times * sizeof *laps);
    if (!laps) fail("malloc");
    for (int i = 0; i < 3; i++) ask(d, command, length, answered);
    double its = micros(d->clock), ours = micros(CLOCK_PROCESS_CPUTIME_ID);
    for (int i = 0; i < times; i++) laps[i] = ask(d, command, length, answered);
    its = (micros(d->clock) - its) / times;
    ours = (micros(CLOCK_PROCESS_CPUTIME_ID) - ours) / times;
    spread whole = spread_of(laps, times, offsetof(lap, whole)), sent = spread_of(laps, times, offsetof(lap, sent)),
           first = spread_of(laps, times, offsetof(lap, first));
    printf("%-18s %8.1f %8.1f %8.1f %8.1f %8.1f %8.1f\n", name, whole.least, whole.median, sent.median, first.median,
           its, ours);
    fflush(stdout);
    free(laps);
}

static void measure_small(device *d, const char *name, int times, const char *command, const char *reply) {
    measure(d, name, times, command, strlen(command), strlen(reply));
}

static void measure_large(device *d, int times) {
    char *text = malloc(TEXT_ROOM);
    if (!text) fail("malloc");
    size_t length = (size_t)sprintf(text, "write b 0 ");
    for (int i = 0; i < MIB; i++) length += (size_t)sprintf(text + length, "%02x", i * 7 % 251);
    text[length++] = '\n';
    measure(d, "write of 1 MiB", times, text, length, 2);
    const char *command = "read b 0 1048576\n";
    measure(d, "read of 1 MiB", times, command, strlen(command), 5 + 2 * MIB);
    free(text);
}

static void prepare(device *d) {
    static const char *const commands[] = {
        "buffer b 1048576\n", "program p 1\n__kernel void f(__global int *a, int n) { a[0] = n; }\n", "kernel k p f\n",
        "arg k 0 buffer b\n", "arg k 1 value 0\n"};
    for (size_t i = 0; i < sizeof commands / sizeof *commands; i++) ask(d, commands[i], strlen(commands[i]), 2);
}

static options read_options(int count, char **words) {
    options o = {.times = 100};
    for (int i = 1; i < count; i++) {
        bool more = i + 1 < count;
        if (!strcmp(words[i], "--pipes")) o.pipes = true;
        else if (!strcmp(words[i], "--together")) o.together = true;
        else if (!strcmp(words[i], "--empty")) o.empty = true;
        else if (!strcmp(words[i], "--room") && more) o.room = atoi(words[++i]);
        else if (!strcmp(words[i], "--spin") && more) o.spin = atof(words[++i]);
        else if (!strcmp(words[i], "--times") && more) o.times = atoi(words[++i]);
        else o.program = words[i];
    }
    if ((!o.program && !o.empty) || o.times < 1) {
        fprintf(stderr, "usage: serve_rate [--pipes] [--room BYTES] [--spin MICROS] [--together] [--times N] "
                        "PROGRAM|--empty\n");
        exit(2);
    }
    return o;
}

int main(int count, char **words) {
    if (count == 2 && !strcmp(words[1], "--answer")) return answer_all();
    options o = read_options(count, words);
    device d;
    cpu_set_t one;
    CPU_ZERO(&one);
    CPU_SET(0, &one);
    if (o.together && sched_setaffinity(0, sizeof one, &one)) fail("sched_setaffinity");
    start(&o, &d);
    prepare(&d);
  printf("%-18s %8s %8s %8s %8s %8s %8s   microseconds\n",
         "", "least", "median", "sent", "first", "device", "client");
    measure_small(&d, "write of 4 bytes", 100 * o.times, "write b 0 01020304\n", "ok");
    measure_small(&d, "read of 4 bytes", 100 * o.times, "read b 0 4\n", "data 01020304");
    measure_small(&d, "argument", 100 * o.times, "arg k 1 value 7\n", "ok");
    measure_small(&d, "launch of one item", 100 * o.times, "launch k 1 1\n", o.empty ? "ok" : "clean");
    measure_large(&d, o.times);
    end(&d);
    return 0;
}
