// Reads a source in clients that are odd: whose standard descriptors are closed, who ignore the ends of their children,
// or wait for any of them. Each has to read it, and nothing may stay: no descriptor, no process. `front_client FILE`
#define _GNU_SOURCE
#include "../front/known.h"
#include <dirent.h>
#include <errno.h>
#include <pthread.h>
#include <signal.h>
#include <stdatomic.h>
#include <stdio.h>
#include <stdlib.h>
#include <string.h>
#include <sys/wait.h>
#include <unistd.h>

static void fail(const char *client, const char *what) {
    dprintf(9, "%s: %s\n", client, what);
    _exit(1);
}

static unsigned open_descriptors(void) {
    unsigned n = 0;
    DIR *all = opendir("/proc/self/fd");
    while (all && readdir(all)) n++;
    if (all) closedir(all);
    return n;
}

static void read_as(const char *client) {
    arena a = {.blocks = NULL};
    tree t;
    unsigned before = open_descriptors();
    if (setjmp(a.failed)) fail(client, "out of memory");
    if (!read_source(&a, known_source, "", &t)) fail(client, t.log);
    if (!is_known_tree(&a, &t)) fail(client, "another tree");
    if (read_source(&a, "kernel void k( {", "", &t)) fail(client, "a source that is none is read");
    if (!strstr(t.log, "source:1:16: error: ")) fail(client, t.log);
    free_arena(&a);
    if (open_descriptors() != before) fail(client, "a descriptor is left open");
}

static void want_no_children(const char *client) {
    if (waitpid(-1, NULL, WNOHANG) != -1 || errno != ECHILD) fail(client, "a process is left");
}

static atomic_bool is_over;
static void *wait_for_any(void *none) {
    while (!is_over) {
        waitpid(-1, NULL, WNOHANG);
        usleep(200);
    }
    return none;
}

static void block_all_signals(void) {
    sigset_t all;
    sigfillset(&all);
    pthread_sigmask(SIG_BLOCK, &all, NULL);
}

int main(void) {
    pthread_t waiting;
    dup2(2, 9);
    read_as("a plain client");
    want_no_children("a plain client");
    block_all_signals();
    read_as("a client that blocks signals");
    want_no_children("a client that blocks signals");
    for (int fd = 0; fd < 3; fd++) close(fd);
    read_as("a client without standard descriptors");
    want_no_children("a client without standard descriptors");
    signal(SIGCHLD, SIG_IGN);
    read_as("a client that ignores the ends of its children");
    want_no_children("a client that ignores the ends of its children");
    signal(SIGCHLD, SIG_DFL);
    if (pthread_create(&waiting, NULL, wait_for_any, NULL)) fail("a client that waits", "no thread");
    for (int turn = 0; turn < 5; turn++) read_as("a client that waits for any child");
    is_over = true;
    pthread_join(waiting, NULL);
    want_no_children("a client that waits for any child");
    dprintf(9, "all clients read it\n");
    return 0;
}
