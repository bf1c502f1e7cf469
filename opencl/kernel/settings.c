#define _GNU_SOURCE
#include "settings.h"
#include "telling.h"
#include <errno.h>
#include <stdio.h>
#include <stdlib.h>
#include <string.h>
#include <sys/stat.h>
#include <unistd.h>

// Where the script is recorded, and where it is kept; NULL where none is asked for, or it is recorded there.
static const char *recorded, *wanted;

static void drop_script(void) {
    if (recorded) unlink(recorded);
}

void keep_script(void) {
    if (!recorded) return;
    if (rename(recorded, wanted)) stop("cannot write %s: %s", wanted, strerror(errno));
    recorded = NULL;
}

// What isn't a file is written as it goes.
static void record_script(arena *a, const char *script) {
    struct stat about;
    text beside = {.arena = a};
    bool is_file = stat(script, &about) || S_ISREG(about.st_mode);
    addf(&beside, is_file ? "%s.new" : "%s", script);
    FILE *file = fopen(beside.at, "wbe");
    if (!file) stop("cannot write %s: %s", script, strerror(errno));
    fclose(file);
    setenv("CLSIM_SCRIPT", beside.at, 1);
    if (!is_file) return;
    recorded = beside.at;
    wanted = script;
    atexit(drop_script);
}

// Puts a folder in front of those where programs are looked for.
static void look_in(arena *a, const char *folder) {
    const char *before = getenv("PATH");
    text path = {.arena = a};
    addf(&path, "%s:%s", folder, before && *before ? before : "/usr/bin:/bin");
    setenv("PATH", path.at, 1);
}

// The device is the `clsim` beside this command, where there is one and nothing else is said. The driver takes its
// command apart at the spaces, so that a folder with one in its name isn't named there.
static void find_device(arena *a) {
    char path[4096];
    ssize_t n = readlink("/proc/self/exe", path, sizeof path - 8);
    const char *set = getenv("CLSIM_SERVE");
    text serve = {.arena = a};
    if ((set && *set) || n <= 0) return;
    path[n] = 0;
    char *slash = strrchr(path, '/');
    if (!slash) return;
    strcpy(slash, "/clsim");
    if (access(path, X_OK)) return;
    addf(&serve, "%s serve", path);
    if (!strchr(path, ' ')) setenv("CLSIM_SERVE", serve.at, 1);
    else look_in(a, copy_text(a, path, (size_t)(slash - path)));
}

void set_driver(arena *a, const char *script, bool has_orders) {
    // what these do for other host programs isn't for this one
    static const char *const others[] = {"CLSIM_ON_FAULT", "CLSIM_STATUS", "CLSIM_SCRIPT", "CLSIM_LOG",
                                         "CLSIM_ASKED",    "CLSIM_ORDERS", "CLSIM_FLAGS"};
    for (size_t i = 0; i < sizeof others / sizeof *others; i++) unsetenv(others[i]);
    if (has_orders) setenv("CLSIM_ORDERS", "always", 1);
    find_device(a);
    if (script) record_script(a, script);
}
