#define _GNU_SOURCE
#include "folder.h"
#include "../session.h"
#include <errno.h>
#include <fcntl.h>
#include <limits.h>
#include <stdio.h>
#include <stdlib.h>
#include <string.h>
#include <sys/stat.h>
#include <unistd.h>

struct made_path {
    made_path *next;
    const char *path;
};

// A header behind a line with its name, as clang is to tell it. (One that is named as the source itself is told apart.)
static text headed(arena *a, const named_text *h) {
    text all = {.arena = a};
    add(&all, strcmp(h->name, "source") ? "#line 1 \"" : "#line 1 \"./");
    for (const char *s = h->name; *s; s++) addf(&all, "%s%c", *s == '"' || *s == '\\' ? "\\" : "", *s);
    addf(&all, "\"\n%s\n", h->text);
    return all;
}

// Room for a path, which is among those that are made from then on: it is removed where it isn't there too.
static made_path *new_path(folder *f, arena *a, const char *path, size_t length) {
    made_path *m = take(a, sizeof *m);
    *m = (made_path){f->last, copy_text(a, path, length)};
    return m;
}

static void keep(folder *f, made_path *m) { f->last = m; }

// Whether a name stays in its folder, and can be told in one line.
static bool is_inside(const char *name) {
    if (!*name || *name == '/') return false;
    for (const char *s = name; *s; s++)
        if ((unsigned char)*s < ' ') return false;
    for (const char *part = name; part; part = strchr(part, '/')) {
        part += *part == '/';
        if (!strncmp(part, "..", 2) && (part[2] == '/' || !part[2])) return false;
    }
    return true;
}

// Makes the folders that a name in it asks for. An error's number, or 0.
static int make_parents(folder *f, arena *a, const char *path, size_t first) {
    for (const char *slash = strchr(path + first, '/'); slash; slash = strchr(slash + 1, '/')) {
        made_path *m = new_path(f, a, path, (size_t)(slash - path));
        if (!mkdir(m->path, 0700)) keep(f, m);
        else if (errno != EEXIST) return errno;
    }
    return 0;
}

static int write_all(int fd, const char *s, size_t n) {
    while (n) {
        ssize_t put = write(fd, s, n);
        if (put < 0 && errno == EINTR) continue;
        if (put <= 0) return put ? errno : ENOSPC;
        s += put;
        n -= (size_t)put;
    }
    return 0;
}

static int write_header(folder *f, arena *a, const named_text *h) {
    text path = {.arena = a}, all = headed(a, h);
    addf(&path, "%s/%s", f->path, h->name);
    int fault = make_parents(f, a, path.at, strlen(f->path) + 1);
    if (fault) return fault;
    made_path *m = new_path(f, a, path.at, path.length);
    int fd = open(m->path, O_WRONLY | O_CREAT | O_EXCL | O_CLOEXEC, 0600);
    if (fd < 0) return errno;
    keep(f, m);
    fault = write_all(fd, all.at, all.length);
    close(fd);
    return fault;
}

static bool is_first(const named_text *headers, unsigned i) {
    for (unsigned k = 0; k < i; k++)
        if (!strcmp(headers[k].name, headers[i].name)) return false;
    return true;
}

const char *make_folder(folder *f, arena *a, const named_text *headers, unsigned count) {
    const char *given = setting("TMPDIR");
    text path = {.arena = a}, wrong = {.arena = a};
    *f = (folder){NULL, NULL};
    addf(&path, "%s/clsim-headers-XXXXXX", given && *given == '/' ? given : "/tmp");
    made_path *m = new_path(f, a, path.at, path.length);
    f->path = mkdtemp((char *)m->path);
    if (!f->path) {
        addf(&wrong, "cannot make a folder for headers, %s: %s\n", path.at, strerror(errno));
        return wrong.at;
    }
    keep(f, m);
    for (unsigned i = 0; i < count; i++) {
        if (!is_first(headers, i)) continue;
        bool is_named = is_inside(headers[i].name);
        int fault = is_named ? write_header(f, a, &headers[i]) : 0;
        if (is_named && !fault) continue;
        addf(&wrong, "cannot write the header %s: %s\n", headers[i].name,
             is_named ? strerror(fault) : "its name leaves the folder of headers");
        return wrong.at;
    }
    return NULL;
}

void remove_folder(folder *f) {
    for (; f->last; f->last = f->last->next) remove(f->last->path);
}

const char *current_folder(arena *a) {
    char room[PATH_MAX];
    const char *at = getcwd(room, sizeof room);
    return at ? copy_text(a, at, strlen(at)) : ".";
}
