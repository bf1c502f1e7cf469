#define _GNU_SOURCE
#include "telling.h"
#include <ctype.h>
#include <errno.h>
#include <stdarg.h>
#include <stdio.h>
#include <stdlib.h>
#include <string.h>
#include <sys/mman.h>
#include <sys/stat.h>
#include <unistd.h>

static const char command[] = "clsim-kernel";
// How the driver calls the client's own text, and what its lines begin with.
static const char driver_source[] = "source:", driver_head[] = "clsim: ";

static const char *path_of_source = "source";
static int log_file = -1;
static off_t log_seen;
static bool script_is_lost;

void stop(const char *format, ...) {
    va_list values;
    fflush(stdout);
    fprintf(stderr, "%s: ", command);
    va_start(values, format);
    vfprintf(stderr, format, values);
    va_end(values);
    fputc('\n', stderr);
    exit(2);
}

char *read_file(arena *a, const char *path, const char *from, size_t *n) {
    FILE *file = fopen(path, "rbe");
    char room[65536];
    text all = {.arena = a};
    struct stat about;
    errno = file && !fstat(fileno(file), &about) && S_ISDIR(about.st_mode) ? EISDIR : errno;
    if (!file || errno == EISDIR)
        stop("%s%scannot read %s: %s", from ? from : "", from ? ": " : "", path, strerror(errno));
    add(&all, "");
    for (size_t got; (got = fread(room, 1, sizeof room, file)) > 0;) add_bytes(&all, room, got);
    if (ferror(file)) stop("%s%scannot read %s: %s", from ? from : "", from ? ": " : "", path, strerror(errno));
    fclose(file);
    *n = all.length;
    return all.at;
}

// ---- the driver's lines ----

void keep_lines(const char *path) {
    char name[64];
    path_of_source = path;
    log_file = memfd_create(command, MFD_CLOEXEC);
    snprintf(name, sizeof name, "/proc/self/fd/%d", log_file);
    if (log_file >= 0) setenv("CLSIM_LOG", name, 1); // (else they stay on standard error)
}

// What was said since the last look, NULL for nothing. The caller frees it.
static char *new_lines(void) {
    struct stat about;
    if (log_file < 0 || fstat(log_file, &about) || about.st_size <= log_seen) return NULL;
    size_t n = (size_t)(about.st_size - log_seen), at = 0;
    char *lines = malloc(n + 1);
    if (!lines) return NULL;
    for (ssize_t got; at < n && (got = pread(log_file, lines + at, n - at, log_seen + (off_t)at)) > 0;)
        at += (size_t)got;
    lines[at] = 0;
    log_seen += (off_t)at;
    script_is_lost |= strstr(lines, "the script is not whole") != NULL;
    return lines;
}

// Writes a line with the file's path where the driver has its own word for it: in front of a line's number, and at the
// beginning.
static void put_named(FILE *to, const char *line, size_t n) {
    size_t length = sizeof driver_source - 1;
    for (size_t i = 0; i < n; i++) {
        bool begins = !i || strchr(" (,", line[i - 1]),
             is_it = n - i > length && !strncmp(line + i, driver_source, length);
        if (begins && is_it && (!i || isdigit((unsigned char)line[i + length]))) {
            fprintf(to, "%s:", path_of_source);
            i += length - 1;
        } else fputc(line[i], to);
    }
    fputc('\n', to);
}

static const char *behind_head(const char *line) {
    size_t n = sizeof driver_head - 1;
    return strncmp(line, driver_head, n) ? line : line + n;
}

static bool begins_with(const char *line, const char *word) { return !strncmp(line, word, strlen(word)); }

// (which launches of a context were ordered is known: there is but one)
static void tell_lines(const char *lines) {
    for (const char *at = lines; at && *at;) {
        size_t n = strcspn(at, "\n");
        const char *line = behind_head(at);
        if (!begins_with(line, "ordered launches ")) {
            fprintf(stderr, "%s: ", command);
            put_named(stderr, line, n - (size_t)(line - at));
        }
        at += n + (at[n] != 0);
    }
}

void tell_errors(void) {
    char *lines = new_lines();
    tell_lines(lines);
    free(lines);
}

bool is_script_lost(void) { return script_is_lost; }

void tell_log(const char *log, const char *in_front) {
    fflush(stdout);
    while (*log) {
        size_t n = strcspn(log, "\n");
        fputs(in_front, stderr);
        put_named(stderr, log, n);
        log += n + (log[n] != 0);
    }
}

// ---- the verdict ----

static verdict verdict_of(const char *lines) {
    const char *line = lines ? behind_head(lines) : "";
    return begins_with(line, "fault ") ? FAULT_VERDICT : begins_with(line, "ordered: ") ? ORDERED_VERDICT : NO_VERDICT;
}

verdict tell_verdict(void) {
    static const char launch[] = ", launch 1 of its context";
    char *lines = new_lines();
    verdict found = verdict_of(lines);
    if (found == NO_VERDICT) tell_lines(lines);
    for (char *at = lines; found != NO_VERDICT && at && *at;) {
        size_t n = strcspn(at, "\n"), next = n + (at[n] != 0);
        char *line = at + (behind_head(at) - at), *cut = memmem(at, n, launch, sizeof launch - 1);
        n -= (size_t)(line - at);
        at += next;
        if (cut && !strncmp(line, "  kernel ", 9)) { // (there is but one)
            memmove(cut, cut + sizeof launch - 1, (size_t)(line + n - cut) - (sizeof launch - 1));
            n -= sizeof launch - 1;
        }
        put_named(stdout, line, n);
    }
    free(lines);
    return found;
}
