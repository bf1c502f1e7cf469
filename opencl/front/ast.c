#define _GNU_SOURCE
#include "ast.h"
#include "../options.h"
#include "../session.h"
#include "folder.h"
#include "known.h"
#include "nodes.h"
#include <errno.h>
#include <signal.h>
#include <stdio.h>
#include <stdlib.h>
#include <string.h>
#include <sys/wait.h>
#include <unistd.h>

// What a source is read with: the limits of clang, and of what it writes.
enum { SECONDS = 60, MOST_SECONDS = 86400 };
static const uint64_t memory = 4ull << 30, most_text = 64ull << 20, most_dump = 1ull << 30;

// ---- running clang ----

// Reads what clang writes. NULL, or what is wrong with it.
typedef const char *reader(void *to, child *c);

// How a run of clang ended.
typedef struct {
    int fault;         // why it couldn't be started: an error's number, or 0
    bool is_late;      // its time ran out
    int status;        // as `waitpid` gives it, -1 where it isn't known
    const char *told;  // its standard error
    const char *wrong; // what is wrong with what it wrote, or NULL
} outcome;

typedef struct {
    child child;
    bool is_started;
    int input;
    jmp_buf failed;
} run;

static unsigned most_seconds(void) {
    const char *given = setting("CLSIM_CLANG_SECONDS");
    unsigned long n = given ? strtoul(given, NULL, 10) : 0;
    return n && n <= MOST_SECONDS ? (unsigned)n : SECONDS;
}

static int end_run(run *r) {
    int status = r->is_started ? end_child(&r->child) : -1;
    if (r->input >= 0) close(r->input);
    r->input = -1;
    return status;
}

static void do_run(run *r, arena *a, char **words, const char *text, size_t length, reader *read, void *to,
                   outcome *o) {
    r->input = file_with(text, length);
    o->fault = r->input < 0 ? errno : 0;
    if (!o->fault) o->fault = start_child(&r->child, a, words, r->input, (child_limits){most_seconds(), memory});
    r->is_started = !o->fault;
    if (o->fault == ENOMEM) longjmp(a->failed, 1);
    if (o->fault) return;
    o->wrong = read(to, &r->child);
    o->told = r->child.told;
}

// Runs clang over a text. Whatever comes of it, nothing of the child stays: where memory is refused too.
static outcome run_clang(arena *a, char **words, const char *text, size_t length, reader *read, void *to) {
    run *r = take(a, sizeof *r);
    outcome *o = take(a, sizeof *o);
    *r = (run){.input = -1};
    *o = (outcome){.status = -1, .told = ""};
    memcpy(&r->failed, &a->failed, sizeof r->failed);
    if (setjmp(a->failed)) {
        end_run(r);
        memcpy(&a->failed, &r->failed, sizeof r->failed);
        longjmp(a->failed, 1);
    }
    do_run(r, a, words, text, length, read, to, o);
    memcpy(&a->failed, &r->failed, sizeof r->failed);
    o->status = end_run(r);
    o->is_late = r->is_started && r->child.is_late;
    return *o;
}

static bool tells_errors(const outcome *o) { return strstr(o->told, "error:"); }

// Whether clang did what it was asked for. Where the client has taken its status along, what it told says so.
static bool is_done(const outcome *o) {
    bool is_clean = o->status == -1 ? !tells_errors(o) : o->status == 0;
    return !o->fault && !o->is_late && !o->wrong && is_clean;
}

// Whether a signal comes of no longer being read, which is done where something is wrong.
static bool is_of_reading(const outcome *o, int signal) { return o->wrong && (signal == SIGKILL || signal == SIGPIPE); }

// The signal that ended it; 0 where none did but those that come of no longer being read.
static int signal_of(const outcome *o) {
    int by = o->status != -1 && WIFSIGNALED(o->status) ? WTERMSIG(o->status) : 0;
    return is_of_reading(o, by) ? 0 : by;
}

// The status with which it ended. (That of a shell is 128 and the number of the signal that ended its command.)
static int status_of(const outcome *o) {
    int status = o->status != -1 && WIFEXITED(o->status) ? WEXITSTATUS(o->status) : 0;
    return is_of_reading(o, status - 128) ? 0 : status;
}

// Why it isn't, in words for a log.
static void explain_outcome(text *log, const char *clang, const outcome *o) {
    int by = signal_of(o), status = status_of(o);
    if (o->fault) addf(log, "cannot start %s: %s\n", clang, strerror(o->fault));
    else if (o->is_late)
        addf(log, "%s takes longer than %u seconds for this source (CLSIM_CLANG_SECONDS sets how long it may take)\n",
             clang, most_seconds());
    else if (by) addf(log, "%s was ended by signal %d (%s) at this source\n%s", clang, by, strsignal(by), o->told);
    else if (tells_errors(o)) add(log, o->told);
    else if (status) addf(log, "%s ends with status %d\n%s", clang, status, o->told);
    else
        addf(log, "%s writes a tree of this source that Clsim can't read: %s\n", clang,
             o->wrong ? o->wrong : "it isn't known how it ended");
}

// ---- its words ----

#define EXTENSIONS \
    "-cl-ext=-all,+cl_khr_byte_addressable_store,+cl_khr_global_int32_base_atomics," \
    "+cl_khr_global_int32_extended_atomics,+cl_khr_local_int32_base_atomics,+cl_khr_local_int32_extended_atomics," \
    "+cl_khr_fp64,+__cl_clang_bitfields"

// (clang's dump doesn't tell what `__builtin_offsetof` comes to; it tells the length of an array)
static const char *const for_all[] = {"-target",
                                      "spir64",
                                      "-x",
                                      "cl",
                                      "-cl-std=CL1.2",
                                      "-Xclang",
                                      "-fdeclare-opencl-builtins",
                                      "-Xclang",
                                      EXTENSIONS,
                                      "-fno-color-diagnostics",
                                      "-fno-crash-diagnostics",
                                      NULL};
static const char *const for_source[] = {
    "-Xclang",
    "-finclude-default-header",
    "-D__OPENCL_VERSION__=120",
    "-U__IMAGE_SUPPORT__",
    "-D__builtin_offsetof(t,...)=(sizeof(char[__builtin_offsetof(t,__VA_ARGS__)+1])-1)",
    NULL};
static const char *const for_preprocessing[] = {"-w", "-E", "-dD", NULL};
static const char *const for_checking[] = {"-fsyntax-only", NULL};
static const char *const for_dump[] = {
    "-w", "-cl-no-stdinc", "-Xclang", "-x", "-Xclang", "cl-cpp-output", "-fsyntax-only", "-Xclang", "-ast-dump", NULL};

typedef struct {
    arena *arena;
    char **at;
    size_t count, room;
} word_list;

static void add_word(word_list *l, const char *word) {
    if (l->count + 1 >= l->room) {
        size_t room = l->room * 2 + 32;
        char **more = take(l->arena, room * sizeof *more);
        if (l->count) memcpy(more, l->at, l->count * sizeof *more);
        l->at = more;
        l->room = room;
    }
    l->at[l->count++] = copy_text(l->arena, word, strlen(word));
    l->at[l->count] = NULL;
}

static void add_words(word_list *l, const char *const *words) {
    for (; *words; words++) add_word(l, *words);
}

// Whether clang gets an option of a build as it is (OpenCL 1.2, 5.6.4): what changes how a source reads.
// `-cl-std=CL2.0` is what the constructors of the C++ bindings ask for of themselves.
static bool is_for_clang(const char *option) {
    static const char *const passed[] = {"-cl-single-precision-constant",
                                         "-cl-fast-relaxed-math",
                                         "-cl-finite-math-only",
                                         "-cl-std=CL1.0",
                                         "-cl-std=CL1.1",
                                         NULL};
    for (const char *const *p = passed; *p; p++)
        if (!strcmp(option, *p)) return true;
    return false;
}

static bool takes_value(const char *option) { return !strncmp(option, "-D", 2) || !strncmp(option, "-I", 2); }

typedef struct {
    arena *arena;
    const char *clang;
    const client_source *source;
    const char *headers, *current; // the folder of the headers, and the client's own one; NULL without headers
    char **options;
    size_t option_count;
    bool wants_warnings; // as errors
    int fault;           // why clang couldn't be started: an error's number, or 0
    bool is_late;        // its time ran out
} request;

// An option with a value as one word. A folder of the client's is found from the one of the headers too.
static void add_option_with(word_list *l, const request *q, const char *option, const char *value) {
    bool is_moved = option[1] == 'I' && q->headers && *value != '/';
    text word = {.arena = l->arena};
    addf(&word, "%.2s%s%s%s", option, is_moved ? q->current : "", is_moved ? "/" : "", value);
    add_word(l, word.at);
}

static void add_options(word_list *l, const request *q, bool with_values) {
    for (size_t i = 0; i < q->option_count; i++) {
        const char *option = q->options[i];
        bool has_value = takes_value(option), is_split = has_value && !option[2] && i + 1 < q->option_count;
        if (is_for_clang(option)) add_word(l, option);
        if (has_value && with_values) add_option_with(l, q, option, is_split ? q->options[i + 1] : option + 2);
        i += is_split;
    }
}

// The headers are found in front of all other files: clang's folder is theirs.
static void add_headers(word_list *l, const request *q) {
    const char *const words[] = {"-working-directory", q->headers, "-iquote",  q->headers, "-iquote",
                                 q->current,           "-I",       q->headers, NULL};
    if (q->headers) add_words(l, words);
}

// The command that reads the client's source, or with `for_dump` what was preprocessed of it.
static char **words_for(const request *q, const char *const *purpose) {
    word_list l = {.arena = q->arena};
    bool is_source = purpose != for_dump;
    add_word(&l, q->clang);
    add_words(&l, for_all);
    if (is_source) add_words(&l, for_source);
    if (is_source) add_headers(&l, q);
    add_options(&l, q, is_source);
    if (purpose == for_checking) add_word(&l, q->wants_warnings ? "-Werror" : "-w");
    add_words(&l, purpose);
    add_word(&l, "-");
    return l.at;
}

// ---- reading what it writes ----

typedef struct {
    arena *arena;
    char *at;
    size_t length, room;
} whole;

static const char *read_whole(void *to, child *c) {
    whole *w = to;
    for (;;) {
        if (w->length == w->room) {
            if (w->room >= most_text) return "it is too long";
            size_t room = w->room ? w->room * 2 : 65536;
            char *more = take(w->arena, room);
            if (w->length) memcpy(more, w->at, w->length);
            w->at = more;
            w->room = room;
        }
        ssize_t got = read_child(c, w->at + w->length, w->room - w->length);
        if (got <= 0) return got ? "it can't be read" : NULL;
        w->length += (size_t)got;
    }
}

typedef struct {
    arena *arena;
    rows *rows;
    tree *tree;
} tree_request;

static const char *read_tree(void *to, child *c) {
    const tree_request *q = to;
    dump *d = take(q->arena, sizeof *d);
    open_dump(d, c, q->arena, most_dump);
    return read_nodes(q->arena, d, q->rows, q->tree);
}

// ---- a source ----

static const char last_line[] = "#pragma clsim_end_of_source\n"; // by which a text is known to be whole

// The source with a first line that names it for clang's messages.
static text named_source(arena *a, const char *source) {
    text named = {.arena = a};
    addf(&named, "#line 1 \"source\"\n%s\n\n%s", source, last_line);
    return named;
}

// The length of a text without its last line, where that is empty or says where the next one stands.
static size_t without_last_mark(const whole *w, size_t length) {
    size_t begin = length ? length - 1 : 0;
    if (!length || w->at[begin] != '\n') return length;
    while (begin && w->at[begin - 1] != '\n') begin--;
    return length - begin == 1 || (length - begin > 2 && !memcmp(w->at + begin, "# ", 2)) ? begin : length;
}

// (clang 13 writes such lines behind a pragma)
static bool ends_as_source(const whole *w) {
    size_t n = sizeof last_line - 1, length = w->length;
    for (size_t before = 0; length != before;) {
        before = length;
        length = without_last_mark(w, length);
    }
    return length >= n && !memcmp(w->at + length - n, last_line, n);
}

// OpenCL 1.2, 6.12.7: clang knows these only where it takes arithmetic of half.
static const char of_half[] =
    "#define CLSIM_O __attribute__((overloadable))\n"
    "#define CLSIM_L(S, N) float##N CLSIM_O vload_half##N(size_t, const S half *);\n"
    "#define CLSIM_A(S, N) CLSIM_L(S, N) float##N CLSIM_O vloada_half##N(size_t, const S half *);\n"
    "#define CLSIM_W(S, T, F) void CLSIM_O F(T, size_t, S half *);\n"
    "#define CLSIM_M(S, T, F) CLSIM_W(S, T, F) CLSIM_W(S, T, F##_rte) CLSIM_W(S, T, F##_rtz) "
    "CLSIM_W(S, T, F##_rtp) CLSIM_W(S, T, F##_rtn)\n"
    "#define CLSIM_S(S, N) CLSIM_M(S, float##N, vstore_half##N) CLSIM_M(S, double##N, vstore_half##N)\n"
    "#define CLSIM_B(S, N) CLSIM_S(S, N) CLSIM_M(S, float##N, vstorea_half##N) CLSIM_M(S, double##N, vstorea_half##N)\n"
    "#define CLSIM_N(M, S) M(S, 2) M(S, 3) M(S, 4) M(S, 8) M(S, 16)\n"
    "#define CLSIM_ALL(S) CLSIM_L(S, ) CLSIM_N(CLSIM_A, S) CLSIM_S(S, ) CLSIM_N(CLSIM_B, S)\n"
    "CLSIM_ALL(__global) CLSIM_ALL(__local) CLSIM_ALL(__private)\n"
    "CLSIM_L(__constant, ) CLSIM_N(CLSIM_A, __constant)\n"
    "#undef CLSIM_O\n#undef CLSIM_L\n#undef CLSIM_A\n#undef CLSIM_W\n#undef CLSIM_M\n#undef CLSIM_S\n"
    "#undef CLSIM_B\n#undef CLSIM_N\n#undef CLSIM_ALL\n";

static outcome check_source(const request *q, const text *named) {
    whole nothing = {.arena = q->arena};
    text checked = {.arena = q->arena};
    if (strstr(named->at, "_half")) add(&checked, of_half);
    add_bytes(&checked, named->at, named->length);
    return run_clang(q->arena, words_for(q, for_checking), checked.at, checked.length, read_whole, &nothing);
}

// Why clang doesn't take a source: what it says of the client's own text, where that is at hand and it says so there
// too.
static void explain_refusal(const request *q, const text *named, const outcome *o, text *log) {
    if (named && tells_errors(o)) {
        outcome again = check_source(q, named);
        if (!is_done(&again) && tells_errors(&again)) {
            add(log, again.told);
            return;
        }
    }
    explain_outcome(log, q->clang, o);
}

// What clang looks for where it knows a built-in function by an extension: the preprocessed text has no macros any
// more. By cl_khr_fp16 it knows vload_half and its like; arithmetic of half it refuses all the same.
static const char in_front[] =
    "#define __opencl_c_int64 1\n"
    "#define __opencl_c_named_address_space_builtins 1\n"
    "#define cl_khr_byte_addressable_store 1\n"
    "#define cl_khr_global_int32_base_atomics 1\n"
    "#define cl_khr_global_int32_extended_atomics 1\n"
    "#define cl_khr_local_int32_base_atomics 1\n"
    "#define cl_khr_local_int32_extended_atomics 1\n"
    "#define cl_khr_fp64 1\n"
    "#define cl_khr_fp16 1\n";
static const char behind[] = "\ntypedef int " LAST_NAME ";\n";

// Reads what a source is after its preprocessing. Without `named` its own text isn't read again.
static bool read_preprocessed(request *q, const text *named, const char *at, size_t length, tree *t, text *log) {
    text read = {.arena = q->arena};
    add(&read, in_front);
    add_bytes(&read, at, length);
    add(&read, behind);
    tree_request wanted = {q->arena, read_rows(q->arena, read.at, read.length, q->source), t};
    outcome o = run_clang(q->arena, words_for(q, for_dump), read.at, read.length, read_tree, &wanted);
    q->is_late = o.is_late;
    if (!is_done(&o)) explain_refusal(q, named, &o, log);
    return is_done(&o);
}

// Preprocesses a source; with `is_checked` it is judged first, as it is where its warnings are errors.
static bool preprocess(request *q, const text *named, bool is_checked, whole *w, text *log) {
    outcome o = {.told = ""};
    if (is_checked || q->wants_warnings) o = check_source(q, named);
    if (is_done(&o)) o = run_clang(q->arena, words_for(q, for_preprocessing), named->at, named->length, read_whole, w);
    q->fault = o.fault;
    q->is_late = o.is_late;
    if (is_done(&o) && !ends_as_source(w)) o.wrong = "its preprocessed text ends too early";
    if (!is_done(&o)) explain_outcome(log, q->clang, &o);
    return is_done(&o);
}

static request request_for(arena *a, const char *clang, const client_source *s) {
    request q = {.arena = a, .clang = clang, .source = s};
    q.options = split_options(a, s->options ? s->options : "", &q.option_count);
    for (size_t i = 0; i < q.option_count; i++) q.wants_warnings |= !strcmp(q.options[i], "-Werror");
    return q;
}

static bool read_by(request *q, unsigned taken, tree *t, text *log) {
    const client_source *s = q->source;
    *t = (tree){.node_count = taken};
    if (s->preprocessed) return read_preprocessed(q, NULL, s->preprocessed, s->preprocessed_length, t, log);
    whole *w = take(q->arena, sizeof *w);
    w->arena = q->arena;
    text named = named_source(q->arena, s->source.text);
    return preprocess(q, &named, false, w, log) && read_preprocessed(q, &named, w->at, w->length, t, log);
}

// ---- which clang ----

enum { NEWEST = 24, OLDEST = 13, NAME_ROOM = 4096 };

static char chosen[NAME_ROOM]; // the one that reads what every source has; empty until one is found

// The version that clang tells, as `14.0.6`; `?` where it tells none.
static const char *version_of(arena *a, const char *clang) {
    static const char mark[] = "clang version ";
    char *words[] = {copy_text(a, clang, strlen(clang)), copy_text(a, "--version", 9), NULL};
    whole w = {.arena = a};
    run_clang(a, words, "", 0, read_whole, &w);
    const char *told = w.length ? copy_text(a, w.at, w.length) : "", *at = strstr(told, mark);
    return at ? copy_text(a, at + strlen(mark), strcspn(at + strlen(mark), " \n")) : "?";
}

// Whether a clang can be used. Where it is there and can't, the log says why.
static bool is_usable(arena *a, const char *clang, text *log) {
    static const client_source known = {.source = {"source", known_source}};
    request *q = take(a, sizeof *q);
    tree *t = take(a, sizeof *t);
    text why = {.arena = a};
    add(&why, "");
    *q = request_for(a, clang, &known);
    bool is_read = read_by(q, 0, t, &why);
    if (is_read && is_known_tree(a, t)) return true;
    if (q->fault == ENOENT) return false;
    if (q->fault || q->is_late) add(log, why.at);
    else addf(log, "clang %s (%s) writes a tree that Clsim can't read\n%s", version_of(a, clang), clang, why.at);
    return false;
}

static bool choose(arena *a, const char *name, text *log) {
    bool is_right = strlen(name) < sizeof chosen && is_usable(a, name, log);
    if (is_right) strcpy(chosen, name);
    return is_right;
}

// Finds clang: the one that CLSIM_CLANG names, else `clang`, else the newest `clang-N` on the path.
static bool find_clang(arena *a, text *log) {
    const char *given = setting("CLSIM_CLANG");
    char name[24];
    if (*chosen && (!given || !strcmp(given, chosen))) return true;
    if (choose(a, given ? given : "clang", log)) return true;
    for (int version = NEWEST; !given && version >= OLDEST; version--) {
        snprintf(name, sizeof name, "clang-%d", version);
        if (choose(a, name, log)) return true;
    }
    if (!log->length)
        addf(log, "cannot start %s: it isn't there (version %d or above; CLSIM_CLANG may name it)\n",
             given ? given : "clang", OLDEST);
    return false;
}

// Why the last step didn't come out.
static const char *log_text(const text *log) { return log->at ? log->at : "clang doesn't read this source\n"; }

bool read_compiled(arena *a, client_source *s, unsigned taken, tree *t) {
    text log = {.arena = a};
    *t = (tree){.declarations = NULL};
    bool is_found = find_clang(a, &log);
    if (is_found) log = (text){.arena = a};
    request q = request_for(a, chosen, s);
    bool is_read = is_found && read_by(&q, taken, t, &log);
    t->log = is_read ? NULL : log_text(&log);
    return is_read;
}

bool read_source(arena *a, const char *source, const char *options, tree *t) {
    client_source *s = take(a, sizeof *s);
    *s = (client_source){.source = {"source", source}, .options = options};
    return read_compiled(a, s, 0, t);
}

// ---- a source that is compiled ----

static bool compile_by(request *q, client_source *s, text *log) {
    whole *w = take(q->arena, sizeof *w);
    w->arena = q->arena;
    text named = named_source(q->arena, s->source.text);
    if (!preprocess(q, &named, true, w, log)) return false;
    s->preprocessed = w->at;
    s->preprocessed_length = w->length;
    return true;
}

// Compiles a source with its headers in a folder, which goes again: where memory is refused too.
static bool compile_with(request *q, folder *f, client_source *s, text *log) {
    jmp_buf *outer = take(q->arena, sizeof *outer);
    memcpy(outer, &q->arena->failed, sizeof *outer);
    if (setjmp(q->arena->failed)) {
        remove_folder(f);
        memcpy(&q->arena->failed, outer, sizeof *outer);
        longjmp(q->arena->failed, 1);
    }
    const char *wrong = make_folder(f, q->arena, s->headers, s->header_count);
    q->headers = f->path;
    q->current = current_folder(q->arena);
    if (wrong) add(log, wrong);
    bool is_done = !wrong && compile_by(q, s, log);
    memcpy(&q->arena->failed, outer, sizeof *outer);
    remove_folder(f);
    return is_done;
}

const char *compile_source(arena *a, client_source *s) {
    text log = {.arena = a};
    if (!find_clang(a, &log)) return log_text(&log);
    log = (text){.arena = a};
    request *q = take(a, sizeof *q);
    *q = request_for(a, chosen, s);
    bool is_done = s->header_count ? compile_with(q, take(a, sizeof(folder)), s, &log) : compile_by(q, s, &log);
    return is_done ? NULL : log_text(&log);
}
