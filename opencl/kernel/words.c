// The words of the command line.
#define _GNU_SOURCE
#include "request.h"
#include "telling.h"
#include <stdio.h>
#include <stdlib.h>
#include <string.h>

static const char usage[] =
    "Usage: clsim-kernel FILE.cl [KERNEL] [OPTIONS]\n"
    "       clsim-kernel FILE.sim [OPTIONS]\n"
    "\n"
    "Judges one launch of a kernel as it stands in its file, without a host program.\n"
    "\n"
    "FILE.cl alone lists its kernels with their parameters, and says what is missing. FILE.sim is a file as\n"
    "oclgrind-kernel takes it. The status is 0 where the launch is clean or ordered, 1 where it has a fault, and\n"
    "else 2.\n"
    "\n"
    "Options:\n"
    "  --global SIZES          how many work-items there are in each dimension: 1024, or 64,64\n"
    "  --local SIZES           how many of them a work-group has; without it the driver chooses\n"
    "  --offset SIZES          the offsets of global ids\n"
    "  --arg NAME=VALUE        an argument, by the parameter's name or its number from 0\n"
    "  --dump NAME             shows what the launch leaves in an argument; NAME=PATH writes its bytes into a file\n"
    "  --script PATH           writes the script that `clsim run --limits large` judges again\n"
    "  --uniform               the launch is uniform: two stores of one value don't conflict\n"
    "  --orders                its result may depend on the order of its work-items: `ordered` is no fault\n"
    "  --workers N             N workers run the groups of the launch (1 to 16)\n"
    "  --budget N              the most ticks of a work-item (1 to 1000000000; by profile to 1000000)\n"
    "  --limits profile|large  what the device allows: large without this option\n"
    "  -D NAME=VALUE           a macro of the source\n"
    "  -I FOLDER               where its headers are looked for, behind the folder of FILE\n"
    "  --help                  prints this\n"
    "\n"
    "Any other word with one - in front is an option of the build, as -cl-fast-relaxed-math.\n"
    "\n"
    "Forms of an argument:\n"
    "  n=5                     a number, or 0x7f, 1.5f, 0x1.8p0 and the like; v=1,2,3,4 of a vector\n"
    "  t=local:256             bytes of local memory; t=local:int[64] that many elements\n"
    "  a=int[1024]             a buffer of zeros; a=[1024] by the type that the parameter points to\n"
    "  a=int:1,2,3             a buffer of these numbers\n"
    "  a=int[1024]:range       0, 1, 2 and so on; range=START or range=START,STEP\n"
    "  a=int[1024]:fill=7      one number everywhere\n"
    "  a=int[1024]:random      numbers by chance, each time the same; random=SEED or random=SEED,LEAST,GREATEST\n"
    "  a=int[1024]:zero        zeros\n"
    "  a=int:file=PATH         the bytes of a file; a=int[1024]:file=PATH says how many there have to be\n"
    "  a=null                  no buffer\n";

void add_word(arena *a, word_list *to, const char *word, size_t n) {
    if (to->count == to->room) {
        size_t room = 2 * to->room + 16;
        char **more = take(a, room * sizeof *more);
        if (to->count) memcpy(more, to->at, to->count * sizeof *more);
        to->at = more;
        to->room = room;
    }
    to->at[to->count++] = copy_text(a, word, n);
}

given *add_argument(request *r) {
    if (r->argument_count == r->argument_room) {
        size_t room = 2 * r->argument_room + 16;
        given *more = take(r->arena, room * sizeof *more);
        if (r->argument_count) memcpy(more, r->arguments, r->argument_count * sizeof *more);
        r->arguments = more;
        r->argument_room = room;
    }
    return &r->arguments[r->argument_count++];
}

void add_dump(request *r, const char *name, const char *path) {
    if (r->dump_count == r->dump_room) {
        size_t room = 2 * r->dump_room + 16;
        wanted_dump *more = take(r->arena, room * sizeof *more);
        if (r->dump_count) memcpy(more, r->dumps, r->dump_count * sizeof *more);
        r->dumps = more;
        r->dump_room = room;
    }
    r->dumps[r->dump_count++] = (wanted_dump){name, path};
}

unsigned read_sizes(const char *text, size_t *sizes) {
    for (unsigned d = 0; d < 3; d++) {
        size_t n = strcspn(text, ",");
        uint64_t size;
        if (!read_count(text, n, &size)) return 0;
        sizes[d] = size;
        if (!text[n]) return d + 1;
        text += n + 1;
    }
    return 0;
}

// ---- options ----

// A word of the build's options between quotes, as `split_options` takes it apart.
static void add_option(request *r, const char *word) {
    add(&r->options, " \"");
    for (; *word; word++) {
        if (strchr("\"\\", *word)) add(&r->options, "\\");
        add_bytes(&r->options, word, 1);
    }
    add(&r->options, "\"");
}

static void set_number(const char *option, const char *variable, const char *value, uint64_t most) {
    uint64_t n;
    char decimal[32];
    if (!read_count(value, strlen(value), &n) || !n || n > most)
        stop("%s takes a number from 1 to %llu, and not %s", option, (unsigned long long)most, value);
    snprintf(decimal, sizeof decimal, "%llu", (unsigned long long)n);
    setenv(variable, decimal, 1);
}

// (which limits there are is known behind the last word)
static void set_budget(request *r, const char *value) {
    r->budget = value;
    set_number("--budget", "CLSIM_BUDGET", value, 1000000000);
}
static void check_budget(const request *r) {
    const char *limits = getenv("CLSIM_LIMITS");
    if (r->budget && limits && !strcmp(limits, "profile"))
        set_number("--budget by the profile", "CLSIM_BUDGET", r->budget, 1000000);
}

static void set_limits(const char *value) {
    if (strcmp(value, "profile") && strcmp(value, "large")) stop("--limits takes profile or large, and not %s", value);
    setenv("CLSIM_LIMITS", value, 1);
}

static void want_dump(request *r, const char *value) {
    size_t n = strcspn(value, "=");
    if (!n || (value[n] && !value[n + 1])) stop("--dump %s: this is neither NAME nor NAME=PATH", value);
    add_dump(r, copy_text(r->arena, value, n), value[n] ? value + n + 1 : NULL);
}

typedef struct {
    unsigned global, local, offset; // how many sizes each option was given
} size_counts;

static void set_sizes(const char *option, const char *value, size_t least, unsigned *count, size_t *sizes) {
    if (*count) stop("%s is given twice", option);
    *count = read_sizes(value, sizes);
    if (!*count) stop("%s takes one to three sizes with commas, as 64,64, and not %s", option, value);
    for (unsigned d = 0; d < *count; d++)
        if (sizes[d] < least) stop("%s takes sizes from 1, and not %s", option, value);
}

// An option that a value stands behind. False where there is none of the name.
static bool take_option(request *r, size_counts *counts, const char *option, const char *value) {
    if (!strcmp(option, "--global")) set_sizes(option, value, 1, &counts->global, r->global);
    else if (!strcmp(option, "--local")) set_sizes(option, value, 1, &counts->local, r->local);
    else if (!strcmp(option, "--offset")) set_sizes(option, value, 0, &counts->offset, r->offset);
    else if (!strcmp(option, "--arg")) read_argument(r, value);
    else if (!strcmp(option, "--dump")) want_dump(r, value);
    else if (!strcmp(option, "--script")) r->script = value;
    else if (!strcmp(option, "--workers")) set_number(option, "CLSIM_WORKERS", value, 16);
    else if (!strcmp(option, "--budget")) set_budget(r, value);
    else if (!strcmp(option, "--limits")) set_limits(value);
    else return false;
    return true;
}

static bool takes_value(const char *option) {
    static const char *const all[] = {"--global", "--local",   "--offset", "--arg",    "--dump",
                                      "--script", "--workers", "--budget", "--limits", NULL};
    for (const char *const *o = all; *o; o++)
        if (!strcmp(option, *o)) return true;
    return false;
}

// The long option at a word, which may have its value behind a `=`. How many words it takes.
static int read_long(request *r, size_counts *counts, int left, char **words) {
    size_t n = strcspn(*words, "=");
    const char *option = copy_text(r->arena, *words, n), *value = (*words)[n] ? *words + n + 1 : NULL;
    if (!strcmp(*words, "--uniform")) {
        setenv("CLSIM_UNIFORM", "1", 1);
        return 1;
    }
    if (!strcmp(*words, "--orders")) {
        r->has_orders = true;
        return 1;
    }
    if (!takes_value(option)) stop("there is no option %s: clsim-kernel --help lists them", *words);
    if (!value && left < 2) stop("%s takes a value", option);
    take_option(r, counts, option, value ? value : words[1]);
    return value ? 1 : 2;
}

// An option of the build, with the word behind it where it is -D or -I alone. How many words it takes.
static int read_build_option(request *r, int left, char **words) {
    const char *word = *words;
    bool has_value = (word[1] == 'D' || word[1] == 'I') && !word[2];
    if (has_value && left < 2) stop("%s takes a value", word);
    add_option(r, word);
    if (has_value) add_option(r, words[1]);
    return has_value ? 2 : 1;
}

static void read_name(request *r, const char *word) {
    if (!*word) stop("a word of the command line is empty");
    if (r->kernel) stop("there is a word too many: %s", word);
    *(r->file ? &r->kernel : &r->file) = word;
}

// ---- the whole ----

static bool is_simulation(const char *file) {
    size_t n = strlen(file);
    return n > 4 && !strcmp(file + n - 4, ".sim");
}

// The sizes agree in how many dimensions they are of.
static void check_sizes(request *r, const size_counts *counts) {
    r->dimensions = counts->global;
    r->has_local = counts->local;
    if (counts->local && counts->global && counts->local != counts->global)
        stop("--local has %u size%s, and --global %u", counts->local, counts->local == 1 ? "" : "s", counts->global);
    if (counts->offset && counts->global && counts->offset != counts->global)
        stop("--offset has %u size%s, and --global %u", counts->offset, counts->offset == 1 ? "" : "s", counts->global);
}

static void read_simulation_named(request *r, const size_counts *counts) {
    if (r->kernel) stop("%s names its kernel: there is a word too many: %s", r->file, r->kernel);
    if (counts->global || counts->local || counts->offset || r->argument_count)
        stop("%s has the sizes and arguments: --global, --local, --offset and --arg aren't for it", r->file);
    read_simulation(r);
}

// Headers are looked for in the folder of the source first.
static void add_folder(request *r) {
    const char *slash = strrchr(r->file, '/');
    text all = {.arena = r->arena};
    text given_options = r->options;
    r->options = (text){.arena = r->arena};
    add_option(r, "-I");
    add_option(r, slash == r->file ? "/" : slash ? copy_text(r->arena, r->file, (size_t)(slash - r->file)) : ".");
    add(&all, r->options.at);
    if (given_options.at) add(&all, given_options.at);
    r->options = all;
}

void read_command(request *r, int count, char **words) {
    size_counts counts = {0, 0, 0};
    bool has_options = true;
    r->options = (text){.arena = r->arena};
    for (int i = 1; i < count;) {
        const char *word = words[i];
        if (has_options && !strcmp(word, "--help")) {
            fputs(usage, stdout);
            exit(fflush(stdout) ? 2 : 0);
        }
        if (has_options && !strcmp(word, "--")) {
            has_options = false;
            i++;
        } else if (has_options && !strncmp(word, "--", 2)) i += read_long(r, &counts, count - i, words + i);
        else if (has_options && word[0] == '-' && word[1]) i += read_build_option(r, count - i, words + i);
        else read_name(r, words[i++]);
    }
    if (!r->file) {
        fputs(usage, stderr);
        exit(2);
    }
    check_sizes(r, &counts);
    check_budget(r);
    if (is_simulation(r->file)) read_simulation_named(r, &counts);
    add_folder(r);
}
