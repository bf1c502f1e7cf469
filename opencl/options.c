#include "options.h"
#include <ctype.h>
#include <string.h>

// OpenCL 1.2, 5.6.4: those of a compiler, without -D and -I. (-cl-strict-aliasing and CL1.0 are of earlier versions;
// CL2.0 is what the constructors of the C++ bindings ask for of themselves; -g and -O are what programs ask for on
// several other platforms. None of them changes what a kernel does.)
static const char *const of_compiler[] = {"-cl-single-precision-constant",
                                          "-cl-denorms-are-zero",
                                          "-cl-fp32-correctly-rounded-divide-sqrt",
                                          "-cl-opt-disable",
                                          "-cl-strict-aliasing",
                                          "-cl-mad-enable",
                                          "-cl-no-signed-zeros",
                                          "-cl-unsafe-math-optimizations",
                                          "-cl-finite-math-only",
                                          "-cl-fast-relaxed-math",
                                          "-w",
                                          "-Werror",
                                          "-cl-std=CL1.0",
                                          "-cl-std=CL1.1",
                                          "-cl-std=CL1.2",
                                          "-cl-std=CL2.0",
                                          "-cl-kernel-arg-info",
                                          "-g",
                                          "-O0",
                                          "-O1",
                                          "-O2",
                                          "-O3",
                                          NULL};
// 5.6.5: those of a linker. (One is spelled in another way than that of the compiler: both are taken.)
static const char *const of_linker[] = {
    "-create-library",      "-enable-link-options",  "-cl-denorms-are-zero",
    "-cl-no-signed-zeroes", "-cl-no-signed-zeros",   "-cl-unsafe-math-optimizations",
    "-cl-finite-math-only", "-cl-fast-relaxed-math", NULL};

// Whether a word is one of several. An empty one, between quotes, asks for nothing.
static bool is_one_of(const char *word, const char *const *all) {
    for (; *all; all++)
        if (!strcmp(word, *all)) return true;
    return !*word;
}

char **split_options(arena *a, const char *s, size_t *count) {
    char **words = take(a, (strlen(s) / 2 + 2) * sizeof *words), *store = take(a, 2 * strlen(s) + 2);
    *count = 0;
    for (;;) {
        while (isspace((unsigned char)*s)) s++;
        if (!*s) return words;
        words[(*count)++] = store;
        char quote = 0;
        for (; *s && (quote || !isspace((unsigned char)*s)); s++) {
            if (*s == quote) quote = 0;
            else if (!quote && (*s == '"' || *s == '\'')) quote = *s;
            else {
                if (*s == '\\' && s[1]) s++;
                *store++ = *s;
            }
        }
        *store++ = 0;
    }
}

bool has_option(arena *a, const char *options, const char *word) {
    size_t count;
    char **words = split_options(a, options ? options : "", &count);
    for (size_t i = 0; i < count; i++)
        if (!strcmp(words[i], word)) return true;
    return false;
}

const char *unknown_option(arena *a, const char *options, option_kind kind) {
    size_t count;
    char **words = split_options(a, options ? options : "", &count);
    for (size_t i = 0; i < count; i++) {
        bool has_value = kind == COMPILER_OPTION && (!strncmp(words[i], "-D", 2) || !strncmp(words[i], "-I", 2));
        text without = {.arena = a};
        if (has_value && !words[i][2] && ++i == count) {
            addf(&without, "%s without a value", words[i - 1]);
            return without.at;
        }
        if (!has_value && !is_one_of(words[i], kind == COMPILER_OPTION ? of_compiler : of_linker)) return words[i];
    }
    return NULL;
}
