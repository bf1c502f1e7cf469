// Prints the tree that the front end reads of a source: `front_tree FILE [OPTIONS]`. The build log where it reads none.
#include "../front/known.h"
#include <stdio.h>
#include <stdlib.h>

// The bytes of a file with a zero behind them.
static char *file_text(const char *path) {
    FILE *file = fopen(path, "rb");
    if (!file || fseek(file, 0, SEEK_END)) return NULL;
    long length = ftell(file);
    char *text = calloc((size_t)length + 1, 1);
    rewind(file);
    if (text && fread(text, 1, (size_t)length, file) != (size_t)length) {
        free(text);
        text = NULL;
    }
    fclose(file);
    return text;
}

static int print_tree(const char *source, const char *options) {
    arena a = {.blocks = NULL};
    tree t;
    if (setjmp(a.failed)) {
        free_arena(&a);
        fprintf(stderr, "front_tree: out of memory\n");
        return 2;
    }
    bool is_read = read_source(&a, source, options, &t);
    text written = {.arena = &a};
    if (is_read) write_tree(&written, &t);
    fputs(is_read ? written.at ? written.at : "" : t.log, is_read ? stdout : stderr);
    free_arena(&a);
    return is_read ? 0 : 1;
}

int main(int count, char **words) {
    unsetenv("LD_PRELOAD"); // what refuses this program's memory isn't for clang
    char *source = count > 1 ? file_text(words[1]) : NULL;
    if (!source) {
        fprintf(stderr, "front_tree: no source can be read\n");
        return 2;
    }
    int status = print_tree(source, count > 2 ? words[2] : "");
    free(source);
    return status;
}
