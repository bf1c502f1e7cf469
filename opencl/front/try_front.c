// Writes what the translator makes of a source: try_front FILE [options of a build]. With TRY_FRONT_PLACES in the
// environment the places of the text too.
#include "translate.h"
#include <stdio.h>
#include <stdlib.h>
#include <string.h>

static char *whole_file(arena *a, const char *path) {
    FILE *f = fopen(path, "rb");
    text all = {.arena = a};
    char room[4096];
    size_t n;
    if (!f) return NULL;
    add(&all, "");
    while ((n = fread(room, 1, sizeof room, f)) > 0) add_bytes(&all, room, n);
    fclose(f);
    return all.at;
}

static void show_kernel(const judged_kernel *k) {
    static const char *const kinds[] = {"buffer", "local", "value", "table", "origin", "size", "print", "room"};
    fprintf(stderr, "kernel %s:", k->function->name);
    for (unsigned i = 0; i < k->parameter_count; i++) {
        const judged_parameter *p = &k->parameters[i];
        fprintf(stderr, " %s:%s:%u:%llu", kinds[p->kind], name_of(p->type), p->argument, (unsigned long long)p->offset);
    }
    fprintf(stderr, "\n");
}

static void show_places(const judged_source *s) {
    for (size_t i = 0; i < s->place_count; i++) {
        const judged_place *p = &s->places[i];
        size_t end = i + 1 < s->place_count ? s->places[i + 1].offset : s->length;
        fprintf(stderr, "%s:%u:%u loop %u before %u: %.*s\n", p->at->file, p->at->line, p->at->column, p->loop,
                p->before ? p->before->loop : 0, (int)(end - p->offset), s->text + p->offset);
    }
}

static int try_source(arena *a, const char *path, const char *options) {
    tree tree;
    judged_source judged;
    refusal wrong;
    const char *source = whole_file(a, path);
    if (!source) return 2;
    if (!read_source(a, source, options, &tree)) {
        fprintf(stderr, "%s", tree.log);
        return 1;
    }
    if (!translate(a, &tree, &judged, &wrong)) {
        fprintf(stderr, "%s:%u:%u: error: %s\n", wrong.at.file, wrong.at.line, wrong.at.column, wrong.message);
        return 1;
    }
    fwrite(judged.text, 1, judged.length, stdout);
    fprintf(stderr, "%s", judged.notes);
    for (unsigned i = 0; getenv("TRY_FRONT_PARAMETERS") && i < judged.kernel_count; i++)
        show_kernel(&judged.kernels[i]);
    if (getenv("TRY_FRONT_PLACES")) show_places(&judged);
    return 0;
}

int main(int count, char **words) {
    arena a = {NULL};
    text options = {.arena = &a};
    if (setjmp(a.failed)) return 3;
    if (count < 2) return 2;
    add(&options, "");
    for (int i = 2; i < count; i++) addf(&options, "%s%s", i > 2 ? " " : "", words[i]);
    int status = try_source(&a, words[1], options.at);
    free_arena(&a);
    return status;
}
