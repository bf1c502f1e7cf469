#include "linking.h"
#include <string.h>

typedef struct definition {
    struct definition *next; // in its bucket
    const node *node;
    unsigned tree;
} definition;

enum { BUCKETS = 1024 };

typedef struct {
    arena *arena;
    definition *buckets[BUCKETS];
    refusal *wrong;
} linker;

static unsigned bucket_of(const char *name) {
    unsigned h = 2166136261u;
    for (; *name; name++) h = (h ^ (unsigned char)*name) * 16777619u;
    return h % BUCKETS;
}

static bool refuse_node(linker *l, const node *n, const char *message) {
    text words = {.arena = l->arena};
    addf(&words, "%s %s", n->name, message);
    *l->wrong = (refusal){n->place, words.at};
    return false;
}

// ---- types ----

// Whether two types of different sources are the same one, but for what qualifies them. A struct or a union is told by
// its name and its size.
static bool is_same_type(const type *a, const type *b) {
    for (;; a = a->of, b = b->of) {
        bool is_array = a->kind == ARRAY_TYPE && b->kind == ARRAY_TYPE;
        if (a->kind != b->kind || a->width != b->width || a->is_signed != b->is_signed || a->is_bool != b->is_bool)
            return false;
        if (a->kind == VECTOR_TYPE && a->length != b->length) return false;
        if (is_array && a->length && b->length && a->length != b->length) return false;
        if (a->kind == RECORD_TYPE)
            return a->record->is_union == b->record->is_union && a->record->size == b->record->size &&
                   !strcmp(a->record->name, b->record->name);
        if (a->kind == OTHER_TYPE) return !strcmp(a->name, b->name);
        if (!a->of || !b->of) return !a->of && !b->of;
        if (a->kind == POINTER_TYPE && a->of->space != b->of->space) return false;
    }
}

static bool has_same_type(const node *a, const node *b) {
    bool are_functions = a->kind == FUNCTION_DECLARATION;
    if (a->kind != b->kind || (are_functions && a->part_count != b->part_count)) return false;
    for (unsigned i = 0; are_functions && i < a->part_count; i++)
        if (!is_same_type(a->parts[i]->type, b->parts[i]->type)) return false;
    return is_same_type(a->type, b->type);
}

static bool is_overloaded(const node *n) {
    for (const attribute *a = n->attributes; a; a = a->next)
        if (!strcmp(a->name, "OverloadableAttr")) return true;
    return false;
}

// ---- definitions ----

// Whether it defines a name for other sources too (C99, 6.2.2, 6.7.4).
static bool is_definition(const node *n) {
    if (n->is_static || !n->name) return false;
    if (n->kind == FUNCTION_DECLARATION) return n->body && (!n->is_inline || n->is_extern);
    return n->kind == VARIABLE_DECLARATION && n->part_count;
}

static bool add_definition(linker *l, const node *n, unsigned tree) {
    definition **bucket = &l->buckets[bucket_of(n->name)];
    for (definition *d = *bucket; d; d = d->next) {
        if (d->tree == tree || strcmp(d->node->name, n->name)) continue;
        bool are_two = is_overloaded(n) && is_overloaded(d->node) && !has_same_type(n, d->node);
        if (!are_two) return refuse_node(l, n, "is defined in another source of this program too");
    }
    definition *d = take(l->arena, sizeof *d);
    *d = (definition){*bucket, n, tree};
    *bucket = d;
    return true;
}

static bool add_definitions(linker *l, const tree *t, unsigned number) {
    for (unsigned i = 0; i < t->declaration_count; i++)
        if (is_definition(t->declarations[i]) && !add_definition(l, t->declarations[i], number)) return false;
    return true;
}

// ---- names ----

// Lets a name stand for its definition in another source, where there is one.
static bool close_name(linker *l, node *name, unsigned tree) {
    const node *declared = name->declaration, *other = NULL;
    for (definition *d = l->buckets[bucket_of(declared->name)]; d; d = d->next) {
        if (d->tree == tree || strcmp(d->node->name, declared->name)) continue;
        if (has_same_type(declared, d->node)) {
            name->declaration = d->node;
            return true;
        }
        if (!is_overloaded(declared)) other = d->node;
    }
    return !other || refuse_node(l, declared, "is declared in another way here than where it is defined");
}

bool link_trees(arena *a, tree *const *trees, unsigned count, tree *to, refusal *wrong) {
    linker *l = take(a, sizeof *l);
    *l = (linker){.arena = a, .wrong = wrong};
    *to = (tree){.declarations = NULL};
    for (unsigned i = 0; i < count; i++) {
        if (!add_definitions(l, trees[i], i)) return false;
        to->declaration_count += trees[i]->declaration_count;
        if (trees[i]->node_count > to->node_count) to->node_count = trees[i]->node_count;
    }
    to->declarations = take(a, (to->declaration_count + 1) * sizeof *to->declarations);
    unsigned n = 0;
    for (unsigned i = 0; i < count; i++) {
        for (unsigned k = 0; k < trees[i]->open_count; k++)
            if (!close_name(l, trees[i]->open[k], i)) return false;
        for (unsigned k = 0; k < trees[i]->declaration_count; k++) to->declarations[n++] = trees[i]->declarations[k];
    }
    return true;
}
