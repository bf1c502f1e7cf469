#include "known.h"
#include <inttypes.h>
#include <string.h>

// ---- a tree as text ----

static const char *const kinds[] = {"function",    "parameter",
                                    "variable",    "enumerator",
                                    "idle",        "unknown declaration",
                                    "compound",    "declarations",
                                    "null",        "if",
                                    "while",       "do",
                                    "for",         "switch",
                                    "case",        "default",
                                    "break",       "continue",
                                    "return",      "goto",
                                    "label",       "unknown statement",
                                    "integer",     "floating",
                                    "string",      "name",
                                    "subscript",   "member",
                                    "component",   "unary",
                                    "binary",      "assignment",
                                    "conditional", "call",
                                    "cast",        "list",
                                    "zeros",       "literal",
                                    "size",        "offset",
                                    "as_type",     "statement expression",
                                    "common",      "unknown expression"};
static const char *const spaces[] = {"", "global ", "constant ", "local "};

// A struct stands there by its name and size.
static void write_base(text *to, const type *t) {
    static const char *const words[] = {"void", "", "", "", "", "", "", "function ", "event", "other "};
    addf(to, "%s%s%s%s", t->is_const ? "const " : "", t->is_volatile ? "volatile " : "",
         t->is_restrict ? "restrict " : "", spaces[t->space]);
    if (t->kind == INTEGER_TYPE) addf(to, "%s%u", t->is_bool ? "b" : t->is_signed ? "i" : "u", t->width * 8);
    else if (t->kind == FLOATING_TYPE) addf(to, "f%u", t->width * 8);
    else if (t->kind == RECORD_TYPE)
        addf(to, "%s %s {%" PRIu64 ", %" PRIu64 "}", t->record->is_union ? "union" : "struct", t->record->name, t->size,
             t->align);
    else addf(to, "%s%s", words[t->kind], t->kind == OTHER_TYPE ? t->name : "");
}

// From the outermost part inwards.
static void write_type(text *to, const type *t) {
    for (; t->of; t = t->of) {
        if (t->kind == POINTER_TYPE)
            addf(to, "%s%s%s%s* ", t->is_const ? "const " : "", t->is_volatile ? "volatile " : "",
                 t->is_restrict ? "restrict " : "", spaces[t->space]);
        else if (t->kind == ARRAY_TYPE) addf(to, "[%" PRIu64 "] ", t->length);
        else if (t->kind == VECTOR_TYPE)
            addf(to, "%s%s%sv%" PRIu64 " ", t->is_const ? "const " : "", t->is_volatile ? "volatile " : "",
                 spaces[t->space], t->length);
        else add(to, "function ");
    }
    write_base(to, t);
}

static void write_bytes(text *to, const node *n) {
    add(to, " \"");
    for (size_t i = 0; i < n->byte_count; i++) addf(to, "%02x", (unsigned char)n->bytes[i]);
    add(to, "\"");
}

static void write_attributes(text *to, const node *n) {
    for (const attribute *t = n->attributes; t; t = t->next)
        addf(to, " [%s %" PRIu64 " %" PRIu64 " %" PRIu64 "]", t->name, t->numbers[0], t->numbers[1], t->numbers[2]);
}

static void write_details(text *to, const node *n) {
    bool is_integer = n->kind == INTEGER_LITERAL || n->kind == ENUM_CONSTANT_DECLARATION;
    if (n->is_lvalue) add(to, " lvalue");
    if (n->is_static) add(to, " static");
    if (n->name) addf(to, " '%s'", n->name);
    if (n->is_arrow) add(to, " arrow");
    if (n->is_postfix) add(to, " postfix");
    if (n->operation == UNKNOWN_OPERATION || n->cast == UNKNOWN_CAST) add(to, " unknown");
    if (is_integer) addf(to, " %" PRId64, (int64_t)n->value);
    if (n->kind == FLOATING_LITERAL) addf(to, " %s%" PRIx64, n->is_exact ? "" : "about ", n->value);
    if (n->bytes) write_bytes(to, n);
    if (n->declaration)
        addf(to, " -> %s at %u:%u", kinds[n->declaration->kind], n->declaration->place.line,
             n->declaration->place.column);
    if (n->target) addf(to, " -> %u:%u", n->target->place.line, n->target->place.column);
    if (n->field) addf(to, " field %" PRIu64 ", %" PRIu64, n->field->offset, n->field->align);
    if (n->argument) {
        add(to, " of ");
        write_type(to, n->argument);
    }
    if (n->computed) {
        add(to, " in ");
        write_type(to, n->computed);
    }
    write_attributes(to, n);
}

static void write_node(text *to, const node *n, unsigned depth) {
    addf(to, "%*s%s", (int)depth, "", n ? kinds[n->kind] : "nothing");
    if (n) {
        addf(to, " %s:%u:%u ", n->place.file, n->place.line, n->place.column);
        if (n->type) write_type(to, n->type);
        write_details(to, n);
    }
    add(to, "\n");
}

typedef struct {
    const node *node;
    unsigned depth;
} entry;

// Nodes that are still to be written, the next one last.
typedef struct {
    arena *arena;
    entry *at;
    size_t count, room;
} stack;

static void push(stack *s, const node *n, unsigned depth) {
    if (s->count == s->room) {
        size_t room = s->room * 2 + 64;
        entry *more = take(s->arena, room * sizeof *more);
        if (s->count) memcpy(more, s->at, s->count * sizeof *more);
        s->at = more;
        s->room = room;
    }
    s->at[s->count++] = (entry){n, depth};
}

static void push_parts(stack *s, const node *n, unsigned depth) {
    if (n->body) push(s, n->body, depth + 1);
    for (unsigned i = n->part_count; i > 0; i--) push(s, n->parts[i - 1], depth + 1);
}

void write_tree(text *to, const tree *t) {
    stack s = {.arena = to->arena};
    for (unsigned i = t->declaration_count; i > 0; i--) push(&s, t->declarations[i - 1], 0);
    while (s.count) {
        entry e = s.at[--s.count];
        write_node(to, e.node, e.depth);
        if (e.node) push_parts(&s, e.node, e.depth);
    }
}

// ---- what every source has ----

const char known_source[] = "#define TWO(a) (a + 2)\n"
                            "typedef struct { char c; union { int i; uchar b[8]; } u; uint4 v; } S;\n"
                            "struct __attribute__((packed)) P { char c; long l; };\n"
                            "enum E { A = -3, B };\n"
                            "__constant int table[3] = {1, B};\n"
                            "int f(int a, __private S *p) { for (;;) if (a--) break; return p->u.b[1] ? a : TWO(a); }\n"
                            "__attribute__((reqd_work_group_size(8, 1, 1)))\n"
                            "__kernel void k(__global struct P *g, __local uint3 *l, float x) {\n"
                            "    S s = {'a', {7}, (uint4)(1, 2, 3, 4)};\n"
                            "    s.v.xy = s.v.wz; s.v.even <<= l[0].s0;\n"
                            "    switch (sizeof(S)) { case B + 9: goto end; default: x = 0x1.8p1f; }\n"
                            "    g[get_global_id(0)].l = f(table[1], &s) + as_int4(s.v).x + (ulong)!g;\n"
                            "end:;\n"
                            "}\n";

static const char known_tree[] =
    "idle source:2:9  ''\n"
    "idle source:2:69  'S'\n"
    "idle source:3:32  'P'\n"
    "idle source:4:6  'E'\n"
    "variable source:5:16 [3] constant i32 'table'\n"
    " list source:5:27 [3] constant i32\n"
    "  integer source:5:28 i32 1\n"
    "  name source:5:31 i32 'B' -> enumerator at 4:18\n"
    "function source:6:5 function i32 'f'\n"
    " parameter source:6:11 i32 'a'\n"
    " parameter source:6:27 * struct  {32, 16} 'p'\n"
    " compound source:6:30 \n"
    "  for source:6:32 \n"
    "   nothing\n"
    "   nothing\n"
    "   nothing\n"
    "   if source:6:41 \n"
    "    unary source:6:45 i32 '--' postfix\n"
    "     name source:6:45 i32 lvalue 'a' -> parameter at 6:11\n"
    "    break source:6:50 \n"
    "  return source:6:57 \n"
    "   conditional source:6:64 i32\n"
    "    cast source:6:64 i32 'IntegralCast'\n"
    "     cast source:6:64 u8 'LValueToRValue'\n"
    "      subscript source:6:64 u8 lvalue\n"
    "       cast source:6:64 * u8 'ArrayToPointerDecay'\n"
    "        member source:6:64 [8] u8 lvalue 'b' field 0, 1\n"
    "         member source:6:64 union  {8, 4} lvalue 'u' arrow field 4, 4\n"
    "          cast source:6:64 * struct  {32, 16} 'LValueToRValue'\n"
    "           name source:6:64 * struct  {32, 16} lvalue 'p' -> parameter at 6:27\n"
    "       integer source:6:71 i32 1\n"
    "    cast source:6:76 i32 'LValueToRValue'\n"
    "     name source:6:76 i32 lvalue 'a' -> parameter at 6:11\n"
    "    binary source:6:80 i32 '+'\n"
    "     cast source:6:80 i32 'LValueToRValue'\n"
    "      name source:6:80 i32 lvalue 'a' -> parameter at 6:11\n"
    "     integer source:6:80 i32 2\n"
    "function source:8:15 function void 'k' [ReqdWorkGroupSizeAttr 8 1 1] [OpenCLKernelAttr 0 0 0]\n"
    " parameter source:8:36 * global struct P {9, 1} 'g'\n"
    " parameter source:8:54 * local v3 u32 'l'\n"
    " parameter source:8:63 f32 'x'\n"
    " compound source:8:66 \n"
    "  declarations source:9:5 \n"
    "   variable source:9:7 struct  {32, 16} 's'\n"
    "    list source:9:11 struct  {32, 16}\n"
    "     cast source:9:12 i8 'IntegralCast'\n"
    "      integer source:9:12 i32 97\n"
    "     list source:9:17 union  {8, 4} field 0, 4\n"
    "      integer source:9:18 i32 7\n"
    "     cast source:9:22 v4 u32 'LValueToRValue'\n"
    "      literal source:9:22 v4 u32 lvalue\n"
    "       list source:9:29 v4 u32\n"
    "        cast source:9:30 u32 'IntegralCast'\n"
    "         integer source:9:30 i32 1\n"
    "        cast source:9:33 u32 'IntegralCast'\n"
    "         integer source:9:33 i32 2\n"
    "        cast source:9:36 u32 'IntegralCast'\n"
    "         integer source:9:36 i32 3\n"
    "        cast source:9:39 u32 'IntegralCast'\n"
    "         integer source:9:39 i32 4\n"
    "  binary source:10:5 v2 u32 '='\n"
    "   component source:10:5 v2 u32 lvalue 'xy'\n"
    "    member source:10:5 v4 u32 lvalue 'v' field 16, 16\n"
    "     name source:10:5 struct  {32, 16} lvalue 's' -> variable at 9:7\n"
    "   cast source:10:14 v2 u32 'LValueToRValue'\n"
    "    component source:10:14 v2 u32 lvalue 'wz'\n"
    "     member source:10:14 v4 u32 lvalue 'v' field 16, 16\n"
    "      name source:10:14 struct  {32, 16} lvalue 's' -> variable at 9:7\n"
    "  assignment source:10:22 v2 u32 '<<=' in v2 u32\n"
    "   component source:10:22 v2 u32 lvalue 'even'\n"
    "    member source:10:22 v4 u32 lvalue 'v' field 16, 16\n"
    "     name source:10:22 struct  {32, 16} lvalue 's' -> variable at 9:7\n"
    "   cast source:10:35 v2 u32 'VectorSplat'\n"
    "    cast source:10:35 u32 'LValueToRValue'\n"
    "     component source:10:35 local u32 lvalue 's0'\n"
    "      subscript source:10:35 local v3 u32 lvalue\n"
    "       cast source:10:35 * local v3 u32 'LValueToRValue'\n"
    "        name source:10:35 * local v3 u32 lvalue 'l' -> parameter at 8:54\n"
    "       integer source:10:37 i32 0\n"
    "  switch source:11:5 \n"
    "   size source:11:13 u64 'sizeof' of struct  {32, 16}\n"
    "   compound source:11:24 \n"
    "    case source:11:26 \n"
    "     cast source:11:31 u64 'IntegralCast'\n"
    "      binary source:11:31 i32 '+'\n"
    "       name source:11:31 i32 'B' -> enumerator at 4:18\n"
    "       integer source:11:35 i32 9\n"
    "     goto source:11:38  'end' -> 13:1\n"
    "    default source:11:48 \n"
    "     binary source:11:57 f32 '='\n"
    "      name source:11:57 f32 lvalue 'x' -> parameter at 8:63\n"
    "      floating source:11:61 f32 40400000\n"
    "  binary source:12:5 i64 '='\n"
    "   member source:12:5 global i64 lvalue 'l' field 1, 1\n"
    "    subscript source:12:5 global struct P {9, 1} lvalue\n"
    "     cast source:12:5 * global struct P {9, 1} 'LValueToRValue'\n"
    "      name source:12:5 * global struct P {9, 1} lvalue 'g' -> parameter at 8:36\n"
    "     call source:12:7 u64\n"
    "      cast source:12:7 * function u64 'FunctionToPointerDecay'\n"
    "       name source:12:7 function u64 'get_global_id' -> function at 0:0\n"
    "      cast source:12:21 u32 'IntegralCast'\n"
    "       integer source:12:21 i32 0\n"
    "   cast source:12:29 i64 'IntegralCast'\n"
    "    binary source:12:29 u64 '+'\n"
    "     cast source:12:29 u64 'IntegralCast'\n"
    "      binary source:12:29 i32 '+'\n"
    "       call source:12:29 i32\n"
    "        cast source:12:29 * function i32 'FunctionToPointerDecay'\n"
    "         name source:12:29 function i32 'f' -> function at 6:5\n"
    "        cast source:12:31 i32 'LValueToRValue'\n"
    "         subscript source:12:31 constant i32 lvalue\n"
    "          cast source:12:31 * constant i32 'ArrayToPointerDecay'\n"
    "           name source:12:31 [3] constant i32 lvalue 'table' -> variable at 5:16\n"
    "          integer source:12:37 i32 1\n"
    "        unary source:12:41 * struct  {32, 16} '&'\n"
    "         name source:12:42 struct  {32, 16} lvalue 's' -> variable at 9:7\n"
    "       component source:12:47 i32 'x'\n"
    "        as_type source:12:47 v4 i32\n"
    "         member source:12:47 v4 u32 lvalue 'v' field 16, 16\n"
    "          name source:12:47 struct  {32, 16} lvalue 's' -> variable at 9:7\n"
    "     cast source:12:64 u64 'IntegralCast'\n"
    "      unary source:12:71 i32 '!'\n"
    "       cast source:12:72 * global struct P {9, 1} 'LValueToRValue'\n"
    "        name source:12:72 * global struct P {9, 1} lvalue 'g' -> parameter at 8:36\n"
    "  label source:13:1  'end'\n"
    "   null source:13:5 \n";

bool is_known_tree(arena *a, const tree *t) {
    text written = {.arena = a};
    write_tree(&written, t);
    return written.at && !strcmp(written.at, known_tree);
}
