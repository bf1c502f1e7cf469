// What is known while a tree is made of clang's dump. Of nodes.c and details.c alone.
#ifndef CLSIM_FRONT_BUILDER_H
#define CLSIM_FRONT_BUILDER_H
#include "dump.h"
#include "places.h"
#include "types.h"

typedef enum {
    UNIT_SHAPE,
    EXPRESSION_SHAPE,
    STATEMENT_SHAPE,
    WRAPPER_SHAPE, // leaves no node: its one part stands in its place
    FUNCTION_SHAPE,
    VARIABLE_SHAPE, // a parameter too
    RECORD_SHAPE,
    FIELD_SHAPE,
    ENUMERATION_SHAPE,
    ENUMERATOR_SHAPE,
    TYPE_NAME_SHAPE,
    IDLE_SHAPE,    // a declaration without anything that counts
    UNKNOWN_SHAPE, // of a kind that isn't known: a node without parts
    ATTRIBUTE_SHAPE,
    SKIPPED_SHAPE // with all below it
} shape;

typedef struct builder builder;

// A kind of node: clang's word for it, what becomes of it, and how many parts it has.
typedef struct {
    const char *word;
    shape shape;
    node_kind kind;
    unsigned least, most;
    // Reads what stands behind its type.
    void (*details)(builder *b, node *n, const dump_line *line, const char *rest);
} rule;

enum { ANY_NUMBER = UINT32_MAX };

// A declaration that may be made several times: the one that counts.
typedef struct {
    const node *chosen;
} declared;

// A node whose parts are read.
typedef struct {
    shape shape;
    unsigned depth;
    const rule *rule;
    node *node;
    unsigned first_part; // where its parts begin
    attribute **last_attribute;
    attribute *attribute; // that it is
    const char *unknown_attribute;
    uint64_t id;
    position own;
    // of a record, a field, an enumeration, one of its constants or a typedef
    const char *name;
    record *record;
    record_form form;
    unsigned first_field; // where its fields begin
    field_form field;
    const type *type;
    const char *text;      // of a typedef: its type
    unsigned direct_depth; // down to which that is but another name of a record or an enumeration
    bool is_complete;
    bool has_value, has_parts; // of a constant
    uint64_t value;
    bool is_negative;
    enumeration_form values; // of an enumeration
    uint64_t next;           // the value of a constant that is given none
    bool is_next_negative;
} frame;

typedef struct {
    uint64_t id;
    void *what;
} slot;

// By the numbers that clang gives to declarations.
typedef struct {
    slot *slots;
    size_t room, used; // room is 0 or a power of two
} id_map;

// A name, a jump or a label that is looked up once more is known.
typedef struct reference {
    struct reference *next;
    node *node;
    declared *to;  // of a name
    bool is_twice; // of a label: another one has its name
} reference;

typedef struct {
    field_form form;
    uint64_t id;
} known_field;

struct builder {
    arena *arena;
    dump *dump;
    rows *rows;
    tree *tree;
    types *types;
    frame *frames;
    unsigned frame_count, frame_room;
    node **parts; // of all nodes that are open
    unsigned part_count, part_room;
    known_field *fields; // of all records that are open
    unsigned field_count, field_room;
    id_map nodes, fields_by_id, tags, declarations; // of tags their types
    reference *names, *jumps, *labels;              // the last two of the function that is read
    unsigned function_count;
    unsigned skipped; // lines that are deeper are left out
    bool has_end;
    const char *wrong;
    jmp_buf stop;
};

__attribute__((format(printf, 2, 3))) _Noreturn void stop_at(builder *b, const char *format, ...);
void put_id(arena *a, id_map *m, uint64_t id, void *what);
void *get_id(const id_map *m, uint64_t id);
node *make_node(builder *b, node_kind kind, position at);

// The rule of clang's word. One that isn't known is of an UNKNOWN_SHAPE or skipped.
const rule *rule_of(const char *word, size_t length);
// The attribute of a line.
attribute *read_attribute(builder *b, const dump_line *line);

bool is_at(const char *s, const char *word);
const char *behind_spaces(const char *s);
// Reads `'int4':'int __attribute__((ext_vector_type(4)))'` and the spaces behind it. NULL, and nothing is read, where
// no quote stands there.
const type *read_type(builder *b, const char **s);
const type *need_type(builder *b, const char **s);
// A number cut to the width of its type, with its sign.
uint64_t cut_to(uint64_t value, const type *t);
#endif
