// The tree of an OpenCL C source as clang reads it: what the translator asks for, and nothing else.
// All of it lives in the arena that `read_source` is given. Nothing here is ever changed once it is read.
#ifndef CLSIM_FRONT_AST_H
#define CLSIM_FRONT_AST_H
#include "../arena.h"
#include <stdbool.h>
#include <stdint.h>

// Where something stands in the client's text, behind its line markers (`#line`). What a macro writes stands where the
// macro is used, at the first byte of its name; of an argument of a macro likewise.
typedef struct {
    const char *file;      // "source" for the client's own text, else the name of the included file
    unsigned line, column; // from 1 on, in bytes; 0 where clang tells none
} place;

// ---- types ----

typedef enum {
    VOID_TYPE,
    INTEGER_TYPE, // the eight of OpenCL 1.2, 6.1.1; bool; enumerations, which are as their integer type
    FLOATING_TYPE,
    POINTER_TYPE,
    ARRAY_TYPE,
    VECTOR_TYPE,
    RECORD_TYPE, // a struct or a union
    FUNCTION_TYPE,
    EVENT_TYPE,
    OTHER_TYPE // images, samplers and what else clang has; `name` says which
} type_kind;

// OpenCL 1.2, 6.5. What no qualifier names is private.
typedef enum { PRIVATE_SPACE, GLOBAL_SPACE, CONSTANT_SPACE, LOCAL_SPACE } address_space;

typedef struct record record;
typedef struct type type;
struct type {
    type_kind kind;
    unsigned width;                          // of an integer or a floating type, in bytes: 1, 2, 4 or 8
    bool is_signed;                          // of an integer
    bool is_bool;                            // an integer of width 1 that isn't signed
    bool is_const, is_volatile, is_restrict; // at its outermost level; an array has those of its elements
    address_space space;                     // of the object that has this type; an array has that of its elements
    const type *of;  // of a pointer what it points to, of an array or a vector an element, of a function its result
    uint64_t length; // of an array its elements (0 where it has no length), of a vector its components
    const record *record;
    uint64_t size,
        align;        // in bytes, by C's rules (a vector of 3 is as large as one of 4, 6.1.5); 0 where there is none
    const char *name; // as clang prints it, for messages
};

typedef struct field field;

// Bit-fields that follow each other, none of no bits between them: one memory location (C11, 3.14).
typedef struct {
    const field *fields;
    unsigned count;
    uint64_t offset, size; // in bytes
    unsigned width;        // of the numbers by which it is accessed, in bytes: 1, 2, 4 or 8
} bit_row;

struct field {
    const char *name; // empty where it has none
    const type *type;
    uint64_t offset; // in bytes; of a bit-field that of its row
    uint64_t align;  // that the layout gives it: 1 where it is packed, else at least that of its type
    bool is_bit_field;
    unsigned bits;      // of a bit-field: how many it has
    uint64_t bit;       // and which one of its row is its first
    const bit_row *row; // NULL where it has no bits, and of all other fields
    place place;
};

struct record {
    const char *name; // empty where it has none
    bool is_union, is_complete;
    const char *unknown_attribute; // the name of one whose layout isn't known, else NULL; then no offset counts
    field *fields;                 // those of unnamed structs inside stand in a field without a name
    unsigned field_count;
    uint64_t size, align;
    place place;
};

// ---- nodes ----

typedef enum {
    // Declarations. `name`, `type`, `attributes`.
    FUNCTION_DECLARATION, // parts: its parameters in order; `body`
    PARAMETER_DECLARATION,
    VARIABLE_DECLARATION,      // parts: its initializer, or none
    ENUM_CONSTANT_DECLARATION, // `value`
    IDLE_DECLARATION,          // a record, a typedef, an enumeration, an empty one, a static assertion that holds
    UNKNOWN_DECLARATION,       // `name` is clang's word for its kind
    // Statements.
    COMPOUND_STATEMENT,    // parts: statements
    DECLARATION_STATEMENT, // parts: declarations
    NULL_STATEMENT,
    IF_STATEMENT,      // parts: condition, statement, and the one behind `else` or none
    WHILE_STATEMENT,   // parts: condition, body
    DO_STATEMENT,      // parts: body, condition
    FOR_STATEMENT,     // parts: first, condition, step, body; NULL for what is left out (never the body)
    SWITCH_STATEMENT,  // parts: value, body
    CASE_STATEMENT,    // parts: value, statement; of a range `case a ... b`: both values, statement
    DEFAULT_STATEMENT, // parts: statement
    BREAK_STATEMENT,
    CONTINUE_STATEMENT,
    RETURN_STATEMENT,  // parts: value, or none
    GOTO_STATEMENT,    // `target`: the LABEL_STATEMENT
    LABEL_STATEMENT,   // `name`; parts: statement
    UNKNOWN_STATEMENT, // `name` is clang's word for its kind
    // Expressions. `type`, `is_lvalue`. Brackets (ParenExpr), ConstantExpr, ExprWithCleanups and `__extension__` leave
    // no node: their part stands there itself. An attributed statement likewise is its statement.
    INTEGER_LITERAL,        // also of a character or a boolean: `value`
    FLOATING_LITERAL,       // `value`: its bits in its type, where `is_exact`
    STRING_LITERAL,         // `bytes`, `byte_count` without the zero behind them
    NAME_EXPRESSION,        // `declaration`: a function, parameter, variable or enumeration constant
    SUBSCRIPT_EXPRESSION,   // parts: as clang has them, the pointer first or second
    MEMBER_EXPRESSION,      // parts: the record or the pointer; `field`, `is_arrow`
    COMPONENT_EXPRESSION,   // parts: the vector or, with `is_arrow`, a pointer to one; `name`: xy, lo, s3 and so on
    UNARY_EXPRESSION,       // parts: operand; `operation`, `is_postfix`
    BINARY_EXPRESSION,      // parts: left, right; `operation`, assignment and comma among them
    COMPOUND_ASSIGNMENT,    // parts: target, value; `operation` without the `=`; `computed`
    CONDITIONAL_EXPRESSION, // parts: condition, two values; of `a ?: b` also a, which the first two have as
                            // COMMON_VALUE
    CALL_EXPRESSION,        // parts: what is called, then the arguments
    CAST_EXPRESSION,        // implicit or written; parts: operand; `cast`
    INITIALIZER_LIST,       // parts: the values that are given, without the filler; of a union `field` or NULL
    IMPLICIT_VALUE,         // zeros
    COMPOUND_LITERAL,       // `(T){..}`, and of vectors `(T)(..)`; parts: initializer
    SIZE_EXPRESSION,        // sizeof, alignof, vec_step: `name` says which; `argument`: the type that is asked for
    OFFSET_EXPRESSION,      // offsetof: `value` where `is_exact`
    AS_TYPE_EXPRESSION,     // `as_T`; parts: operand
    STATEMENT_EXPRESSION,   // `({ .. })`; parts: the COMPOUND_STATEMENT
    COMMON_VALUE,           // what a of the `a ?: b` round it came to
    UNKNOWN_EXPRESSION      // `name` is clang's word for its kind
} node_kind;

typedef enum {
    NO_OPERATION,
    // of two operands
    ADD,
    SUBTRACT,
    MULTIPLY,
    DIVIDE,
    REMAINDER,
    SHIFT_LEFT,
    SHIFT_RIGHT,
    BIT_AND,
    BIT_OR,
    BIT_XOR,
    LESS,
    GREATER,
    LESS_OR_EQUAL,
    GREATER_OR_EQUAL,
    EQUAL,
    NOT_EQUAL,
    LOGICAL_AND,
    LOGICAL_OR,
    ASSIGN,
    COMMA,
    // of one
    ADDRESS_OF,
    POINTED_TO,
    PLUS,
    MINUS,
    COMPLEMENT,
    LOGICAL_NOT,
    INCREMENT,
    DECREMENT,
    UNKNOWN_OPERATION // any other
} operation;

// clang's kinds of casts, by its words without spaces (LValueToRValue and so on).
typedef enum {
    NO_CAST,
    LVALUE_TO_RVALUE,
    NO_OP,
    INTEGRAL_CAST,
    INTEGRAL_TO_BOOLEAN,
    BOOLEAN_TO_SIGNED_INTEGRAL,
    POINTER_TO_BOOLEAN,
    ARRAY_TO_POINTER_DECAY,
    FUNCTION_TO_POINTER_DECAY,
    BUILTIN_FUNCTION_TO_POINTER,
    NULL_TO_POINTER,
    BIT_CAST,
    LVALUE_BIT_CAST,
    ADDRESS_SPACE_CONVERSION,
    VECTOR_SPLAT,
    TO_VOID,
    ZERO_TO_OPAQUE_TYPE, // ZeroToOCLOpaqueType
    INTEGRAL_TO_FLOATING,
    FLOATING_TO_INTEGRAL,
    FLOATING_TO_BOOLEAN,
    FLOATING_CAST,
    POINTER_TO_INTEGRAL,
    INTEGRAL_TO_POINTER,
    UNKNOWN_CAST // `name` is clang's word for it
} cast_kind;

typedef enum {
    KERNEL_ATTRIBUTE,
    REQUIRED_SIZE_ATTRIBUTE, // reqd_work_group_size: `numbers`
    SIZE_HINT_ATTRIBUTE,     // work_group_size_hint: `numbers`
    TYPE_HINT_ATTRIBUTE,     // vec_type_hint: `text` is the type
    IDLE_ATTRIBUTE,          // one that changes nothing that is translated: always_inline, unused, const, pure ..
    ALIGN_ATTRIBUTE,         // aligned: `numbers[0]` bytes, 0 where clang tells none
    UNKNOWN_ATTRIBUTE        // any other
} attribute_kind;

typedef struct attribute {
    struct attribute *next;
    attribute_kind kind;
    const char *name; // clang's word for it, as OpenCLKernelAttr
    const char *text;
    const char *declared; // as it stands between the brackets of `__attribute__`; NULL where clang adds it itself
    uint64_t numbers[3];
    place place;
} attribute;

typedef struct node node;
struct node {
    node_kind kind;
    place place;      // of a declaration its name, of everything else its first byte
    const type *type; // of an expression or a declaration
    bool is_lvalue;
    bool is_arrow, is_postfix, is_static, is_exact;
    bool is_extern, is_inline; // of a declaration: it is declared with these words
    operation operation;
    cast_kind cast;
    node **parts;
    unsigned part_count;
    const char *name;
    uint64_t value; // of an integer its low 64 bits, with its sign where its type has one
    const char *bytes;
    size_t byte_count;
    const node *declaration; // of a function that it has a body of: that with the body
    const node *target;
    const node *body; // of a function, NULL where it has none
    const field *field;
    const type *argument; // of a SIZE_EXPRESSION
    const type *computed; // of a COMPOUND_ASSIGNMENT: the type that its operator computes in (ComputeLHSTy)
    const attribute *attributes;
    unsigned number; // of a declaration, statement or expression: another one for each, from 1 on, below `node_count`
};

typedef struct {
    const node **declarations; // those of program scope in the order of the text, without those of clang's own header
    unsigned declaration_count;
    unsigned node_count; // 1 above the highest `number`
    node **open;         // names of functions and of `extern` variables that are declared here and defined nowhere here
    unsigned open_count;
    const char *log; // why it can't be read, in clang's form with the client's lines; NULL where it is read
} tree;

// A text of the client's, by the name that places have for it.
typedef struct {
    const char *name, *text;
} named_text;

// A source with all that is asked for to read it.
typedef struct {
    named_text source;
    const char *options;       // of its build
    const named_text *headers; // that it may include by their names (OpenCL 1.2, 5.6.3)
    unsigned header_count;
    const char *preprocessed; // what clang makes of it first; NULL before
    size_t preprocessed_length;
} client_source;

// Has clang read a source with the options of a build. False where it can't be read; then `log` says why. Where memory
// is refused it goes on behind `a->failed`.
bool read_source(arena *a, const char *source, const char *options, tree *t);
// Has clang judge a source, and keep what it is after its preprocessing. NULL, or why clang doesn't take it.
const char *compile_source(arena *a, client_source *s);
// Reads a source that is compiled, or one without headers that isn't. Numbers begin behind one that is taken.
bool read_compiled(arena *a, client_source *s, unsigned taken, tree *t);
#endif
