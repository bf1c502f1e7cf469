// What the parts of the translator share. A kernel is gone through several times. Each pass writes it anew by what the
// passes before have learnt of its objects: by which types they are accessed, and where pointers may point to. What is
// learnt only grows; the first pass that learns nothing new is the last one, and only its text is kept.
#ifndef CLSIM_FRONT_H
#define CLSIM_FRONT_H
#include "translate.h"
#include <stdarg.h>

enum {
    MAX_PASSES = 24,
    MAX_DEPTH = 600,     // of nested expressions, statements and calls
    MAX_TEXT_DEPTH = 18, // of an expression in Clsim's language, which has a limit of 64
    MAX_NUMBERS = 65536  // in one object that is copied or filled
};

typedef struct object object;
typedef struct statement statement;

// ---- values ----

// An integer as an expression of Clsim's language.
typedef struct {
    const char *text;
    integer_type type;    // that the language gives the text
    integer_type pending; // what it is converted to as soon as it is used, or NO_INTEGER
    unsigned char precedence, depth;
    bool is_fixed;   // no later statement can change it, and it can't fault
    bool has_effect; // it accesses memory, or may fault
    bool is_literal;
    uint64_t value; // of a literal, with the sign of its type
} integer;

typedef struct {
    int64_t scale;
    integer factor;
} term;

// An offset in bytes: a constant and products of scales and factors. It wraps in 64 bits, as addresses do.
typedef struct {
    int64_t constant;
    const term *terms;
    unsigned count;
} linear;

// The objects that it may point into, and the offset in the one that it does. It has none as long as they aren't known.
typedef struct {
    object *const *objects;
    unsigned count;
    const integer *selector; // of several objects: the index of that one
    linear offset;
} pointer;

// Where a value lies.
typedef struct {
    pointer at;
    const type *type;
    unsigned align;                  // what is known of its address, where that is less than its type asks for, else 0
    const unsigned char *components; // of a vector, those that are meant; NULL where all of it is
    unsigned component_count;
    const field *bits; // the bit-field that it is, and `at` is where its row begins; NULL for none
} storage;

typedef enum { NO_VALUE, INTEGER_VALUE, VECTOR_VALUE, POINTER_VALUE, RECORD_VALUE, STORAGE_VALUE } value_kind;
typedef struct {
    value_kind kind;
    unsigned count; // of the components of a vector
    union {
        integer integer;
        const integer *components;
        pointer pointer;
        storage storage; // of a record: where to copy it from
    };
} value;

// An operand, and how it is evaluated.
typedef enum { AS_VALUE, AS_STORAGE, AS_TARGET } operand_kind;
typedef struct {
    const node *node;
    operand_kind kind;
    value value;     // of a target: what it holds
    storage storage; // of a target
} operand;

// ---- statements of the judged text ----

typedef enum { TEXT, BRANCH, LOOP, LEAVING, FLAG } statement_kind;
typedef struct {
    statement *first, *last;
} list;

// What a LEAVING statement leaves: a call or a switch.
typedef struct {
    const char *is_left, *is_not_left; // conditions
    const char *leave;                 // the statement that is written where it is left, NULL for none
    bool is_tested;                    // one of the conditions is written
} label;

struct statement {
    statement *next;
    statement_kind kind;
    const char *text; // the whole; the condition of a branch; what stands in front of a loop's body
    const char *end;  // behind a loop's body
    list first, second;
    label *label;
    const place *at;
    const call_site *calls; // as in `judged_place`
    unsigned loop;
    const turn_before *before;
    const char *result;        // the variable of its own that it gives the result of a call, or NULL
    bool is_pure;              // that call is one of a helper without loops
    const char *copy, *copied; // the variable of its own that it gives the value of another one, and that, or NULL
};

// ---- objects ----

// What may hold a kernel's bytes: its parameters, its variables, tables in constant memory, and the object that null
// points to.
typedef enum { IN_PRIVATE, IN_GLOBAL, IN_CONSTANT, IN_LOCAL, NOWHERE } object_space;

// What an object is to the node that it belongs to.
typedef enum { ITSELF, POINTED_TO_BY, RESULT_OF } object_role;

// Where bit-fields that are variables of their own are among the leaves of an object: their offsets are in bits from
// here on, and so are their widths.
#define FIRST_BIT_LEAF (UINT64_C(1) << 62)

// A number in private memory that is always accessed at one place.
typedef struct {
    uint64_t offset;
    unsigned width;
    unsigned types, types_before; // by which it is accessed, a bit for each; `before`: by the passes before
    bool is_read, was_read;
    bool was_known;
    const char *name; // of its variable in this pass, NULL for none
    integer_type variable;
} leaf;

// A pointer in private memory, or all those of an object together.
typedef struct {
    uint64_t offset;
    object **bases; // into which it may point
    unsigned count, room, count_before;
    uint64_t unit, unit_before; // of its offsets, 0 where all are 0
    bool is_read, was_known;
    const char *name, *selector; // of its variables in this pass, NULL for none
} pointer_leaf;

struct object {
    object *next;           // in its bucket
    object *next_of_kernel; // in the order in which they were found
    unsigned call, number;  // the call in which, and the node to which it belongs
    object_role role;
    // what is learnt of it
    leaf *leaves; // in the order of their offsets and widths
    unsigned leaf_count, leaf_room;
    pointer_leaf *pointers;
    unsigned pointer_count, pointer_room;
    pointer_leaf any_pointer;              // all pointers in it, where
    bool indexes_pointers, indexed_before; // they are accessed at places that aren't constant
    unsigned types, types_before;          // by which it is accessed at places that aren't constant, a bit for each
    unsigned atomic_types;                 // by which atomic functions access it
    bool is_stored, was_stored;
    bool is_read_anywhere; // it is loaded from at a place that isn't constant
    bool is_array;         // it is judged as an array
    // in this pass
    unsigned pass; // that it belongs to
    object_space space;
    bool has_size;
    uint64_t size;
    const char *name;   // in the client's source
    const char *judged; // a parameter's or an array's name
    const type *type;
    integer_type element; // where no access says otherwise
    bool is_fixed;        // it is never assigned
    bool is_const;
    unsigned char accesses, held; // of a buffer: which accesses are written, and which of them are held back
    // of a part of a buffer: its parameters, and the element that stands for all outside of it
    const char *part_origin, *part_size, *outside;
    const char *views[INTEGER_TYPES]; // of a buffer: the parameters by the types of their elements
    integer_type array_element;
    const value *alias;         // what it always holds
    const unsigned char *bytes; // of a table
    unsigned table;
};

// A call that is being translated in place.
typedef struct call {
    struct call *up;
    struct call *next; // in its bucket
    unsigned number;   // another one for each way to it; 0 is the kernel
    const node *function, *site;
    const call_site *told;
} call;

// A function of the source that may stay one in the judged text (functions.c).
typedef struct own_function {
    struct own_function *next; // of the kernel
    const node *function;
    const type *result;
    bool is_judged, is_apart; // nothing in it belongs to a kernel
    unsigned node_count;      // of its body
    bool cannot_stay;         // something in it has no rule there
    bool stays;
    const call *first; // of its calls that may be calls of the judged text
    call *own;         // in which its body is translated, where it stays
    // in this pass
    unsigned pass; // in which it was written last
    const char *name, *head;
    list body;
    struct own_function *up;      // that is being written round it
    struct own_function *written; // behind it in the text
} own_function;

// A label that statements in front of it go to.
typedef struct jump {
    struct jump *up;
    const node *target;
    const call *call;
    label label;
} jump;

typedef struct function_frame {
    label *label;
    object *result;
    const type *type;
    bool is_kernel;
    bool stays; // it is a function of the judged text
} function_frame;

// A name that is taken.
typedef struct name {
    struct name *next;
    const char *text;
    unsigned last;     // number that was put behind it
    unsigned uses;     // in the kernel's text, once they are counted
    bool may_be_unset; // it is declared without a value
} name;

typedef struct note {
    struct note *next;
    const char *text;
} note;

typedef struct {
    const place *at;
    const call_site *calls;
    const turn_before *before;
} mark;

enum { BUCKETS = 4096 };

typedef struct translator {
    const tree *tree;
    arena *result;      // what is kept
    arena kernel, pass; // what lives as long as a kernel, or a pass
    jmp_buf stop;       // where to go on once something is refused
    refusal wrong;
    bool *is_modified;      // of each declaration, whether it is used otherwise than to read it
    unsigned *return_count; // of each function's body 1 above how many returns it has, 0 where that isn't known
    judged_source *to;
    const node *only;          // the one kernel that is written, NULL for all
    const unsigned char *held; // of each of its arguments
    unsigned place_room;
    note *notes;

    // of the kernel
    object *objects[BUCKETS], *first_object, **last_object;
    call *calls[BUCKETS];
    unsigned call_count;
    unsigned pass_number;
    bool is_changed;      // something new was learnt in this pass
    bool is_incomplete;   // this pass left something out that wasn't known yet
    bool prints;          // it calls printf
    bool is_settled;      // what pointers may point to is known, so that one without an object has none
    bool is_regrouped;    // a function stays from this pass on
    unsigned free_passes; // those that had to be left, or in which a function began to stay
    own_function *functions;

    // of the pass
    jmp_buf again; // where to go on once a function can't stay
    own_function *open, *written, **last_written;
    list out;
    const place *at;
    unsigned loop_count, temporary_count, depth, hash_count;
    name *names[BUCKETS];
    mark *marks;
    unsigned mark_count, mark_room;
    object *null;
    bool uses_null, uses_copies;
    const node *kernel_function;
    call *call; // NULL in the kernel itself
    function_frame *frame;
    label **breaks; // of the loops and switches round a statement, NULL for a loop
    unsigned break_count, break_room;
    jump *jumps;         // the labels behind a statement that it may go to
    const value *common; // what a of the `a ?: b` round an expression came to
    object **hidden;     // tables that the kernel uses
    unsigned hidden_count, hidden_room;
    shown_name *shown;
    unsigned shown_count, shown_room;
    object **locals;
    unsigned local_count, local_room;
    bool *helpers; // of each helper of floats.h, whether the kernel reaches it
    printed_call *printed;
    unsigned printed_count, printed_room;
} translator;

// ---- translate.c ----
void refuse_at(translator *t, const place *at, const char *format, ...) __attribute__((noreturn, format(printf, 3, 4)));
const char *format(translator *t, const char *format, ...) __attribute__((format(printf, 2, 3)));
const char *format_values(translator *t, const char *format, va_list values);
void add_note(translator *t, const char *text);
// Refuses a declaration with an attribute that isn't known; of a function its parameters too.
void judge_attributes(translator *t, const node *n);
// `*list` with room for one more, in the arena of the pass.
void *grown(arena *a, void *list, unsigned count, unsigned *room, size_t size);
// Counts one level deeper, up to MAX_DEPTH.
void go_deeper(translator *t, const place *at);

// ---- names.c ----
// A name that isn't taken yet, like another one.
const char *fresh_name(translator *t, const char *like);
const char *temporary_name(translator *t);
void take_name(translator *t, const char *text);
bool is_taken(const translator *t, const char *text);
// Remembers what a name stands for in the client's source.
// Counts the names in a text, and says how often one was counted; notes those that may be read unset, and says whether
// a text has one. `forget_counts` begins anew.
void count_names(translator *t, const char *text);
unsigned uses_of(const translator *t, const char *text);
void note_unset_name(translator *t, const char *text, size_t length);
bool has_unset_name(const translator *t, const char *text);
void forget_counts(translator *t);
// Whether a text has a name as a word.
bool has_name(const char *text, const char *name);
void show_name(translator *t, const char *judged, const char *shown);
// The calls round what is being translated.
const call_site *calls_here(const translator *t);
// In front of what is written for an access: its place.
const char *mark_here(translator *t, const place *at);

// ---- lists.c ----
void emit(translator *t, const char *format, ...) __attribute__((format(printf, 2, 3)));
void append(translator *t, statement *s);
void append_list(list *to, list more);
statement *new_statement(translator *t, statement_kind kind, const char *text, const place *at);
statement *new_branch(translator *t, const char *condition, list first, list second, const place *at);
statement *new_loop(translator *t, const char *head, list body, const char *end, const place *at);
list one_text(translator *t, const char *text, const place *at);
// Begins a list of its own, and gives back the one before.
list begin_list(translator *t);
// The list that was begun; goes on with the one before.
list end_list(translator *t, list before);
// Says of what stands at the begin of a judged loop's body that it is a part of the turn before in the client's source.
void set_turn_before(translator *t, list l, unsigned loop);
// What stands behind a statement of the list that is being written; that stands last then. NULL: all of it.
list cut_behind(translator *t, statement *last);

// ---- functions.c ----
// Whether a call is one of a function of the judged text.
bool stays_function(translator *t, const node *n, const call *c, const operand *arguments, bool is_used);
value call_function(translator *t, const node *n, const node *function, const operand *arguments);
// Whether a function is being written.
bool is_open_function(const translator *t, const node *function);
// The functions that are being written can't stay: the pass is left, and the next one translates them in place.
void leave_functions(translator *t) __attribute__((noreturn));
void begin_functions(translator *t);
void write_functions(translator *t, text *to);

// ---- leaving.c ----
// Writes a list without the statements that leave a label: what follows them is done only where it isn't left.
void take_out_leaving(translator *t, list *l, label *label);

// ---- values.c ----
integer literal(translator *t, uint64_t value, integer_type type);
integer variable(const char *name, integer_type type, bool is_fixed);
integer unknown(translator *t, integer_type type); // stands for what isn't known in this pass
integer_type type_of(const integer *v);
integer forced(translator *t, integer v);
integer cast_to(translator *t, integer v, integer_type type);
integer exactly(translator *t, integer v, integer_type type);
// The text with brackets, if it binds less than this.
const char *bracketed(translator *t, const integer *v, unsigned precedence);
integer kept(translator *t, integer v);
value kept_value(translator *t, value v);
pointer kept_pointer(translator *t, pointer p);
storage kept_storage(translator *t, storage s);
integer binary(translator *t, operation op, integer a, integer b, integer_type type);
integer unary(translator *t, operation op, integer a, integer_type type);
integer choice(translator *t, integer condition, integer a, integer b, integer_type type);
integer call_of(translator *t, const char *name, const integer *arguments, unsigned count, integer_type result);
// The text of a value that is assigned to a variable of a type.
const char *assigned(translator *t, integer v, integer_type type);
integer is_not_zero(translator *t, integer v);
// `a && b` or `a || b`, neither of which needs statements.
integer joined_conditions(translator *t, operation op, integer a, integer b);
bool is_narrowing(const integer *v);
value integer_value(integer v);
value vector_value(const integer *components, unsigned count);
value pointer_value(pointer p);
value record_value(storage s);
// Evaluates operands from left to right.
void evaluate(translator *t, operand *operands, unsigned count);

// ---- layouts.c ----
integer_type core_type(const type *t); // of an integer or a floating-point number
bool is_floating(const type *t);       // or a vector of such
uint64_t size_of_type(translator *t, const type *type, const place *at);
integer_type element_of(const type *t);
typedef struct {
    uint64_t offset;
    const type *type; // an integer, a floating-point number, a pointer or an event
    unsigned align;
    const bit_row *row; // that stands there; NULL for a number
} number_place;
// The numbers in a type, in the order of their offsets, a row of bit-fields as one; of a union those of a member that
// has all bytes of the others, or else bytes.
number_place *numbers_in(translator *t, const type *type, const place *at, unsigned *count);
// `name` with what stands at an offset: `s_b` and `w_3`, or as C has it: `s.b` and `w[3]`.
const char *part_name(translator *t, const char *name, const type *type, uint64_t offset, bool as_in_source);

// ---- objects.c ----
object *find_object(translator *t, unsigned call, unsigned number, object_role role);
// The object of a declaration in the call that is being translated, NULL where it isn't declared there.
object *declared_object(translator *t, const node *declaration);
void begin_pass_of_objects(translator *t);
void learn(translator *t, unsigned *set, unsigned bits);
void learn_fact(translator *t, bool *fact);
leaf *find_leaf(const object *o, uint64_t offset, unsigned width);
leaf *learn_leaf(translator *t, object *o, uint64_t offset, unsigned width, unsigned types);
// Whether one of these bits of a private object, from one to in front of another, was read in the pass before.
bool is_read_at(const object *o, uint64_t first, uint64_t end);
pointer_leaf *find_pointer(const object *o, uint64_t offset);
pointer_leaf *learn_pointer(translator *t, object *o, uint64_t offset);
// An object that is new in this pass.
object *new_object(translator *t, object *o, object_space space, const type *type, const char *name);
// Gives a private object its variables.
object *new_variable(translator *t, object *o, const type *type, const char *name, const place *at);
// Declares the variables of a private object. `given` stands behind those of numbers: "", or a value as "=0".
void write_declarations(translator *t, object *o, const char *given);
object *declare(translator *t, object *o, const type *type, const char *name, const place *at);
pointer pointer_to(translator *t, object *o);
// The type of the elements of an array by whose types it is accessed.
integer_type array_element_of(translator *t, const object *o, unsigned types);
void begin_kernel_of_objects(translator *t);

// ---- memory.c ----
linear constant_offset(int64_t constant);
linear plus(linear l, int64_t constant);
linear plus_scaled(translator *t, linear l, integer v, int64_t scale);
uint64_t common_factor(linear l);
uint64_t greatest_common_divisor(uint64_t a, uint64_t b);
bool is_constant(linear l);
// An offset in units of a width that divides all its parts.
integer in_units(translator *t, linear l, uint64_t width);
// The offset where it is a multiple, else one in front of each object.
linear aligned(translator *t, linear l, uint64_t align);
pointer shifted(pointer p, int64_t bytes);
integer load(translator *t, pointer p, integer_type type, unsigned align, const place *at);
void store(translator *t, pointer p, integer_type type, integer v, unsigned align, const place *at);
bool is_inside(const object *o, linear l, unsigned width);
const char *view_of(translator *t, object *o, integer_type type);
// The index of an element of an object; of a part of a buffer that in the buffer, or one of no element.
integer index_in(translator *t, const object *o, linear at, unsigned width);
const char *null_name(translator *t);
// Writes for each of several objects what is done where the selector chooses it.
typedef void on_object(translator *t, object *o, void *with);
void for_chosen(translator *t, const integer *selector, object *const *objects, unsigned count, on_object *do_it,
                void *with);

// ---- pointers.c ----
void store_pointer(translator *t, pointer to, pointer p, const place *at);
pointer load_pointer(translator *t, pointer from, const place *at);
// Whether the pointer that lies there is read nowhere.
bool is_dead_pointer(pointer at);
integer is_not_null(translator *t, pointer p);
integer compare_pointers(translator *t, operation op, pointer a, pointer b, const place *at);
integer difference(translator *t, pointer a, pointer b, uint64_t size, const place *at);
pointer choose_pointer(translator *t, integer condition, pointer a, pointer b, bool *done);

// ---- storage.c ----
value get(translator *t, storage s, const place *at);
void put(translator *t, storage s, value v, const place *at);
// A member of a struct or a union. What is known of its address depends on what is known of the whole's.
storage member_of(const storage *s, const field *f);
// Stores what an initializer gives.
void initialize(translator *t, pointer p, const type *type, const node *n, const place *at);
storage whole(pointer p, const type *type);
pointer aligned_vector(translator *t, const storage *s);
// A value as a place holds it: of a bit-field its lowest bits.
value held_value(translator *t, value v, const storage *s);

// ---- bits.c ----
// A bit-field, by where its row begins.
integer load_bits(translator *t, pointer row, const field *f, unsigned align, const place *at);
void store_bits(translator *t, pointer row, const field *f, integer v, unsigned align, const place *at);
integer lowest_bits(translator *t, integer v, const field *f);
// The numbers of a row, and those that are stored into it. What no field has of them is 0, or lost, where the fields
// are variables.
const integer *load_row(translator *t, pointer at, const bit_row *row, unsigned align, const place *place);
void store_row(translator *t, pointer at, const bit_row *row, const integer *numbers, unsigned align,
               const place *place);
void copy_row(translator *t, pointer to, pointer from, const bit_row *row, unsigned to_align, unsigned from_align,
              const place *at);
void put_zero_row(translator *t, pointer at, const bit_row *row, unsigned align, const place *place);
unsigned numbers_of_row(const bit_row *row);
integer_type type_of_row(const bit_row *row);

// ---- tables.c ----
// The object of a variable in constant memory, or of a text.
object *table_of(translator *t, const node *declaration);
object *text_table(translator *t, const node *n);

// ---- floats.c ----
// Rounding by the numbers that the helpers know it by; where none is asked for, to zero of whole numbers and to the
// nearest of others.
typedef enum { TO_NEAREST, TO_ZERO, UPWARDS, DOWNWARDS, BY_DEFAULT } rounding;
// An operator or a function, with the helper that computes it.
typedef struct float_operation float_operation;
const float_operation *float_operation_named(const char *name); // NULL for none
unsigned operand_count(const float_operation *f);               // without what a second result is stored through
bool stores_result(const float_operation *f);
// The result for operands of a width; and what is stored. A truth is 0 or 1.
integer float_result(translator *t, const float_operation *f, unsigned width, const integer *operands);
integer stored_float_result(translator *t, const float_operation *f, unsigned width, const integer *operands);
// An operator of one or of two operands, both of a width.
integer float_operator(translator *t, operation op, integer a, integer b, unsigned width);
integer is_not_zero_float(translator *t, integer v, unsigned width);
integer number_is_not_zero(translator *t, integer v, const type *type);
integer float_literal(translator *t, unsigned width, bool is_one); // 1 or 0
// Refuses numbers that are loaded and stored only.
void need_format(translator *t, const type *type, const place *at);
// A number of one type in another one.
integer converted_number(translator *t, integer v, const type *from, const type *to, rounding mode);
value converted_numbers(translator *t, value v, const type *from, const type *to, rounding mode);
// The helpers that a kernel reaches: in its text, and before a pass.
void write_helpers(translator *t, text *to);
void begin_helpers(translator *t);
bool uses_helpers(const translator *t);

// ---- expressions.c ----
value evaluate_value(translator *t, const node *n);
storage evaluate_storage(translator *t, const node *n);
void evaluate_effects(translator *t, const node *n);
integer condition(translator *t, const node *n);
value converted_value(translator *t, value v, const type *type);

// ---- operators.c ----
value operation_value(translator *t, const node *n);
value assignment(translator *t, const node *n, bool is_used);
value compound_assignment(translator *t, const node *n, bool is_used);
value step(translator *t, const node *n, bool is_used);
value conditional(translator *t, const node *n);

// ---- vectors.c ----
const unsigned char *components_of(translator *t, const char *name, unsigned length, const place *at, unsigned *count);
value splat(translator *t, integer v, unsigned count);
// An operator on the components of two vectors, or of a vector and an integer, of these types.
value vector_operation(translator *t, operation op, value a, value b, const type *result, const type *operands);
value as_type(translator *t, value v, const type *type, const place *at);
value vector_literal(translator *t, const node *n);

// ---- statements.c ----
value statement_value(translator *t, const node *n, bool is_used);
void translate_statement(translator *t, const node *n, bool is_outermost);
// The statements of a block from one to in front of another one.
void translate_range(translator *t, const node *block, unsigned first, unsigned end, bool is_outermost);
void enter_breakable(translator *t, label *l);

// ---- switches.c ----
void translate_switch(translator *t, const node *n);

// ---- declarations.c ----
void declare_variable(translator *t, const node *n, bool is_outermost);
// Declares a variable in front of a switch, whose sections behind its own know it too, or of what may be left by goto.
void declare_in_front_of(translator *t, const node *n);
// Declares an object with what it is given.
void declare_given(translator *t, object *o, const type *type, const char *name, value v, const place *at);
// A value as a variable of a type takes it.
value given_value(translator *t, value v, const type *type);
void set_alias(translator *t, object *o, value v);
// Gives an object in local memory its name and its elements.
void add_local(translator *t, object *o);

// ---- calls.c ----
value call_value(translator *t, const node *n, bool is_used);
// A call that stands for all calls of a function of the judged text.
call *new_call(translator *t, const node *function);
// Gives a parameter of a call its value.
void give_argument(translator *t, unsigned number, const node *p, value v, const place *at);

// ---- builtins.c ----
value builtin_value(translator *t, const node *n, const char *name, bool is_used);

// ---- float_functions.c ----
// A function on floating-point numbers; false where it is none.
bool float_function_value(translator *t, const node *n, const char *name, value *result);

// ---- printing.c ----
// A call of printf; false, and nothing is written, where what it prints isn't known by its format and its arguments.
bool printf_value(translator *t, const node *n, bool is_used, value *result);
// What a kernel that calls it begins with, and what stands behind each barrier.
list begin_of_printing(translator *t, const place *at);
void count_barrier(translator *t);

// ---- atomics.c ----
bool is_atomic(const char *name, const char **operation);
value atomic_value(translator *t, const node *n, const char *operation, bool is_used);

// ---- copies.c ----
value copy_value(translator *t, const node *n, bool is_strided);
void wait_for_copies(translator *t, const node *n);
list begin_of_copies(translator *t, const place *at);

// ---- kernels.c ----
void translate_kernel(translator *t, const node *function, judged_kernel *k, text *to);
// Whether a name is a word of the language, or one of the driver's own.
bool is_reserved_name(const char *name);

// ---- shortened.c ----
// The list of a kernel or of a function with fewer statements, which do the same.
list shortened(translator *t, list l);

// ---- writer.c ----
// Notes the place of what is written next.
void add_place(translator *t, judged_place p);
void write_list(translator *t, text *to, list l);
#endif
