// Types as clang prints them, and the layouts of structs and unions.
#ifndef CLSIM_FRONT_TYPES_H
#define CLSIM_FRONT_TYPES_H
#include "ast.h"

typedef struct types types;

types *make_types(arena *a);

// The type of a text between quotes, without them: as it is written and, where clang tells it, without its outermost
// typedef (NULL where it doesn't). What can't be read, or may be one of several types, is an OTHER_TYPE of that name.
const type *type_of_text(types *t, const char *written, size_t written_length, const char *plain, size_t plain_length);

// Names that are declared from here on belong to a function; 0 is program scope.
void enter_scope(types *t, unsigned function);

// A struct or a union whose fields aren't known yet. An unnamed one is known by its place in the text that clang reads.
record *declare_record(types *t, const char *name, bool is_union, unsigned row, unsigned column);
const type *type_of_record(types *t, record *of);

typedef struct {
    field field;
    bool is_packed;
    uint64_t aligned; // by an attribute, else 0
} field_form;

typedef struct {
    const field_form *fields;
    unsigned count;
    bool is_packed;
    uint64_t aligned;    // by an attribute, else 0
    uint64_t most_align; // `#pragma pack`, else 0
    const char *unknown_attribute;
} record_form;

// Lays out a struct or a union by the rules of C and of clang's attributes.
void lay_out(types *t, record *r, const record_form *form);

typedef struct {
    const char *name;
    unsigned row, column; // as those of a record
    int64_t least;        // of its values, not above 0
    uint64_t greatest;
    const char *unknown_attribute;
} enumeration_form;

// An enumeration is as int where a value is negative, else as unsigned int, with 8 bytes where these don't do.
const type *declare_enumeration(types *t, const enumeration_form *form);
// `align` is that of an attribute, else 0. Of a type with an attribute that isn't known nothing is known.
void declare_type_name(types *t, const char *name, const type *of, uint64_t align, const char *unknown_attribute);

// Brings sizes up to date where a type was met before its record was complete.
void settle_types(types *t);
#endif
