// JSON (RFC 8259) by names and levels: the same is found in whatever order the members stand.
#ifndef CLSIM_JSON_H
#define CLSIM_JSON_H
#include <stdbool.h>
#include <stddef.h>

// A value in a text, from its first byte up to the one behind its last. Two NULLs where it isn't there, and then
// nothing that is asked of it is there either.
typedef struct {
    const char *at, *end;
} json;

// The value that the whole text is. It isn't there where the text is no JSON, or nested more than 64 deep.
json json_text(const char *text, size_t length);
// The member of an object by its name, which has no escape in it; the first one where there are several.
json json_member(json object, const char *name);
// The first element of a list, and the one behind an element.
json json_first(json list);
json json_next(json list, json element);
// The value of an object's first member, and of the one behind a member's value. `name` becomes its name, a string.
json json_first_member(json object, json *name);
json json_next_member(json object, json value, json *name);
// Whether it is a number without a sign, a fraction and an exponent, which is then put into `n`.
bool json_number(json v, unsigned long *n);
// Whether it is a string without an escape that fits into `n` bytes of room, into which it is then put.
bool json_word(json v, char *room, size_t n);
// The same of a string that may have escapes: what they stand for is put there as UTF-8. What stands for no character
// of a text (the zero, half of a pair) is U+FFFD. As many bytes as the value has are always enough.
bool json_string(json v, char *room, size_t n);
#endif
