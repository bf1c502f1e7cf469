#include "json.h"
#include <limits.h>
#include <stdint.h>
#include <string.h>

enum { MAX_DEPTH = 64 }; // each level is a bit of a number

static const json nothing = {NULL, NULL};

// ---- steps over what is left of a text. Each says whether it stood in front; where not, the rest is of no use ----

// Whether a byte is the first one.
static bool is_next(const json *rest, char c) { return rest->at < rest->end && *rest->at == c; }

// One of several bytes. Where none is in front, the rest stays.
static bool skip_any(json *rest, const char *bytes) {
    if (rest->at >= rest->end || !*rest->at || !strchr(bytes, *rest->at)) return false;
    rest->at++;
    return true;
}

// The same of one byte.
static bool skip_byte(json *rest, char c) {
    if (!is_next(rest, c)) return false;
    rest->at++;
    return true;
}

// White space, if there is any.
static void skip_space(json *rest) {
    while (skip_any(rest, " \t\n\r")) {}
}

// Digits, at least one.
static bool skip_digits(json *rest) {
    if (!skip_any(rest, "0123456789")) return false;
    while (skip_any(rest, "0123456789")) {}
    return true;
}

// A number: perhaps a sign, then 0 or digits that don't begin with 0, perhaps a fraction, perhaps an exponent.
static bool skip_number(json *rest) {
    skip_byte(rest, '-');
    if (!skip_byte(rest, '0') && !skip_digits(rest)) return false;
    if (skip_byte(rest, '.') && !skip_digits(rest)) return false;
    if (!skip_any(rest, "eE")) return true;
    skip_any(rest, "+-");
    return skip_digits(rest);
}

// What stands behind the backslash of an escape.
static bool skip_escape(json *rest) {
    if (!skip_byte(rest, 'u')) return skip_any(rest, "\"\\/bfnrt");
    for (int i = 0; i < 4; i++)
        if (!skip_any(rest, "0123456789abcdefABCDEF")) return false;
    return true;
}

// A string with its quotes.
static bool skip_string(json *rest) {
    if (!skip_byte(rest, '"')) return false;
    while (rest->at < rest->end && (unsigned char)*rest->at >= ' ') {
        char c = *rest->at++;
        if (c == '"') return true;
        if (c == '\\' && !skip_escape(rest)) return false;
    }
    return false;
}

// The bytes of a word. What may follow it is for others to say.
static bool skip_word(json *rest, const char *word) {
    size_t n = strlen(word);
    if ((size_t)(rest->end - rest->at) < n || memcmp(rest->at, word, n)) return false;
    rest->at += n;
    return true;
}

// A value that has no values in it.
static bool skip_plain(json *rest) {
    if (rest->at >= rest->end) return false;
    switch (*rest->at) {
    case '"': return skip_string(rest);
    case 't': return skip_word(rest, "true");
    case 'f': return skip_word(rest, "false");
    case 'n': return skip_word(rest, "null");
    default: return skip_number(rest);
    }
}

// The name of a member, with its quotes, and the colon behind it.
static bool skip_name(json *rest, json *name) {
    skip_space(rest);
    name->at = rest->at;
    if (!skip_string(rest)) return false;
    name->end = rest->at;
    skip_space(rest);
    return skip_byte(rest, ':');
}

// The bracket that ends an object or a list.
static bool skip_end(json *rest, bool is_object) {
    skip_space(rest);
    return skip_byte(rest, is_object ? '}' : ']');
}

// A value with all that is in it. Each open level is a bit of `objects`, the innermost one the lowest: 1 of an object,
// 0 of a list.
static bool skip_value(json *rest) {
    uint64_t objects = 0;
    unsigned depth = 0;
    json name;
    for (;;) {
        if (objects & 1 && !skip_name(rest, &name)) return false;
        skip_space(rest);
        bool is_object = is_next(rest, '{');
        if (is_object || is_next(rest, '[')) {
            if (depth++ == MAX_DEPTH) return false;
            objects = objects << 1 | is_object;
            rest->at++;
            skip_space(rest);
            if (!is_next(rest, is_object ? '}' : ']')) continue; // with what stands in it first
        } else if (!skip_plain(rest)) return false;
        for (; depth && skip_end(rest, objects & 1); depth--) objects >>= 1;
        if (!depth) return true;
        if (!skip_byte(rest, ',')) return false;
    }
}

// ---- values and their parts ----

// The value in front, over which it steps.
static json take_value(json *rest) {
    skip_space(rest);
    const char *at = rest->at;
    return skip_value(rest) ? (json){at, rest->at} : nothing;
}

// What stands behind the bracket with which a value begins. Nothing where it begins with another byte.
static json inside(json v, char bracket) { return is_next(&v, bracket) ? (json){v.at + 1, v.end} : nothing; }

json json_text(const char *text, size_t length) {
    json rest = {text, text + length}, v = take_value(&rest);
    skip_space(&rest);
    return rest.at == rest.end ? v : nothing;
}

json json_member(json object, const char *name) {
    json rest = inside(object, '{'), called;
    size_t n = strlen(name);
    while (skip_name(&rest, &called)) {
        json v = take_value(&rest);
        bool is_it = (size_t)(called.end - called.at) == n + 2 && !memcmp(called.at + 1, name, n);
        skip_space(&rest);
        if (is_it || !v.at) return v;
        if (!skip_byte(&rest, ',')) break;
    }
    return nothing;
}

json json_first(json list) {
    json rest = inside(list, '[');
    return take_value(&rest);
}

json json_next(json list, json element) {
    json rest = {element.end, inside(list, '[').end};
    if (!rest.at || !rest.end) return nothing;
    skip_space(&rest);
    return skip_byte(&rest, ',') ? take_value(&rest) : nothing;
}

static json take_member(json *rest, json *name) { return skip_name(rest, name) ? take_value(rest) : nothing; }

json json_first_member(json object, json *name) {
    json rest = inside(object, '{');
    return take_member(&rest, name);
}

json json_next_member(json object, json value, json *name) {
    json rest = {value.end, inside(object, '{').end};
    if (!rest.at || !rest.end) return nothing;
    skip_space(&rest);
    return skip_byte(&rest, ',') ? take_member(&rest, name) : nothing;
}

bool json_number(json v, unsigned long *n) {
    unsigned long sum = 0;
    for (const char *c = v.at; c < v.end; c++) {
        unsigned digit = (unsigned)(*c - '0');
        if (digit > 9 || sum > (ULONG_MAX - digit) / 10) return false;
        sum = sum * 10 + digit;
    }
    if (v.at == v.end) return false;
    *n = sum;
    return true;
}

bool json_word(json v, char *room, size_t n) {
    if (!is_next(&v, '"')) return false;
    size_t length = (size_t)(v.end - v.at) - 2;
    if (length >= n || memchr(v.at, '\\', length + 1)) return false;
    memcpy(room, v.at + 1, length);
    room[length] = 0;
    return true;
}

// ---- escapes ----

// The four hexadecimal digits of an escape, over which it steps.
static uint32_t take_unit(json *rest) {
    uint32_t unit = 0;
    for (int i = 0; i < 4; i++) {
        char c = *rest->at++;
        unit = unit << 4 | (uint32_t)(c <= '9' ? c - '0' : (c | 32) - 'a' + 10);
    }
    return unit;
}

// What an escape whose backslash and `u` were stepped over stands for; two of them where they are the halves of a pair.
static uint32_t take_code(json *rest) {
    uint32_t code = take_unit(rest);
    if (code >= 0xd800 && code < 0xdc00 && rest->end - rest->at >= 6 && !strncmp(rest->at, "\\u", 2)) {
        json behind = {rest->at + 2, rest->end};
        uint32_t low = take_unit(&behind);
        if (low >= 0xdc00 && low < 0xe000) {
            *rest = behind;
            return 0x10000 + ((code - 0xd800) << 10 | (low - 0xdc00));
        }
    }
    return !code || (code >= 0xd800 && code < 0xe000) ? 0xfffd : code;
}

// A code as UTF-8; how many bytes that is.
static size_t put_code(char *room, uint32_t code) {
    size_t n = code < 0x80 ? 1 : code < 0x800 ? 2 : code < 0x10000 ? 3 : 4;
    static const unsigned char heads[] = {0, 0, 0xc0, 0xe0, 0xf0};
    for (size_t i = n; i-- > 1; code >>= 6) room[i] = (char)(0x80 | (code & 0x3f));
    room[0] = (char)(heads[n] | code);
    return n;
}

// The next character of a string, as it is there or what its escape stands for; how many bytes that is.
static size_t take_character(json *rest, char *room) {
    static const char letters[] = "bfnrt", bytes[] = "\b\f\n\r\t";
    *room = *rest->at++;
    if (*room != '\\') return 1;
    *room = *rest->at++;
    if (*room == 'u') return put_code(room, take_code(rest));
    const char *letter = strchr(letters, *room);
    if (letter) *room = bytes[letter - letters];
    return 1;
}

bool json_string(json v, char *room, size_t n) {
    json rest = v;
    size_t at = 0;
    if (!skip_string(&rest) || rest.at != v.end || !n) return false;
    rest = (json){v.at + 1, v.end - 1};
    while (rest.at < rest.end) {
        char character[4];
        size_t bytes = take_character(&rest, character);
        if (bytes >= n - at) return false;
        memcpy(room + at, character, bytes);
        at += bytes;
    }
    room[at] = 0;
    return true;
}
