#include "dump.h"
#include <string.h>

// The longest line: a string of the client's, or the type of a function.
enum { FIRST_ROOM = 1 << 18, MOST_LINE = 1 << 26 };

void open_dump(dump *d, child *c, arena *a, uint64_t most) {
    *d = (dump){.child = c, .arena = a, .room = take(a, FIRST_ROOM), .size = FIRST_ROOM, .most = most};
}

// ---- bytes ----

// Makes room behind what came and isn't read yet. False where a line is too long.
static bool make_room(dump *d) {
    size_t length = d->end - d->begin;
    if (d->begin && length < d->size / 2) {
        memmove(d->room, d->room + d->begin, length);
    } else {
        if (d->size >= MOST_LINE) return false;
        char *more = take(d->arena, d->size * 2);
        memcpy(more, d->room + d->begin, length);
        d->room = more;
        d->size *= 2;
    }
    d->begin = 0;
    d->end = length;
    return true;
}

static bool read_more(dump *d) {
    if (d->is_at_end || d->total > d->most) return false;
    if (d->end == d->size && !make_room(d)) return false;
    ssize_t got = read_child(d->child, d->room + d->end, d->size - d->end);
    d->is_at_end = got == 0;
    if (got <= 0) return false;
    d->end += (size_t)got;
    d->total += (uint64_t)got;
    return true;
}

// The next line with a zero in place of its line feed. NULL at the end and where it isn't whole.
static char *next_text(dump *d) {
    for (size_t seen = 0;;) {
        char *feed = memchr(d->room + d->begin + seen, '\n', d->end - d->begin - seen);
        if (feed) {
            char *line = d->room + d->begin;
            *feed = 0;
            d->begin = (size_t)(feed - d->room) + 1;
            return line;
        }
        seen = d->end - d->begin;
        if (!read_more(d)) return NULL;
    }
}

// ---- the parts of a line ----

bool read_number(const char **s, uint64_t *to) {
    const char *at = *s;
    uint64_t n = 0;
    for (; *at >= '0' && *at <= '9'; at++)
        if (__builtin_mul_overflow(n, 10u, &n) || __builtin_add_overflow(n, (unsigned)(*at - '0'), &n)) return false;
    bool is_any = at > *s;
    *s = at;
    *to = n;
    return is_any;
}

static bool step_over(const char **s, const char *what) {
    size_t n = strlen(what);
    if (strncmp(*s, what, n)) return false;
    *s += n;
    return true;
}

static bool read_id(const char **s, uint64_t *to) {
    if (!step_over(s, "0x")) return false;
    const char *begin = *s;
    uint64_t n = 0;
    for (;; ++*s) {
        char c = **s;
        unsigned digit = c >= '0' && c <= '9'   ? (unsigned)(c - '0')
                         : c >= 'a' && c <= 'f' ? (unsigned)(c - 'a') + 10
                                                : 16;
        if (digit == 16) break;
        n = n << 4 | digit;
    }
    *to = n;
    return *s > begin && *s - begin <= 16;
}

static bool read_unsigned(const char **s, unsigned *to) {
    uint64_t n;
    if (!read_number(s, &n) || n > UINT32_MAX) return false;
    *to = (unsigned)n;
    return true;
}

// `<invalid sloc>`, `col:5`, `line:3:5` or `<stdin>:3:5`: what isn't written is as in the place that was written
// before.
static bool read_position(dump *d, const char **s, position *to) {
    *to = (position){0, 0};
    if (step_over(s, "<invalid sloc>")) return true;
    if (step_over(s, "col:")) {
        to->row = d->is_in_text ? d->row : 0;
        return read_unsigned(s, &to->column);
    }
    if (!step_over(s, "line:")) {
        d->is_in_text = !strncmp(*s, "<stdin>:", 8);
        const char *behind = **s == '<' ? strstr(*s, ">:") : NULL;
        if (!behind) return false;
        *s = behind + 2;
    }
    if (!read_unsigned(s, &d->row) || !step_over(s, ":") || !read_unsigned(s, &to->column)) return false;
    to->row = d->is_in_text ? d->row : 0;
    return true;
}

// `<begin>` or `<begin, end>`.
static bool read_range(dump *d, const char **s, position *begin, position *end) {
    if (!step_over(s, "<") || !read_position(d, s, begin)) return false;
    *end = *begin;
    if (step_over(s, ", ") && !read_position(d, s, end)) return false;
    return step_over(s, ">");
}

static bool ends_in(const char *word, size_t length, const char *with) {
    size_t n = strlen(with);
    return length >= n && !memcmp(word + length - n, with, n);
}

static bool is_word_byte(char c) { return (c >= 'A' && c <= 'Z') || (c >= 'a' && c <= 'z') || (c >= '0' && c <= '9'); }

// The lines and dashes in front of a node: two bytes for each level.
static const char *behind_levels(const char *s, unsigned *depth) {
    for (*depth = 0; (*s == '|' || *s == ' ' || *s == '`') && (s[1] == ' ' || s[1] == '-'); ++*depth) {
        bool is_last = s[1] == '-';
        s += 2;
        if (is_last) {
            ++*depth;
            break;
        }
    }
    return s;
}

// What stands behind a node's number: other declarations of the same, its places, all else.
static bool read_places(dump *d, const char **s, dump_line *line) {
    uint64_t other;
    bool is_declaration = ends_in(line->word, line->length, "Decl");
    for (bool is_other = is_declaration; is_other;) {
        bool is_previous = step_over(s, " prev ");
        is_other = is_previous || step_over(s, " parent ");
        if (is_other && !read_id(s, is_previous ? &line->previous : &other)) return false;
    }
    if (strncmp(*s, " <", 2)) return !is_declaration; // a type, or the name of a declaration
    ++*s;
    if (!read_range(d, s, &line->begin, &line->end)) return false;
    line->own = line->begin;
    return !is_declaration || (step_over(s, " ") && read_position(d, s, &line->own));
}

// `array_filler: ` and its like, in front of a node.
static const char *behind_label(const char *s, bool *is_filler) {
    const char *at = s;
    while ((*at >= 'a' && *at <= 'z') || *at == '_') at++;
    bool is_label = at > s && at[0] == ':' && at[1] == ' ';
    *is_filler = is_label && !strncmp(s, "array_filler: ", (size_t)(at - s));
    return is_label ? at + 2 : s;
}

static dump_line read_line(dump *d, const char *s) {
    dump_line line = {.kind = BROKEN_LINE};
    s = behind_levels(s, &line.depth);
    line.rest = s;
    if (!strcmp(s, "<<<NULL>>>")) line.kind = NULL_LINE;
    if (step_over(&line.rest, "value: ")) line.kind = VALUE_LINE;
    if (line.kind != BROKEN_LINE) return line;
    s = behind_label(s, &line.is_filler);
    line.word = s;
    while (is_word_byte(*s)) s++;
    line.length = (size_t)(s - line.word);
    line.rest = s;
    if (!line.length) return line;
    if (strncmp(s, " 0x", 3)) {
        line.kind = OTHER_LINE;
        return line;
    }
    s++;
    if (!read_id(&s, &line.id) || !read_places(d, &s, &line)) return line;
    while (*s == ' ') s++;
    line.rest = s;
    line.kind = NODE_LINE;
    return line;
}

dump_line next_line(dump *d) {
    const char *s = next_text(d);
    if (s) return read_line(d, s);
    bool is_end = d->is_at_end && d->begin == d->end;
    return (dump_line){.kind = is_end ? NO_LINE : BROKEN_LINE};
}
