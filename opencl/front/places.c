#define _GNU_SOURCE
#include "places.h"
#include <fcntl.h>
#include <string.h>
#include <sys/stat.h>
#include <unistd.h>

// A text of the client's by its lines.
typedef struct listing {
    struct listing *next;
    const char *name;
    const char **lines; // where each begins; one more for the end
    unsigned count;
} listing;

// A macro that takes arguments.
typedef struct macro {
    struct macro *next;
    const char *name;
    size_t length;
} macro;

enum { BUCKETS = 512 };

struct rows {
    arena *arena;
    macro *macros[BUCKETS];
    const char *text;
    row *rows;
    unsigned count;
    unsigned first; // the first one of the client's text
    const client_source *source;
    listing *listings;  // of the files that were asked for
    bool is_renumbered; // the client's text names lines itself, so that its lines aren't found by their numbers
};

static const char own_name[] = "source";
enum { MOST_FILE = 16 << 20, MOST_PAIRS = 1 << 22 };

// ---- words ----

static bool is_digit(char c) { return c >= '0' && c <= '9'; }
static bool is_name_byte(char c) {
    return c == '_' || c == '$' || is_digit(c) || (c >= 'a' && c <= 'z') || (c >= 'A' && c <= 'Z') || (c & 0x80);
}

static const char *behind_quote(const char *s, const char *end) {
    char quote = *s++;
    while (s < end && *s != quote) s += *s == '\\' && s + 1 < end ? 2 : 1;
    return s < end ? s + 1 : end;
}

// C99 6.4.8: digits, names, dots, and a sign behind an exponent.
static const char *behind_number(const char *s, const char *end) {
    for (s++; s < end; s++) {
        bool is_sign = (*s == '+' || *s == '-') && strchr("eEpP", s[-1]);
        if (!is_sign && *s != '.' && !is_name_byte(*s)) break;
    }
    return s;
}

static const char *behind_sign(const char *s, const char *end) {
    static const char *const signs[] = {"<<=", ">>=", "...", "->", "++", "--", "<<", ">>", "<=", ">=", "==", "!=",
                                        "&&",  "||",  "*=",  "/=", "%=", "+=", "-=", "&=", "^=", "|=", "##", NULL};
    for (const char *const *sign = signs; *sign; sign++) {
        size_t n = strlen(*sign);
        if ((size_t)(end - s) >= n && !memcmp(s, *sign, n)) return s + n;
    }
    return s + 1;
}

static const char *behind_comment(const char *s, const char *end) {
    if (s[1] == '/') return end;
    for (s += 2; s + 1 < end; s++)
        if (s[0] == '*' && s[1] == '/') return s + 2;
    return end;
}

static const char *behind_word(const char *s, const char *end) {
    if (*s == '"' || *s == '\'') return behind_quote(s, end);
    if (is_digit(*s) || (*s == '.' && s + 1 < end && is_digit(s[1]))) return behind_number(s, end);
    if (!is_name_byte(*s)) return behind_sign(s, end);
    while (s < end && is_name_byte(*s)) s++;
    return s;
}

// The words of a line. Returns how many there are; with `to` they are put there.
static unsigned split_line(const char *begin, const char *end, word *to) {
    unsigned count = 0;
    for (const char *s = begin; s < end;) {
        bool is_space = *s == ' ' || (*s >= '\t' && *s <= '\r') || *s == '\\';
        bool is_comment = *s == '/' && s + 1 < end && (s[1] == '/' || s[1] == '*');
        const char *behind = is_space ? s + 1 : is_comment ? behind_comment(s, end) : behind_word(s, end);
        if (!is_space && !is_comment) {
            if (to) to[count] = (word){s, (unsigned)(behind - s), (unsigned)(s - begin) + 1, 0};
            count++;
        }
        s = behind;
    }
    return count;
}

static word *words_of(arena *a, const char *begin, const char *end, unsigned *count) {
    *count = split_line(begin, end, NULL);
    word *words = take(a, (*count + 1) * sizeof *words);
    split_line(begin, end, words);
    return words;
}

// ---- the client's texts ----

static listing *add_listing(rows *r, const char *name, const char *text) {
    listing *l = take(r->arena, sizeof *l);
    *l = (listing){r->listings, name, NULL, 1};
    r->listings = l;
    size_t length = text ? strlen(text) : 0;
    for (size_t i = 0; i < length; i++) l->count += text[i] == '\n';
    l->lines = take(r->arena, (l->count + 1) * sizeof *l->lines);
    unsigned n = 0;
    l->lines[n++] = text;
    for (size_t i = 0; i < length; i++)
        if (text[i] == '\n') l->lines[n++] = text + i + 1;
    l->lines[l->count] = text + length + 1;
    if (!text) l->count = 0;
    return l;
}

// The bytes of a file with a zero behind them. NULL where it can't be read, or is longer than a source would be.
static char *file_text(arena *a, const char *path) {
    struct stat about;
    int fd = open(path, O_RDONLY | O_CLOEXEC | O_NONBLOCK);
    if (fd < 0) return NULL;
    if (fstat(fd, &about) || !S_ISREG(about.st_mode) || about.st_size > MOST_FILE) {
        close(fd);
        return NULL;
    }
    jmp_buf failed;
    memcpy(&failed, &a->failed, sizeof failed);
    if (setjmp(a->failed)) {
        close(fd);
        memcpy(&a->failed, &failed, sizeof failed);
        longjmp(a->failed, 1);
    }
    char *text = take(a, (size_t)about.st_size + 1);
    memcpy(&a->failed, &failed, sizeof failed);
    ssize_t got = read(fd, text, (size_t)about.st_size);
    close(fd);
    return got == about.st_size ? text : NULL;
}

static const listing *listing_of(rows *r, const char *file) {
    for (const listing *l = r->listings; l; l = l->next)
        if (!strcmp(l->name, file)) return l;
    return add_listing(r, file, file_text(r->arena, file));
}

// ---- where words come from ----

static bool is_same(const word *a, const word *b) { return a->length == b->length && !memcmp(a->at, b->at, a->length); }

// ---- macros with arguments ----

static unsigned bucket_of(const char *name, size_t length) {
    unsigned h = 2166136261u;
    for (size_t i = 0; i < length; i++) h = (h ^ (unsigned char)name[i]) * 16777619u;
    return h % BUCKETS;
}

static bool takes_arguments(const rows *r, const word *w) {
    for (const macro *m = r->macros[bucket_of(w->at, w->length)]; m; m = m->next)
        if (m->length == w->length && !memcmp(m->name, w->at, w->length)) return true;
    return false;
}

// A line `#define NAME(..` or `#undef ..` becomes empty, since it is done already. False where it is none.
static bool read_definition(rows *r, char *s, char *end) {
    static const char define[] = "#define ", undefine[] = "#undef ";
    size_t n = sizeof define - 1, m = sizeof undefine - 1;
    bool is_define = (size_t)(end - s) > n && !memcmp(s, define, n);
    if (!is_define && ((size_t)(end - s) < m || memcmp(s, undefine, m))) return false;
    const char *name = s + n, *behind = name;
    while (is_define && behind < end && is_name_byte(*behind)) behind++;
    if (is_define && behind < end && *behind == '(') {
        size_t length = (size_t)(behind - name);
        macro *made = take(r->arena, sizeof *made), **bucket = &r->macros[bucket_of(name, length)];
        *made = (macro){*bucket, copy_text(r->arena, name, length), length};
        *bucket = made;
    }
    memset(s, ' ', (size_t)(end - s));
    return true;
}

// ---- columns ----

typedef struct {
    const rows *rows;
    word *of;           // the preprocessed words
    const word *client; // those of the client's line
    unsigned count, client_count;
} pair;

// How many words are the same from two on.
static unsigned run_length(const pair *p, unsigned i, unsigned j) {
    unsigned n = 0;
    while (i + n < p->count && j + n < p->client_count && is_same(&p->of[i + n], &p->client[j + n])) n++;
    return n;
}

// The client's word behind the brackets that may follow a macro's name.
static unsigned behind_brackets(const pair *p, unsigned j) {
    unsigned open = 0;
    for (unsigned k = j; k < p->client_count; k++) {
        char c = p->client[k].length == 1 ? *p->client[k].at : 0;
        open += c == '(';
        open -= c == ')' && open;
        if (!open) return c == ')' ? k + 1 : j;
    }
    return p->client_count;
}

static int bracket_step(const word *w) {
    return w->length != 1 ? 0 : (*w->at == '(' || *w->at == '{') - (*w->at == ')' || *w->at == '}');
}

// How far what a macro stands for reaches, where the client's text goes on with word j: the word from which on most
// are the same, and all up to the end before all else. With `is_balanced`, as many brackets are closed there as are
// opened.
static unsigned end_of_macro(const pair *p, unsigned i, unsigned j, bool is_balanced, unsigned *best) {
    unsigned found = p->count;
    int open = 0;
    *best = j == p->client_count;
    for (unsigned k = i; k < p->count && open >= 0; open += is_balanced ? bracket_step(&p->of[k]) : 0, k++) {
        if (open) continue;
        unsigned run = run_length(p, k, j);
        bool is_whole = k + run == p->count && j + run == p->client_count;
        if (is_whole) run += p->client_count;
        if (run <= *best) continue;
        *best = run;
        found = k;
    }
    return is_balanced && !*best ? end_of_macro(p, i, j, false, best) : found;
}

// What stands in the client's line from a macro's name at word j on. Moves both behind the macro.
static void step_over_macro(const pair *p, unsigned *i, unsigned *j) {
    unsigned alone, called, after = behind_brackets(p, *j + 1);
    unsigned end = end_of_macro(p, *i, *j + 1, true, &alone);
    unsigned end_of_call = end_of_macro(p, *i, after, true, &called);
    bool is_call = after > *j + 1 && (called >= alone || takes_arguments(p->rows, &p->client[*j]));
    unsigned to = is_call ? end_of_call : end;
    for (; *i < to; ++*i) p->of[*i].client_column = p->client[*j].column;
    *j = is_call ? after : *j + 1;
}

// Where the words of a line come from: the same words in the same order, but for what macros stand for.
static void find_columns(const pair *p) {
    unsigned i = 0, j = 0;
    while (i < p->count && j < p->client_count) {
        if (is_same(&p->of[i], &p->client[j])) p->of[i++].client_column = p->client[j++].column;
        else step_over_macro(p, &i, &j);
    }
    for (; i < p->count; i++) p->of[i].client_column = p->client_count ? p->client[p->client_count - 1].column : 1;
}

// Whether a line is `#line ..` or `# 5 ..`.
static bool names_line(const char *s) {
    s += strspn(s, " \t");
    if (*s != '#') return false;
    s += 1 + strspn(s + 1, " \t");
    return is_digit(*s) || !strncmp(s, "line", 4);
}

static bool has_named_lines(const char *text) {
    for (const char *line = text; line; line = strchr(line, '\n')) {
        if (*line == '\n') line++;
        if (names_line(line)) return true;
    }
    return false;
}

static void find_words(rows *r, row *w) {
    w->words = words_of(r->arena, r->text + w->begin, r->text + w->end, &w->word_count);
    for (unsigned i = 0; i < w->word_count; i++) w->words[i].client_column = w->words[i].column;
    const listing *l = w->file && w->line && !r->is_renumbered ? listing_of(r, w->file) : NULL;
    if (!l || w->line > l->count) return;
    pair p = {.rows = r, .of = w->words, .count = w->word_count};
    p.client = words_of(r->arena, l->lines[w->line - 1], l->lines[w->line] - 1, &p.client_count);
    if ((uint64_t)p.count * p.client_count <= MOST_PAIRS) find_columns(&p);
}

// ---- rows ----

// A name as it stands between quotes in a line that names a place.
static const char *name_in_quotes(arena *a, const char *s, const char *end) {
    char *name = take(a, (size_t)(end - s) + 1), *to = name;
    for (s++; s < end && *s != '"'; s++) {
        if (*s == '\\' && s + 1 < end) s++;
        *to++ = *s;
    }
    return name;
}

// A file as places name it: the source and its headers by the very texts of their names.
static const char *shown_file(const rows *r, const char *file) {
    const client_source *s = r->source;
    if (!strcmp(file, own_name)) return s->source.name;
    for (unsigned i = 0; i < s->header_count; i++)
        if (!strcmp(file, s->headers[i].name)) return s->headers[i].name;
    return file;
}

typedef struct {
    const char *file;
    unsigned line;
} origin;

// Whether a line is `# NUMBER "FILE"..`, which says where the next one comes from. Then it becomes empty.
static bool read_marker(rows *r, char *s, char *end, origin *o) {
    if (end - s < 3 || s[0] != '#' || s[1] != ' ' || !is_digit(s[2])) return false;
    unsigned line = 0;
    char *at = s + 2;
    for (; at < end && is_digit(*at); at++) line = line * 10 + (unsigned)(*at - '0');
    if (at + 1 >= end || at[0] != ' ' || at[1] != '"') return false;
    const char *file = name_in_quotes(r->arena, at + 1, end);
    file = shown_file(r, file);
    *o = (origin){o->file && !strcmp(o->file, file) ? o->file : file, line};
    memset(s, ' ', (size_t)(end - s));
    return true;
}

rows *read_rows(arena *a, char *text, size_t length, const client_source *source) {
    rows *r = take(a, sizeof *r);
    *r = (rows){.arena = a, .text = text, .source = source};
    for (size_t i = 0; i < length; i++) r->count += text[i] == '\n';
    r->rows = take(a, (r->count + 2) * sizeof *r->rows);
    unsigned n = 0;
    origin next = {NULL, 0};
    for (char *s = text, *end; s < text + length; s = end + 1) {
        end = memchr(s, '\n', (size_t)(text + length - s));
        if (!end) end = text + length;
        bool is_marker = read_marker(r, s, end, &next);
        if (!is_marker && next.file) read_definition(r, s, end);
        if (!r->first && next.file == source->source.name) r->first = n + 1;
        r->rows[n++] = (row){(size_t)(s - text), (size_t)(end - text), r->first ? next.file : NULL, next.line, NULL, 0};
        if (!is_marker) next.line++;
    }
    r->count = n;
    if (!r->first) r->first = n + 1;
    add_listing(r, source->source.name, source->source.text);
    for (unsigned i = source->header_count; i-- > 0;) add_listing(r, source->headers[i].name, source->headers[i].text);
    r->is_renumbered = has_named_lines(source->source.text);
    return r;
}

row *row_at(const rows *r, unsigned number) { return number && number <= r->count ? &r->rows[number - 1] : NULL; }

bool is_in_front(const rows *r, unsigned number) { return number < r->first; }

const word *word_at(rows *r, unsigned number, unsigned column) {
    row *w = row_at(r, number);
    if (!w) return NULL;
    if (!w->words) find_words(r, w);
    unsigned low = 0, high = w->word_count;
    while (low < high) {
        unsigned middle = (low + high) / 2;
        if (w->words[middle].column < column) low = middle + 1;
        else high = middle;
    }
    return low < w->word_count && w->words[low].column == column ? &w->words[low] : NULL;
}

place client_place(rows *r, unsigned number, unsigned column) {
    const row *w = row_at(r, number);
    if (!w || !w->file) return (place){r->source->source.name, 0, 0};
    const word *at = word_at(r, number, column);
    return (place){w->file, w->line, at ? at->client_column : column};
}

// ---- the words of a part ----

// What stands between two words: a space where some stands there, or where they would be one word without it; no line
// feed.
static const char *space_between(const word *before, const word *w, bool is_new_row) {
    bool would_be_one = is_name_byte(*before->at) && is_name_byte(*w->at);
    return (is_new_row ? w->column > 1 || would_be_one : before->at + before->length < w->at) ? " " : "";
}

// Adds the words of a row from a column to another one. Returns the last one that was added, else `before`.
static const word *add_words(const row *w, unsigned first, unsigned last, const word *before, text *to) {
    bool is_new_row = true;
    for (unsigned i = 0; i < w->word_count; i++) {
        const word *one = &w->words[i];
        if (one->column < first || one->column > last) continue;
        if (before) add(to, space_between(before, one, is_new_row));
        add_bytes(to, one->at, one->length);
        before = one;
        is_new_row = false;
    }
    return before;
}

const char *words_between(rows *r, unsigned number, unsigned column, unsigned last_row, unsigned last_column) {
    text words = {.arena = r->arena};
    const word *before = NULL;
    add(&words, "");
    for (unsigned n = number; n <= last_row && row_at(r, n); n++) {
        row *w = row_at(r, n);
        if (!w->words) find_words(r, w);
        before = add_words(w, n == number ? column : 1, n == last_row ? last_column : UINT32_MAX, before, &words);
    }
    return words.at;
}
