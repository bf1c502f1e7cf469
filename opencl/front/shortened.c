// A kernel's text with fewer steps. What takes statements is kept in variables of its own, where another one does:
//   - the result of a call, since the language takes a call as the whole right side of an assignment only: where all
//     that is done with it is to give another variable its value, the call is put there: `uint t1=f(a); x=t1;` is
//     `x=f(a);`;
//   - a variable, since a later statement may change it: where none does, it stands for itself.
// The result of a helper that was called with the same arguments before isn't worked out again: helpers have no
// effects. Nor is one that nothing uses, where that can't be a fault.
#include "front.h"
#include <string.h>

// How many statements may stand between two that are compared, how often results that are no longer used are sought,
// and how many statements behind a call are looked at for the same one.
enum { MOST_BETWEEN = 64, MOST_ROUNDS = 8, MOST_BEHIND_CALL = 256 };

static bool is_name_byte(char c) {
    return c == '_' || (c >= '0' && c <= '9') || (c >= 'a' && c <= 'z') || (c >= 'A' && c <= 'Z');
}

static bool is_text(const statement *s) { return s && s->kind == TEXT && s->text; }

// The text without the mark in front of it.
static const char *own_text(const statement *s) { return *s->text == '\1' ? strchr(s->text, '\2') + 1 : s->text; }

// Takes a statement out of a list; `before` is the one in front of it.
static void take_out(list *l, statement *before, const statement *s) {
    if (before) before->next = s->next;
    else l->first = s->next;
    if (l->last == s) l->last = before;
}

// ---- names ----

// `uint x;` declares a variable that may not be set where it is read.
static void note_unset(translator *t, const statement *s) {
    const char *text = own_text(s), *space = strchr(text, ' ');
    size_t length = strlen(text);
    for (const char *c = text; c < text + length - 1; c++)
        if (!is_name_byte(*c) && c != space) return;
    if (space && text[length - 1] == ';') note_unset_name(t, space + 1, length - (size_t)(space + 1 - text) - 1);
}

// Statements are nested at most as deep as those of the source, calls counted, which is bounded.
static void count_in(translator *t, list l) {
    for (const statement *s = l.first; s; s = s->next) {
        if (s->text) count_names(t, s->text);
        if (s->end) count_names(t, s->end);
        if (is_text(s)) note_unset(t, s);
        count_in(t, s->first);
        count_in(t, s->second);
    }
}

// How often a text has a name as a word.
static unsigned times_in(const char *text, const char *name) {
    size_t n = strlen(name);
    unsigned count = 0;
    for (const char *at = text; (at = strstr(at, name)); at += n)
        count += (at == text || !is_name_byte(at[-1])) && !is_name_byte(at[n]);
    return count;
}

// Whether a statement gives a variable another value. Those that hold others do not count here.
static bool assigns(const statement *s, const char *name) {
    const char *text = own_text(s);
    size_t n = strlen(name);
    return !strncmp(text, name, n) && !is_name_byte(text[n]);
}

// ---- calls that are joined with what is done with their results ----

// What stands in front of the `=` of a statement that gives a variable this value, `x` or `uint x`; NULL of any other.
static const char *target_of(translator *t, const statement *s, const char *value) {
    const char *text = own_text(s), *equals = strchr(text, '=');
    size_t length = strlen(value);
    if (!equals || strncmp(equals + 1, value, length) || strcmp(equals + 1 + length, ";")) return NULL;
    for (const char *c = text; c < equals; c++)
        if (!is_name_byte(*c) && *c != ' ') return NULL;
    return copy_text(&t->pass, text, (size_t)(equals - text));
}

// Whether a statement from one to in front of another one has the name. One that is declared behind stands in none.
static bool are_with_target(const statement *from, const statement *to, const char *target) {
    bool is_declared = strchr(target, ' ');
    for (const statement *s = from; !is_declared && s != to; s = s->next)
        if (has_name(s->text, target)) return true;
    return false;
}

// Puts a call where its result is used.
static void join(translator *t, list *l, statement *s) {
    statement *before = s, *use = s->next;
    for (unsigned i = 0; i < MOST_BETWEEN && is_text(use) && !has_name(use->text, s->result); i++) {
        before = use;
        use = use->next;
    }
    if (!is_text(use) || use->calls != s->calls || use->before != s->before) return;
    const char *target = target_of(t, use, s->result);
    if (!target || are_with_target(s->next, use, target)) return;
    s->text = format(t, "%s=%s", target, strchr(s->text, '=') + 1);
    take_out(l, before, use);
}

// ---- copies that stand for what they are of ----

// The text with another name in place of one.
static const char *renamed(translator *t, const char *from, const char *name, const char *other) {
    text to = {.arena = &t->pass};
    size_t n = strlen(name);
    const char *at = from;
    for (const char *found = from; (found = strstr(found, name)); found += n) {
        if ((found > from && is_name_byte(found[-1])) || is_name_byte(found[n])) continue;
        add_bytes(&to, at, (size_t)(found - at));
        add(&to, other);
        at = found + n;
    }
    add(&to, at);
    return to.at;
}

// The last statement with a use of the copy, if what it is of isn't changed in front of that one; else NULL.
static const statement *last_use(translator *t, const statement *s) {
    unsigned left = uses_of(t, s->copy) - 1;
    const statement *use = s;
    for (unsigned i = 0; i < MOST_BETWEEN && left; i++) {
        use = use->next;
        if (!is_text(use)) return NULL;
        left -= times_in(use->text, s->copy);
        if (left && assigns(use, s->copied)) return NULL;
    }
    return left ? NULL : use;
}

// Puts what is copied in place of the copy. False where that can't be.
static bool replace_copy(translator *t, statement *s) {
    const statement *last = last_use(t, s);
    if (!last) return false;
    for (statement *use = s; use != last;) {
        use = use->next;
        if (has_name(use->text, s->copy)) use->text = renamed(t, use->text, s->copy, s->copied);
    }
    return true;
}

// ---- calls that were made before ----

// What a statement that declares the result of a helper gives it; NULL of any other, and of one that accesses memory.
static const char *pure_call(const statement *s) {
    if (!is_text(s) || !s->is_pure || strchr(s->text, '\1') || strchr(s->text, '[')) return NULL;
    const char *equals = strchr(s->text, '=');
    return equals && memchr(s->text, ' ', (size_t)(equals - s->text)) ? equals + 1 : NULL;
}

static bool has_word(const char *text, const char *word, size_t n) {
    for (const char *at = text; *at; at += *at != 0) {
        size_t m = 0;
        while (is_name_byte(at[m])) m++;
        if (m == n && !memcmp(at, word, n)) return true;
        at += m;
        if (!*at) break;
    }
    return false;
}

// Whether the two texts have a name in common.
static bool share_names(const char *text, const char *other) {
    for (size_t n; *text; text += n + !n) {
        for (n = 0; is_name_byte(text[n]);) n++;
        if (n && has_word(other, text, n)) return true;
    }
    return false;
}

// Whether a statement, or one that it holds, may give another value to a variable that a call takes. A text begins with
// the variable that it gives a value, or with its type, which a space follows: that one is new.
static bool changes_argument(const statement *s, const char *call) {
    const char *text = s->kind == FLAG ? s->label->leave : s->text;
    if (s->kind == LEAVING) return true;
    if (s->kind == LOOP && !strncmp(text, "for", 3) && share_names(text, call)) return true;
    if (text && (s->kind == TEXT || s->kind == FLAG)) {
        if (*text == '\1') text = strchr(text, '\2') + 1;
        size_t n = 0;
        while (is_name_byte(text[n])) n++;
        if (n && text[n] != ' ' && has_word(call, text, n)) return true;
    }
    for (const statement *u = s->first.first; u; u = u->next)
        if (changes_argument(u, call)) return true;
    for (const statement *u = s->second.first; u; u = u->next)
        if (changes_argument(u, call)) return true;
    return false;
}

static void rename_in(translator *t, list l, const char *name, const char *other) {
    for (statement *s = l.first; s; s = s->next) {
        if (s->text && has_name(s->text, name)) s->text = renamed(t, s->text, name, other);
        if (s->end && has_name(s->end, name)) s->end = renamed(t, s->end, name, other);
        if (s->copied && !strcmp(s->copied, name)) s->copied = other;
        rename_in(t, s->first, name, other);
        rename_in(t, s->second, name, other);
    }
}

// Takes the calls behind one out of a list, and out of what its statements hold, that give the same. `left` is how many
// statements are still looked at.
static void share_call(translator *t, list *l, statement *before, const statement *made, unsigned *left) {
    const char *call = pure_call(made);
    for (statement *s = before ? before->next : l->first; s && *left; s = s->next) {
        const char *again = pure_call(s);
        --*left;
        if (again && !strcmp(again, call)) {
            rename_in(t, (list){s->next, NULL}, s->result, made->result);
            take_out(l, before, s);
            continue;
        }
        if (changes_argument(s, call)) {
            *left = 0;
            return;
        }
        share_call(t, &s->first, NULL, made, left);
        share_call(t, &s->second, NULL, made, left);
        before = s;
    }
}

static void share_calls(translator *t, list *l) {
    for (statement *s = l->first; s; s = s->next) {
        unsigned left = MOST_BEHIND_CALL;
        if (pure_call(s)) share_call(t, l, s, s, &left);
        share_calls(t, &s->first);
        share_calls(t, &s->second);
    }
}

// ---- results that nothing uses ----

// Whether a statement declares a variable that nothing uses, with a value that is worked out without a fault: of
// variables that are set, by a helper without loops.
static bool is_useless(translator *t, const statement *s) {
    const char *call = pure_call(s);
    if (!call) return false;
    const char *name = strchr(s->text, ' ') + 1;
    return uses_of(t, copy_text(&t->pass, name, (size_t)(call - name) - 1)) == 1 && !has_unset_name(t, call);
}

// ---- all of them ----

typedef enum { JOINED, RENAMED, DROPPED } shortening;

// Does it in a list. Whether anything was dropped.
static bool shorten(translator *t, list *l, shortening how) {
    bool is_changed = false;
    statement *before = NULL;
    for (statement *s = l->first; s; s = s->next) {
        bool goes = false;
        if (how == JOINED && is_text(s) && s->result && uses_of(t, s->result) == 2) join(t, l, s);
        if (how == RENAMED && is_text(s) && s->copy) goes = replace_copy(t, s);
        if (how == DROPPED && is_text(s)) goes = is_useless(t, s);
        if (goes) take_out(l, before, s);
        else before = s;
        is_changed |= goes | shorten(t, &s->first, how) | shorten(t, &s->second, how);
    }
    return is_changed;
}

list shortened(translator *t, list l) {
    share_calls(t, &l);
    count_in(t, l);
    shorten(t, &l, JOINED);
    forget_counts(t);
    count_in(t, l);
    shorten(t, &l, RENAMED);
    for (unsigned round = 0, is_changed = true; is_changed && round < MOST_ROUNDS; round++) {
        forget_counts(t);
        count_in(t, l);
        is_changed = shorten(t, &l, DROPPED);
    }
    forget_counts(t);
    return l;
}
