// The reader of JSON on hard texts, whole, cut at each byte, and with each byte changed. What has to come out is typed
// in. Texts that are cut or changed stand in memory with nothing behind them, so that the sanitizers see what is read
// past their ends. Status 0: all came out right.
#include "../json.h"
#include <limits.h>
#include <stdio.h>
#include <stdlib.h>
#include <string.h>

static unsigned failed;

static void want(bool holds, const char *what) {
    if (holds) return;
    printf("it doesn't hold: %s\n", what);
    failed++;
}
#define WANT(CONDITION) want(CONDITION, #CONDITION)

// A copy that has a byte in front of it, and nothing behind it.
static char *copy_of(const char *text, size_t n) {
    char *room = malloc(n + 1);
    if (!room) exit(2);
    *room = '"';
    memcpy(room + 1, text, n);
    return room + 1;
}
static void free_copy(char *copy) { free(copy - 1); }

static bool is_json(const char *text, size_t n) {
    char *copy = copy_of(text, n);
    bool is = json_text(copy, n).at != NULL;
    free_copy(copy);
    return is;
}

// ---- texts that are JSON, and texts that aren't ----

// Each stands behind a bar.
static const char right[] =
    "|0|-0|10|-1.05|1e5|2E+07|0.5e-0|true|false|null|\"\"|\"a\"|\"]}\"|\"\\\"\"|\"\\\\\"|\"\xc3\xa9\""
    "|\"\\/\\b\\f\\n\\r\\t\\u00eF\"|[]|{}| [ ] |\t{\r}\n|[[],[[]],{}]|[1, 2 ,3]"
    "|{\"a\":[{\"b\":{}}],\"\":null}|{ \"a\" : 1 , \"a\" : 2 }";
static const char wrong[] = "|| |01|-|+1|- 1|.5|1.|1.e1|1e|1e+|0x1|1 2|tru|truee|True|nul|'a'|\xef\xbb\xbf{}|{}\v"
                            "|\"|\"a|\"\\\"|\"\\|\"\\1|\"\\x\"|\"\\u123\"|\"\\u|\"\n\"|\"\t\"|\"a\"b"
                            "|[|]|[]]|[1|[1,|[1,]|[,1]|[1 2]|[1}|[}|[1] [2]|[1],[2]|[\"a\":1]|[{\"a\":1},{\"b\"}]"
                            "|{|}|{]|{\"a\"}|{\"a\":}|{\"a\" 1}|{\"a\":|{\"a\":1|{a:1}|{1:2}|{,}|{\"a\":1,}|{\"a\":1]"
                            "|{\"a\":[}|{\"a\":1}}|{\"a\":1 \"b\":2}";

// Whether each text of several is JSON, or none is.
static void test_each(const char *texts, bool wanted) {
    while (*texts++) {
        size_t n = strcspn(texts, "|");
        if (is_json(texts, n) != wanted) {
            printf("it is%s JSON: %.*s\n", wanted ? "n't" : "", (int)n, texts);
            failed++;
        }
        texts += n;
    }
}

static void test_texts(void) {
    test_each(right, true);
    test_each(wrong, false);
    WANT(!is_json("[\0]", 3) && !is_json("\"\0\"", 3) && !is_json("[]\0", 3));
}

// Lists and objects in one another, by turns, round a 1; how many bytes that is.
static size_t nest(char *room, unsigned levels) {
    size_t n = 0;
    for (unsigned i = 0; i < levels; i++) n += (size_t)sprintf(room + n, i % 2 ? "{\"\":" : "[");
    room[n++] = '1';
    for (unsigned i = levels; i-- > 0;) room[n++] = i % 2 ? '}' : ']';
    return n;
}

// 64 levels are read, one more isn't, and each level ends with its own bracket.
static void test_depth(void) {
    char room[1000];
    size_t n = nest(room, 65);
    WANT(!is_json(room, n));
    n = nest(room, 64);
    WANT(is_json(room, n));
    for (size_t i = n - 64; i < n; i++) {
        char bracket = room[i];
        room[i] = bracket == ']' ? '}' : ']';
        want(!is_json(room, n), "another bracket");
        room[i] = bracket;
    }
}

// ---- what is found in a text ----

// Its names come again on other levels, in strings, and as parts of other names.
static const char hard[] =
    " {\"text\":\"a[1] \\\"]\\\" }\\\\\", \"offsets\":1,\"set\":2, \"calls\" :[ "
    "{\"text\":\"f(t[1]); // \\\"offset\\\":8]\",\"offset\":7}, [[9],[\"]\",\"\\\\\",8]],{ },[ ],\"\\\"\",6 ],"
    "\"loops\":[],\"inner\":{\"offset\":{\"offset\":4}},\"offset\":5,\"offset\":3,\"none\":null,\"true\":true,"
    "\"minus\":-1,\"half\":1.5,\"tens\":1e1,\"nought\":0,\"most\":18446744073709551615,"
    "\"more\":18446744073709551616,\"far\":99999999999999999999,\"word\":\"store\","
    "\"escaped\":\"st\\u006fre\",\"quoted\":\"\\\"\",\"empty\":\"\",\"digits\":\"12\"}\n";

static bool is_number(json v, unsigned long wanted) {
    unsigned long n = wanted + 1;
    return json_number(v, &n) && n == wanted;
}
static bool is_no_number(json v) {
    unsigned long n = 77;
    return !json_number(v, &n) && n == 77;
}
static bool is_word(json v, const char *wanted) {
    char room[8];
    return json_word(v, room, sizeof room) && !strcmp(room, wanted);
}

static void test_members(json whole) {
    WANT(is_number(json_member(whole, "offset"), 5));
    WANT(is_number(json_member(whole, "offsets"), 1));
    WANT(is_number(json_member(whole, "set"), 2));
    WANT(is_number(json_member(json_member(json_member(whole, "inner"), "offset"), "offset"), 4));
    WANT(!json_member(whole, "off").at && !json_member(whole, "").at && !json_member(whole, "ffset").at);
    WANT(!json_member(json_member(whole, "calls"), "offset").at);
    WANT(!json_member(json_member(whole, "text"), "offset").at);
    WANT(!json_member(json_member(whole, "missing"), "offset").at);
}

static void test_lists(json whole) {
    json calls = json_member(whole, "calls"), at[6], e = json_first(calls);
    for (int i = 0; i < 6; i++, e = json_next(calls, e)) at[i] = e;
    WANT(!e.at && !json_next(calls, e).at);
    WANT(is_number(json_member(at[0], "offset"), 7));
    json inner = json_first(at[1]), second = json_next(at[1], inner);
    WANT(is_number(json_first(inner), 9) && !json_next(inner, json_first(inner)).at);
    WANT(is_word(json_first(second), "]") && !json_next(at[1], second).at);
    json third = json_next(second, json_next(second, json_first(second)));
    WANT(is_number(third, 8) && !json_next(second, third).at);
    WANT(at[2].at && !json_first(at[2]).at && !json_member(at[2], "").at);
    WANT(at[3].at && !json_first(at[3]).at && !json_next(at[3], json_first(at[3])).at);
    WANT(is_number(at[5], 6));
    WANT(!json_first(whole).at && !json_next(whole, json_member(whole, "offsets")).at);
    WANT(json_member(whole, "loops").at && !json_first(json_member(whole, "loops")).at);
}

// The members in their order, with those of one name.
static void test_each_member(json whole) {
    static const char *const first[] = {"text", "offsets", "set", "calls", "loops", "inner", "offset", "offset"};
    json name = {NULL, NULL}, v = json_first_member(whole, &name);
    unsigned count = 0;
    for (; v.at; v = json_next_member(whole, v, &name), count++)
        if (count < 8) WANT(is_word(name, first[count]));
    WANT(count == 22);
    json inner = json_member(whole, "inner"), calls = json_member(whole, "calls");
    v = json_first_member(inner, &name);
    WANT(is_word(name, "offset") && is_number(json_member(v, "offset"), 4) && !json_next_member(inner, v, &name).at);
    WANT(!json_first_member(calls, &name).at && !json_next_member(calls, json_first(calls), &name).at);
    WANT(!json_first_member(json_member(whole, "missing"), &name).at);
}

static void test_plain(json whole) {
    static const char *const others[] = {"none", "true", "minus", "half", "tens", "more", "far", "digits", "calls"};
    char room[6] = "------";
    for (size_t i = 0; i < sizeof others / sizeof *others; i++) {
        json v = json_member(whole, others[i]);
        want(v.at && is_no_number(v), others[i]);
    }
    WANT(is_no_number(json_member(whole, "missing")));
    WANT(is_number(json_member(whole, "nought"), 0) && is_number(json_member(whole, "most"), ULONG_MAX));
    WANT(is_word(json_member(whole, "word"), "store") && is_word(json_member(whole, "empty"), ""));
    WANT(is_word(json_member(whole, "digits"), "12"));
    WANT(!json_word(json_member(whole, "escaped"), room, sizeof room));
    WANT(!json_word(json_member(whole, "quoted"), room, sizeof room));
    WANT(!json_word(json_member(whole, "offset"), room, sizeof room));
    WANT(!json_word(json_member(whole, "none"), room, sizeof room));
    WANT(!json_word(json_member(whole, "missing"), room, sizeof room));
    WANT(!json_word(json_member(whole, "word"), room, 5) && !memcmp(room, "------", 6));
    WANT(json_word(json_member(whole, "word"), room, 6) && !strcmp(room, "store"));
    WANT(!json_word(json_member(whole, "empty"), room, 0) && json_word(json_member(whole, "empty"), room, 1));
}

// What a string stands for, in room for it and its zero and in no less.
static void want_string(const char *text, const char *wanted) {
    size_t n = strlen(text), room_for = strlen(wanted) + 1;
    char *copy = copy_of(text, n), *room = malloc(room_for);
    json v = json_text(copy, n);
    if (!room) exit(2);
    want(v.at && json_string(v, room, room_for) && !memcmp(room, wanted, room_for), text);
    want(!json_string(v, room, room_for - 1), text);
    free(room);
    free_copy(copy);
}

// Escapes (RFC 8259, 7) and UTF-8 (RFC 3629, 3).
static void test_strings(json whole) {
    char room[64];
    want_string("\"\"", "");
    want_string("\"a at 7:5\"", "a at 7:5");
    want_string("\"\\\"\\\\\\/\\b\\f\\n\\r\\t\"", "\"\\/\b\f\n\r\t");
    want_string("\"\\u0041\\u007F\\u0080\\u07ff\\u0800\\uFFFF\"", "A\x7f\xc2\x80\xdf\xbf\xe0\xa0\x80\xef\xbf\xbf");
    want_string("\"\\ud800\\udc00\\uD834\\uDD1E\\udbff\\udfff\"", "\xf0\x90\x80\x80\xf0\x9d\x84\x9e\xf4\x8f\xbf\xbf");
    want_string("\"\\ud800\"", "\xef\xbf\xbd");
    want_string("\"\\ud800\\n\\udc00x\"", "\xef\xbf\xbd\n\xef\xbf\xbdx");
    want_string("\"\\ud800\\u0041\\u0000\"", "\xef\xbf\xbd"
                                             "A\xef\xbf\xbd");
    want_string("\"\xc3\xa9\\u00e9\"", "\xc3\xa9\xc3\xa9");
    WANT(!json_string(json_member(whole, "offset"), room, sizeof room));
    WANT(!json_string(json_member(whole, "missing"), room, sizeof room));
    WANT(json_string(json_member(whole, "text"), room, sizeof room) && !strcmp(room, "a[1] \"]\" }\\"));
}

// ---- texts that are spoilt ----

// A part of a text is asked where it wasn't read as a whole before: nothing is found behind what is wrong.
static void test_wrong_parts(void) {
    static const char *const objects[] = {"{\"a\":1 \"b\":2}",
                                          "{\"a\":1.,\"b\":2}",
                                          "{\"a\":tru,\"b\":2}",
                                          "{\"a\",\"b\":2}",
                                          "{\"b\":2.}",
                                          "{\"b\":[2}",
                                          "{\"b\":"};
    static const char list[] = "[1 2]", quote[] = "\"";
    for (size_t i = 0; i < sizeof objects / sizeof *objects; i++)
        want(!json_member((json){objects[i], objects[i] + strlen(objects[i])}, "b").at, objects[i]);
    json whole = {list, list + 5}, word = {quote, quote + 1};
    char room[8];
    WANT(is_number(json_first(whole), 1) && !json_next(whole, json_first(whole)).at);
    WANT(!json_word(word, room, sizeof room) && !json_string(word, room, sizeof room));
}

// Asks for all that is found in a text. None of it may be read past its end.
static void ask_all(json whole) {
    unsigned long n;
    char room[8];
    json calls = json_member(whole, "calls");
    for (json c = json_first(calls); c.at; c = json_next(calls, c)) {
        json_number(json_member(c, "offset"), &n);
        for (json e = json_first(c); e.at; e = json_next(c, e)) json_number(json_first(e), &n);
        json_word(c, room, sizeof room);
    }
    json_number(json_member(json_member(whole, "inner"), "offset"), &n);
    json_word(json_member(whole, "digits"), room, sizeof room);
    json_string(json_member(whole, "escaped"), room, sizeof room);
    json_string(json_member(whole, "text"), room, sizeof room);
    json_member(whole, "missing");
}

// Cut at each byte it is no JSON. A part of it that is asked all the same is read to its own end alone.
static void test_cuts(void) {
    size_t whole = sizeof hard - 2; // without the line feed, behind which it could be cut
    WANT(is_json(hard, whole));
    for (size_t n = 0; n < whole; n++) {
        want(!is_json(hard, n), "a text that is cut");
        char *copy = copy_of(hard + 1, n);
        ask_all((json){copy, copy + n});
        free_copy(copy);
    }
}

static void test_changes(void) {
    static const char bytes[] = "\"\\{}[]:,0e-. \n\x80"; // with the zero behind them
    size_t n = sizeof hard - 1;
    for (size_t i = 0; i < n; i++)
        for (size_t b = 0; b < sizeof bytes; b++) {
            char *copy = copy_of(hard, n);
            copy[i] = bytes[b];
            ask_all(json_text(copy, n));
            ask_all((json){copy + 1, copy + n});
            free_copy(copy);
        }
}

int main(void) {
    test_texts();
    test_depth();
    json whole = json_text(hard, strlen(hard));
    WANT(whole.at == hard + 1 && whole.end == hard + strlen(hard) - 1);
    test_members(whole);
    test_lists(whole);
    test_each_member(whole);
    test_plain(whole);
    test_strings(whole);
    test_wrong_parts();
    test_cuts();
    test_changes();
    return failed ? 1 : 0;
}
