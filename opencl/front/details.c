#define _GNU_SOURCE
#include "builder.h"
#include <locale.h>
#include <stdlib.h>
#include <string.h>

// ---- the texts of a line ----

bool is_at(const char *s, const char *word) {
    size_t n = strlen(word);
    return !strncmp(s, word, n) && (s[n] == ' ' || !s[n]);
}

const char *behind_spaces(const char *s) { return s + strspn(s, " "); }

const type *read_type(builder *b, const char **s) {
    const char *written = *s + 1, *end = **s == '\'' ? strchr(written, '\'') : NULL;
    if (!end) return NULL;
    const char *plain = strncmp(end, "':'", 3) ? NULL : end + 3, *plain_end = plain ? strchr(plain, '\'') : NULL;
    if (plain && !plain_end) return NULL;
    *s = behind_spaces((plain ? plain_end : end) + 1);
    return type_of_text(b->types, written, (size_t)(end - written), plain, plain ? (size_t)(plain_end - plain) : 0);
}

const type *need_type(builder *b, const char **s) {
    const type *t = read_type(b, s);
    if (!t) stop_at(b, "no type at: %.100s", *s);
    return t;
}

static bool read_id(const char **s, uint64_t *to) {
    char *end;
    if (strncmp(*s, "0x", 2)) return false;
    *to = strtoull(*s, &end, 16);
    *s = behind_spaces(end);
    return true;
}

// A word between two marks, as `'+='` or `<NoOp>`, with a zero behind it. NULL where it doesn't stand there.
static const char *read_between(builder *b, const char **s, char open, char close) {
    const char *end = **s == open ? strchr(*s + 1, close) : NULL;
    if (!end) return NULL;
    const char *word = copy_text(b->arena, *s + 1, (size_t)(end - *s - 1));
    *s = behind_spaces(end + 1);
    return word;
}

// ---- literals ----

uint64_t cut_to(uint64_t value, const type *t) {
    if (!t || t->kind != INTEGER_TYPE || t->width >= 8) return value;
    unsigned shift = 64 - 8 * t->width;
    return t->is_signed ? (uint64_t)((int64_t)(value << shift) >> shift) : value << shift >> shift;
}

static void number_details(builder *b, node *n, const dump_line *line, const char *s) {
    uint64_t value = is_at(s, "true");
    bool is_negative = *s == '-', is_word = value || is_at(s, "false");
    (void)line;
    s += is_negative;
    if (!is_word && !read_number(&s, &value)) stop_at(b, "a number without its value: %.100s", s);
    n->value = cut_to(is_negative ? 0 - value : value, n->type);
}

// The bits of a floating literal by its own text: clang tells six digits only. Text and type are as clang had them, and
// the functions of C round to the nearest, as clang does (in the C locale, whatever the client's is).
static void floating_details(builder *b, node *n, const dump_line *line, const char *s) {
    static locale_t c;
    const word *at = word_at(b->rows, line->begin.row, line->begin.column);
    char room[512], *end = room;
    (void)s;
    if (!c) c = newlocale(LC_ALL_MASK, "C", (locale_t)0);
    if (!c || !at || at->length >= sizeof room || n->type->kind != FLOATING_TYPE) return;
    memcpy(room, at->at, at->length);
    room[at->length] = 0;
    if (n->type->width == 4) {
        float value = strtof_l(room, &end, c);
        uint32_t bits;
        memcpy(&bits, &value, sizeof bits);
        n->value = bits;
    } else if (n->type->width == 8) {
        double value = strtod_l(room, &end, c);
        memcpy(&n->value, &value, sizeof n->value);
    }
    n->is_exact = end > room && strspn(end, "fFlL") == strlen(end);
}

static char escaped(const char **s) {
    static const char letters[] = "abfnrtv\\\"'?", bytes[] = "\a\b\f\n\r\t\v\\\"'?";
    const char *at = **s ? strchr(letters, **s) : NULL;
    unsigned value = 0;
    if (at) {
        ++*s;
        return bytes[at - letters];
    }
    for (int i = 0; i < 3 && **s >= '0' && **s <= '7'; i++) value = value * 8 + (unsigned)(*(*s)++ - '0');
    return (char)value;
}

// A string as clang writes it: what can't be printed as `\n` or in three octal digits.
static void string_details(builder *b, node *n, const dump_line *line, const char *s) {
    (void)line;
    if (*s++ != '"') stop_at(b, "a string without its bytes: %.100s", s - 1);
    char *bytes = take(b->arena, strlen(s) + 1);
    n->bytes = bytes;
    while (*s && *s != '"') {
        if (*s == '\\') {
            s++;
            bytes[n->byte_count++] = escaped(&s);
        } else bytes[n->byte_count++] = *s++;
    }
    bool fits = n->type->kind == ARRAY_TYPE && n->type->of->size == 1;
    if (*s != '"' || (fits && n->type->length < n->byte_count)) stop_at(b, "a string that isn't whole");
    n->is_exact = fits;
}

// ---- operators ----

static operation operation_of(const char *sign, bool is_unary) {
    static const struct {
        const char *sign;
        operation binary, unary;
    } all[] = {{"+", ADD, PLUS},
               {"-", SUBTRACT, MINUS},
               {"*", MULTIPLY, POINTED_TO},
               {"/", DIVIDE, UNKNOWN_OPERATION},
               {"%", REMAINDER, UNKNOWN_OPERATION},
               {"<<", SHIFT_LEFT, UNKNOWN_OPERATION},
               {">>", SHIFT_RIGHT, UNKNOWN_OPERATION},
               {"&", BIT_AND, ADDRESS_OF},
               {"|", BIT_OR, UNKNOWN_OPERATION},
               {"^", BIT_XOR, UNKNOWN_OPERATION},
               {"<", LESS, UNKNOWN_OPERATION},
               {">", GREATER, UNKNOWN_OPERATION},
               {"<=", LESS_OR_EQUAL, UNKNOWN_OPERATION},
               {">=", GREATER_OR_EQUAL, UNKNOWN_OPERATION},
               {"==", EQUAL, UNKNOWN_OPERATION},
               {"!=", NOT_EQUAL, UNKNOWN_OPERATION},
               {"&&", LOGICAL_AND, UNKNOWN_OPERATION},
               {"||", LOGICAL_OR, UNKNOWN_OPERATION},
               {"=", ASSIGN, UNKNOWN_OPERATION},
               {",", COMMA, UNKNOWN_OPERATION},
               {"~", UNKNOWN_OPERATION, COMPLEMENT},
               {"!", UNKNOWN_OPERATION, LOGICAL_NOT},
               {"++", UNKNOWN_OPERATION, INCREMENT},
               {"--", UNKNOWN_OPERATION, DECREMENT}};
    for (size_t i = 0; i < sizeof all / sizeof *all; i++)
        if (!strcmp(sign, all[i].sign)) return is_unary ? all[i].unary : all[i].binary;
    return UNKNOWN_OPERATION;
}

static const char *need_sign(builder *b, const char **s) {
    const char *sign = read_between(b, s, '\'', '\'');
    if (!sign) stop_at(b, "an operator without its sign: %.100s", *s);
    return sign;
}

static void unary_details(builder *b, node *n, const dump_line *line, const char *s) {
    (void)line;
    n->is_postfix = is_at(s, "postfix");
    if (!n->is_postfix && !is_at(s, "prefix")) stop_at(b, "an operator without its side: %.100s", s);
    s = behind_spaces(s + strcspn(s, " "));
    n->name = need_sign(b, &s);
    n->operation = operation_of(n->name, true);
}

static void binary_details(builder *b, node *n, const dump_line *line, const char *s) {
    (void)line;
    n->name = need_sign(b, &s);
    n->operation = operation_of(n->name, false);
}

static void compound_details(builder *b, node *n, const dump_line *line, const char *s) {
    static const char computed[] = "ComputeLHSTy=";
    (void)line;
    char *sign = (char *)need_sign(b, &s);
    n->name = sign;
    size_t length = strlen(sign);
    const char *alone = copy_text(b->arena, sign, length ? length - 1 : 0);
    n->operation = length && sign[length - 1] == '=' ? operation_of(alone, false) : UNKNOWN_OPERATION;
    if (strncmp(s, computed, sizeof computed - 1)) stop_at(b, "an assignment without its type: %.100s", s);
    s += sizeof computed - 1;
    n->computed = need_type(b, &s);
}

static void cast_details(builder *b, node *n, const dump_line *line, const char *s) {
    static const char *const words[] = {[LVALUE_TO_RVALUE] = "LValueToRValue",
                                        [NO_OP] = "NoOp",
                                        [INTEGRAL_CAST] = "IntegralCast",
                                        [INTEGRAL_TO_BOOLEAN] = "IntegralToBoolean",
                                        [BOOLEAN_TO_SIGNED_INTEGRAL] = "BooleanToSignedIntegral",
                                        [POINTER_TO_BOOLEAN] = "PointerToBoolean",
                                        [ARRAY_TO_POINTER_DECAY] = "ArrayToPointerDecay",
                                        [FUNCTION_TO_POINTER_DECAY] = "FunctionToPointerDecay",
                                        [BUILTIN_FUNCTION_TO_POINTER] = "BuiltinFnToFnPtr",
                                        [NULL_TO_POINTER] = "NullToPointer",
                                        [BIT_CAST] = "BitCast",
                                        [LVALUE_BIT_CAST] = "LValueBitCast",
                                        [ADDRESS_SPACE_CONVERSION] = "AddressSpaceConversion",
                                        [VECTOR_SPLAT] = "VectorSplat",
                                        [TO_VOID] = "ToVoid",
                                        [ZERO_TO_OPAQUE_TYPE] = "ZeroToOCLOpaqueType",
                                        [INTEGRAL_TO_FLOATING] = "IntegralToFloating",
                                        [FLOATING_TO_INTEGRAL] = "FloatingToIntegral",
                                        [FLOATING_TO_BOOLEAN] = "FloatingToBoolean",
                                        [FLOATING_CAST] = "FloatingCast",
                                        [POINTER_TO_INTEGRAL] = "PointerToIntegral",
                                        [INTEGRAL_TO_POINTER] = "IntegralToPointer"};
    (void)line;
    n->name = read_between(b, &s, '<', '>');
    if (!n->name) stop_at(b, "a cast without its kind: %.100s", s);
    n->cast = UNKNOWN_CAST;
    for (unsigned i = 1; i < sizeof words / sizeof *words; i++)
        if (!strcmp(n->name, words[i])) n->cast = (cast_kind)i;
}

// ---- names ----

// A declaration that clang doesn't dump: a built-in function, or one of its own header.
static node *undumped(builder *b, const char *word, const char *name, const type *t) {
    static const struct {
        const char *word;
        node_kind kind;
    } kinds[] = {{"Function", FUNCTION_DECLARATION}, {"ParmVar", PARAMETER_DECLARATION}, {"Var", VARIABLE_DECLARATION}};
    node *n = make_node(b, UNKNOWN_DECLARATION, (position){0, 0});
    n->name = word;
    n->type = t;
    for (size_t i = 0; i < sizeof kinds / sizeof *kinds; i++)
        if (!strcmp(word, kinds[i].word)) {
            n->kind = kinds[i].kind;
            n->name = name;
        }
    return n;
}

// `ParmVar 0x5590 'x' '__private int'`
static void name_details(builder *b, node *n, const dump_line *line, const char *s) {
    uint64_t id;
    (void)line;
    size_t length = strcspn(s, " ");
    const char *word = copy_text(b->arena, s, length);
    s = behind_spaces(s + length);
    if (!read_id(&s, &id)) stop_at(b, "a name of no declaration: %.100s", s);
    n->name = read_between(b, &s, '\'', '\'');
    const type *t = n->name ? need_type(b, &s) : NULL;
    if (!t) stop_at(b, "a name of no declaration: %.100s", s);
    node *of = get_id(&b->nodes, id);
    if (!of) {
        of = undumped(b, word, n->name, t);
        put_id(b->arena, &b->nodes, id, of);
    }
    n->declaration = of;
    if (of->kind == FUNCTION_DECLARATION) n->is_lvalue = false; // (older versions call some built-in functions so)
    reference *r = take(b->arena, sizeof *r);
    *r = (reference){.next = b->names, .node = n, .to = get_id(&b->declarations, id)};
    if (r->to) b->names = r;
}

// `.x 0x5590` or `->x 0x5590`; one without a name has clang's words in place of it.
static void member_details(builder *b, node *n, const dump_line *line, const char *s) {
    uint64_t id;
    (void)line;
    n->is_arrow = !strncmp(s, "->", 2);
    const char *at = strstr(s, "0x");
    while (at && strstr(at + 2, " 0x"))
        at = strstr(at + 2, " 0x") + 1; // (a name may begin so, no number behind it does)
    if ((!n->is_arrow && *s != '.') || !at || !read_id(&at, &id)) stop_at(b, "a member of nothing: %.100s", s);
    n->field = get_id(&b->fields_by_id, id);
    if (!n->field) stop_at(b, "a member of no record: %.100s", s);
    n->name = n->field->name;
}

static void component_details(builder *b, node *n, const dump_line *line, const char *s) {
    (void)line;
    n->name = copy_text(b->arena, s, strcspn(s, " "));
}

static void list_details(builder *b, node *n, const dump_line *line, const char *s) {
    static const char mark[] = "field Field ";
    uint64_t id;
    (void)line;
    if (strncmp(s, mark, sizeof mark - 1)) return;
    s += sizeof mark - 1;
    n->field = read_id(&s, &id) ? get_id(&b->fields_by_id, id) : NULL;
    if (!n->field) stop_at(b, "a member of no record: %.100s", s);
}

static void size_details(builder *b, node *n, const dump_line *line, const char *s) {
    (void)line;
    size_t length = strcspn(s, " ");
    bool is_align = is_at(s, "alignof") || is_at(s, "_Alignof") || is_at(s, "__alignof");
    n->name = is_align ? "alignof" : copy_text(b->arena, s, length);
    s = behind_spaces(s + length);
    n->argument = read_type(b, &s);
}

static void label_details(builder *b, node *n, const dump_line *line, const char *s) {
    (void)line;
    reference *r = take(b->arena, sizeof *r), **list = n->kind == LABEL_STATEMENT ? &b->labels : &b->jumps;
    n->name = read_between(b, &s, '\'', '\'');
    if (!n->name) stop_at(b, "a label without its name: %.100s", s);
    *r = (reference){.next = *list, .node = n};
    *list = r;
}

// ---- kinds ----

// In the order of their words.
static const rule rules[] = {
    {"ArraySubscriptExpr", EXPRESSION_SHAPE, SUBSCRIPT_EXPRESSION, 2, 2, NULL},
    {"AsTypeExpr", EXPRESSION_SHAPE, AS_TYPE_EXPRESSION, 1, 1, NULL},
    {"AttributedStmt", WRAPPER_SHAPE, UNKNOWN_STATEMENT, 1, 1, NULL},
    {"BinaryConditionalOperator", EXPRESSION_SHAPE, CONDITIONAL_EXPRESSION, 4, 4, NULL},
    {"BinaryOperator", EXPRESSION_SHAPE, BINARY_EXPRESSION, 2, 2, binary_details},
    {"BreakStmt", STATEMENT_SHAPE, BREAK_STATEMENT, 0, 0, NULL},
    {"CStyleCastExpr", EXPRESSION_SHAPE, CAST_EXPRESSION, 1, 1, cast_details},
    {"CXXBoolLiteralExpr", EXPRESSION_SHAPE, INTEGER_LITERAL, 0, 0, number_details},
    {"CallExpr", EXPRESSION_SHAPE, CALL_EXPRESSION, 1, ANY_NUMBER, NULL},
    {"CaseStmt", STATEMENT_SHAPE, CASE_STATEMENT, 2, 3, NULL},
    {"CharacterLiteral", EXPRESSION_SHAPE, INTEGER_LITERAL, 0, 0, number_details},
    {"CompoundAssignOperator", EXPRESSION_SHAPE, COMPOUND_ASSIGNMENT, 2, 2, compound_details},
    {"CompoundLiteralExpr", EXPRESSION_SHAPE, COMPOUND_LITERAL, 1, 1, NULL},
    {"CompoundStmt", STATEMENT_SHAPE, COMPOUND_STATEMENT, 0, ANY_NUMBER, NULL},
    {"ConditionalOperator", EXPRESSION_SHAPE, CONDITIONAL_EXPRESSION, 3, 3, NULL},
    {"ConstantExpr", WRAPPER_SHAPE, UNKNOWN_EXPRESSION, 1, 1, NULL},
    {"ContinueStmt", STATEMENT_SHAPE, CONTINUE_STATEMENT, 0, 0, NULL},
    {"DeclRefExpr", EXPRESSION_SHAPE, NAME_EXPRESSION, 0, 0, name_details},
    {"DeclStmt", STATEMENT_SHAPE, DECLARATION_STATEMENT, 1, ANY_NUMBER, NULL},
    {"DefaultStmt", STATEMENT_SHAPE, DEFAULT_STATEMENT, 1, 1, NULL},
    {"DoStmt", STATEMENT_SHAPE, DO_STATEMENT, 2, 2, NULL},
    {"EmptyDecl", IDLE_SHAPE, IDLE_DECLARATION, 0, 0, NULL},
    {"EnumConstantDecl", ENUMERATOR_SHAPE, ENUM_CONSTANT_DECLARATION, 0, 0, NULL},
    {"EnumDecl", ENUMERATION_SHAPE, IDLE_DECLARATION, 0, 0, NULL},
    {"ExprWithCleanups", WRAPPER_SHAPE, UNKNOWN_EXPRESSION, 1, 1, NULL},
    {"ExtVectorElementExpr", EXPRESSION_SHAPE, COMPONENT_EXPRESSION, 1, 1, component_details},
    {"FieldDecl", FIELD_SHAPE, UNKNOWN_DECLARATION, 0, 0, NULL},
    {"FloatingLiteral", EXPRESSION_SHAPE, FLOATING_LITERAL, 0, 0, floating_details},
    {"ForStmt", STATEMENT_SHAPE, FOR_STATEMENT, 5, 5, NULL},
    {"FunctionDecl", FUNCTION_SHAPE, FUNCTION_DECLARATION, 0, ANY_NUMBER, NULL},
    {"GotoStmt", STATEMENT_SHAPE, GOTO_STATEMENT, 0, 0, label_details},
    {"IfStmt", STATEMENT_SHAPE, IF_STATEMENT, 2, 3, NULL},
    {"ImplicitCastExpr", EXPRESSION_SHAPE, CAST_EXPRESSION, 1, 1, cast_details},
    {"ImplicitValueInitExpr", EXPRESSION_SHAPE, IMPLICIT_VALUE, 0, 0, NULL},
    {"IndirectFieldDecl", SKIPPED_SHAPE, IDLE_DECLARATION, 0, 0, NULL},
    {"InitListExpr", EXPRESSION_SHAPE, INITIALIZER_LIST, 0, ANY_NUMBER, list_details},
    {"IntegerLiteral", EXPRESSION_SHAPE, INTEGER_LITERAL, 0, 0, number_details},
    {"LabelStmt", STATEMENT_SHAPE, LABEL_STATEMENT, 1, 1, label_details},
    {"MemberExpr", EXPRESSION_SHAPE, MEMBER_EXPRESSION, 1, 1, member_details},
    {"NullStmt", STATEMENT_SHAPE, NULL_STATEMENT, 0, 0, NULL},
    {"OffsetOfExpr", UNKNOWN_SHAPE, OFFSET_EXPRESSION, 0, 0, NULL},
    {"OpaqueValueExpr", EXPRESSION_SHAPE, COMMON_VALUE, 0, 1, NULL},
    {"ParenExpr", WRAPPER_SHAPE, UNKNOWN_EXPRESSION, 1, 1, NULL},
    {"ParmVarDecl", VARIABLE_SHAPE, PARAMETER_DECLARATION, 0, 1, NULL},
    {"PredefinedExpr", WRAPPER_SHAPE, UNKNOWN_EXPRESSION, 1, 1, NULL},
    {"RecordDecl", RECORD_SHAPE, IDLE_DECLARATION, 0, 0, NULL},
    {"ReturnStmt", STATEMENT_SHAPE, RETURN_STATEMENT, 0, 1, NULL},
    {"StaticAssertDecl", IDLE_SHAPE, IDLE_DECLARATION, 0, 0, NULL},
    {"StmtExpr", EXPRESSION_SHAPE, STATEMENT_EXPRESSION, 1, 1, NULL},
    {"StringLiteral", EXPRESSION_SHAPE, STRING_LITERAL, 0, 0, string_details},
    {"SwitchStmt", STATEMENT_SHAPE, SWITCH_STATEMENT, 2, 2, NULL},
    {"TypedefDecl", TYPE_NAME_SHAPE, IDLE_DECLARATION, 0, 0, NULL},
    {"UnaryExprOrTypeTraitExpr", EXPRESSION_SHAPE, SIZE_EXPRESSION, 0, 1, size_details},
    {"UnaryOperator", EXPRESSION_SHAPE, UNARY_EXPRESSION, 1, 1, unary_details},
    {"VarDecl", VARIABLE_SHAPE, VARIABLE_DECLARATION, 0, 1, NULL},
    {"WhileStmt", STATEMENT_SHAPE, WHILE_STATEMENT, 2, 2, NULL},
};

static const rule attribute_rule = {"Attr", ATTRIBUTE_SHAPE, UNKNOWN_EXPRESSION, 0, 0, NULL};
static const rule skipped_rule = {"", SKIPPED_SHAPE, UNKNOWN_EXPRESSION, 0, 0, NULL};
static const rule unknown_declaration = {"", UNKNOWN_SHAPE, UNKNOWN_DECLARATION, 0, 0, NULL};
static const rule unknown_statement = {"", UNKNOWN_SHAPE, UNKNOWN_STATEMENT, 0, 0, NULL};
static const rule unknown_expression = {"", UNKNOWN_SHAPE, UNKNOWN_EXPRESSION, 0, 0, NULL};

static int compare(const char *word, size_t length, const char *with) {
    int order = strncmp(word, with, length);
    return order ? order : -(int)(unsigned char)with[length];
}

static bool ends_in(const char *word, size_t length, const char *with) {
    size_t n = strlen(with);
    return length >= n && !memcmp(word + length - n, with, n);
}

static const rule *unknown_rule(const char *word, size_t length) {
    if (ends_in(word, length, "Attr")) return &attribute_rule;
    if (ends_in(word, length, "Type") || ends_in(word, length, "Comment")) return &skipped_rule;
    if (ends_in(word, length, "Decl")) return &unknown_declaration;
    bool is_statement = ends_in(word, length, "Stmt") || ends_in(word, length, "Directive");
    return is_statement ? &unknown_statement : &unknown_expression;
}

const rule *rule_of(const char *word, size_t length) {
    size_t low = 0, high = sizeof rules / sizeof *rules;
    while (low < high) {
        size_t middle = (low + high) / 2;
        int order = compare(word, length, rules[middle].word);
        if (!order) return &rules[middle];
        if (order < 0) high = middle;
        else low = middle + 1;
    }
    return unknown_rule(word, length);
}

// ---- attributes ----

// Those that change nothing of what a program does.
static const char *const idle[] = {"AlwaysInlineAttr",
                                   "AnnotateAttr",
                                   "ColdAttr",
                                   "ConstAttr",
                                   "ConvergentAttr",
                                   "DeprecatedAttr",
                                   "FallThroughAttr",
                                   "FlattenAttr",
                                   "FormatAttr",
                                   "GNUInlineAttr",
                                   "HotAttr",
                                   "LikelyAttr",
                                   "LoopHintAttr",
                                   "MinSizeAttr",
                                   "NoDebugAttr",
                                   "NoEscapeAttr",
                                   "NoInlineAttr",
                                   "NoThrowAttr",
                                   "NonNullAttr",
                                   "OpenCLAccessAttr",
                                   "OpenCLUnrollHintAttr",
                                   "OptimizeNoneAttr",
                                   "OverloadableAttr",
                                   "PureAttr",
                                   "ReturnsNonNullAttr",
                                   "UnlikelyAttr",
                                   "UnusedAttr",
                                   "UsedAttr",
                                   "VisibilityAttr",
                                   "WarnUnusedResultAttr",
                                   NULL};

static attribute_kind attribute_kind_of(const char *name) {
    static const struct {
        const char *name;
        attribute_kind kind;
    } known[] = {{"OpenCLKernelAttr", KERNEL_ATTRIBUTE},
                 {"DeviceKernelAttr", KERNEL_ATTRIBUTE},
                 {"ReqdWorkGroupSizeAttr", REQUIRED_SIZE_ATTRIBUTE},
                 {"WorkGroupSizeHintAttr", SIZE_HINT_ATTRIBUTE},
                 {"VecTypeHintAttr", TYPE_HINT_ATTRIBUTE},
                 {"AlignedAttr", ALIGN_ATTRIBUTE}};
    for (size_t i = 0; i < sizeof known / sizeof *known; i++)
        if (!strcmp(name, known[i].name)) return known[i].kind;
    for (const char *const *other = idle; *other; other++)
        if (!strcmp(name, *other)) return IDLE_ATTRIBUTE;
    return UNKNOWN_ATTRIBUTE;
}

attribute *read_attribute(builder *b, const dump_line *line) {
    attribute *a = take(b->arena, sizeof *a);
    const char *s = line->rest;
    while (is_at(s, "Inherited") || is_at(s, "Implicit")) s = behind_spaces(s + strcspn(s, " "));
    a->name = copy_text(b->arena, line->word, line->length);
    a->kind = attribute_kind_of(a->name);
    a->text = copy_text(b->arena, s, strlen(s));
    a->place = client_place(b->rows, line->begin.row, line->begin.column);
    if (line->begin.row && !is_at(line->rest, "Implicit"))
        a->declared = words_between(b->rows, line->begin.row, line->begin.column, line->end.row, line->end.column);
    bool has_sizes = a->kind == REQUIRED_SIZE_ATTRIBUTE || a->kind == SIZE_HINT_ATTRIBUTE;
    for (int i = 0; has_sizes && i < 3; i++) {
        if (!read_number(&s, &a->numbers[i])) stop_at(b, "sizes of a group that can't be read: %.100s", a->text);
        s = behind_spaces(s);
    }
    return a;
}
