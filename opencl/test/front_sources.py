"""Random OpenCL C sources of all constructs that clang takes, each by its seed."""
import random

SCALARS = ["char", "uchar", "short", "ushort", "int", "uint", "long", "ulong", "unsigned", "unsigned char", "size_t"]
VECTORS = [f"{t}{n}" for t in ("char", "uchar", "short", "int", "uint", "long", "ulong") for n in (2, 3, 4, 8, 16)]
SPACES = ["__global", "__local", "__constant", "__private"]
BINARY = ["+", "-", "*", "/", "%", "&", "|", "^", "<<", ">>", "<", ">", "<=", ">=", "==", "!=", "&&", "||"]
ASSIGN = ["=", "+=", "-=", "*=", "&=", "|=", "^=", "<<=", ">>="]


class Fixed(str):
    """The name of a variable that can't be assigned to."""


class Source:
    """A source that grows; names are numbered."""

    def __init__(self, seed):
        self.random = random.Random(seed)
        self.count = 0
        self.lines = []
        self.records = []    # name to spell, list of (member path, type)
        self.constants = []  # names of whole numbers that any expression may have
        self.macros = []
        self.functions = []  # name, types of parameters
        self.tables = []     # name, type, length

    def name(self, stem):
        self.count += 1
        return f"{stem}{self.count}"

    def pick(self, of):
        return self.random.choice(of)

    def chance(self, percent):
        return self.random.randrange(100) < percent

    # ---- declarations -------------------------------------------------------------------------

    def record(self, depth=0):
        """The text of a struct or a union, and the paths of its members of whole numbers."""
        kind = self.pick(["struct", "struct", "struct", "union"])
        members, text = [], []
        for _ in range(self.random.randrange(1, 5)):
            what = self.random.randrange(10)
            name = self.name("m")
            packed = " __attribute__((packed))" if self.chance(6) else ""
            aligned = f" __attribute__((aligned({self.pick([2, 4, 8, 16, 32])})))" if self.chance(10) else ""
            if what < 5:
                t = self.pick(SCALARS)
                text.append(f"{t} {name}{packed}{aligned};")
                members.append((f".{name}", t))
            elif what < 6:
                t = self.pick(VECTORS)
                text.append(f"{t} {name}{packed}{aligned};")
                members.append((f".{name}", t))
            elif what < 7:
                t = self.pick(SCALARS)
                text.append(f"{t} {name}[{self.random.randrange(1, 5)}];")
                members.append((f".{name}[0]", t))
            elif what < 8 and depth < 2:
                inner, paths = self.record(depth + 1)
                is_unnamed = self.chance(50)
                text.append(f"{inner} {'' if is_unnamed else name}{aligned};")
                members += [(p if is_unnamed else f".{name}{p}", t) for p, t in paths]
            elif what < 9 and self.records:
                spelled, paths = self.pick(self.records)
                text.append(f"{spelled} {name};")
                members += [(f".{name}{p}", t) for p, t in paths]
            else:
                text.append(f"float {name};")
        marks = "".join([" __attribute__((packed))" if self.chance(15) else "",
                         f" __attribute__((aligned({self.pick([4, 8, 16, 64])})))" if self.chance(15) else ""])
        return f"{kind}{marks} {{ {' '.join(text)} }}", members

    def declare_record(self):
        text, members = self.record()
        kind, rest = text.split("{", 1)
        name, alias = self.name("S"), self.name("T")
        form = self.random.randrange(3)
        if form == 0:
            self.lines.append(f"typedef {text} {alias};")
            self.records.append((alias, members))
        elif form == 1:
            self.lines.append(f"{kind}{name} {{{rest};")
            self.records.append((f"{kind.split()[0]} {name}", members))
        else:
            self.lines.append(f"typedef {kind}{name} {{{rest} {alias};")
            self.records.append((self.pick([alias, f"{kind.split()[0]} {name}"]), members))

    def declare_enumeration(self):
        names = [self.name("E") for _ in range(self.random.randrange(1, 4))]
        values = [n + (f" = {self.pick(['', '-'])}{self.random.randrange(1000)}" if self.chance(50) else "")
                  for n in names]
        self.constants += names
        tag = self.name("e") if self.chance(50) else ""
        if self.chance(50):
            self.lines.append(f"enum {tag} {{ {', '.join(values)} }};")
        else:
            self.lines.append(f"typedef enum {tag} {{ {', '.join(values)} }} {self.name('n')};")

    def declare_table(self):
        name, length = self.name("table"), self.random.randrange(1, 6)
        t = self.pick(SCALARS)
        values = ", ".join(self.literal() for _ in range(self.random.randrange(1, length + 1)))
        self.lines.append(f"__constant {t} {name}[{length}] = {{ {values} }};")
        self.tables.append((name, t, length))

    def declare_macro(self):
        name = self.name("M")
        form = self.random.randrange(4)
        if form == 0:
            self.lines.append(f"#define {name} {self.literal()}")
            self.macros.append((name, 0))
        elif form == 1:
            self.lines.append(f"#define {name}(a, b) ((a) {self.pick(BINARY[:9])} (b))")
            self.macros.append((name, 2))
        elif form == 2 and self.macros:
            other, count = self.pick(self.macros)
            use = f"{other}({', '.join(['x'] * count)})" if count else other
            self.lines.append(f"#define {name}(x) ({use} + x)")
            self.macros.append((name, 1))
        else:
            self.lines.append(f"#define {name}(a) \\\n    (a ## 1 + \\\n     1)".replace("a ## 1", "1 ## 1"))
            self.macros.append((name, 1))

    # ---- expressions of whole numbers: `scope` has names with their types ---------------------

    def literal(self):
        return self.pick([str(self.random.randrange(1000)), f"{self.random.randrange(1 << 31)}u",
                          hex(self.random.getrandbits(63)) + "ul", f"0{self.random.randrange(8)}", "'a'", "'\\n'",
                          "'\\377'", "18446744073709551615ul", "0x7fffffff", "1l"])

    def leaf(self, scope):
        what = self.random.randrange(12)
        numbers = [n for n, t in scope if t in SCALARS]
        if what < 4 and numbers:
            return self.pick(numbers)
        vectors = [(n, t) for n, t in scope if t in VECTORS]
        if what < 6 and vectors:
            n, t = self.pick(vectors)
            return f"{n}.{self.pick(['x', 'y', 's0', 's1'])}"
        if what < 7 and self.constants:
            return self.pick(self.constants)
        if what < 8 and self.tables:
            name, t, length = self.pick(self.tables)
            return f"{name}[{self.random.randrange(length)}]"
        if what < 9:
            of = self.pick(SCALARS + VECTORS + [s for s, _ in self.records])
            return self.pick([f"sizeof({of})", f"__alignof__({of})", f"get_global_id({self.random.randrange(3)})"])
        return self.literal()

    def number(self, scope, depth=0):
        if depth > 3 or self.chance(20):
            return self.leaf(scope)
        what = self.random.randrange(12)
        a = self.number(scope, depth + 1)
        if what < 4:
            gap = self.pick(["", " ", "  "])
            return f"({a} {self.pick(BINARY)}{gap} {self.number(scope, depth + 1)})"
        if what < 5:
            return f"{self.pick(['-', '~', '!', '+'])}({a})"
        if what < 6:
            return f"({self.pick(SCALARS)})({a})"
        if what < 7:
            return f"({a} ? {self.number(scope, depth + 1)} : {self.number(scope, depth + 1)})"
        if what < 8:
            return f"({a}, {self.number(scope, depth + 1)})"
        if what < 10 and self.macros:
            name, count = self.pick(self.macros)
            return f"{name}({', '.join(self.number(scope, 3) for _ in range(count))})" if count else name
        if what < 11 and self.functions:
            name, types = self.pick(self.functions)
            return f"{name}({', '.join(self.number(scope, 3) for _ in types)})"
        t = self.pick(["int", "uint", "long", "uchar"])
        return self.pick([f"min(({t})({a}), ({t})3)", f"abs(({t})({a}))", f"popcount(({t})({a}))",
                          f"rotate(({t})({a}), ({t})1)", f"convert_{t}_sat({a})", f"as_uint((int)({a}))"])

    def vector(self, t, scope):
        base = t.rstrip("0123456789")
        count = int(t[len(base):])
        same = [n for n, u in scope if u == t]
        what = self.random.randrange(6)
        if what < 2 and same:
            return f"({self.pick(same)} {self.pick(['+', '-', '*', '&', '|', '^'])} {self.pick(same)})"
        if what < 3:
            return f"({t})({self.number(scope, 3)})"
        if what < 4 and same:
            return f"({t})(({self.pick(same)} {self.pick(['<', '==', '!='])} {self.pick(same)}).x)"
        return f"({t})({', '.join(self.number(scope, 3) for _ in range(count))})"

    # ---- statements -----------------------------------------------------------------------------

    def declare(self, scope):
        what = self.random.randrange(8)
        name = self.name("v")
        if what < 4:
            t = self.pick(SCALARS)
            value, word = self.number(scope), self.pick(["", "const ", "volatile "])
            scope.append((Fixed(name) if word == "const " else name, t))
            return f"{word}{t} {name} = {value};"
        if what < 6:
            t = self.pick(VECTORS)
            scope.append((name, t))
            return f"{t} {name} = {self.vector(t, scope[:-1])};"
        if what < 7 and self.records:
            spelled, members = self.pick(self.records)
            scope += [(f"{name}{p}", t) for p, t in members]
            return f"{spelled} {name};"
        t = self.pick(SCALARS)
        scope.append((f"{name}[1][0]", t))
        scope.append((f"(*{name})", f"{t} array"))
        return f"{t} {name}[2][3] = {{ {{ {self.literal()} }}, {{ {self.literal()}, {self.literal()} }} }};"

    def assign(self, scope):
        numbers = [n for n, t in scope if t in SCALARS and not isinstance(n, Fixed)]
        vectors = [(n, t) for n, t in scope if t in VECTORS]
        if vectors and self.chance(30):
            n, t = self.pick(vectors)
            same = [(m, u) for m, u in vectors if u == t]
            form = self.random.randrange(3)
            if form == 0:
                return f"{n} {self.pick(['=', '+=', '^='])} {self.vector(t, scope)};"
            if form == 1:
                part = self.pick(["xy", "yx", "s01", "lo" if t[-1] == "4" else "xy"])
                return f"{n}.{part} = {self.pick(same)[0]}.xy;"
            return f"{n}.x {self.pick(ASSIGN)} {self.number(scope, 2)};"
        if not numbers:
            return ";"
        n = self.pick(numbers)
        return self.pick([f"{n} {self.pick(ASSIGN)} {self.number(scope)};", f"{n}{self.pick(['++', '--'])};",
                          f"{self.pick(['++', '--'])}{n};"])

    def statement(self, scope, depth, in_loop):
        what = self.random.randrange(14)
        if depth > 2 or what < 4:
            return self.assign(scope)
        inner = list(scope)
        if what < 6:
            tail = f" else {self.block(list(scope), depth + 1, in_loop)}" if self.chance(40) else ""
            return f"if ({self.number(scope)}) {self.block(inner, depth + 1, in_loop)}{tail}"
        if what < 7:
            i = self.name("i")
            first = self.pick([f"int {i} = 0", ""])
            test, step = (f"{i} < 3", f"{i}++") if first else (self.pick(["", self.number(scope)]), "")
            return f"for ({first}; {test}; {step}) {self.block(inner, depth + 1, True)}"
        if what < 8:
            return f"while ({self.number(scope)}) {self.block(inner, depth + 1, True)}"
        if what < 9:
            return f"do {self.block(inner, depth + 1, True)} while ({self.number(scope)});"
        if what < 10:
            cases = " ".join(f"case {self.random.randrange(9) + 10 * i}: "
                             f"{self.statement(list(scope), depth + 1, in_loop)} {self.pick(['break;', ''])}"
                             for i in range(self.random.randrange(1, 4)))
            return f"switch ({self.number(scope)}) {{ {cases} default: ; }}"
        if what < 11 and in_loop:
            return self.pick(["break;", "continue;"])
        if what < 12:
            return self.pick(["barrier(CLK_LOCAL_MEM_FENCE);", "mem_fence(CLK_GLOBAL_MEM_FENCE | CLK_LOCAL_MEM_FENCE);",
                              "/* nothing */ ;", "// nothing\n    ;"])
        return self.block(inner, depth + 1, in_loop)

    def block(self, scope, depth, in_loop):
        lines = []
        for _ in range(self.random.randrange(1, 4)):
            lines.append(self.declare(scope) if self.chance(30) else self.statement(scope, depth, in_loop))
        return "{ " + self.pick([" ", "\n  "]).join(lines) + " }"

    def declare_function(self):
        name = self.name("f")
        types = [self.pick(SCALARS) for _ in range(self.random.randrange(1, 4))]
        scope = [(self.name("a"), t) for t in types]
        words = ", ".join(f"{t} {n}" for n, t in scope)
        self.lines.append(f"{self.pick(['', 'static ', 'inline '])}{self.pick(SCALARS)} {name}({words}) "
                          f"{self.block(list(scope), 1, False)[:-1]} return {self.number(scope)}; }}")
        self.functions.append((name, types))

    def declare_kernel(self):
        scope, words = [], []
        for _ in range(self.random.randrange(1, 5)):
            name, what = self.name("p"), self.random.randrange(6)
            t = self.pick(SCALARS[:8])
            if what < 1:
                words.append(f"{t} {name}")
                scope.append((name, t))
            elif what < 4 or not self.records:
                words.append(f"{self.pick(SPACES[:2])} {t} *{self.pick(['', 'restrict '])}{name}")
                scope.append((f"{name}[get_local_id(0)]", t))
            elif what < 5:
                t = self.pick(VECTORS)
                words.append(f"__global {t} *{name}")
                scope += [(f"{name}[1]", t), (f"({name} + 1)->x", t.rstrip("0123456789"))]
            else:
                spelled, members = self.pick(self.records)
                words.append(f"__global {spelled} *{name}")
                scope += [(f"{name}[0]{p}", u) for p, u in members] + [(f"{name}->{p[1:]}", u) for p, u in members]
        sizes = self.pick(["", "__attribute__((reqd_work_group_size(8, 2, 1))) "])
        casts = "".join(f" {s} {t} *{self.name('q')} = ({s} {t} *)({w.split()[-1].lstrip('*')} + 1);"
                        for w in words for s in SPACES[:2] for t in ["uchar"] if w.startswith(s) and self.chance(40))
        self.lines.append(f"{sizes}{self.pick(['__kernel', 'kernel'])} void {self.name('k')}({', '.join(words)})\n"
                          f"{{{casts} {self.block(scope, 0, False)[1:]}")

    def text(self):
        makers = [self.declare_record, self.declare_enumeration, self.declare_table, self.declare_macro,
                  self.declare_function]
        for _ in range(self.random.randrange(2, 9)):
            self.pick(makers)()
        for _ in range(self.random.randrange(1, 3)):
            self.declare_kernel()
        return "\n".join(self.lines) + "\n"


def source(seed):
    return Source(seed).text()


def records(seed):
    """The source's structs and unions as they are spelled, with the paths of their members."""
    made = Source(seed)
    made.text()
    return made.records
