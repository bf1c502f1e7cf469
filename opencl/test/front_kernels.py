"""Random kernels of what the front end translates: structs, unions, vectors, pointers, casts, tables, functions,
control flow, local memory, built-in functions.

Nothing in them is undefined or left to the compiler: what may overflow is unsigned and no narrower than an int, no
divisor is 0, no shift of a signed number to the left, no variable is read before it is set. So every compiler has to
come to the same bytes.
"""
import random
import re

TYPES = ["char", "uchar", "short", "ushort", "int", "uint", "long", "ulong"]
WIDTH = {"char": 1, "uchar": 1, "short": 2, "ushort": 2, "int": 4, "uint": 4, "long": 8, "ulong": 8}
OF_TWO = ["min", "max", "hadd", "rhadd", "add_sat", "sub_sat", "mul_hi", "rotate"]
ITEMS, GROUP, WORDS = 8, 4, 16  # work-items, those of a group, and words of input for each
# the names that a kernel's source declares for all of it
NAMES = re.compile(r"\b(S|FIRST|SECOND|THIRD|table|pairs|MIX|AT|step|add|spread|swap|change|fun\d+|f)\b")


def unsigned(t):
    """The unsigned type in which numbers of a type are added."""
    return "ulong" if WIDTH[t] == 8 else "uint"


def as_unsigned(t):
    return t if t[0] == "u" else "u" + t


class Kernel:
    """A random kernel `f` by its seed: `__global ulong *out, __global const ulong *in, S given`, the last by value."""

    def __init__(self, seed):
        self.r = random.Random(seed)
        self.count = 0
        self.head, self.scalars, self.vectors, self.functions = [], {}, {}, []
        self.is_apart = False  # what is written is a function of numbers alone
        self.loops = 0
        self.has_jumps = self.chance(10)
        self.fields = [(f"m{n}", self.r.choice(TYPES)) for n in range(self.r.randint(2, 5))]
        self.declare()

    def name(self, stem):
        self.count += 1
        return f"{stem}{self.count}"

    def chance(self, percent):
        return self.r.randrange(100) < percent

    # ---- what stands in front of the kernel ---------------------------------------------------

    def declare(self):
        r = self.r
        packed = " __attribute__((packed))" if self.chance(25) else ""
        vector = r.choice(["uchar4", "int2", "ushort8", "ulong2"])
        members = [f"{t} {n};" for n, t in self.fields]
        members += [f"{vector} v;", "uchar b[5];", "union { uint w; uchar q[4]; struct { ushort lo, hi; } h; } u;"]
        r.shuffle(members)
        self.vector = vector
        self.head.append(f"typedef struct{packed} {{ {' '.join(members)} }} S;")
        self.head.append(f"enum {{ FIRST = {r.randint(-9, 9)}, SECOND, THIRD = {r.randint(0, 99)} }};")
        values = ", ".join(str(r.randint(-99, 99)) for _ in range(8))
        self.head.append(f"__constant {r.choice(TYPES)} table[8] = {{ {values} }};")
        self.head.append(f"__constant struct {{ uchar a; ushort b[2]; }} pairs[2] = "
                         f"{{ {{ {r.randint(0, 255)}, {{ {r.randint(0, 999)}, 7 }} }}, {{ 3 }} }};")
        self.head.append("#define MIX(a, b) ((a) * 3u + (b))")
        self.head.append("#define AT(p, i) ((p)[(i) & 3])")
        self.head.append("int step(uint x, __private uint *p) { *p += x; if (*p & 1) return (int)(*p >> 3); "
                         "for (int i = 0; i < 3; i++) { if (*p & (2u << i)) return i; *p ^= 5u << i; } return -1; }")
        self.head.append("ulong add(ulong a, uchar b) { switch (b & 3) { case 0: return a + 1; case 1: a ^= b; "
                         "case 2: a += 2ul * b; break; default: return ~a; } return a; }")
        self.head.append("long spread(long x, ushort n) { uchar b[4] = { 1, 2 }; "
                         "for (uint i = 0; i < (n & 3u); i++) { b[i] ^= (uchar)(x >> i); "
                         "if (b[i] == 7) return x ^ b[i]; x = (long)add((ulong)x, b[i + 1]); } "
                         "return (long)(add((ulong)x, b[1]) ^ add(n, (uchar)x)); }")
        self.head.append("void swap(__private uint *a, __private uint *b) { uint t = *a; *a = *b; *b = t; }")
        self.head.append("S change(S s, uint x) { s.u.w += x; s.b[x % 5] = (uchar)x; return s; }")
        for _ in range(r.randint(0, 3)):
            self.function()

    def function(self):
        """A function into which numbers alone go, and that gives one: with a loop, a switch, returns out of both."""
        r, t = self.r, self.r.choice(TYPES)
        given = [(n, r.choice(TYPES)) for n in ["p", "q", "o"][:r.randint(1, 3)]]
        self.scalars, self.is_apart = {**dict(given), "w": t}, True
        value, test = (lambda: self.number(t, 2)), (lambda: self.number(r.choice(TYPES), 1))
        forms = [lambda: f"w = {value()};", lambda: f"w ^= {value()};", lambda: f"{given[0][0]} ^= {test()};",
                 lambda: f"if ({test()}) return {value()};",
                 lambda: f"if ({test()}) {{ w = {value()}; }} else return w;",
                 lambda: f"for (int i = 0; i < {r.randint(1, 3)}; i++) {{ w ^= {value()}; if ({test()}) continue; "
                         f"if ({test()}) return {value()}; w |= {value()}; }}",
                 lambda: f"switch ({test()} & 3) {{ case 0: w = {value()}; case 1: return {value()}; "
                         f"case 2: w ^= {value()}; break; default: w = ~w; }}",
                 lambda: f"{{ {t} y[3] = {{ w, {value()} }}; for (uint i = 0; i < 3; i++) y[2] ^= y[i]; w = y[2]; }}"]
        lines = " ".join(r.choice(forms)() for _ in range(r.randint(1, 5)))
        name, numbers = self.name("fun"), ", ".join(f"{k} {n}" for n, k in given)
        self.head.append(f"{t} {name}({numbers}) {{ {t} w = {value()}; {lines} return {value()}; }}"
                         .replace(f"{t} w = ", f"{t} w = 1; w = ", 1))
        self.functions.append((name, [k for _, k in given]))
        self.scalars, self.is_apart = {}, False

    # ---- scalars --------------------------------------------------------------------------------

    def leaf(self, t):
        r = self.r
        forms = [lambda: r.choice(list(self.scalars)), lambda: r.choice(list(self.scalars)),
                 lambda: str(r.choice([0, 1, 2, 3, 7, 31, 100, 255, 256, 65535])),
                 lambda: r.choice(["FIRST", "SECOND", "THIRD", "'a'", "0x80000000u", "0xfffffffffffful", "~0ul"]),
                 # (those of a function of numbers alone end here)
                 lambda: f"table[{r.choice(list(self.scalars))} & 7]",
                 lambda: f"pairs[{r.choice(list(self.scalars))} & 1].b[{r.randint(0, 1)}]",
                 lambda: f"s.{r.choice(self.fields)[0]}", lambda: f"s.b[{r.choice(list(self.scalars))} & 3]",
                 lambda: r.choice(["s.u.w", "s.u.q[1]", "s.u.h.hi", "s.v.s0", "s.v.y", "ps->u.w", "(*ps).b[2]"]),
                 lambda: f"AT(a, {r.choice(list(self.scalars))})",
                 lambda: f"grid[1][{r.choice(list(self.scalars))} & 1]",
                 lambda: "*pa", lambda: f"pa[{r.randint(0, 1)}]", lambda: f"bytes[{r.choice(list(self.scalars))} & 7]",
                 lambda: "(ulong)sizeof(S)", lambda: f"in[g * {WORDS} + {r.randint(0, 7)}]"]
        if self.is_apart:
            forms = forms[:4]
        elif self.vectors:
            forms.append(lambda: f"{r.choice(list(self.vectors))}.{r.choice(['x', 'y', 's0', 's1'])}")
        return f"({t})({r.choice(forms)()})"

    def number(self, t, depth):
        """An expression of a type."""
        r = self.r
        if depth <= 0 or self.chance(12):
            return self.leaf(t)
        u, other = unsigned(t), r.choice(TYPES)
        one, two = (lambda k=t: self.number(k, depth - 1)), (lambda k=t: self.number(k, depth - 1))
        forms = [
            lambda: f"({t})(({u}){one()} {r.choice('+-*')} ({u}){two()})",
            lambda: f"({t})(({u}){one()} {r.choice('+-*')} ({u}){two()})",
            lambda: f"({t})({one()} {r.choice('&|^')} {two()})",
            lambda: f"({t})(({u}){one()} << ({one('uchar')} & 31))",
            lambda: f"({t})({one()} >> ({one('uchar')} & 7))",
            lambda: f"({t})(({u}){one()} {r.choice('/%')} (({u}){two()} | 1u))",
            lambda: f"({t})({one(other)} {r.choice(['<', '>', '<=', '>=', '==', '!='])} {two(other)})",
            lambda: f"({t})({one(other)} {r.choice(['&&', '||'])} {two(other)})",
            lambda: f"({t})({r.choice(['~', '!'])}{one()})", lambda: f"({t})(-({u}){one()})",
            lambda: f"({t}){one(other)}",
            lambda: f"({t})({one(other)} ? {one()} : {two()})",
            lambda: f"({t})MIX((uint){one('uint')}, (uint){two('uint')})",
            lambda: f"({t})({one(other)}, {two(other)})",
            lambda: f"({t})add({one('ulong')}, {two('uchar')})",
            lambda: f"({t})spread({one('long')}, {two('ushort')})",
            lambda: f"({t})(({{ {other} z = {one(other)}; z ^ 1; }}))",
            lambda: self.builtin(t, depth), lambda: self.builtin(t, depth),
        ]
        forms += [lambda f=f: self.call(t, *f, depth) for f in self.functions]
        return r.choice(forms)()

    def call(self, t, name, kinds, depth):
        return f"({t}){name}({', '.join(self.number(k, depth - 1) for k in kinds)})"

    def builtin(self, t, depth):
        r = self.r
        a, b, c = (self.number(t, depth - 1) for _ in range(3))
        narrow = r.choice([k for k in TYPES if WIDTH[k] < 8])
        wide = {"char": "short", "uchar": "ushort", "short": "int", "ushort": "uint", "int": "long", "uint": "ulong"}
        # (pocl 3.1 has |x| and sums of mad_sat for ints and longs as if none overflowed, so that |x| of the least
        # number, which 6.12.3 gives, is any number there: no argument of these is such a one)
        is_taken = t in ("int", "long")
        odd = [f"({t})({x} | 1)" if is_taken else x for x in (a, b)]
        high = f"({t})({a} & ~{'0xffff' if t == 'int' else '0xffffffffl'})" if is_taken else a
        return r.choice([
            lambda: f"{r.choice(OF_TWO)}({a}, {b})",
            lambda: f"clamp({a}, ({t})3, ({t})100)", lambda: f"mad_sat({high}, {b}, {c})",
            lambda: f"bitselect({a}, {b}, {c})", lambda: f"({t}){r.choice(['clz', 'popcount'])}({a})",
            lambda: f"({t})abs({odd[0]})", lambda: f"({t})abs_diff({odd[0]}, {odd[1]})",
            lambda: f"select({a}, {b}, {c})",
            lambda: f"({t})upsample({self.number(narrow, 1)}, {self.number(as_unsigned(narrow), 1)})"
            if narrow in wide else a,
            lambda: f"convert_{t}_sat({self.number(r.choice(TYPES), depth - 1)})",
            lambda: f"({t})mul24({self.number('uint', 1)} & 0xffffu, {self.number('uint', 1)} & 0xffu)",
            lambda: f"as_{t}({self.number(t if self.chance(50) else self.twin(t), depth - 1)})",
        ])()

    @staticmethod
    def twin(t):
        return t[1:] if t[0] == "u" else "u" + t

    # ---- vectors ----------------------------------------------------------------------------------

    def vector_of(self, t, n, depth):
        """A vector expression of n components of a type."""
        r, name = self.r, f"{t}{n}"
        same = [v for v, (u, m) in self.vectors.items() if (u, m) == (t, n)]
        if depth <= 0 or self.chance(15):
            return r.choice(same) if same and self.chance(70) else f"({name})({self.leaf(t)})"
        one, two = (lambda: self.vector_of(t, n, depth - 1)), (lambda: self.vector_of(t, n, depth - 1))
        u = f"{as_unsigned(t)}{n}"
        letters = "xyzw"[:n] if n <= 4 else None
        pick = "".join(r.choice(letters) for _ in range(n)) if letters else \
            "s" + "".join(r.choice("0123456789abcdef"[:n]) for _ in range(n))
        forms = [
            lambda: f"as_{name}(as_{u}({one()}) {r.choice('+-*')} as_{u}({two()}))",
            lambda: f"({one()} {r.choice('&|^')} {two()})", lambda: f"(~{one()})",
            lambda: f"as_{name}(as_{u}({one()}) << ({u})({self.leaf(as_unsigned(t))} & 7))",
            lambda: f"({one()} >> ({name})({r.randint(0, 7)}))",
            lambda: f"as_{name}({one()} {r.choice(['<', '>', '<=', '==', '!='])} {two()})",
            lambda: f"({r.choice(same) if same else one()}).{pick}",
            lambda: f"{r.choice(OF_TWO)}({one()}, {two()})",
            lambda: f"convert_{name}{r.choice(['', '_sat'])}({self.vector_of(r.choice(TYPES), n, depth - 1)})",
            lambda: f"select({one()}, {two()}, as_{u}({one()}))", lambda: f"bitselect({one()}, {two()}, {one()})",
            lambda: f"({name})({', '.join(self.leaf(t) for _ in range(n))})",
            lambda: f"({one()} {r.choice(['<', '=='])} {two()} ? {one()} : {two()})",
        ]
        if n in (4, 8, 16):
            half = lambda: self.vector_of(t, n // 2, depth - 1)  # noqa: E731
            forms.append(lambda: f"({name})({half()}, {half()})")
        if n == 4 or n == 8:
            forms.append(lambda: f"vload{n}(0, (__global const {t} *)(in + g * {WORDS}))")
        return r.choice(forms)()

    # ---- statements -------------------------------------------------------------------------------

    def target(self):
        """What can be assigned to, with its type."""
        r = self.r
        name = r.choice(list(self.scalars))
        forms = [(name, self.scalars[name])] * 3 + [("s.u.w", "uint"), ("s.u.q[2]", "uchar"), ("s.u.h.lo", "ushort"),
                                                    ("ps->b[1]", "uchar"), ("*pa", "uint"), ("grid[g & 1][1]", "short"),
                                                    (f"a[{r.choice(list(self.scalars))} & 3]", "uint"),
                                                    (f"bytes[{r.choice(list(self.scalars))} & 7]", "uchar")]
        forms += [(f"s.{n}", t) for n, t in self.fields]
        return r.choice(forms)

    def assign(self):
        r = self.r
        if self.vectors and self.chance(35):
            name = r.choice(list(self.vectors))
            t, n = self.vectors[name]
            return r.choice([
                lambda: f"{name} = {self.vector_of(t, n, 2)};",
                lambda: f"{name} {r.choice(['^=', '|=', '&='])} {self.vector_of(t, n, 2)};",
                lambda: f"{name}.{r.choice(['xy', 'yx', 's10'])} = {self.vector_of(t, 2, 1)};",
                lambda: f"{name}.{r.choice(['lo', 'hi', 'even', 'odd'])} = {self.vector_of(t, n // 2, 1)};" if n > 3
                else f"{name}.x = {self.number(t, 2)};",
                lambda: f"{name}.s1 ^= {self.number(t, 2)};",
            ])()
        place, t = self.target()
        sign = r.choice(["=", "=", "^=", "|=", "&="] + (["+=", "-=", "*="] if t in ("uint", "ulong") else []))
        return r.choice([
            lambda: f"{place} {sign} {self.number(t, 3)};", lambda: f"{place} {sign} {self.number(t, 3)};",
            lambda: f"{r.choice(['x0', 'x1', 'a[1]', '(*pa)'])}{r.choice(['++', '--'])};",
            lambda: f"a[2] = (uint)step({self.number('uint', 2)}, &{r.choice(['x0', 'x1', 'a[3]'])});",
            lambda: f"a[1] = (uint)step({self.number('uint', 2)}, pa == a ? &x1 : &x0);",
            lambda: "swap(&a[g & 3], &x1);", lambda: f"pa = &a[{r.choice(list(self.scalars))} & 1];",
            lambda: f"ps = {r.choice(['&s', '&other', '(' + self.leaf('int') + ' ? &s : &other)'])};",
            lambda: f"other = {r.choice(['s', '*ps', 'change(s, x0)'])};",
            lambda: f"*(int *)&a[{r.randint(0, 3)}] = {self.number('int', 1)};",
            lambda: f"((uchar *)a)[{r.choice(list(self.scalars))} & 15] ^= {self.number('uchar', 1)};",
            lambda: f"vstore4({self.vector_of('uchar', 4, 1)}, {r.randint(0, 1)}, bytes);",
        ])()

    def statement(self, depth):
        r = self.r
        if depth <= 0 or self.chance(45):
            return self.assign()
        body = lambda: self.statement(depth - 1)  # noqa: E731
        test = self.number(r.choice(TYPES), 2)
        self.loops += 1
        i, label = f"i{self.loops}", f"out{self.loops}"
        forms = [
            lambda: f"if ({test}) {body()}", lambda: f"if ({test}) {{ {body()} }} else {{ {body()} {body()} }}",
            lambda: f"{{ {body()} {body()} }}",
            lambda: f"for (int {i} = 0; {i} < {r.randint(1, 3)}; {i}++) {{ {body()} if ({test}) continue; {body()} }}",
            lambda: f"{{ int {i} = 3; while ({i}-- > 0) {{ {body()} if ({test}) break; {body()} }} }}",
            lambda: f"{{ int {i} = 2; do {{ {body()} }} while (--{i} > 0 && {test}); }}",
            lambda: f"switch ({test} & 7) {{ case 0: {body()} case 1: {body()} break; "
                    f"case 2: case 3: {{ {body()} break; }} default: {body()} case 5: {body()} }}",
        ]
        if self.has_jumps:
            forms += [lambda: f"{{ if ({test}) goto {label}; {body()} {body()} {label}: {body()} }}"] * 3
        return r.choice(forms)()

    def kernel(self):
        r = self.r
        # (pocl lets work-items share an argument that is a struct, so that nothing is stored into it here)
        lines = ["size_t g = get_global_id(0), l = get_local_id(0); S s = given, other = s; S *ps = &s;",
                 f"uint x0 = (uint)in[g * {WORDS}], x1 = 7; uint a[4] = {{ (uint)g, 5 }}; uint *pa = a;",
                 f"short grid[2][2] = {{ {{ 1, -2 }}, {{ (short)g }} }}; uchar bytes[8] = {{ 1, 2, 3 }};"]
        self.scalars = {"x0": "uint", "x1": "uint", "g": "ulong"}
        for n in range(r.randint(2, 5)):
            t = r.choice(TYPES)
            lines.append(f"{t} y{n} = ({t})in[g * {WORDS} + {n}];")
            self.scalars[f"y{n}"] = t
        for n in range(r.randint(0, 3)):
            t, m = r.choice(TYPES), r.choice([2, 3, 4, 8, 16])
            lines.append(f"{t}{m} w{n} = ({t}{m})(({t})in[g * {WORDS} + {n}]);")
            self.vectors[f"w{n}"] = (t, m)
        self.vectors = {v: k for v, k in self.vectors.items() if k[1] != 3 or self.chance(50)}
        del self.scalars["g"]
        lines += [self.statement(2) for _ in range(r.randint(2, 5))]
        if self.chance(40):
            t = r.choice(["uint", "ushort", "uchar"])
            lines.append(f"__local {t} shared[{GROUP * 2}]; shared[l] = ({t})x0; shared[l + {GROUP}] = ({t})x1; "
                         f"barrier(CLK_LOCAL_MEM_FENCE); x1 ^= shared[(l + {r.randint(1, 3)}) % {GROUP * 2}];")
        if self.chance(20):
            lines.append(f"__local ulong copied[{GROUP}]; event_t e = async_work_group_copy(copied, "
                         f"in + get_group_id(0) * {GROUP}, {GROUP}, 0); wait_group_events(1, &e); "
                         f"x0 ^= (uint)copied[(l + 1) % {GROUP}];")
        lines += self.results()
        return "\n    ".join(lines)

    def results(self):
        """All variables go into the buffer, each into bytes of its own, by several kinds of pointers."""
        r = self.r
        terms = [f"(ulong){n} << {r.randint(0, 40)}" for n in self.scalars]
        terms += [f"(ulong)s.{n}" for n, _ in self.fields] + ["(ulong)other.u.w << 9", "s.b[0]", "s.b[4]", "ps->b[1]"]
        terms += [f"(ulong)a[{n}] << {n}" for n in range(4)] + ["grid[1][0]", "grid[0][1]"]
        terms += [f"(ulong)bytes[{n}] << {n * 7}" for n in range(8)]
        lines = [f"out[g * 8] = {' ^ '.join(terms)};"]
        at = 1
        for n, (t, m) in self.vectors.items():
            parts = [f"(ulong){n}.s{i:x} << {i * 3}" for i in range(m)]
            lines.append(f"out[g * 8 + {at}] = {' ^ '.join(parts)};")
            at += 1
        lines.append(f"__global {r.choice(['uchar', 'char'])} *ob = (__global uchar *)(out + g * 8 + 4);"
                     .replace("__global char *ob = (__global uchar *)", "__global char *ob = (__global char *)"))
        lines.append("ob[0] = (uchar)x0; ob[3] = (uchar)(x1 >> 8);")
        lines.append("__global uint *ow = (__global uint *)&out[g * 8 + 5]; ow[1] = x1; *ow = a[1];")
        lines.append("vstore4((ushort4)((ushort)x0, (ushort)x1, 3, s.b[1]), 0, (__global ushort *)(out + g * 8 + 6));")
        return lines

    def source(self):
        body = self.kernel()
        head = "\n".join(self.head)
        return f"{head}\n__kernel void f(__global ulong *out, __global const ulong *in, S given) {{\n    {body}\n}}\n"


def program(seeds):
    """A source of the kernels of some seeds, `f_0`, `f_1` and so on, and of `measure`, which tells their structs'
    sizes."""
    kernels = [NAMES.sub(rf"\1_{n}", Kernel(seed).source()) for n, seed in enumerate(seeds)]
    sizes = " ".join(f"size[{n}] = sizeof(S_{n});" for n in range(len(kernels)))
    return f"{''.join(kernels)}__kernel void measure(__global uint *size) {{ {sizes} }}\n"
