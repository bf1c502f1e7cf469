"""Random kernels on floating-point numbers: operators, conversions, comparisons, vectors, functions, control flow.

What IEEE 754 gives to the bit goes into the buffer `out`. Functions with bounds in units of the last place go into
`near`, and nothing is computed from them. What the standard leaves open isn't in them: the bits and the sign of a NaN,
the sign of the zero that fmin and fmax choose, contraction, conversions of what a type can't hold without `_sat`.
"""
import random
import struct

ITEMS, GROUP, WORDS, NEAR = 8, 4, 16, 4  # work-items, those of a group, words of input and near results for each
FORMATS = ["float", "double"]
WHOLE = ["char", "uchar", "short", "ushort", "int", "uint", "long", "ulong"]
WIDTH = {"char": 1, "uchar": 1, "short": 2, "ushort": 2, "int": 4, "uint": 4, "long": 8, "ulong": 8}
TRUTH = {"float": "int", "double": "long"}
BITS = {"float": "uint", "double": "ulong"}
COMPARISONS = ["<", ">", "<=", ">=", "==", "!="]
RELATIONS = ["isequal", "isnotequal", "isgreater", "isgreaterequal", "isless", "islessequal", "islessgreater",
             "isordered", "isunordered"]
ROUNDED = ["floor", "ceil", "trunc", "rint", "round"]
# Functions of one number, with the bound of OpenCL 1.2 (7.4) and the numbers of its domain that are tried.
NEARLY = {"exp": (3, 80), "exp2": (3, 100), "exp10": (3, 30), "expm1": (3, 80), "log": (3, 0), "log2": (3, 0),
          "log10": (3, 0), "log1p": (2, 0), "sin": (4, 1e4), "cos": (4, 1e4), "tan": (5, 1e4), "sinpi": (4, 1e4),
          "cospi": (4, 1e4), "asin": (4, 1), "acos": (4, 1), "atan": (5, 1e9), "asinpi": (5, 1), "acospi": (5, 1),
          "atanpi": (5, 1e9), "sinh": (4, 80), "cosh": (4, 80), "tanh": (5, 80), "asinh": (4, 1e9), "acosh": (4, 0),
          "atanh": (5, 1), "cbrt": (2, 1e9), "rsqrt": (2, 0), "erf": (16, 3), "erfc": (16, 3)}

HEAD = """#pragma OPENCL EXTENSION cl_khr_fp64 : enable
#pragma OPENCL FP_CONTRACT OFF
uint bits_float(float x) { return isnan(x) ? 0x7fc00000u : as_uint(x); }
ulong bits_double(double x) { return isnan(x) ? 0x7ff8000000000000ul : as_ulong(x); }
float known_float(float x) { return isnan(x) ? 1.0f : x; }
double known_double(double x) { return isnan(x) ? 1.0 : x; }
float small_float(float x) { return fmin(fmax(x, -100.0f), 100.0f); }
double small_double(double x) { return fmin(fmax(x, -100.0), 100.0); }
float within_float(float x, float most) { return x > -most && x < most ? x : 0.25f; }
double within_double(double x, double most) { return x > -most && x < most ? x : 0.25; }
typedef struct { float f; double d; float v[3]; } S;
__constant float table[4] = { 0.1f, -2.5f, 1e30f, 3 };
__constant double wide[2] = { 0.1, -1e-310 };
"""


def word(chance):
    """A word of input: two floats, of which the upper one and what it shares with a double are usual ones too."""
    def real():
        kind = chance.randrange(10)
        if kind < 6:
            return struct.unpack("<I", struct.pack("<f", chance.uniform(-9, 9)))[0]
        if kind < 8:
            return chance.choice([0, 1 << 31, 0x7f800000, 0xff800000, 0x7fc00000, 1, 0x007fffff, 0x00800000, 0x7f7fffff,
                                  0x3f800000, 0x4b000001, 0xcf000000, 0x5f000000])
        return chance.getrandbits(32)
    if chance.randrange(3):
        return real() | real() << 32
    return struct.unpack("<Q", struct.pack("<d", chance.uniform(-9, 9)))[0]


class Kernel:
    """A random kernel `f` by its seed: `__global ulong *out, __global double *near, __global const ulong *in`."""

    def __init__(self, seed):
        self.r = random.Random(seed)
        self.numbers = {}  # variables with their formats
        self.whole = {}
        self.vectors = {}
        self.near = []  # of each near result: its format and its bound
        self.loops = 0
        self.body = self.kernel()

    def chance(self, percent):
        return self.r.randrange(100) < percent

    # ---- numbers ------------------------------------------------------------------------------

    def variable(self, t):
        return self.r.choice([n for n, u in self.numbers.items() if u == t])

    def literal(self, t):
        text = self.r.choice(["0.5", "1.5", "-3.0", "0.1", "1e-3", "16777216.0", "100.25", "1e30", "-0.0", "1e-40"])
        return f"({text}{'f' if t == 'float' else ''})"

    def leaf(self, t):
        r = self.r
        forms = [lambda: self.variable(t)] * 4 + [lambda: self.literal(t)] * 2
        forms.append(lambda: f"s.{'f' if t == 'float' else 'd'}")
        forms.append(lambda: f"table[{r.randint(0, 3)}]" if t == "float" else f"wide[{r.randint(0, 1)}]")
        forms.append(lambda: f"({t}){r.choice(list(self.whole))}")
        if t == "float":
            forms.append(lambda: f"s.v[{r.choice(list(self.whole))} & 1]")
        same = [v for v, (u, n) in self.vectors.items() if u == t]
        if same:
            forms.append(lambda: f"{r.choice(same)}.{r.choice(['x', 'y', 's0', 's1'])}")
        return r.choice(forms)()

    def number(self, t, depth):
        """An expression of a format."""
        r = self.r
        if depth <= 0 or self.chance(12):
            return self.leaf(t)
        one = lambda k=t: self.number(k, depth - 1)  # noqa: E731
        other = r.choice(FORMATS)
        forms = [lambda: f"({one()} {r.choice('+-*/')} {one()})"] * 6 + [
            lambda: f"(-{one()})", lambda: f"fabs({one()})", lambda: f"sqrt(fabs({one()}))",
            lambda: f"{r.choice(ROUNDED)}({one()})", lambda: f"fma({one()}, {one()}, {one()})",
            lambda: f"copysign({one()}, known_{t}({one()}))",
            lambda: f"({r.choice(['fmin', 'fmax'])}({one()}, {one()}) + ({t})0)",
            lambda: f"({self.test(depth - 1)} ? {one()} : {one()})",
            lambda: f"({t}){self.number(other, depth - 1)}",
            lambda: f"({t}){self.whole_number(r.choice(WHOLE), depth - 1)}",
            lambda: f"convert_{t}{r.choice(['', '_rte', '_rtz', '_rtp', '_rtn'])}({self.number('double', depth - 1)})",
            lambda: f"select({one()}, {one()}, ({TRUTH[t]})-{self.test(depth - 1)})",
            lambda: f"as_{t}(bits_{t}({one()}) ^ 1u)", lambda: f"ldexp({one()}, {r.randint(-4, 4)})",
            lambda: f"step({one()}, {one()})", lambda: f"fdim({one()}, {one()})", lambda: f"sign({one()})",
            lambda: f"nextafter({one()}, {one()})",
            lambda: f"({{ {t} w_ = {one()}; w_ {r.choice(['+=', '*=', '-=', '/='])} {one(other)}; w_; }})",
            lambda: f"({{ {t} w_; {t} v_ = modf({one()}, &w_); v_ - w_; }})",
            lambda: f"({{ int w_ = 0; {t} v_ = frexp(known_{t}({one()}), &w_); isinf(v_) ? v_ : v_ + w_; }})",
        ]
        return r.choice(forms)()

    def test(self, depth):
        """A truth: 0 or 1."""
        r, t = self.r, self.r.choice(FORMATS)
        one = lambda: self.number(t, depth - 1)  # noqa: E731
        return r.choice([
            lambda: f"({one()} {r.choice(COMPARISONS)} {one()})", lambda: f"({one()} {r.choice(COMPARISONS)} {one()})",
            lambda: f"{r.choice(RELATIONS)}({one()}, {one()})",
            lambda: f"{r.choice(['isnan', 'isinf', 'isfinite', 'isnormal'])}({one()})",
            lambda: f"signbit(known_{t}({one()}))", lambda: f"(!{one()})",
            lambda: f"({one()} {r.choice(['&&', '||'])} {one()})",
        ])()

    def whole_number(self, t, depth):
        r, f = self.r, self.r.choice(FORMATS)
        if depth <= 0 or self.chance(25):
            return f"({t}){r.choice(list(self.whole))}"
        return r.choice([
            lambda: f"({t}){self.test(depth - 1)}",
            lambda: f"convert_{t}_sat{r.choice(['', '_rte', '_rtz', '_rtp', '_rtn'])}"
                    f"(known_{f}({self.number(f, depth - 1)}))",
            lambda: f"({t})(int)small_{f}({self.number(f, depth - 1)})",
            lambda: f"({t})((uint){r.choice(list(self.whole))} {r.choice('+-^')} {r.randint(1, 9)}u)",
        ])()

    # ---- vectors --------------------------------------------------------------------------------

    def vector(self, t, n, depth):
        r, name = self.r, f"{t}{n}"
        same = [v for v, (u, m) in self.vectors.items() if (u, m) == (t, n)]
        if depth <= 0 or self.chance(15):
            return r.choice(same) if same and self.chance(75) else f"({name})({self.leaf(t)})"
        one = lambda k=t: self.vector(k, n, depth - 1)  # noqa: E731
        truth = lambda: f"({one()} {r.choice(COMPARISONS)} {one()})"  # noqa: E731
        pick = "".join(r.choice("xyzw"[:n]) for _ in range(n)) if n <= 4 else \
            "s" + "".join(r.choice("0123456789abcdef"[:n]) for _ in range(n))
        forms = [lambda: f"({one()} {r.choice('+-*/')} {one()})"] * 4 + [
            lambda: f"({one()} {r.choice('+-*/')} {self.leaf(t)})", lambda: f"(-{one()})",
            lambda: f"{r.choice(['fabs', *ROUNDED])}({one()})", lambda: f"sqrt(fabs({one()}))",
            lambda: f"fma({one()}, {one()}, {one()})", lambda: f"({truth()} ? {one()} : {one()})",
            lambda: f"select({one()}, {one()}, {truth()})", lambda: f"({one()}).{pick}",
            lambda: f"({r.choice(['fmin', 'fmax'])}({one()}, {one()}) + ({t})0)",
            lambda: f"convert_{name}({self.vector(r.choice(FORMATS), n, depth - 1)})",
            lambda: f"convert_{name}({truth()})",
            lambda: f"({name})({', '.join(self.leaf(t) for _ in range(n))})",
        ]
        return r.choice(forms)()

    # ---- statements -------------------------------------------------------------------------------

    def assign(self):
        r = self.r
        if self.vectors and self.chance(30):
            name = r.choice(list(self.vectors))
            t, n = self.vectors[name]
            return r.choice([f"{name} = {self.vector(t, n, 2)};", f"{name} {r.choice('+-*/')}= {self.vector(t, n, 1)};",
                             f"{name}.{r.choice(['xy', 'yx', 's10'])} = {self.vector(t, 2, 1)};",
                             f"{name}.y = {self.number(t, 2)};"])
        if self.chance(15):
            name = r.choice(list(self.whole))
            return f"{name} = {self.whole_number(self.whole[name], 2)};"
        t = r.choice(FORMATS)
        place = r.choice([self.variable(t), self.variable(t), "s.f" if t == "float" else "s.d"])
        if t == "float" and self.chance(15):
            place = f"s.v[{r.choice(list(self.whole))} & 1]"
        return r.choice([f"{place} = {self.number(t, 3)};", f"{place} {r.choice('+-*/')}= {self.number(t, 2)};",
                         f"{place}{r.choice(['++', '--'])};"])

    def statement(self, depth):
        r = self.r
        if depth <= 0 or self.chance(50):
            return self.assign()
        body = lambda: self.statement(depth - 1)  # noqa: E731
        self.loops += 1
        i = f"i{self.loops}"
        return r.choice([
            lambda: f"if ({self.test(2)}) {{ {body()} }} else {{ {body()} {body()} }}",
            lambda: f"if ({self.number(r.choice(FORMATS), 1)}) {body()}",
            lambda: f"for (float {i} = 0; {i} < {r.randint(1, 2)}.5f; {i} += 0.75f) {{ {body()} "
                    f"{self.variable('float')} *= {i}; }}",
            lambda: f"for (int {i} = 0; {i} < 3; {i}++) {{ if ({self.test(1)}) continue; {body()} }}",
        ])()

    def nearly(self, at):
        """A function with a bound, of numbers of which no other result is computed."""
        r, t = self.r, self.r.choice(FORMATS)
        name, (ulps, most) = r.choice(list(NEARLY.items()))
        x = self.variable(t)
        x = f"within_{t}({x}, {most})" if most else f"(fabs({x}) + 1)"
        self.near.append((t, ulps))
        return f"near[g * {NEAR} + {at}] = {name}({x});"

    def kernel(self):
        r = self.r
        lines = ["size_t g = get_global_id(0), l = get_local_id(0);",
                 f"S s = {{ as_float((uint)in[g * {WORDS} + 7]), as_double(in[g * {WORDS} + 6]), {{ 1, 0.5f }} }};"]
        for n in range(4):
            t = "float" if n < 2 else "double"
            of = f"in[g * {WORDS} + {n}]"
            lines.append(f"{t} x{n} = {'as_float((uint)' + of + ')' if t == 'float' else 'as_double(' + of + ')'};")
            self.numbers[f"x{n}"] = t
        for n in range(2):
            t = r.choice(WHOLE)
            lines.append(f"{t} k{n} = ({t})in[g * {WORDS} + {n + 8}];")
            self.whole[f"k{n}"] = t
        for n in range(r.randint(0, 2)):
            t, m = r.choice(FORMATS), r.choice([2, 2, 3, 4])
            lines.append(f"{t}{m} w{n} = ({t}{m})(({t})x{n});")
            self.vectors[f"w{n}"] = (t, m)
        lines += [self.statement(2) for _ in range(r.randint(2, 4))]
        if self.chance(30):
            lines.append(f"__local float shared[{GROUP}]; shared[l] = x0; barrier(CLK_LOCAL_MEM_FENCE); "
                         f"x1 += shared[(l + 1) % {GROUP}];")
        return "\n    ".join(lines + self.results())

    def results(self):
        lines = [f"out[g * 8] = (ulong)bits_float(x0) << 32 | bits_float(x1);", "out[g * 8 + 1] = bits_double(x2);",
                 "out[g * 8 + 2] = bits_double(x3);", "out[g * 8 + 3] = (ulong)k0 ^ (ulong)k1 << 7;",
                 "out[g * 8 + 4] = (ulong)bits_float(s.f) << 32 ^ bits_double(s.d);",
                 "out[g * 8 + 5] = (ulong)bits_float(s.v[0]) << 32 | bits_float(s.v[1]);"]
        for n, (v, (t, m)) in enumerate(self.vectors.items()):
            parts = " ^ ".join(f"(ulong)bits_{t}({v}.s{i}) << {5 * i}" for i in range(m))
            lines.append(f"out[g * 8 + {6 + n}] = {parts};")
        return lines + [self.nearly(at) for at in range(self.r.randint(0, NEAR))]

    def source(self, name):
        return (f"__kernel void {name}(__global ulong *out, __global double *near, __global const ulong *in) {{\n"
                f"    {self.body}\n}}\n")


def program(seeds):
    """A source of the kernels of some seeds: `f_0`, `f_1` and so on."""
    return HEAD + "".join(Kernel(seed).source(f"f_{n}") for n, seed in enumerate(seeds))
