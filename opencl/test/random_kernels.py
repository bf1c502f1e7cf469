"""Random kernels with what is rewritten by the tree: calls, assignments, steps and commas in expressions, arrays of two
dimensions, tables, switch.

No expression changes a variable twice, or changes one that it also reads, and nothing overflows as an int: so every
compiler has to come to the same.
"""
import random

TYPES = ["int", "uint", "short", "uchar", "long", "ulong", "char", "ushort"]
VARIABLES = [f"v{n}" for n in range(8)]


class Kernel:
    """A random kernel, by its seed."""

    def __init__(self, seed):
        self.r = random.Random(seed)
        self.types = {name: self.r.choice(TYPES) for name in VARIABLES}
        self.loops = 0

    def parts(self, names, count):
        """Deals names out to the parts of an expression."""
        parts = [[] for _ in range(count)]
        for name in names:
            self.r.choice(parts).append(name)
        return parts

    def expression(self, depth, changed, read):
        """An expression that may change some variables, each once, and reads others."""
        r = self.r
        if depth == 0 or r.random() < 0.15:
            return r.choice(read + [str(r.randint(0, 9)), f"{r.randint(0, 300)}u", "0x1fl", "'a'"])
        a, b = self.parts(changed, 2)
        one, two, whole = (lambda: self.expression(depth - 1, a, read),
                           lambda: self.expression(depth - 1, b, read),
                           lambda: self.expression(depth - 1, changed, read))
        forms = [
            lambda: f"((uint){one()} {r.choice('+*-^|&')} (uint){two()})",
            lambda: f"((uint){one()} {r.choice('+*-^|&')} (uint){two()})",
            lambda: f"({one()} {r.choice(['<', '>=', '==', '!='])} {two()})",
            lambda: f"({one()} {r.choice(['&&', '||'])} {two()})",
            lambda: f"({r.choice(read)} ? {one()} : {two()})",
            lambda: f"add({one()}, {two()})",
            lambda: f"low({whole()})",
            lambda: f"TABLE[{whole()} & 3]",
            lambda: f"(({r.choice(TYPES)})({whole()}))",
            lambda: f"({r.choice(['~', '!', '-(long)', '+'])}{whole()})",
            lambda: f"({one()}, {two()})",
            lambda: f"({whole()} >> {r.randint(0, 7)})",
            lambda: f"t[{whole()} & 1][{r.randint(0, 2)}]",
            lambda: f"(({whole()} & 1023) / {r.randint(1, 9)})",
        ]
        if changed:
            forms += [lambda: self.change(depth, changed, read)] * 6
        return r.choice(forms)()

    def change(self, depth, changed, read):
        """An expression that changes the first of the variables."""
        name, r = changed[0], self.r
        inner = self.expression(depth - 1, changed[1:], read)
        if name == "u":
            return f"(u[{inner} & 3] {r.choice(['=', '+=', '^='])} {r.randint(0, 9)})"
        return r.choice([f"{name}++", f"--{name}", f"({name} = {inner})",
                         f"({name} {r.choice(['^=', '|=', '&='])} {inner})"])

    def whole(self, depth):
        """A full expression."""
        names = self.r.sample(VARIABLES, len(VARIABLES))
        count = self.r.randint(1, 4)
        changed = names[:count] + (["u"] if self.r.random() < 0.5 else [])
        self.r.shuffle(changed)
        return self.expression(depth, changed, names[count:])

    def statement(self, depth):
        r = self.r
        if depth == 0 or r.random() < 0.45:
            if r.random() < 0.5:
                return f"{self.whole(4)};"
            name, *others = r.sample(VARIABLES, len(VARIABLES))
            sign = r.choice(["=", "+=", "^="]) if self.types[name][0] == "u" else "="
            return f"{name} {sign} {self.expression(4, others[:2], others[2:])};"
        test, body = self.whole(3), lambda: self.statement(depth - 1)
        self.loops += 1
        i = f"i{self.loops}"
        return r.choice([
            lambda: f"if ({test}) {body()}",
            lambda: f"if ({test}) {body()} else {body()}",
            lambda: f"{{ {body()} {body()} }}",
            lambda: f"for (int {i} = 0, j{i} = 3; {i} < {r.randint(1, 3)} && ({test}, 1); {i}++, j{i}--) "
                    f"{{ {body()} if (j{i} == 2) continue; v0 += j{i}; {body()} }}",
            lambda: f"{{ int {i} = 2; while ({i}-- && ({test}, 1)) "
                    f"{{ {body()} if ({self.whole(2)}) continue; {body()} }} }}",
            lambda: f"{{ int {i} = 2; do {{ {body()} if (low({i}) == 9) break; }} while (--{i} > 0 && ({test}, 1)); }}",
            lambda: f"switch ({test} & 3) "
                    f"{{ case 0: {body()} break; case 1: case 2: {{ {body()} break; }} default: {body()} }}",
        ])()

    def source(self):
        declared = " ".join(f"{self.types[name]} {name} = {self.r.randint(0, 99)} + g;" for name in VARIABLES)
        body = "\n".join(self.statement(3) for _ in range(self.r.randint(2, 4)))
        terms = [f"(int){name} * {2 * n + 1}" for n, name in enumerate(VARIABLES)]
        terms += [f"u[{n}] * {2 * n + 1}" for n in range(4)]
        result = " ^ ".join(terms)
        return (
            "__constant short TABLE[4] = {1, -2, 300, 4};\n"
            "int add(int x, int y) { return (uint)x + (uint)y * 3u; }\n"
            "uchar low(uint x) { if (x & 1) return x; return x >> 1; }\n"
            "__kernel void f(__global int *a) {\n"
            f"int g = get_global_id(0); int t[2][3] = {{{{1, 2, 3}}, {{g, 5}}}}; uint u[4] = {{g}}; {declared}\n"
            f"{body}\na[g] = {result}; }}\n"
        )
