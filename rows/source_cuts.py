"""Sources cut at each byte, those of worked.txt and of examples/, and checked: what comes is the first fault by the
tokens and the grammar of docs/use/language.md, which are read here. `rows` gives the rows to tools/rows.

A cut without such a fault is whole functions of its source, which builds."""

import os
import re
import runpy

HERE = os.path.dirname(os.path.abspath(__file__))
EXAMPLES = os.path.join(HERE, "..", "examples")
NAMES = {1: "BadByte", 2: "NumberTooLarge", 3: "Unexpected", 4: "TooDeep", 5: "TooLong"}
MOST_BYTES, DEEPEST = 65536, 64

TYPES = set("char uchar short ushort int uint long ulong size_t".split())
SPACES = set("__global global __local local __constant constant".split())
LOCAL = {"__local", "local"}
KERNEL = {"__kernel", "kernel"}
RESERVED = TYPES | SPACES | KERNEL | set(
    "const void if else while do for break continue return float double half bool unsigned signed struct union enum "
    "typedef switch case default goto sizeof static extern inline volatile restrict register auto "
    "__private private".split())
SYMBOLS = re.compile(r"<<=|>>=|<<|>>|<=|>=|==|!=|&&|\|\||[-+*/%&^|]=|\+\+|--|[-+*/%<>=&|^~!?:;,()\[\]{}]")
ASSIGNMENTS = {"=", "+=", "-=", "*=", "/=", "%=", "<<=", ">>=", "&=", "^=", "|="}
STEPS = {"++", "--"}
BINARY = set("|| && | ^ & == != < > <= >= << >> + - * / %".split())
UNARY = set("+ - ~ ! *".split())


class Fault(Exception):
    """The first fault of a source: its number and its offset."""

    def __init__(self, number, offset):
        super().__init__(f"syntax {number} {NAMES[number]} at {offset}")


# ---- tokens

BLANK = re.compile(r"[ \t\n\r]+|//[^\n]*|/\*.*?\*/", re.S)
WORD = re.compile("[A-Za-z_][A-Za-z0-9_]*")
NUMBER = re.compile("(?P<hex>0[xX])(?P<digits>[0-9a-fA-F]*)|(?P<octal>0[0-7]*)|(?P<decimal>[1-9][0-9]*)")
SUFFIX = re.compile("ul|UL|[uUlL]|")


def number_end(text, place):
    """Where the number at a place ends."""
    found = NUMBER.match(text, place)
    digits, base = found["decimal"], 10
    if found["hex"]:
        digits, base = found["digits"], 16
    elif found["octal"]:
        digits, base = found["octal"], 8
    if not digits:
        raise Fault(1, place + 1)
    suffix = SUFFIX.match(text, found.end())
    signed = base == 10 and "u" not in suffix[0].lower()
    if int(digits, base) >= 2 ** (63 if signed else 64):
        raise Fault(2, place)
    end = suffix.end()
    if re.match("[A-Za-z0-9_]", text[end:]):
        raise Fault(1, end)
    return end


def tokens_of(text):
    """The tokens of a source: each a word for its kind, and its offset. The last is that of the end."""
    if len(text) > MOST_BYTES:
        raise Fault(5, MOST_BYTES)
    place, found = 0, []
    while place < len(text):
        blank = BLANK.match(text, place)
        if blank:
            place = blank.end()
            continue
        word = WORD.match(text, place)
        symbol = SYMBOLS.match(text, place)
        if word:
            found.append((word[0] if word[0] in RESERVED else "NAME", place))
            place = word.end()
        elif text[place] in "0123456789":
            found.append(("NUMBER", place))
            place = number_end(text, place)
        elif symbol and not text.startswith("/*", place):
            found.append((symbol[0], place))
            place = symbol.end()
        else:
            raise Fault(1, place)
    return found + [("END", len(text))]


# ---- the grammar

class Reader:
    """Reads tokens as a program. Each token is taken only where a program goes on with it,
    so that the first that isn't is the fault."""

    def __init__(self, tokens):
        self.tokens, self.place = tokens, 0
        self.open = 0               # blocks, brackets and controlled statements that are open
        self.operators = []         # of each open expression, how many were read in it

    def now(self):
        return self.tokens[self.place][0]

    def take(self, *words):
        """Takes the next token, which has to be one of these."""
        word, offset = self.tokens[self.place]
        if word not in words:
            raise Fault(3, offset)
        if self.open + sum(self.operators) > DEEPEST:
            raise Fault(4, offset)
        self.place += 1
        return word

    def inside(self, first, what, last):
        """What stands between two brackets."""
        self.take(first)
        self.open += 1
        what()
        self.take(last)
        self.open -= 1

    def some(self, what, last):
        """Nothing before `last`, or several with commas between."""
        if self.now() != last:
            what()
            while self.now() == ",":
                self.take(",")
                what()

    def program(self):
        self.function()
        while self.now() != "END":
            self.function()

    def function(self):
        is_kernel = self.now() in KERNEL
        if is_kernel:
            self.take(*KERNEL)
            self.take("void")
        else:
            self.take(*KERNEL, "void", *TYPES)
        self.take("NAME")
        types = TYPES - {"size_t"} if is_kernel else TYPES
        self.inside("(", lambda: self.some(lambda: self.parameter(types), ")"), ")")
        self.block()

    def parameter(self, types):
        if self.now() in SPACES:
            self.take(*SPACES)
            self.pointed(types)
        else:
            self.take(*SPACES, *types)
        self.take("NAME")

    def pointed(self, types):
        """What a pointer points to, behind its space, and the star."""
        if self.now() == "const":
            self.take("const")
        self.take(*types)
        self.take("*")

    def block(self):
        self.inside("{", self.body, "}")

    def body(self):
        while self.now() != "}":
            if self.now() in TYPES:
                self.variable()
            elif self.now() in SPACES:
                self.pointer_or_tile()
            else:
                self.statement()

    def variable(self):
        self.take(*TYPES)
        self.take("NAME")
        if self.now() == "[":
            self.inside("[", lambda: self.take("NUMBER"), "]")
        elif self.now() == "=":
            self.given()
        self.take(";")

    def pointer_or_tile(self):
        """A pointer's declaration, or that of an array in local memory."""
        is_local = self.take(*SPACES) in LOCAL
        is_const = self.now() == "const"
        if is_const:
            self.take("const")
        self.take(*TYPES)
        if is_local and not is_const and self.now() == "NAME":
            self.take("NAME")
            self.inside("[", lambda: self.take("NUMBER"), "]")
        else:
            self.take("*")
            self.take("NAME")
            if self.now() == "=":
                self.given()
        self.take(";")

    def given(self):
        self.take("=")
        self.expression()

    def controlled(self):
        self.open += 1
        self.statement()
        self.open -= 1

    def statement(self):
        word = self.now()
        if word == "{":
            self.block()
        elif word == ";":
            self.take(";")
        elif word in ("if", "while"):
            self.take(word)
            self.inside("(", self.expression, ")")
            self.controlled()
            if word == "if" and self.now() == "else":
                self.take("else")
                self.controlled()
        elif word == "do":
            self.take("do")
            self.controlled()
            self.take("while")
            self.inside("(", self.expression, ")")
            self.take(";")
        elif word == "for":
            self.take("for")
            self.inside("(", self.parts, ")")
            self.controlled()
        elif word in ("break", "continue"):
            self.take(word)
            self.take(";")
        elif word == "return":
            self.take("return")
            if self.now() != ";":
                self.expression()
            self.take(";")
        else:
            self.simple()
            self.take(";")

    def parts(self):
        """The parts of a `for`, between its brackets."""
        if self.now() in TYPES:
            self.take(*TYPES)
            self.take("NAME")
            self.given()
        elif self.now() != ";":
            self.simple()
        self.take(";")
        if self.now() != ";":
            self.expression()
        self.take(";")
        if self.now() != ")":
            self.simple()

    def simple(self):
        word = self.now()
        if word in STEPS or word == "*":
            self.operators.append(0)
            self.take(word)
            self.operators[-1] += 1
            if word == "*":
                self.unary()
            elif self.now() == "*":
                self.unary()
            else:
                self.take("NAME")
                if self.now() == "[":
                    self.inside("[", self.expression, "]")
            self.operators.pop()
            if word == "*":
                self.take(*ASSIGNMENTS)
                self.expression()
            return
        self.take("NAME")
        if self.now() == "(":
            self.inside("(", lambda: self.some(self.expression, ")"), ")")
            return
        if self.now() == "[":
            self.inside("[", self.expression, "]")
        if self.take(*STEPS, *ASSIGNMENTS) in ASSIGNMENTS:
            self.expression()

    def expression(self):
        self.operators.append(0)
        self.choice()
        self.operators.pop()

    def choice(self):
        self.unary()
        while self.now() in BINARY:
            self.take(*BINARY)
            self.operators[-1] += 1
            self.unary()
        if self.now() == "?":
            self.take("?")
            self.operators[-1] += 1
            self.choice()
            self.take(":")
            self.choice()

    def unary(self):
        word = self.now()
        if word in UNARY:
            self.take(word)
            self.operators[-1] += 1
            self.unary()
        elif word == "&":
            self.take("&")
            self.operators[-1] += 1
            self.take("NAME")
            self.inside("[", self.expression, "]")
        elif word == "(":
            self.bracketed()
        elif word == "NAME":
            self.take("NAME")
            if self.now() == "[":
                self.inside("[", self.expression, "]")
            elif self.now() == "(":
                self.inside("(", lambda: self.some(self.expression, ")"), ")")
        else:
            self.take("NUMBER")

    def bracketed(self):
        """A cast with what is cast, or an expression in brackets."""
        is_cast = self.tokens[self.place + 1][0] in TYPES
        self.inside("(", (lambda: self.take(*TYPES)) if is_cast else self.expression, ")")
        if is_cast:
            self.operators[-1] += 1
            self.unary()


def fault_of(source):
    """The line of the first fault of tokens and grammar, or None."""
    try:
        Reader(tokens_of(source.decode("latin1"))).program()
    except Fault as fault:
        return str(fault)
    return None


# ---- the sources

def sources_of(script):
    """The sources of a script's programs; of one of version 3, whose sources stand elsewhere too, none."""
    if script.startswith(b"clsim 3\n"):
        return
    lines, place = script.split(b"\n"), 0
    while place < len(lines):
        words = lines[place].split(b" ")
        count = int(words[2]) if words[0] == b"program" else 0
        if count:
            yield b"".join(line + b"\n" for line in lines[place + 1:place + 1 + count])
        place += count + 1


def sources():
    """Each source once, with where it stands. Those that don't build stand in check's rows and in files .cl."""
    read_text = runpy.run_path(os.path.join(HERE, "..", "tools", "rows"))["read_text"]
    texts = [(f"rows/worked.txt, {row.title}", row.text, row.command)
             for row in read_text(os.path.join(HERE, "worked.txt"))]
    for name in sorted(it for it in os.listdir(EXAMPLES) if os.path.isfile(os.path.join(EXAMPLES, it))):
        with open(os.path.join(EXAMPLES, name), "rb") as file:
            command = "clsim check FILE" if name.endswith(".cl") else "clsim run FILE"
            texts.append((f"examples/{name}", file.read(), command))
    seen = set()
    for place, text, command in texts:
        if command == "clsim check FILE":
            found = [text]
        else:
            found = sources_of(text) if place.endswith(".txt") or place.startswith("rows") else []
        for number, source in enumerate(found, 1):
            if source.rstrip() not in seen:
                seen.add(source.rstrip())
                yield f"{place}, source {number}", source


def rows():
    for place, source in sources():
        # cuts that leave some of its text away
        for cut in range(len(source.rstrip())):
            line = fault_of(source[:cut]) or "ok"
            yield dict(title=f"{place}, cut at byte {cut}", text=source[:cut], output=line + "\n",
                       status=0 if line == "ok" else 2, command="clsim check FILE")
