"""What operators, conversions and built-in functions give, on the built program. `numbers.table` is what gcc computes,
written by bench/clnum/table.c, where the form of a line is described; `number_corners.table` was worked out by hand in
the same form. There `bits` reads the bytes of a number as one of the type of what is wanted. `rows` gives the rows to
tools/rows: one for each pair of types, with a kernel for each operator."""

import os
from itertools import groupby

HERE = os.path.dirname(os.path.abspath(__file__))
TYPES = {"c": "char", "C": "uchar", "s": "short", "S": "ushort", "i": "int", "I": "uint", "l": "long", "L": "ulong"}
SIGNS = {"plus": "+", "negate": "-", "~": "~", "!": "!"}
FUNCTIONS = ["min", "max", "abs", "clz", "popcount", "rotate"]
FAULTS = {"zero": "fault 6 divide_by_zero", "overflow": "fault 7 divide_overflow"}


def expression(word, wanted):
    """The expression of a word of the table over `x`, and `y` where there are two numbers."""
    if word == "as":
        return f"({TYPES[wanted]})x", 1
    if word in SIGNS:
        return f"{SIGNS[word]}x", 1
    if word in ["abs", "clz", "popcount"]:
        return f"{word}(x)", 1
    if word in FUNCTIONS:
        return f"{word}(x, y)", 2
    return f"x {word} y", 2


def source(word, kinds, wanted):
    """A kernel that stores what is given as 64 bits. `max` of it and of itself in the type that is wanted builds only
    if it has this type."""
    head = ", ".join(["global ulong *r", *(f"{TYPES[kind]} {name}" for kind, name in zip(kinds, "xy"))])
    if word == "bits":
        return f"kernel void f({head}, global {TYPES[kinds[0]]} *b, global {TYPES[wanted]} *c) " \
               f"{{ b[0] = x; r[0] = max(c[0], ({TYPES[wanted]})c[0]); }}"
    value, count = expression(word, wanted)
    assert count == len(kinds), word
    if wanted:
        value = f"max({value}, ({TYPES[wanted]})({value}))"
    return f"kernel void f({head}) {{ r[0] = {value}; }}"


def read(name):
    """The lines of a table: the word, the types, the numbers, and the type and number that are wanted or the fault."""
    with open(os.path.join(HERE, name), encoding="ascii") as file:
        for line in file:
            given, wanted = (part.split() for part in line.split(":"))
            yield given[0], given[1::2], given[2::2], wanted


def kernel_of(number, word, cases):
    """The lines of a script for the cases of one kernel, and their replies."""
    kinds = cases[0][1]
    # of one word and one pair of types all values have one type, but for those of a conversion
    wanted = next((case[3][0] for case in cases if len(case[3]) == 2), None)
    script = [f"program p{number} 1", source(word, kinds, wanted), f"kernel k{number} p{number} f",
              f"arg k{number} 0 buffer r"]
    replies = ["ok"] * 3
    if word == "bits":
        script += [f"arg k{number} {index} buffer b" for index in (2, 3)]
        replies += ["ok"] * 2
    for _, _, numbers, outcome in cases:
        for index, value in enumerate(numbers, 1):
            script.append(f"arg k{number} {index} value {value}")
            replies.append("ok")
        script.append(f"launch k{number} 1 1")
        if len(outcome) == 1:
            replies.append(f"{FAULTS[outcome[0]]} item 0 schedule -")
        else:
            script.append("read r 0 8")
            replies += ["clean", "data " + (int(outcome[1]) % 2 ** 64).to_bytes(8, "little").hex()]
    return script, replies


def rows():
    lines = [*read("numbers.table"), *read("number_corners.table")]
    types = lambda case: case[1]
    kernel = lambda case: (case[0], case[3][0] if case[0] in ("as", "bits") else "")
    for kinds, cases in groupby(sorted(lines, key=types), key=types):
        cases = sorted(cases, key=kernel)
        script, replies = ["buffer r 8", "buffer b 8"], ["ok", "ok"]
        for number, ((word, _), some) in enumerate(groupby(cases, key=kernel)):
            more, answers = kernel_of(number, word, list(some))
            script += more
            replies += answers
        faulted = any(reply.startswith("fault") for reply in replies)
        yield dict(title=f"{len(cases)} lines of {' and '.join(TYPES[kind] for kind in kinds)}",
                   text="\n".join(script) + "\n", output="\n".join(replies) + "\n", status=1 if faulted else 0)
