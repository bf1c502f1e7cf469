"""Sources at the limits, run, checked and dumped with a stack of 1 MiB: 20,000 nodes as chains of helpers, as many
helpers and as blocks in each helper; everything that nests, 64 deep. `rows` gives the rows to tools/rows."""

import os
import runpy
from itertools import count, islice, product

STACK = "ulimit -s 1024; "
MOST_NODES = 20_000
MOST_BYTES = 65_536
UPPER = "ABCDEFGHIJKLMNOPQRSTUVWXYZ"


# how many names stand in a table of names before those of the text
PREDEFINED = 28


def names():
    """Short names, none of them a word of the language: A .. Z, AA .. Z9, AAA .."""
    for length in count(1):
        for first, *rest in product(UPPER, *[UPPER + "0123456789"] * (length - 1)):
            yield first + "".join(rest)


def kernel(body):
    """A kernel that stores 7, four nodes, and then does the rest."""
    return "kernel void f(global int*a){a[0]=7;" + body + "}"


def filled(front, body, nodes, total=MOST_NODES):
    """A source whose kernel has `total` nodes in all: after `body` of `nodes` nodes come empty statements."""
    source = front + kernel(body + ";" * (total - nodes - 4))
    assert len(source) < MOST_BYTES, len(source)
    return source


def replies(data):
    return f"ok\nok\nok\nok\nclean\ndata {data}\n"


def stored(name):
    """The code of the store of 7, where `a` is the name at `name` behind the built-in ones."""
    return f"""0 argument r12, 0, __global int *
1 move r28, r12, {PREDEFINED + name}
2 constant r36, int 0
3 offset r28, r28, r36
4 constant r36, int 7
5 store [r28], r36
6 end
"""


def tried(title, source, data="07000000", code=None):
    """A source that builds: it is checked, run on one item, and dumped; without `code` the text of its code isn't
    compared. Where it stores nothing but the 7, it is also run by 64 groups on 16 workers,
    whose stores are all the same."""
    script = f"buffer a 4\nprogram p 1\n{source}\nkernel k p f\narg k 0 buffer a\nlaunch k 1 1\nread a 0 4\n"
    yield dict(title=f"{title}: check", text=source, output="ok\n", command=f"{STACK}clsim check FILE")
    yield dict(title=f"{title}: run", text=script, output=replies(data), command=f"{STACK}clsim run FILE")
    if data == "07000000":
        groups = "clsim 2\n" + script.replace("launch k 1 1", "launch k 64 1 uniform")
        yield dict(title=f"{title}: 64 groups on 16 workers", text=groups, output=replies(data),
                   command=f"{STACK}clsim run --workers 16 FILE")
    if code is None:
        yield dict(title=f"{title}: dump", text=source, output="", command=f"{STACK}clsim dump FILE f > /dev/null")
    else:
        yield dict(title=f"{title}: dump", text=source, output=code, command=f"{STACK}clsim dump FILE f")


def too_large(title, source):
    """A source whose kernel `f`, named in its head, has too many nodes."""
    fault = f"type 11 TooLarge at {source.index('kernel void f(') + len('kernel void ')}\n"
    yield dict(title=f"{title}: check", text=source, output=fault, status=2, command=f"{STACK}clsim check FILE")
    yield dict(title=f"{title}: dump", text=source, output=fault, status=2, command=f"{STACK}clsim dump FILE f")
    yield dict(title=f"{title}: run", text=f"program p 1\n{source}\n", output=f"refused 10 BuildFailed {fault}",
               status=2, command=f"{STACK}clsim run FILE")


def chain(length, first, further):
    """Helpers of which each calls the one before: their text and the name of the last. `first` and `further` are
    patterns of a helper's text, NAME its own name and LAST that of the one before."""
    text, last = "", None
    for name in islice(names(), length):
        text += (further if last else first).replace("NAME", name).replace("LAST", last or "")
        last = name
    return text, last


# ---- 20,000 nodes ------------------------------------------------------------------------------
def chains():
    # a helper of three letters has 18 bytes and one node, an empty statement one of each
    text, last = chain(2650, "void NAME(){}", "void NAME(){LAST();}")
    yield from tried("a chain of 2,650 helpers, 20,000 nodes", filled(text, last + "();", 2650), code=stored(2651))
    yield from too_large("a chain of 2,650 helpers, 20,001 nodes", filled(text, last + "();", 2650, MOST_NODES + 1))
    text, last = chain(3600, "void NAME(){}", "void NAME(){LAST();}")
    yield from tried("a chain of 3,600 helpers, which is about as many as a source holds",
                     text + kernel(last + "();"), code=stored(3601))
    # a call and six empty statements a helper
    text, last = chain(2650, "void NAME(){}", "void NAME(){LAST();;;;;;;}")
    body, nodes = last + "();", 1 + 2649 * 7
    yield from tried("a chain of 2,650 helpers with six empty statements each, 20,000 nodes",
                     filled(text, body, nodes), code=stored(2651))
    yield from too_large("a chain of 2,650 helpers with six empty statements each, 20,001 nodes",
                         filled(text, body, nodes, MOST_NODES + 1))
    text, last = chain(2000, "int NAME(){return 7;}", "int NAME(){int x=LAST();return x;}")
    yield from tried("a chain of 2,000 helpers that give a value", text + kernel(f"a[0]={last}();"))
    text, last = chain(2000, "void NAME(global int*p){p[0]=7;}", "void NAME(global int*p){LAST(p);}")
    yield from tried("a chain of 2,000 helpers with a parameter", text + kernel(f"{last}(a);"))


def short_helpers():
    # a helper has two nodes and is called once: three in the kernel
    listed = list(islice(names(), 2650))
    text, body = "".join(f"void {name}(){{;;}}" for name in listed), "".join(f"{name}();" for name in listed)
    yield from tried("2,650 short helpers, 20,000 nodes", filled(text, body, 2650 * 3), code=stored(2651))
    yield from too_large("2,650 short helpers, 20,001 nodes", filled(text, body, 2650 * 3, MOST_NODES + 1))
    # each calls the one before twice: 2, 6, 14, .. 16,382 nodes
    text, last = chain(14, "void NAME(){}", "void NAME(){LAST();LAST();}")
    yield from tried("helpers that call the one before twice, 20,000 nodes",
                     filled(text, last + "();", 2 ** 14 - 1), code=stored(15))
    yield from too_large("helpers that call the one before twice, 20,001 nodes",
                         filled(text, last + "();", 2 ** 14 - 1, MOST_NODES + 1))


def nested_blocks():
    # the body, 62 blocks and the call's bracket are nested 64 deep: 63 nodes a helper
    text, last = chain(317, "void NAME(){}", "void NAME(){" + "{" * 62 + "LAST();" + "}" * 62 + "}")
    yield from tried("62 blocks in each of 317 helpers, 20,000 nodes",
                     filled(text, last + "();", 1 + 316 * 63), code=stored(318))
    yield from too_large("62 blocks in each of 317 helpers, 20,001 nodes",
                         filled(text, last + "();", 1 + 316 * 63, MOST_NODES + 1))
    # with `if (1)` a controlled statement each: three nodes, the number among them
    text, last = chain(150, "void NAME(){}", "void NAME(){" + "if(1)" * 62 + "LAST();}")
    yield from tried("62 times `if` in each of 150 helpers", text + kernel(last + "();"))
    # eight loops in all, in eight helpers, and blocks round each
    text, last = chain(9, "void NAME(){}", "void NAME(){" + "{" * 30 + "do LAST();while(0);" + "}" * 30 + "}")
    yield from tried("eight helpers with a loop each, and 30 blocks round it", text + kernel(last + "();"))


# ---- 64 deep -----------------------------------------------------------------------------------
def nesting():
    yield from tried("a value in 63 brackets", kernel("a[0]=" + "(" * 63 + "7" + ")" * 63 + ";"))
    yield from tried("63 blocks", kernel("{" * 63 + ";" + "}" * 63), code=stored(1))
    yield from tried("63 signs", kernel("a[0]=" + "- " * 63 + "7;"), "f9ffffff")
    yield from tried("63 complements", kernel("a[0]=" + "~" * 63 + "7;"), "f8ffffff")
    yield from tried("63 casts", kernel("a[0]=" + "(int)" * 63 + "7;"))
    yield from tried("63 sums", kernel("a[0]=1" + "+1" * 63 + ";"), "40000000")
    yield from tried("31 sums in brackets", kernel("a[0]=" + "(1+" * 31 + "1" + ")" * 31 + ";"), "20000000")
    yield from tried("63 choices", kernel("a[0]=" + "1?" * 63 + "5" + ":0" * 63 + ";"), "05000000")
    yield from tried("63 choices behind their colons", kernel("a[0]=" + "0?0:" * 63 + "6;"), "06000000")
    yield from tried("63 times `and`", kernel("a[0]=1" + "&&1" * 63 + ";"), "01000000")
    yield from tried("63 times `or`", kernel("a[0]=0" + "||0" * 63 + ";"), "00000000")
    yield from tried("63 indices in one another", kernel("a[0]=0;a[" + "a[" * 62 + "0" + "]" * 62 + "]=3;"), "03000000")
    yield from tried("63 calls in one another", kernel("a[0]=" + "max(2," * 63 + "1" + ")" * 63 + ";"), "02000000")
    yield from tried("63 times `if`", kernel("if(1)" * 63 + ";"))
    yield from tried("62 times `if` round a store", kernel("if(1)" * 62 + "*a=4;"), "04000000")
    yield from tried("a chain of 60 times `else if`", kernel("if(0);" + "else if(0);" * 60 + "else *a=4;"), "04000000")


def at_the_limits():
    """The rows of limits.py with the small stack."""
    for row in runpy.run_path(os.path.join(os.path.dirname(os.path.abspath(__file__)), "limits.py"))["rows"]():
        yield {**row, "command": STACK + row.get("command", "clsim run FILE")}


def rows():
    yield from chains()
    yield from short_helpers()
    yield from nested_blocks()
    yield from nesting()
    yield from at_the_limits()
