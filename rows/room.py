"""Outputs that take a part of the text, files and pipes: of each that fails the bytes that it took are written; and
schedule files that no single read gives whole. `rows` gives the rows to tools/rows."""

FIRST_RUN = """buffer a 8
program p 1
__kernel void f(__global int *a) { a[0] = 7; a[1] = 9; }
kernel k p f
arg k 0 buffer a
launch k 1 1
read a 0 8
"""

STORE = "__kernel void f(__global int *a) { a[0] = 7; }"

CODE = """0 argument r12, 0, __global int *
1 move r28, r12, 29
2 constant r36, int 0
3 offset r28, r28, r36
4 constant r36, int 7
5 store [r28], r36
6 end
"""

# two work-items that stop apart
APART = ("program p 1\n__kernel void f() { if (get_local_id(0) < 1) barrier(CLK_LOCAL_MEM_FENCE); }\n"
         "kernel k p f\nlaunch k 2 2\n")
# two that end
EMPTY = "program q 1\n__kernel void f() { }\nkernel k q f\nlaunch k 2 2\n"
SCHEDULE = "ticket 2\nfault 3 divergence item 0 barrier 0 item 1 end schedule -\n"

# what is asked of a text, the text, what is written and the status
ASKED = [
    ("replay FILE SCHEDULE", APART, "yes\n", 0),
    ("replay FILE SCHEDULE", EMPTY, "no\n", 1),
    ("run FILE", FIRST_RUN, "ok\nok\nok\nok\nclean\ndata 0700000009000000\n", 0),
    ("check FILE", STORE, "ok\n", 0),
    ("check FILE", "#", "syntax 1 BadByte at 0\n", 2),
    ("check FILE", "int g() { } __kernel void f() { }", "type 12 MissingReturn at 4\n", 2),
    ("dump FILE f", STORE, CODE, 0),
    ("dump FILE f", "__kernel void f() { y[0] = 1; }", "type 1 UnknownName at 20\n", 2),
]

# what is told on standard error
TOLD = [
    ("run MISSING", "", "clsim: cannot read MISSING\nclsim: No such file or directory (os error 2)\n"),
    ("run FILE", "buffer a\n", "clsim: line 1: bad line\n"),
    ("check FOLDER", "", "clsim: cannot read FOLDER\nclsim: Is a directory (os error 21)\n"),
    ("dump FILE g", STORE, "clsim: no such kernel\n"),
]

# more than a writer holds back: a run that writes it piece by piece
LONG = ("buffer a 1000\n" + "read a 0 1000\n" * 20, "ok\n" + f"data {'00' * 1000}\n" * 20)
# a dump of the same kind: the code of a kernel of a thousand barriers, each numbered in its place
BARRIERS = 1_000
LONG_DUMP = ("__kernel void f() { " + "barrier(CLK_LOCAL_MEM_FENCE); " * BARRIERS + "}",
             "".join(f"{place} barrier {place}, 0, local\n" for place in range(BARRIERS)) + f"{BARRIERS} end\n")
# bytes that a small pipe may hold behind those that its reader took
HELD = 8_192


def schedule_of(asked):
    """What the file SCHEDULE holds, where it is asked for."""
    return SCHEDULE if "SCHEDULE" in asked else None


def cut(asked, text, whole, room, end="ROOM"):
    """The row of an output that takes some bytes of the whole, and fails."""
    title = f"{asked} of {text.splitlines()[0][:80]}: {end} for {room} bytes of {len(whole)}"
    return dict(title=title, text=text, schedule=schedule_of(asked), output=whole[:room],
                error="" if end == "PIPE" else "clsim: cannot write\n", status=2, command=f"clsim {asked} > {end} {room}")


def schedules():
    """Schedule files of 120,000 bytes: the second line is read to its last run,
    and what stands behind it is read too."""
    loads = 30_000
    source = f"__kernel void f(__global int *a) {{ int x; for (int j = 0; j < {loads}; j++) x = a[0]; a[1] = x; }}"
    text = f"buffer a 4\nprogram p 1\n{source}\nkernel k p f\narg k 0 buffer a\nlaunch k 1 1\n"
    told = "ticket 4\nfault 4 bounds item 0 store buffer a element 1 schedule "
    asked, runs = "clsim replay FILE SCHEDULE", ["0*1"] * loads
    whole = f"{told}{' '.join(runs)}\n"
    yield dict(title=f"a schedule file of {loads} runs", text=text, schedule=whole, output="yes\n", command=asked)
    yield dict(title=f"a schedule file of {loads} runs but one", text=text, schedule=f"{told}{' '.join(runs[1:])}\n",
               output="no\n", status=1, command=asked)
    for title, behind in [("an empty line", "\n"), ("a letter", "x"), ("a line", "ticket 4\n")]:
        yield dict(title=f"a schedule file of {loads} runs and {title} behind its last line", text=text,
                   schedule=whole + behind, output="", error="clsim: bad schedule file\n", status=2, command=asked)


def rows():
    for asked, text, whole, status in ASKED:
        for room in range(len(whole)):
            yield cut(asked, text, whole, room)
        yield dict(title=f"{asked} of {text.splitlines()[0]}: room for all", text=text, schedule=schedule_of(asked),
                   output=whole, status=status, command=f"clsim {asked} > ROOM {len(whole)}")
    for asked, (text, whole) in [("run FILE", LONG), ("dump FILE f", LONG_DUMP)]:
        for room in [*range(0, len(whole), 997), len(whole) - 1]:
            yield cut(asked, text, whole, room)
        for room in range(0, len(whole) - HELD, 997):
            yield cut(asked, text, whole, room, "PIPE")
    text, whole = LONG_DUMP
    yield dict(title="dump FILE f of a thousand barriers", text=text, output=whole, command="clsim dump FILE f")
    for asked, text, whole in TOLD:
        for room in range(len(whole) + 1):
            yield dict(title=f"{asked}: room for {room} bytes of {len(whole)} on standard error", text=text, output="",
                       error=whole[:room], status=2, command=f"clsim {asked} 2> ROOM {room}")
    yield from schedules()
