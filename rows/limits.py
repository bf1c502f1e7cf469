"""Sources, scripts and devices at their limits, each with its neighbour behind the limit.
`rows` gives the rows to tools/rows. Where the environment has ROWS_OF_A_GIB, a row makes buffers of 1 GiB."""

import os

# the limits of a device that have a name (docs/use/script.md): the option that asks for them, the work-items of a
# launch and of a group, the side of a square of as many items as a launch has, and the bytes of a buffer
PROFILE = (" --limits profile", 1 << 16, 1 << 8, 1 << 8, 1 << 20)
LARGE = (" --limits large", 1 << 26, 1 << 10, 1 << 13, 1 << 30)
# of the same limits what a source and local memory may be: the bytes of a source, how deep it is nested, the loops and
# the nodes of a kernel, the bytes of its private arrays, the elements of an array, and the local bytes of a group
PROFILE_SOURCES = (" --limits profile", 1 << 16, 64, 8, 20_000, 1 << 12, 1 << 15, 1 << 15)
LARGE_SOURCES = (" --limits large", 1 << 22, 256, 32, 1_000_000, 1 << 16, 1 << 16, 1 << 16)
# sizes and offsets that only 64 bits hold
HUGE, MOST = 1 << 63, (1 << 64) - 1


def built(title, source, fault="", option=""):
    """The row of a source of one line in a script: it builds, or is refused for a fault."""
    row = dict(title=title, text=f"program p 1\n{source}\n", command=f"clsim run FILE{option}")
    if fault:
        return dict(row, output=f"refused 10 BuildFailed {fault}\n", status=2)
    return dict(row, output="ok\n")


def checked(title, source, line, option=""):
    """The row of a source that is checked."""
    return dict(title=title, text=source, output=line + "\n", status=0 if line == "ok" else 2,
                command=f"clsim check FILE{option}")


def nesting():
    yield built("64 blocks inside one another", "__kernel void f() " + "{" * 64 + ";" + "}" * 64)
    yield built("65 blocks inside one another", "__kernel void f() " + "{" * 65 + ";" + "}" * 65,
                "syntax 4 TooDeep at 83")
    yield built("8 loops inside one another", "__kernel void f() {" + "while (0) " * 8 + ";}")
    yield built("9 loops inside one another", "__kernel void f() {" + "while (0) " * 9 + ";}",
                "type 10 TooManyLoops at 14")
    yield checked("in a block, a square bracket and 63 round ones the last is nested 65 deep",
                  "__kernel void f(__global int *a) { a[" + "(" * 64, "syntax 4 TooDeep at 100")
    yield checked("in 64 blocks the length of an array is nested 65 deep",
                  "void f() { " + "{" * 63 + " int t[1]; ", "syntax 4 TooDeep at 81")
    yield checked("in 63 blocks the length of an array isn't nested too deep",
                  "void f() { " + "{" * 62 + " int t[1]; " + "}" * 63, "ok")
    yield checked("with the block, the statement of the 64th `do` is nested 65 deep",
                  "void f() { " + "do " * 64 + ";", "syntax 4 TooDeep at 203")


def sizes():
    for count, fault in [(20_000, ""), (20_001, "type 11 TooLarge at 14")]:
        yield built(f"{count} nodes", "__kernel void f() {" + ";" * count + "}", fault)
    calls = "".join(f"void g{last + 1}() {{ g{last}(); g{last}(); }} " for last in range(10, 73))
    yield checked("64 helpers, each but the first calls the one before it twice: more nodes than 64 bits count",
                  "void g10() { ; } " + calls + "kernel void f() { g73(); }", "type 11 TooLarge at 1856")
    # the text without the white space at its end has 21 bytes, and the line feed is one
    source = "__kernel void f() { }"
    yield built("a source of 65,536 bytes", source + " " * (65_535 - 21))
    yield built("a source of 65,537 bytes", source + " " * (65_536 - 21), "syntax 5 TooLong at 65536")
    yield checked("no source", "", "syntax 3 Unexpected at 0")
    yield checked("65,536 bytes of white space", " " * 65_536, "syntax 3 Unexpected at 65536")
    yield checked("65,537 bytes, of which the first is a bad one: a source that is too long is so whatever it holds",
                  "#" + " " * 65_536, "syntax 5 TooLong at 65536")


def sources(option, most, deepest, loops, nodes, private, elements, _):
    """Sources at the limits by both words, in a script and checked, with their neighbours."""
    empty, head, local = "__kernel void f() { }", "__kernel void f() ", "__kernel void f() { __local char t["
    # a source in a script has a line feed at its end; the token in the innermost block stands behind all brackets
    for more, fault in [(0, ""), (1, f"syntax 5 TooLong at {most}")]:
        yield built(f"a source of {most + more} bytes:{option}", empty + " " * (most + more - 1 - len(empty)), fault,
                    option)
    kinds = [(f"{most} bytes", lambda more: empty + " " * (most + more - len(empty)), f"syntax 5 TooLong at {most}"),
             (f"{deepest} blocks inside one another",
              lambda more: head + "{" * (deepest + more) + ";" + "}" * (deepest + more),
              f"syntax 4 TooDeep at {len(head) + deepest + 1}"),
             (f"{loops} loops inside one another", lambda more: head + "{" + "while (0) " * (loops + more) + ";}",
              "type 10 TooManyLoops at 14"),
             (f"{nodes} nodes", lambda more: head + "{" + ";" * (nodes + more) + "}", "type 11 TooLarge at 14"),
             (f"{private} bytes of two private arrays",
              lambda more: head + f"{{ uchar t[{private - 1}]; uchar u[{1 + more}]; }}", "type 11 TooLarge at 14"),
             (f"{elements} elements of an array", lambda more: f"{local}{elements + more}]; }}",
              f"type 11 TooLarge at {len(local)}")]
    for title, source, fault in kinds:
        yield checked(f"a source at a limit, {title}:{option}", source(0), "ok", option)
        yield checked(f"a source behind a limit, {title} and one more:{option}", source(1), fault, option)


def local_memory(option, _, __, ___, ____, _____, ______, local):
    """The most local memory of an argument, of arguments together and of a declared array, with their neighbours."""
    head = "program p 2\n__kernel void f(__local char *t, __local char *u) { }\n" \
           f"__kernel void g() {{ __local int t[{local // 4}]; }}\nkernel k p f\nkernel l p g\n" \
           f"program q 1\n__kernel void g(__local char *u) {{ __local int t[{local // 4}]; }}\nkernel m q g\n"
    bad, large = "refused 12 BadArgument", "refused 14 LocalTooLarge"
    answers = [
        ("arg k 0 local 0", bad), (f"arg k 0 local {local}", "ok"), (f"arg k 0 local {local + 1}", bad),
        (f"arg k 0 local {HUGE}", bad), (f"arg k 0 local {MOST}", bad),
        ("arg k 1 local 1", "ok"), ("launch k 1 1", large), (f"arg k 0 local {local - 1}", "ok"),
        ("launch k 1 1", "clean"), ("arg k 1 local 2", "ok"), ("launch k 1 1", large), ("launch l 1 1", "clean"),
        ("arg m 0 local 1", "ok"), ("launch m 1 1", large)]
    return answered(f"bytes of local memory:{option}", answers, option, head, 5)


def scripts():
    yield dict(title="4,096 commands, each refused", text="read a 0 1\n" * 4096,
               output="refused 2 NoSuchName\n" * 4096, status=2)
    yield dict(title="4,097 commands", text="read a 0 4\n" * 4097, output="",
               error="clsim: line 4097: bad line\n", status=2)
    yield dict(title="4,096 commands and an empty line", text="read a 0 4\n" * 4096 + "\n", output="",
               error="clsim: line 4097: bad line\n", status=2)
    yield dict(title="4,096 commands and a letter", text="read a 0 4\n" * 4096 + "x", output="",
               error="clsim: line 4097: bad line\n", status=2)
    yield dict(title="4,096 commands and a version", text="clsim 2\n" + "read a 0 4\n" * 4096 + "clsim 2\n", output="",
               error="clsim: line 4098: bad line\n", status=2)
    yield dict(title="4,096 commands of version 2", text="clsim 2\n" + "read a 0 1\n" * 4096,
               output="refused 2 NoSuchName\n" * 4096, status=2)
    yield dict(title="4,097 commands of version 2", text="clsim 2\n" + "read a 0 4\n" * 4097, output="",
               error="clsim: line 4098: bad line\n", status=2)
    # two groups each change an int of their own
    kernel = "__kernel void f(__global int *a) { a[get_global_id(0)]++; }"
    head = f"buffer a 8\nprogram p 1\n{kernel}\nkernel k p f\narg k 0 buffer a\n"
    text = head + "launch k 2 1\nread a 0 8\n" * 2046
    reads = "".join(f"clean\ndata {(number.to_bytes(4, 'little') * 2).hex()}\n" for number in range(1, 2047))
    yield dict(title="4,096 commands, 2,046 of them launches", text=text, output="ok\n" * 4 + reads)
    buffers = "".join(f"buffer b{number} 1\n" for number in range(65))
    yield dict(title="65 buffers", text=buffers, output="ok\n" * 64 + "refused 5 TooManyBuffers\n", status=2)


def answered(title, answers, option, head="", done=0):
    """The row of commands with their replies on a device, some of which are refusals, behind others that are done."""
    text = head + "".join(f"{command}\n" for command, _ in answers)
    output = "ok\n" * done + "".join(f"{reply}\n" for _, reply in answers)
    return dict(title=title, text=text, output=output, status=2, command="clsim run FILE" + option)


def launches(option, items, group, side, _):
    """Index spaces of a kernel whose argument is missing: its refusal is the next one behind those of the limits."""
    head = "program p 1\n__kernel void f(__global int *a) { }\nkernel k p f\n"
    allowed, many = "refused 13 ArgumentsMissing", "refused 8 TooManyItems"
    large, wrong = "refused 7 BadGroupSize", "refused 6 BadDimension"
    half, wide = group // 2, 1 << 32
    answers = [
        (f"{items} 1", allowed), (f"{items} {group}", allowed), (f"{items + 1} 1", many),
        (f"{items + group} {group}", many), (f"{side},{side} 1,1", allowed), (f"{side},{side + 1} 1,1", many),
        (f"{items // 4},2,2 1,1,1", allowed), (f"1,1,{items} 1,1,1", allowed), (f"{items // 4},2,3 1,1,1", many),
        (f"{group} {group}", allowed), (f"{group + 1} {group + 1}", large), (f"{2 * group} {2 * group}", large),
        (f"{half},2 {half},2", allowed), (f"{half},2,2 {half},2,2", large), (f"{half},2,2 {half},1,2", allowed),
        (f"{half},3 {half},3", large),
        (f"{HUGE} 1", many), (f"{MOST} 1", many), (f"{HUGE} {HUGE}", large), (f"{MOST} {MOST}", large),
        (f"1 {HUGE}", large), (f"1 {MOST}", large), (f"1 1 {HUGE}", allowed), (f"1 1 {MOST - 1}", allowed),
        (f"1 1 {MOST}", wrong), (f"{HUGE} 1 {HUGE - 1}", many), (f"{HUGE} 1 {HUGE}", wrong), (f"{MOST} 1 1", wrong),
        (f"{wide},{wide} 1,1", many), (f"{wide},{wide} {wide},{wide}", large), (f"{HUGE},2 1,1", many),
        (f"{HUGE},2 {HUGE},2", large), (f"{MOST},{MOST},{MOST} 1,1,1", many),
        (f"{MOST},{MOST},{MOST} {MOST},{MOST},{MOST}", large), (f"{wide},{wide},{wide} 1,1,1", many),
        (f"{items + 1} 1 {MOST}", wrong), (f"{items + group} {group + 1}", large), (f"{items + 1} 1", many)]
    answers = [(f"launch k {sizes}", reply) for sizes, reply in answers]
    return answered(f"index spaces:{option}", answers, option, head, 2)


def bytes_of_buffers(option, _, __, ___, size):
    """The largest buffer, and what passes its end."""
    outside, bad = "refused 4 OutOfRange", "refused 3 BadSize"
    answers = [
        (f"buffer a {size}", "ok"), (f"buffer b {size + 1}", bad), ("buffer b 0", bad), (f"buffer b {HUGE}", bad),
        (f"buffer b {MOST}", bad), (f"buffer a {size + 1}", "refused 1 NameInUse"),
        ("read b 0 1", "refused 2 NoSuchName"),
        (f"read a {size - 1} 1", "data 00"), (f"read a {size} 1", outside), (f"read a {size - 1} 2", outside),
        (f"read a {HUGE} {HUGE}", outside), (f"read a 1 {MOST}", outside), (f"read a {MOST} 1", outside),
        (f"write a {size - 1} ff", "ok"), (f"write a {size - 1} ffff", outside), (f"write a {size} ff", outside),
        (f"write a {HUGE} ff", outside), (f"write a {MOST} ffff", outside),
        (f"fill a {size - 8} 4 01020304", "ok"), (f"fill a {size - 4} 8 01020304", outside),
        (f"fill a {HUGE} {HUGE} 01", outside), (f"fill a 8 {MOST - 7} 0102030405060708", outside),
        (f"copy a {size - 8} a 0 8", "ok"), (f"copy a {size - 7} a 0 8", outside),
        (f"copy a 0 a {size - 7} 8", outside), (f"copy a {HUGE} a 0 {HUGE}", outside),
        (f"copy a 0 a {MOST} 1", outside), (f"copy a 0 a 1 {MOST}", outside),
        (f"read a {size - 8} 8", "data 01020304000000ff"), ("read a 0 9", "data 01020304000000ff00"),
        ("release a", "ok"), (f"buffer a {size}", "ok"), (f"read a {size - 8} 8", "data 0000000000000000")]
    return answered(f"bytes of a buffer:{option}", answers, option)


def without_room(option, _, __, ___, size):
    """The largest buffer with too little memory for it, which isn't a wrong size, and one of a byte more."""
    answers = [(f"buffer a {size}", "refused 16 OutOfMemory"), (f"buffer a {size + 1}", "refused 3 BadSize"),
               (f"buffer a {HUGE}", "refused 3 BadSize"), (f"buffer a {MOST}", "refused 3 BadSize"),
               ("buffer a 4194304", "ok"), ("read a 4194303 1", "data 00"),
               ("read a 4194304 1", "refused 4 OutOfRange")]
    row = answered(f"bytes of a buffer, with too little memory:{option}", answers, option)
    return {**row, "command": f"ulimit -v 262144; {row['command']}"}


def ran(title, lines, replies, status=0, option=" --limits large"):
    """The row of a script of whole lines that is run on a device."""
    return dict(title=title, text="".join(f"{line}\n" for line in lines), output="".join(f"{it}\n" for it in replies),
                status=status, command=f"clsim run FILE{option}")


def large_launches():
    """Launches that the profile refuses, with what they leave."""
    turned = "__kernel void f(__global int *a) { __local int t[1024]; int i = get_local_id(0); t[i] = a[i]; " \
             "barrier(CLK_LOCAL_MEM_FENCE); a[i] = t[1023 - i]; }"
    numbers = [(n.to_bytes(4, "little")).hex() for n in range(1024)]
    script = ["buffer a 4096", f"write a 0 {''.join(numbers)}", "program p 1", turned, "kernel k p f",
              "arg k 0 buffer a", "launch k 1024 1024", "read a 0 4096"]
    yield ran("a group of 1,024 items that turns their numbers round in local memory", script,
              ["ok"] * 5 + ["clean", f"data {''.join(reversed(numbers))}"])
    yield ran("the profile refuses a group of 1,024 items", script,
              ["ok"] * 5 + ["refused 7 BadGroupSize", f"data {''.join(numbers)}"], 2, "")
    script = ["buffer a 131072", "program p 1",
              "__kernel void f(__global uchar *a) { uint i = get_global_id(0); a[i] = i * 7 + get_num_groups(0); }",
              "kernel k p f", "arg k 0 buffer a", "launch k 131072 256", "read a 0 131072"]
    data = bytes((7 * i + 512) % 256 for i in range(131072)).hex()
    yield ran("131,072 items in 512 groups", script, ["ok"] * 4 + ["clean", f"data {data}"])
    yield ran("the profile refuses 131,072 items", script,
              ["ok"] * 4 + ["refused 8 TooManyItems", f"data {'00' * 131072}"], 2, "")
    script = ["buffer a 4194304", "program p 1",
              "__kernel void f(__global int *a) { a[1048575 - (int)get_global_id(0)] = 5; }",
              "kernel k p f", "arg k 0 buffer a", "launch k 2 2", "read a 4194292 12", "launch k 1 1 1048576",
              "read a 0 4"]
    yield ran("the last two ints of a buffer of 4 MiB, and one in front of it", script,
              ["ok"] * 4 + ["clean", "data 000000000500000005000000",
                            "fault 4 bounds item 0 store buffer a element -1 schedule -", "data 00000000"], 1)


def deep_loops():
    """Barriers in as many loops as a large device allows: passed in each turn, and met in another turn of one loop."""
    heads = [f"for (int i{depth} = 0; i{depth} < 2; i{depth}++) " for depth in range(2)]
    heads += [f"for (int i{depth} = 0; i{depth} < 1; i{depth}++) " for depth in range(2, 32)]
    add = "__kernel void f(__global int *a) { int n = get_global_id(0); " + "".join(heads) + \
          "{ a[n] = a[n] + 1; barrier(CLK_GLOBAL_MEM_FENCE); n = 1 - n; } }"
    script = ["buffer a 8", "program p 1", add, "kernel k p f", "arg k 0 buffer a", "launch k 2 2", "read a 0 8"]
    yield ran("two items that take turns over a barrier in 32 loops", script,
              ["ok"] * 4 + ["clean", "data 0400000004000000"])
    missed = heads[:31] + ["for (int i31 = get_global_id(0); i31 < 2; i31++) "]
    barred = "__kernel void f() { " + "".join(missed) + "{ if (i31) barrier(CLK_LOCAL_MEM_FENCE); } }"
    turns = ",".join(["1"] * 31)
    yield ran("a barrier met in two turns of the innermost of 32 loops",
              ["program p 1", barred, "kernel k p f", "launch k 2 2"],
              ["ok"] * 2 + [f"fault 3 divergence item 0 barrier 0 turns {turns},2 item 1 barrier 0 turns {turns},1 "
                            "schedule -"], 1)


def large_faults():
    """A race of the first and the last of 100,000 items, on one large device and in replays on both."""
    kernel = "__kernel void f(__global int *a) { int i = get_global_id(0); a[i < 99999 ? i : 0] = i; }"
    script = ["buffer a 400000", "program p 1", kernel, "kernel k p f", "arg k 0 buffer a", "launch k 100000 1000"]
    schedule = " ".join(f"{item}*1" for item in range(100_000))
    fault = f"fault 1 race item 0 store item 99999 store buffer a byte 0 schedule {schedule}"
    yield ran("a race of the first and the last of 100,000 items", script, ["ok"] * 4 + [fault], 1)
    text, file = "".join(f"{line}\n" for line in script), f"ticket 4\n{fault}\n"
    short = "ticket 4\nfault 1 race item 99999 store item 0 store buffer a byte 3 schedule 99999*1 0*1\n"
    for title, lines in [("as it is told", file), ("in two events", short)]:
        yield dict(title=f"the race of 100,000 items replayed on a large device, {title}", text=text, schedule=lines,
                   output="yes\n", command="clsim replay FILE SCHEDULE --limits large")
        yield dict(title=f"the race of 100,000 items replayed on a device of the profile, {title}", text=text,
                   schedule=lines, output="", error="clsim: command 4 is refused\n", status=2,
                   command="clsim replay FILE SCHEDULE")
    loop = "program p 1\n__kernel void f() {{ for (int i = 0; i < {}; i++) ; }}\nkernel k p f\nlaunch k 1 1\n"
    used_up = "ticket 2\nfault 8 budget item 0 schedule -\n"
    for turns, option, yes in [(100_001, "", True), (100_001, " --limits profile", True), (100_000, "", False),
                               (100_001, " --limits large", False), (10_000_001, " --limits large", True),
                               (10_000_000, " --limits large", False)]:
        yield dict(title=f"the fault of a budget replayed after {turns} turns{option}", text=loop.format(turns),
                   schedule=used_up, output="yes\n" if yes else "no\n", status=0 if yes else 1,
                   command=f"clsim replay FILE SCHEDULE{option}")


def large_buffers():
    """As many buffers as a script can make; tools/talks has one more than a large device allows."""
    buffers = "".join(f"buffer b{number} 1\n" for number in range(4096))
    yield dict(title="4,096 buffers of a large device", text=buffers, output="ok\n" * 4096,
               command="clsim run FILE --limits large")
    yield dict(title="4,096 buffers of a device of the profile", text=buffers, status=2,
               output="ok\n" * 64 + "refused 5 TooManyBuffers\n" * 4032, command="clsim run FILE --limits profile")


def rows():
    yield from nesting()
    yield from sizes()
    yield from scripts()
    for limits in (PROFILE_SOURCES, LARGE_SOURCES):
        yield from sources(*limits)
        yield local_memory(*limits)
    for limits in (PROFILE, LARGE):
        yield launches(*limits)
        if limits == PROFILE or "ROWS_OF_A_GIB" in os.environ:
            yield bytes_of_buffers(*limits)
    yield without_room(*LARGE)
    yield from large_launches()
    yield from deep_loops()
    yield from large_faults()
    yield from large_buffers()
