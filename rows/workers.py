"""Launches of many groups, each run a hundred times with 1, 2, 3 and 16 workers: the same has to come out each time.
`rows` gives the rows to tools/rows."""

TIMES = 100
WORKERS = [1, 2, 3, 16]


def numbers(values):
    """The bytes of numbers of four bytes, as a script has them."""
    return b"".join((value % 2 ** 32).to_bytes(4, "little") for value in values).hex()


def events(groups):
    """The schedule of groups of one item with an event each."""
    return " ".join(f"{group}*1" for group in range(groups))


def script(source, launch, buffers, read=""):
    """A script that makes buffers of these sizes or contents, builds a kernel `f` and sets the buffers as its arguments
    in their order, launches it, and reads."""
    lines = []
    for name, content in buffers:
        size = content if isinstance(content, int) else len(content) // 2
        lines.append(f"buffer {name} {size}")
        if isinstance(content, str):
            lines.append(f"write {name} 0 {content}")
    lines += ["program p 1", source, "kernel k p f"]
    lines += [f"arg k {index} buffer {name}" for index, (name, _) in enumerate(buffers)]
    lines += [launch] + ([read] if read else [])
    return "\n".join(lines) + "\n", "ok\n" * (len(lines) - 2 - bool(read))


def clean(title, source, launch, buffers, name, data):
    """A launch that comes out clean, and what a buffer then holds."""
    text, replies = script(source, launch, buffers, f"read {name} 0 {len(data) // 2}")
    return title, text, f"{replies}clean\ndata {data}\n", 0, ""


def faulty(title, source, launch, buffers, fault, options=""):
    """A launch that ends in a fault."""
    text, replies = script(source, launch, buffers)
    return title, text, f"{replies}fault {fault}\n", 1, options


def launches():
    a, b = [i * i for i in range(256)], [7 - i for i in range(256)]
    yield clean("a sum of two vectors", "kernel void f(global int *a, global int *b, global int *c)"
                " { int i = get_global_id(0); c[i] = a[i] + b[i]; }",
                "launch k 256 4", [("a", numbers(a)), ("b", numbers(b)), ("c", 1024)],
                "c", numbers(x + y for x, y in zip(a, b)))
    yield clean("a histogram", "kernel void f(global int *h) { atomic_inc(&h[get_global_id(0) % 8]); }",
                "launch k 512 4", [("h", 32)], "h", numbers([64] * 8))
    yield clean("sums of groups in local memory",
                "kernel void f(global int *a, global int *s) { local int t[8]; int i = get_local_id(0);"
                " t[i] = a[get_global_id(0)]; barrier(CLK_LOCAL_MEM_FENCE);"
                " for (int n = 4; n > 0; n /= 2) { if (i < n) t[i] += t[i + n]; barrier(CLK_LOCAL_MEM_FENCE); }"
                " if (i == 0) s[get_group_id(0)] = t[0]; }",
                "launch k 256 8", [("a", numbers(a)), ("s", 128)],
                "s", numbers(sum(a[8 * g:8 * g + 8]) for g in range(32)))
    yield faulty("the least of several groups that divide by zero",
                 "kernel void f(global int *a) { int g = get_group_id(0);"
                 " if (g % 7 == 6) a[g] = 1 / (g - g); else a[g] = g; }",
                 "launch k 64 1", [("a", 256)], f"6 divide_by_zero item 6 schedule {events(6)}")
    yield faulty("the least of several groups that store where another has",
                 "kernel void f(global int *a) { int g = get_group_id(0);"
                 " if (g > 49) a[3] = 1; else a[g] = g; }",
                 "launch k 64 1", [("a", 256)],
                 f"1 race item 3 store item 50 store buffer a byte 12 schedule {events(51)}")
    yield faulty("updates of two kinds", "kernel void f(global int *a)"
                 " { if (get_group_id(0) < 40) atomic_add(a, 1); else atomic_min(a, 0); }",
                 "launch k 64 1", [("a", 4)], f"2 order item 0 add item 40 smin buffer a byte 0 schedule {events(41)}")
    yield faulty("a barrier that an item doesn't reach", "kernel void f()"
                 " { if (get_group_id(0) < 9 || get_local_id(0) < 1) barrier(CLK_LOCAL_MEM_FENCE); }",
                 "launch k 64 2", [],
                 "3 divergence item 18 barrier 0 item 19 end schedule " + " ".join(f"r{group}" for group in range(9)))
    yield faulty("a store outside", "kernel void f(global int *a)"
                 " { int g = get_group_id(0); a[g + (g > 30) * 100] = g; }",
                 "launch k 64 1", [("a", 256)], f"4 bounds item 31 store buffer a element 131 schedule {events(31)}")
    yield faulty("a variable that isn't set", "kernel void f(global int *a)"
                 " { int g = get_group_id(0); int x; if (g < 20) x = g; a[g] = x; }",
                 "launch k 64 1", [("a", 256)], f"5 unset item 20 variable x schedule {events(20)}")
    # group g has g turns of the loop and a store, each a tick
    yield faulty("too many turns", "kernel void f(global int *a)"
                 " { int g = get_group_id(0); for (int j = 0; j < g; j++) ; a[g] = g; }",
                 "launch k 64 1", [("a", 256)], f"8 budget item 30 schedule {events(30)}", " --budget 30")


def rows():
    for title, text, output, status, options in launches():
        for workers in WORKERS:
            yield dict(title=f"{title}: {workers} workers", text=text, output=output, status=status, times=TIMES,
                       command=f"clsim run --workers {workers}{options} FILE")
