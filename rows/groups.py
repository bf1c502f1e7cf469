"""Launches of two to four work-groups whose items do what chance says,
with the reply that the canonical run on one memory comes to.

The run is worked out here, from docs/promises/definitions.md alone: the groups in their order, in a group the lowest
item that isn't at the stop of the first, each access done on one memory and compared with all accesses before it.
`rows` gives the rows of the first 300 seeds to tools/rows, or of as many as the environment's SEEDS says,
and half as many of uniform launches."""
import os
import random

SEEDS = int(os.environ.get("SEEDS", "300"))
SIZE = 28                                                       # bytes of the buffer
POINTERS = {"b": ("uchar", 1), "s": ("ushort", 2), "a": ("int", 4), "l": ("ulong", 8)}
CLASSES = {
    "add": ("atomic_add", "a", lambda old, n: old + n),
    "and": ("atomic_and", "a", lambda old, n: old & n),
    "or": ("atomic_or", "a", lambda old, n: old | n),
    "xor": ("atomic_xor", "a", lambda old, n: old ^ n),
    "smin": ("atomic_min", "a", lambda old, n: min(old, n, key=signed)),
    "smax": ("atomic_max", "a", lambda old, n: max(old, n, key=signed)),
    "umin": ("atomic_min", "u", min),
    "umax": ("atomic_max", "u", max),
}
# The operations whose old number is used: those of the classes, and two more that take one operand and two.
FETCHES = {
    **{kind: (name, typed, 1, leaves) for kind, (name, typed, leaves) in CLASSES.items()},
    "exchange": ("atomic_xchg", "u", 1, lambda old, n: n),
    "compare": ("atomic_cmpxchg", "a", 2, lambda old, wanted, n: n if old == wanted else old),
}


def signed(number):
    """A number of 32 bits with its sign."""
    return number - 2**32 if number >= 2**31 else number


def clash(first, second, same=False):
    """How two kinds of access conflict: not at all, as `order` or as `race`. `same` are stores that leave the same
    byte, in a uniform launch."""
    if same and first == second == "store":
        return ""
    if first in CLASSES and second in CLASSES:
        return "" if first == second else "order"
    if {first, second} <= {"fetch", *CLASSES}:
        return "order"
    return "" if first == second == "load" else "race"


# ---- what items do: lists of actions, each ("load", pointer, element), ("store", pointer, element, value),
# (CLASS, "", element, operand), ("fetch", "", element, operation, operands..), the same with the pointer "t" to local
# memory, ("barrier", site, fences) or ("divide",). What is loaded or fetched goes into a variable, whose low byte is
# what a store without a value leaves


def width_of(pointer):
    return POINTERS[pointer][1] if pointer in POINTERS else 4


def some_number(rng):
    """A number of 32 bits, often one at which a sign or a comparison turns."""
    return rng.choice([0, 1, 255, 65535, 2**31, 2**32 - 1, rng.randrange(2**32)])


def fetch(rng, pointer, element):
    """A fetch of any operation."""
    operation = rng.choice(list(FETCHES))
    return ("fetch", pointer, element, operation, *[some_number(rng) for _ in range(FETCHES[operation][2])])


def some_access(rng, item, classes):
    """An access that is likely to conflict with none: an update of the word's own class, a fetch of a word that only
    the item has, or a load or a store of the item's own byte."""
    if item < 2 and rng.random() < 0.4:
        return fetch(rng, "", 5 + item)
    if rng.random() < 0.5:
        element = rng.randrange(2)
        return (classes[element], "", element, some_number(rng))
    return rng.choice([("load", "b", 8 + item % 12), ("store", "b", 8 + item % 12, rng.randrange(256))])


def any_access(rng):
    """An access of any kind anywhere in the buffer, seldom behind it."""
    kind = rng.choice(["load", "store", "fetch", "fetch", *CLASSES])
    if kind == "fetch":
        return fetch(rng, "", rng.randrange(7))
    if kind in CLASSES:
        return (kind, "", rng.randrange(7), rng.randrange(2**32))
    pointer = rng.choice(list(POINTERS))
    element = rng.randrange(SIZE // width_of(pointer) + (rng.random() < 0.1))
    return (kind, pointer, element) + ((rng.randrange(2**8),) if kind == "store" else ())


def uniform_access(rng, numbers):
    """A store that is likely to leave what others leave there: one byte of a few,
    in as many bytes as the pointer has."""
    pointer = rng.choice(list(POINTERS))
    width = width_of(pointer)
    element = rng.randrange(SIZE // width)
    start = element * width
    stored = bytes(numbers[byte] for byte in range(start, start + width))
    return ("store", pointer, element, int.from_bytes(stored, "little"))


def uniform_actions_of(rng, items, size):
    """The same of a uniform launch: most stores are of the bytes that all leave there, and the parts beside are few."""
    numbers = [rng.choice([0, 0, 1, 255]) for _ in range(SIZE)]
    parts = [[[uniform_access(rng, numbers) for _ in range(rng.randrange(3))] for item in range(items)]
             for _ in range(rng.randrange(1, 3))]
    for _ in range(rng.choice([0, 0, 1, 1, 2])):
        does = rng.choice(rng.choice(parts))
        others = [rng.choice([number, number, number ^ 1]) for number in numbers]
        what = rng.choice([uniform_access(rng, others), uniform_access(rng, others), any_access(rng)])
        does.insert(rng.randrange(len(does) + 1), what)
    for part in parts:
        if rng.random() < 0.3:
            for does in part:
                does.insert(0, ("store", "t", rng.randrange(size), 7 if rng.random() < 0.95 else 263))
    return parts


def local_access(rng, size):
    """A load, a store or a fetch of local memory."""
    kind = rng.choice(["load", "store", "store", "store", "fetch"])
    if kind == "fetch":
        return fetch(rng, "t", rng.randrange(size))
    return (kind, "t", rng.randrange(size)) + ((rng.randrange(100),) if kind == "store" else ())


def actions_of(rng, items, size):
    """For each part of the kernel between two barriers, what each item does in it;
    most launches have one access or none that isn't harmless."""
    classes = [rng.choice(list(CLASSES)), rng.choice(list(CLASSES))]
    parts = [[[some_access(rng, item, classes) for _ in range(rng.randrange(3))] for item in range(items)]
             for _ in range(rng.randrange(1, 4))]
    for _ in range(rng.choice([0, 1, 1, 2, 6])):
        does = rng.choice(rng.choice(parts))
        what = (any_access(rng) if rng.random() < 0.75
                else rng.choice([local_access(rng, size), ("divide",), ("barrier", 0, "local")]))
        does.insert(rng.randrange(len(does) + 1), what)
    for part in parts:
        for item, does in enumerate(part):
            with_stores(rng, item, does)
    return parts


def with_stores(rng, item, does):
    """Puts a store of what was fetched, to the item's own byte, behind some fetches."""
    for place in range(len(does), 0, -1):
        if does[place - 1][0] == "fetch" and rng.random() < 0.7:
            does.insert(place, ("store", "b", 8 + item % 12))


# ---- the source


def literal(number):
    """A number as a source may have it."""
    return f"{number}ul" if number >= 2**63 else str(number)


def statement(action, sites):
    """The text of an action; a barrier's number is that of its place among the barriers so far."""
    kind, *rest = action
    if kind == "divide":
        return "x = 1 / (i - i);"
    if kind == "barrier":
        sites.append(action)
        return "barrier(CLK_LOCAL_MEM_FENCE);"
    pointer, element, *value = rest
    if kind == "fetch":
        operation, *operands = value
        name, typed, *_ = FETCHES[operation]
        return f"x = {name}(&{pointer or typed}[{element}], {', '.join(map(str, operands))});"
    if kind in CLASSES:
        name, typed, _ = CLASSES[kind]
        return f"{name}(&{typed}[{element}], {value[0]});"
    if kind == "load":
        return f"x = {pointer}[{element}];"
    return f"{pointer}[{element}] = {literal(value[0]) if value else 'x'};"


def source_of(parts):
    """The kernel on one line, and the actions of each item with the barriers between the parts."""
    sites, items, text = [], [[] for _ in parts[0]], []
    for number, part in enumerate(parts):
        for item, does in enumerate(part):
            words = []
            for action in does:
                words.append(statement(action, sites))
                items[item].append(("barrier", len(sites) - 1, "local") if action[0] == "barrier" else action)
            if words:
                text.append(f"if (i == {item}) {{ {' '.join(words)} }}")
        if number + 1 < len(parts):
            fences = ["LOCAL", "GLOBAL", "LOCAL_MEM_FENCE | CLK_GLOBAL"][number % 3]
            text.append(f"barrier(CLK_{fences}_MEM_FENCE);")
            sites.append(None)
            for does in items:
                does.append(("barrier", len(sites) - 1, fences.lower()))
    head = "__global uchar *b, __global ushort *s, __global int *a, __global uint *u, __global ulong *l, __local int *t"
    return f"__kernel void f({head}) {{ int i = get_global_id(0); ulong x; {' '.join(text)} }}", items


# ---- the canonical run


class Run:
    """The memory, the accesses so far and the events of a launch."""

    def __init__(self, data, items, size, uniform):
        self.buffer, self.items, self.size, self.uniform = bytearray(data), items, size, uniform
        self.log, self.events, self.kept = [], [], {}

    def group(self, group):
        """Runs a group: the fault with which it ends, or nothing."""
        first = group * self.size
        at, interval, local = [0] * self.size, {"buffer": 0, "local": 0}, [None] * (4 * self.size)
        while True:
            nexts = [self.items[first + k][at[k]] if at[k] < len(self.items[first + k]) else ("end",)
                     for k in range(self.size)]
            going = [k for k in range(self.size)
                     if nexts[k][0] not in ("end", "barrier") or nexts[k][:2] != nexts[0][:2]]
            if not going:
                if nexts[0][0] == "end":
                    return None
                self.events.append(f"r{group}")
                interval["local"] += "local" in nexts[0][2]
                interval["buffer"] += "global" in nexts[0][2]
                at = [place + 1 for place in at]
                continue
            k = going[0]
            fault = self.act(group, first, k, nexts, interval, local)
            if fault:
                return fault
            at[k] += 1

    def act(self, group, first, k, nexts, interval, local):
        """Does what an item does next: the fault, or nothing."""
        kind, *rest = nexts[k]
        item = first + k
        if kind in ("end", "barrier"):
            stops = ["end" if stop[0] == "end" else f"barrier {stop[1]}" for stop in (nexts[0], nexts[k])]
            return f"3 divergence item {first} {stops[0]} item {item} {stops[1]}"
        if kind == "divide":
            return f"6 divide_by_zero item {item}"
        pointer, element, *value = rest
        space = "local" if pointer == "t" else "buffer"
        cells, place = (local, f"local {group} t") if space == "local" else (self.buffer, "buffer m")
        width = width_of(pointer)
        touched = range(element * width, element * width + width)
        if touched[-1] >= len(cells):
            return f"4 bounds item {item} {kind} {place} element {element}"
        for byte in touched:
            if kind != "store" and cells[byte] is None:
                return f"5 unset item {item} {kind} {place} byte {byte}"
        self.write(item, kind, cells, touched, value)
        self.events.append(item)
        region = (space, group if space == "local" else 0)
        for byte in touched:
            for other, other_kind, other_region, other_byte, other_group, other_interval, other_left in self.log:
                ordered = other_group == group and other_interval != interval[space]
                name = clash(other_kind, kind, self.uniform and other_left == cells[byte])
                if other_region == region and other_byte == byte and other != item and not ordered and name:
                    number = 1 if name == "race" else 2
                    return f"{number} {name} item {other} {other_kind} item {item} {kind} {place} byte {byte}"
        self.log += [(item, kind, region, byte, group, interval[space], cells[byte]) for byte in touched]
        return None

    def write(self, item, kind, cells, touched, value):
        """What an access leaves in its bytes, and in the item's variable."""
        old = sum((cells[byte] or 0) << 8 * place for place, byte in enumerate(touched))
        if kind in ("load", "fetch"):
            self.kept[item] = old
        if kind == "load":
            return
        if kind == "fetch":
            new = FETCHES[value[0]][3](old, *value[1:])
        elif kind in CLASSES:
            new = CLASSES[kind][2](old, value[0])
        else:
            new = value[0] if value else self.kept[item]
        for place, byte in enumerate(touched):
            cells[byte] = new >> 8 * place & 255

    def schedule(self):
        """The events in the longest runs."""
        runs = []
        for event in self.events:
            if runs and runs[-1][0] == event and isinstance(event, int):
                runs[-1][1] += 1
            else:
                runs.append([event, 1])
        return " ".join(f"{event}*{count}" if isinstance(event, int) else event for event, count in runs) or "-"


def launch_of(seed, uniform):
    """The bytes, the source, the items' actions, the size of a group and the number of groups of a seed."""
    rng = random.Random(f"uniform {seed}" if uniform else seed)
    size, groups = rng.randrange(1, 5), rng.randrange(2, 5)
    data = bytes(rng.randrange(256) for _ in range(SIZE))
    parts = (uniform_actions_of if uniform else actions_of)(rng, size * groups, size)
    return data, *source_of(parts), size, groups


def row(seed, uniform):
    """The row of a seed."""
    data, source, items, size, groups = launch_of(seed, uniform)
    run = Run(data, items, size, uniform)
    fault = next((fault for fault in map(run.group, range(groups)) if fault), None)
    pointers = "".join(f"arg k {index} buffer m\n" for index in range(5))
    text = f"buffer m {SIZE}\nwrite m 0 {data.hex()}\nprogram p 1\n{source}\nkernel k p f\n{pointers}"
    text += f"arg k 5 local {4 * size}\n"
    text += f"launch k {size * groups} {size}{' uniform' if uniform else ''}\nread m 0 {SIZE}\n"
    reply = (f"fault {fault} schedule {run.schedule()}\ndata {data.hex()}\n" if fault
             else f"clean\ndata {run.buffer.hex()}\n")
    return dict(title=f"{'uniform ' if uniform else ''}groups by chance {seed}",
                text="clsim 2\n" * uniform + text, output="ok\n" * 10 + reply, status=1 if fault else 0)


def launches():
    """Each seed, and whether its launch is uniform."""
    return [(seed, False) for seed in range(SEEDS)] + [(seed, True) for seed in range(SEEDS // 2)]


def rows():
    return [row(seed, uniform) for seed, uniform in launches()]
