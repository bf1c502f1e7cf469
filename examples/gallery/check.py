#!/usr/bin/env python3
"""Compares the sessions of the gallery with what Python works out for the same inputs.

    python3 examples/gallery/check.py [--write PROGRAM]

Each script NAME.txt here has its session NAME.expected, which tools/docs runs. Here Clsim isn't run: from the bytes
that a script writes into its buffers, a function of this file works out by the usual means of Python (sorted, hashlib,
sum..) what its `read` lines have to show. A launch with `orders` has to show `ordered`. A script with a fault stands in
FAULTS, with what each launch has to show; its data are the bytes before the launch, where no function works them out.
`--write` writes the sessions anew, and takes from PROGRAM nothing but the lines of faults. The last line is `N passed,
M failed`; the status is 0 where M is 0, else 1.
"""
import functools
import glob
import hashlib
import heapq
import itertools
import math
import os
import subprocess
import sys

HERE = os.path.dirname(os.path.realpath(__file__))

# The types of numbers in scripts by hand, and how many bytes each has.
SIZES = {"char": 1, "uchar": 1, "short": 2, "ushort": 2, "int": 4, "uint": 4, "long": 8, "ulong": 8}

# What each launch of a script with a fault shows: `clean`, or the number and name of the fault,
# and words that its line has.
FAULTS = {
    "binary_search_of_nothing": ["5 unset item 12 variable found"],
    "bitonic_sort_in_two_groups": ["1 race item buffer a"],
    "collatz_from_zero": ["8 budget item 0"],
    "compaction_by_tickets_with_an_end_mark": ["1 race item 1 store item 3 store buffer kept byte 4"],
    "compaction_with_an_early_return": ["3 divergence item 0 barrier item 50 end"],
    "edit_distance_with_a_barrier_in_a_branch": ["3 divergence item 0 barrier"],
    "floyd_warshall_stores_all": ["1 race item buffer d"] * 8,
    "game_of_life_in_one_buffer": ["1 race item store load buffer a"] * 4,
    "histogram_with_a_plain_load": ["1 race item add load local 0 part"],
    "matrix_product_without_its_second_barrier": ["1 race item store load local 0 s"],
    "means_of_no_points": ["clean", "6 divide_by_zero item 3"],
    "merge_of_equal_numbers": ["1 race item store store buffer merged"],
    "prefix_sum_in_place": ["1 race item store load local 0 t"],
    "queens_with_a_short_stack": ["4 bounds item private element 7"],
    "quotients_of_int": ["7 divide_overflow item 14"],
    "radix_sort_with_the_wrong_fence": ["1 race item local 0 key"],
    "random_numbers_in_one_place": ["2 order item umax umin buffer range byte 0"],
    "sha256_with_a_short_loop": ["5 unset item 0 private w element 15"],
    "sieve_not_uniform": ["1 race item store store buffer struck"],
    "stencil_without_its_edge": ["5 unset item 15 load local 0 t byte 68"] * 2,
    "sum_tree_without_barrier": ["1 race item load store local 0 part"],
    "transfers_under_a_lock": ["2 order item fetch fetch buffer lock byte 0"],
    "transpose_by_the_wrong_width": ["4 bounds item store buffer turned"],
    "union_find_with_a_plain_load": ["1 race item 3 fetch item 4 load buffer parent byte 36", "clean"],
    "work_queue_with_tickets": ["2 order item fetch fetch buffer next byte 0"],
}


class Script:
    """A script, with the bytes that its host writes into each buffer before the first launch."""

    def __init__(self, path):
        with open(path, encoding="ascii") as file:
            lines = file.read().removesuffix("\n").split("\n")
        self.commands, self.buffers, self.numbers = [], {}, {}
        while lines:
            # (scripts by hand have empty lines, comments, and sources up to a word)
            words = lines.pop(0).partition("#")[0].split()
            if words[:1] in ([], ["clsim"]):
                continue
            self.commands.append(words)
            if words[0] == "program":
                del lines[: lines.index(words[3]) + 1 if words[2] == "until" else int(words[2])]
            self.take(words)

    def take(self, words):
        """Keeps what a command says of buffers and arguments, up to the first launch."""
        if words[0] == "buffer":
            self.buffers[words[1]] = bytearray(int(words[2]))
        elif words[0] == "write" and not self.launches():
            given = bytes_of(words[3:])
            self.buffers[words[1]][int(words[2]) : int(words[2]) + len(given)] = given
        elif words[0] == "fill" and not self.launches():
            pattern = bytes_of(words[4:])
            given = pattern * (int(words[3]) // len(pattern))
            self.buffers[words[1]][int(words[2]) : int(words[2]) + len(given)] = given
        elif words[0] == "arg" and words[3] == "value" and not self.launches():
            self.numbers[int(words[2])] = int(words[4])

    def launches(self):
        return sum(words[0] == "launch" for words in self.commands)

    def passes(self):
        """What each launch of a script without a fault shows: here the items of a launch with `orders` meet."""
        return ["ordered" if words[-1] == "orders" else "clean" for words in self.commands if words[0] == "launch"]

    def ints(self, name):
        """The numbers of a buffer of int."""
        data = self.buffers[name]
        return [int.from_bytes(data[at : at + 4], "little", signed=True) for at in range(0, len(data), 4)]


def bytes_of(words):
    """The bytes that words of a script are: hexadecimal ones, or a type and numbers."""
    if words[0] not in SIZES:
        return bytes.fromhex(words[0])
    size = SIZES[words[0]]
    return b"".join((int(number) % (1 << 8 * size)).to_bytes(size, "little") for number in words[1:])


def packed(numbers):
    """The bytes of numbers of 32 bits."""
    return b"".join((number % (1 << 32)).to_bytes(4, "little") for number in numbers)


# ---- the references: from a script, the bytes of the buffers that it reads at its end


def sum_tree(script):
    return {"total": packed([sum(script.ints("a"))])}


def prefix_sum(script):
    return {"sums": packed(itertools.accumulate(script.ints("a")))}


def prefix_sum_of_groups(script):
    return {"a": packed(itertools.accumulate(script.ints("a")))}


def histogram(script):
    return {"bins": packed(sum(byte // 16 == bin for byte in script.buffers["text"]) for bin in range(16))}


def matrix_product(script):
    a, b = script.ints("a"), script.ints("b")
    rows = [a[8 * i : 8 * i + 8] for i in range(8)]
    return {"product": packed(sum(x * y for x, y in zip(row, b[j::8])) for row in rows for j in range(8))}


def transpose(script):
    a = script.ints("a")
    return {"turned": packed(a[row * 16 + column] for column in range(16) for row in range(8))}


def stencil(script):
    a = script.ints("a")
    for _ in range(2):
        wide = [a[0], *a, a[-1]]
        a = [(wide[i] + 2 * wide[i + 1] + wide[i + 2]) // 4 for i in range(64)]
    return {"a": packed(a)}


def game_of_life(script):
    alive = {(at % 16, at // 16) for at, cell in enumerate(script.buffers["a"]) if cell}
    for _ in range(4):
        near = [((x + dx) % 16, (y + dy) % 16) for x, y in alive for dx in (-1, 0, 1) for dy in (-1, 0, 1) if dx or dy]
        alive = {cell for cell in near if near.count(cell) == 3 or (near.count(cell) == 2 and cell in alive)}
    return {"a": bytes((at % 16, at // 16) in alive for at in range(256))}


def bitonic_sort(script):
    return {"a": packed(sorted(script.ints("a")))}


def radix_sort(script):
    return {"keys": bytes(sorted(script.buffers["keys"]))}


def merge(script):
    return {"merged": packed(heapq.merge(script.ints("a"), script.ints("b")))}


def breadth_first_search(script):
    starts, ends = script.ints("starts"), script.ints("ends")
    distance, waiting = {0: 0}, [0]
    for vertex in waiting:
        for other in ends[starts[vertex] : starts[vertex + 1]]:
            if other not in distance:
                distance[other] = distance[vertex] + 1
                waiting.append(other)
    return {"distance": packed(distance.get(vertex, -1) for vertex in range(16))}


def floyd_warshall(script):
    """By Bellman's and Ford's rule from each town: another way to the same numbers."""
    d = script.ints("d")
    ways = []
    for town in range(8):
        shortest = d[town * 8 : town * 8 + 8]
        for _ in range(8):
            shortest = [min(shortest[over] + d[over * 8 + to] for over in range(8)) for to in range(8)]
        ways += shortest
    return {"d": packed(ways)}


def queens(_):
    placed = itertools.permutations(range(8))
    right = sum(len({c + r for r, c in enumerate(it)}) == len({c - r for r, c in enumerate(it)}) == 8 for it in placed)
    return {"count": packed([right])}


def sha256(script):
    blocks = script.buffers["blocks"]
    texts = [blocks[at : at + int.from_bytes(blocks[at + 56 : at + 64], "big") // 8] for at in range(0, 256, 64)]
    return {"digests": b"".join(hashlib.sha256(text).digest() for text in texts)}


@functools.cache
def steps_to_one(number):
    return 0 if number == 1 else 1 + steps_to_one(number // 2 if number % 2 == 0 else 3 * number + 1)


def collatz(_):
    steps = [steps_to_one(number) for number in range(1, 65)]
    return {"steps": packed(steps), "most": packed([max(steps)])}


def sieve(_):
    return {"struck": bytes(any(number % n == 0 for n in range(2, number)) for number in range(256))}


def binary_search(script):
    table = script.ints("table")
    return {"places": packed(table.index(key) if key in table else -1 for key in script.ints("keys"))}


def compaction(script):
    kept = [number for number in script.ints("list") if number % 2 == 0]
    return {"kept": packed(kept).ljust(200, b"\0"), "count": packed([len(kept)])}


def compaction_by_tickets(script):
    """By one order of the work-items, that of their numbers."""
    kept = [number for number in script.ints("list") if number % 2 == 0]
    return {"kept": packed(kept).ljust(68, b"\xff"), "count": packed([len(kept)])}


def compaction_by_tickets_that_are_read(script):
    """One after another the work-items read different places."""
    return compaction_by_tickets(script)


def lowest_of(script, vertices):
    """The lowest vertex that hangs together with each: sets that are merged, edge by edge."""
    sets = {vertex: {vertex} for vertex in range(vertices)}
    for one, other in zip(script.ints("one"), script.ints("other")):
        merged = sets[one] | sets[other]
        sets |= {vertex: merged for vertex in merged}
    return packed(min(sets[vertex]) for vertex in range(vertices))


def union_find(script):
    return {"lowest": lowest_of(script, 16)}


def components(script):
    return {"parent": lowest_of(script, 8)}


def components_without_the_loop(script):
    """One after another no edge is lost."""
    return components(script)


def bids_under_a_lock(script):
    bids = script.ints("bids")
    return {"best": packed([max(bids)]), "bidder": packed([bids.index(max(bids))])}


def bids_under_a_lock_that_stays(script):
    """One after another each bid is the highest."""
    return bids_under_a_lock(script)


def transfers_under_two_locks(script):
    balance = script.ints("balance")
    for source, target, units in zip(*(script.ints(name) for name in ("source", "target", "units"))):
        moved = units if balance[source] >= units else 0
        balance[source] -= moved
        balance[target] += moved
    return {"balance": packed(balance)}


def transfers_under_two_locks_in_two_orders(script):
    """In the order of the items none waits."""
    return transfers_under_two_locks(script)


def queue_of_numbers(script):
    """The queue is empty at its end."""
    shares = [2520 // number for number in script.ints("number")]
    return {"sum": packed([sum(shares)]), "slot": bytes(16), "full": bytes(16)}


def queue_of_numbers_with_an_early_flag(script):
    """One after another each number is there."""
    return queue_of_numbers(script)


def union_find_with_a_plain_load(_):
    """No edge is done, so each vertex stays alone."""
    return {"lowest": packed(range(16))}


def string_match(script):
    text, pattern = bytes(script.buffers["text"]), bytes(script.buffers["pattern"])
    found = [text.startswith(pattern, at) for at in range(len(text))]
    return {"found": bytes(found), "count": packed([sum(found)])}


def lu_decomposition(script):
    """By Crout's sums, a cell at a time."""
    a, prime, n = script.ints("a"), 10007, 6
    lu = [[0] * n for _ in range(n)]
    for row, column in itertools.product(range(n), range(n)):
        rest = a[row * n + column] - sum(lu[row][k] * lu[k][column] for k in range(min(row, column)))
        lu[row][column] = rest * (pow(lu[column][column], -1, prime) if row > column else 1) % prime
    return {"a": packed(itertools.chain(*lu))}


def knapsack(script):
    things = list(zip(script.ints("weights"), script.ints("values")))
    chosen = [[it for at, it in enumerate(things) if bits >> at & 1] for bits in range(256)]
    sums = [(sum(weight for weight, _ in it), sum(value for _, value in it)) for it in chosen]
    return {"best": packed(max(value for weight, value in sums if weight <= size) for size in range(64))}


def edit_distance(script):
    one, other = script.buffers["one"], script.buffers["other"]

    @functools.cache
    def edits(i, j):
        if min(i, j) == 0:
            return max(i, j)
        return min(edits(i - 1, j - 1) + (one[i - 1] != other[j - 1]), edits(i - 1, j) + 1, edits(i, j - 1) + 1)

    return {"edits": packed(edits(row, column) for row in range(len(one) + 1) for column in range(len(other) + 1))}


def mandelbrot(_):
    image = []
    for y, x in itertools.product(range(16), range(16)):
        a = b = count = 0
        while count < 30 and (a * a >> 12) + (b * b >> 12) <= 4 << 12:
            a, b = (a * a >> 12) - (b * b >> 12) + x * 768 - 8192, (2 * a * b >> 12) + y * 640 - 4800
            count += 1
        image.append(count)
    return {"image": bytes(image)}


def random_numbers(_):
    """By numbers without a bound, cut to 32 bits."""
    drawn, inside = [], 0
    for stream in range(1, 33):
        state = 2463534242 ^ stream * 2654435761 % (1 << 32)
        for _ in range(8):
            point = []
            for _ in range(2):
                state = (state ^ state << 13) % (1 << 32)
                state ^= state >> 17
                state = (state ^ state << 5) % (1 << 32)
                drawn.append(state)
                point.append(state >> 16)
            inside += point[0] ** 2 + point[1] ** 2 < 1 << 32
    return {"inside": packed([inside]), "range": packed([min(drawn), max(drawn)])}


def ring_buffer(script):
    return {"received": packed(2 * number for number in script.ints("sent"))}


def transfers(script):
    balance = script.ints("balance")
    for taker, giver, amount in zip(script.ints("to"), script.ints("from"), script.ints("amount")):
        balance[taker] += amount
        balance[giver] -= amount
    return {"balance": packed(balance)}


def reservations(script):
    """One pair after another: in four rounds the bids come to the same matching."""
    partner = [-1] * 16
    for one, other in zip(script.ints("one"), script.ints("other")):
        if partner[one] == partner[other] == -1:
            partner[one], partner[other] = other, one
    return {"partner": packed(partner)}


def work_queue(script):
    tasks = script.ints("tasks")
    return {"done": packed(map(math.gcd, tasks[::2], tasks[1::2]))}


def means(script):
    centres = script.ints("centres")
    near = [[] for _ in centres]
    for point in script.ints("points"):
        near[min(range(4), key=lambda it: abs(point - centres[it]))].append(point)
    moved = (sum(points) // len(points) if points else centre for points, centre in zip(near, centres))
    return {"centres": packed(moved)}


def quotients(script):
    exact = [abs(a) // abs(b) * (1 if (a < 0) == (b < 0) else -1) for a, b in zip(script.ints("a"), script.ints("b"))]
    return {"q": packed(min(number, 2**31 - 1) for number in exact)}


# ---- the sessions


def session_of(name, script, written):
    """The session of a script: the lines that Python works out,
    and those of faults as they are in the lines of `written`."""
    wanted = FAULTS.get(name, script.passes())
    buffers = globals()[name](script) if name in globals() else script.buffers
    shown = iter(line for line in written if line in ("clean", "ordered") or line.startswith("fault "))
    lines, launches = [f"$ clsim run examples/gallery/{name}.txt"], iter(wanted)
    for words in script.commands:
        if words[0] == "launch":
            expected, line = next(launches), next(shown, "fault")
            lines.append(line if is_shown(expected, line) else expected)
        elif words[0] == "read":
            begin, count = int(words[2]), int(words[-1]) * SIZES.get(words[3], 1)
            data = buffers[words[1]][begin : begin + count]
            lines.append(f"data {data.hex()}")
        else:
            lines.append("ok")
    return [*lines, "$ echo $?", "1" if name in FAULTS else "0"]


def is_shown(expected, line):
    """Whether a line of a fault begins with the number and name that are expected,
    and has the other words in their order."""
    words, wanted = iter(line.split()), expected.split()
    return line.startswith("fault " + " ".join(wanted[:2]) + " ") and all(word in words for word in wanted)


def lines_of(path):
    if not os.path.exists(path):
        return []
    with open(path, encoding="ascii") as file:
        return file.read().removesuffix("\n").split("\n")


def main():
    program = sys.argv[2] if sys.argv[1:2] == ["--write"] and len(sys.argv) == 3 else None
    if sys.argv[1:] and program is None:
        print("check.py: it takes nothing, or --write PROGRAM", file=sys.stderr)
        return 2
    failed = 0
    names = sorted(os.path.basename(path).removesuffix(".txt") for path in glob.glob(f"{HERE}/*.txt"))
    for name in names:
        path = f"{HERE}/{name}.expected"
        script = Script(f"{HERE}/{name}.txt")
        written = lines_of(path)
        if program:
            ran = subprocess.run([program, "run", f"{HERE}/{name}.txt"], capture_output=True, text=True, check=False)
            written = ran.stdout.split("\n")
        wanted = session_of(name, script, written)
        if program:
            with open(path, "w", encoding="ascii") as file:
                file.write("\n".join(wanted) + "\n")
            written = [wanted[0], *written[:-1], *wanted[-2:-1], str(ran.returncode)]
        if written != wanted:
            different = [(one, other) for one, other in itertools.zip_longest(wanted, written) if one != other]
            print(f"{name}: wanted {different[0][0]!r}, and not {different[0][1]!r}")
        failed += written != wanted
    print(f"{len(names) - failed} passed, {failed} failed")
    return 1 if failed else 0


if __name__ == "__main__":
    sys.exit(main())
