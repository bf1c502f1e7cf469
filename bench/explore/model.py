#!/usr/bin/env python3
"""Works out what `clsim explore` has to tell of scripts, without Clsim.

    bench/explore/model.py [--orders N] [--seed S] [NAME..]
    bench/explore/model.py [--orders N] [--seed S] --compare PROGRAM [NAME..]

NAME is a script of examples/gallery, or of this folder, whose kernel is written here as a function of Python; without
one, all of them. The orders are those of docs/use/explore.md: order 1 goes by the items' numbers, and of the others
each second one goes by priorities with few changes, each second one by chance; and where it isn't known whether one
comes to an end, it is looked at again as the page says. Written is what each script shows; of a fault the schedule
isn't made shorter, as the program makes it. With --compare the program is run, its lines are compared, up to the
schedule of a fault that was made shorter, and the schedule is replayed; the last line is `N passed, M failed`, and the
status is 0 where M is 0, else 1.
"""
import argparse
import collections
import importlib.util
import os
import subprocess
import sys
import tempfile

HERE = os.path.dirname(os.path.realpath(__file__))
GALLERY = os.path.join(HERE, "../../examples/gallery")
WORD = 1 << 64
# After so many atomic operations in a row an item lets others go; an order has so many turns at most.
LONGEST, TURNS = 64, 1 << 20
DRAWN = 1 << 63
# After so many atomic operations for each item that can go on, without a stop, none seems to come to one.
PATIENCE = 4096
# The ticks of an item where none are asked for: its accesses, barriers and turns of loops.
BUDGET = 100_000


# ---- the kernels: what an item does, action by action, with the answer to each


def load(name, at):
    return "load", name, at, None


def store(name, at, number):
    return "store", name, at, lambda _: number


def fetch(name, at, change):
    """An atomic function that gives the old number, an exchange or a compare-exchange."""
    return "fetch", name, at, change


def add(name, at, number):
    """An addition whose old number isn't used."""
    return "add", name, at, lambda old: old + number


def exchange(name, at, number):
    return fetch(name, at, lambda _: number)


def compare_exchange(name, at, wanted, number):
    return fetch(name, at, lambda old: number if old == wanted else old)


def look(name, at):
    """An addition of 0: a load by an atomic function."""
    return fetch(name, at, lambda old: old)


def draw(name):
    """An atomic_inc."""
    return fetch(name, 0, lambda old: old + 1)


def turn():
    """A turn of a loop. It is written only in loops that may have no end."""
    return ("turn",)


def bids_under_a_lock(i, stays=False):
    tries = 0
    while (yield compare_exchange("lock", 0, 0, 1)) != 0:
        tries += 1
        if tries == 500:
            return
    best = yield look("best", 0)
    if best < (yield load("bids", i)):
        yield exchange("best", 0, (yield load("bids", i)))
        yield exchange("bidder", 0, i)
    elif stays:
        return
    yield exchange("lock", 0, 0)


def bids_under_a_lock_that_stays(i):
    return bids_under_a_lock(i, stays=True)


def transfers_under_two_locks(i, in_two_orders=False):
    source = yield load("source", i)
    target = yield load("target", i)
    locks = (source, target) if in_two_orders else (min(source, target), max(source, target))
    for lock in locks:
        while (yield exchange("lock", lock, 1)) != 0:
            yield turn()
    left = (yield look("balance", source)) - (yield load("units", i))
    if left >= 0:
        yield exchange("balance", source, left)
        yield add("balance", target, (yield load("units", i)))
    yield exchange("lock", locks[1], 0)
    yield exchange("lock", locks[0], 0)


def transfers_under_two_locks_in_two_orders(i):
    return transfers_under_two_locks(i, in_two_orders=True)


def mutex(_, lost=False):
    if (yield compare_exchange("lock", 0, 0, 1)) != 0:
        while (yield exchange("lock", 0, 2)) != 0:
            yield turn()
    entered = yield look("count", 0)
    yield exchange("count", 0, entered + 1)
    yield compare_exchange("lock", 0, 1, 0) if lost else exchange("lock", 0, 0)


def mutex_that_is_lost(i):
    return mutex(i, lost=True)


def queue_of_numbers(i, early=False):
    if i < 4:
        place = yield draw("tail")
        if early:
            yield exchange("full", place, 1)
        yield exchange("slot", place, (yield load("number", i)))
        if not early:
            yield exchange("full", place, 1)
        return
    place = yield draw("head")
    while (yield compare_exchange("full", place, 1, 0)) != 1:
        yield turn()
    number = yield exchange("slot", place, 0)
    if number == 0:
        yield ("fault", "6 divide_by_zero")
    yield add("sum", 0, 2520 // number)


def queue_of_numbers_with_an_early_flag(i):
    return queue_of_numbers(i, early=True)


def compaction_by_tickets(i):
    if (yield load("list", i)) % 2 == 0:
        place = yield draw("count")
        yield store("kept", place, (yield load("list", i)))


def compaction_by_tickets_that_are_read(i):
    if (yield load("list", i)) % 2 == 0:
        place = yield look("count", 0)
        yield store("kept", place, (yield load("list", i)))
        yield add("count", 0, 1)


def root_of(vertex):
    above = yield look("parent", vertex)
    while above != vertex:
        vertex, above = above, (yield look("parent", above))
    return vertex


def components(i, loops=True):
    a = yield from root_of((yield load("one", i)))
    b = yield from root_of((yield load("other", i)))
    while a != b:
        yield compare_exchange("parent", max(a, b), max(a, b), min(a, b))
        if not loops:
            break
        a = yield from root_of(a)
        b = yield from root_of(b)
    yield ("barrier",)
    root = i
    while (above := (yield load("parent", root))) != root:
        root = yield load("parent", root)
        assert root == above
    yield ("barrier",)
    yield store("parent", i, root)


def components_without_the_loop(i):
    return components(i, loops=False)


def union_find(e):
    a = yield load("one", e)
    b = yield load("other", e)
    while a != b:
        larger, b = max(a, b), min(a, b)
        a = yield compare_exchange("parent", larger, larger, b)
        if a == larger:
            a = b


NAMES = ["bids_under_a_lock", "bids_under_a_lock_that_stays", "compaction_by_tickets",
         "compaction_by_tickets_that_are_read", "components", "components_without_the_loop", "mutex",
         "mutex_that_is_lost", "queue_of_numbers", "queue_of_numbers_with_an_early_flag", "transfers_under_two_locks",
         "transfers_under_two_locks_in_two_orders", "union_find"]


# ---- who goes next


class Random:
    """Splitmix, with its constants."""

    def __init__(self, state):
        self.state = state

    @staticmethod
    def mixed(number):
        once = (number ^ number >> 30) * 0xBF58476D1CE4E5B9 % WORD
        twice = (once ^ once >> 27) * 0x94D049BB133111EB % WORD
        return twice ^ twice >> 31

    def draw(self):
        self.state = (self.state + 0x9E3779B97F4A7C15) % WORD
        return self.mixed(self.state)

    def below(self, bound):
        drawn = self.draw()
        return drawn % bound if bound else 0


class Chooser:
    """Counts how many atomic operations an item makes in a row."""

    def __init__(self):
        self.item, self.count, self.asked, self.order = 0, 0, 0, None

    def begin(self, order):
        """Before the first event of an order."""
        self.order = order

    def is_long(self, item):
        self.asked += 1
        self.count = self.count + 1 if item == self.item else 1
        self.item = item
        if self.count <= LONGEST:
            return False
        self.count = 0
        return True


class InTurn(Chooser):
    """The lowest item first; one that waits lets the others behind it go."""

    lowest = 0

    def switches(self, item):
        is_long = self.is_long(item)
        self.lowest = item + 1 if is_long else self.lowest
        return is_long

    def choose(self, ready):
        places = sorted(range(len(ready)), key=lambda at: ((ready[at] - self.lowest) % (1 << 32), -at))
        self.lowest = 0
        return places[0] if places else None


class ByChance(Chooser):
    def __init__(self, random, odds):
        super().__init__()
        self.random, self.odds = random, odds

    def switches(self, item):
        is_long = self.is_long(item)
        return self.random.below(self.odds) == 0 or is_long

    def choose(self, ready):
        place = self.random.below(len(ready))
        return place if ready else None


class ByPriority(Chooser):
    def __init__(self, random, items, changes, length):
        super().__init__()
        self.priorities = [random.draw() | DRAWN for _ in range(items)]
        self.changes = [random.below(length) + 1 for _ in range(changes)]
        self.lowest = DRAWN

    def switches(self, item):
        is_long = self.is_long(item)
        if not is_long and self.asked not in self.changes:
            return False
        self.lowest -= 1
        self.priorities[item] = self.lowest
        return True

    def choose(self, ready):
        return max(range(len(ready)), key=lambda at: (self.priorities[ready[at]], at), default=None)


class Patient(InTurn):
    """All items in turn, until it seems that none comes to a stop any more."""

    def __init__(self):
        super().__init__()
        self.stops, self.quiet, self.is_stuck = 0, 0, False

    def switches(self, item):
        self.quiet = self.quiet + 1 if self.stops == self.order.stops else 1
        self.stops = self.order.stops
        self.is_stuck = self.quiet > PATIENCE * len(self.order.ready)
        return super().switches(item) or self.is_stuck

    def choose(self, ready):
        return None if self.is_stuck else super().choose(ready)


class Alone(Chooser):
    """The lowest item that can go on, alone, up to its next stop."""

    chosen = False

    def switches(self, item):
        return not self.chosen

    def choose(self, ready):
        if self.chosen or not ready:
            return None
        self.chosen = True
        return ready.index(min(ready))


class Until(Chooser):
    """The first atomic operations by one chooser, the rest by another one."""

    def __init__(self, first, left, rest):
        super().__init__()
        self.first, self.left, self.rest = first, left, rest

    def begin(self, order):
        self.first.begin(order)
        self.rest.begin(order)

    def switches(self, item):
        self.asked += 1
        if self.left:
            self.left -= 1
            return self.first.switches(item)
        return self.rest.switches(item)

    def choose(self, ready):
        return self.first.choose(ready) if self.left else self.rest.choose(ready)


# ---- one order


class Order:
    """One order of a launch's events: the buffers that it leaves, its events, and the fault that it shows, if one."""

    def __init__(self, kernel, buffers, items, size, budget, chooser):
        self.buffers = {name: list(numbers) for name, numbers in buffers.items()}
        self.size, self.budget, self.chooser = size, budget, chooser
        self.items = [kernel(item) for item in range(items)]
        self.actions, self.ticks = [("end",)] * items, [0] * items
        for item in range(items):
            self.go_on(item, None)
        self.ready, self.running, self.stops = list(range(items)), None, 0
        self.waiting = collections.defaultdict(list)
        self.intervals = collections.Counter()
        # of equal accesses the first one alone
        self.accesses = collections.defaultdict(dict)
        self.events, self.fault = [], None
        chooser.begin(self)
        self.play()

    def next_item(self):
        if self.running is None or self.is_atomic() and self.chooser.switches(self.ready[self.running]):
            self.running = self.chooser.choose(self.ready)
        return None if self.running is None else self.ready[self.running]

    def is_atomic(self):
        return self.actions[self.ready[self.running]][0] in ("fetch", "add")

    def play(self):
        for _ in range(TURNS):
            item = self.next_item()
            if item is None:
                break
            self.turn(item)
            if self.fault:
                return
        if any(action != ("end",) for action in self.actions):
            self.fault = "given up"

    def turn(self, item):
        action = self.actions[item]
        if action[0] in ("end", "barrier"):
            self.stop(item)
        elif action[0] == "fault":
            name, number = action[1].split(" ")[1], action[1].split(" ")[0]
            self.fault = f"fault {number} {name} item {item}"
        else:
            self.access(item, *action)

    def stop(self, item):
        self.stops += 1
        self.ready[self.running] = self.ready[-1]
        self.ready.pop()
        self.running = None
        group = item // self.size
        self.waiting[group].append(item)
        if len(self.waiting[group]) == self.size and self.actions[item][0] == "barrier":
            self.waiting[group] = []
            self.intervals[group] += 1
            self.events.append(f"r{group}")
            for it in range(group * self.size, (group + 1) * self.size):
                self.ready.append(it)
                self.go_on(it, None)

    def access(self, item, kind, name, at, change):
        numbers = self.buffers[name]
        old = numbers[at]
        if change:
            numbers[at] = change(old)
        self.events.append(item)
        stands = (item, kind, self.intervals[item // self.size])
        self.fault = self.race(stands, name, at)
        self.accesses[name, at].setdefault(stands)
        self.go_on(item, old)

    def race(self, stands, name, at):
        """The race of an access with the earliest one that it races with, if there is one."""
        item, kind, interval = stands
        for other, before, when in self.accesses[name, at]:
            ordered = other // self.size == item // self.size and when != interval
            atomic = {kind, before} <= {"fetch", "add"}
            if other != item and not ordered and not atomic and {kind, before} != {"load"}:
                return f"fault 1 race item {other} {before} item {item} {kind} buffer {name} byte {4 * at}"
        return None

    def go_on(self, item, answer):
        """An item's next action: turns of loops take ticks alone."""
        action = turn()
        while action == turn():
            try:
                action = self.items[item].send(answer)
            except StopIteration:
                action = ("end",)
            answer = None
            self.ticks[item] += action[0] not in ("end", "fault")
            if self.ticks[item] > self.budget:
                action = ("fault", "8 budget")
        self.actions[item] = action

    def schedule(self):
        runs = []
        for event in self.events:
            if runs and runs[-1][0] == event and isinstance(event, int):
                runs[-1][1] += 1
            else:
                runs.append([event, 1])
        return " ".join(f"{event}*{count}" if isinstance(event, int) else event for event, count in runs) or "-"


# ---- one order after another


def path_of(name):
    """The script of a name: of the gallery, or of this folder."""
    paths = (os.path.join(folder, f"{name}.txt") for folder in (GALLERY, HERE))
    return next(path for path in paths if os.path.exists(path))


class Launch:
    """The launch with `orders` of a script: its kernel, its buffers, its sizes, its ticket, and the ticks of an item."""

    def __init__(self, name, budget=BUDGET):
        spec = importlib.util.spec_from_file_location("check", os.path.join(GALLERY, "check.py"))
        check = importlib.util.module_from_spec(spec)
        spec.loader.exec_module(check)
        script = check.Script(path_of(name))
        self.ticket = next(at for at, words in enumerate(script.commands) if words[-1] == "orders")
        self.items, self.size = (int(word) for word in script.commands[self.ticket][2:4])
        kernel = script.commands[self.ticket][1]
        self.names = [words[4] for words in script.commands[: self.ticket] if words[:2] == ["arg", kernel]]
        self.buffers = {it: script.ints(it) for it in self.names}
        self.kernel, self.budget = globals()[name], budget

    def order(self, seed, number, atomics, until, rest):
        """An order by its number, from 0 on: so many atomic operations by its chooser, the rest by another one."""
        chooser = Until(self.chooser(seed, number, atomics), until, rest)
        return Order(self.kernel, self.buffers, self.items, self.size, self.budget, chooser)

    def probed(self, seed, number, atomics, until):
        """The same where it comes to no end so: with one item alone, up to its budget. None where it doesn't."""
        rest = Patient()
        self.order(seed, number, atomics, until, rest)
        alone = self.order(seed, number, atomics, until, Alone()) if rest.is_stuck else None
        return alone if alone and is_budget(alone.fault) else None

    def settled(self, seed, number, atomics):
        """An order as it ends: one that comes to no end as it does so soonest."""
        order = self.order(seed, number, atomics, WORD, Patient())
        if order.fault != "given up" and not is_budget(order.fault):
            return order
        low, high = 0, order.chooser.asked // 2
        endless = self.probed(seed, number, atomics, high)
        if not endless:
            order.fault = "given up"
            return order
        while low < high:
            middle = (low + high) // 2
            found = self.probed(seed, number, atomics, middle)
            endless = found or endless
            low, high = (low, middle) if found else (middle + 1, high)
        return endless

    def chooser(self, seed, number, asked):
        """Who goes next in an order, by its number from 0 on."""
        if number == 0:
            return InTurn()
        random = Random(Random.mixed((seed + number) % WORD))
        depth = number // 2 % 4
        if number % 2 == 0:
            return ByChance(random, 2 << depth)
        return ByPriority(random, self.items, depth, asked)


def is_budget(fault):
    return fault is not None and fault.startswith("fault 8 ")


def bytes_of(numbers):
    return b"".join((number % (1 << 32)).to_bytes(4, "little") for number in numbers)


def apart(names, one, other):
    """The first byte at which two orders' buffers differ, told; None where they don't."""
    for name in names:
        for at, (left, right) in enumerate(zip(bytes_of(one.buffers[name]), bytes_of(other.buffers[name]))):
            if left != right:
                return f"buffer {name} byte {at}: {left} and {right}"
    return None


def explored(launch, orders, seed):
    """What the orders of a launch show, in lines."""
    atomics, first, different, given_up, shown = 0, None, [], 0, []
    for number in range(orders):
        order = launch.settled(seed, number, atomics)
        atomics = order.chooser.asked if number == 0 else atomics
        if order.fault == "given up":
            given_up += 1
        elif order.fault:
            what = "comes to no end" if is_budget(order.fault) else "shows a fault"
            shown = [f"launch 1: order {number + 1} {what}", f"ticket {launch.ticket}",
                     f"{order.fault} schedule {order.schedule()}"]
            break
        elif first is None:
            first = (number + 1, order)
        elif not different and apart(launch.names, first[1], order):
            different = [f"launch 1: orders {first[0]} and {number + 1} leave different bytes: "
                         f"{apart(launch.names, first[1], order)}",
                         f"schedule {first[1].schedule()}", f"schedule {order.schedule()}"]
    behind = f", {given_up} given up" if given_up else ""
    return shown + different or [f"launch 1: clean in {orders} orders{behind}"]


# ---- the program beside it


def compared(lines):
    """The lines that have to be the same: the program makes the schedule of a fault shorter."""
    if lines[:1] and lines[0].endswith("shows a fault"):
        return [line.partition(" schedule ")[0] if line.startswith("fault ") else line for line in lines]
    return lines


def is_same(program, name, wanted):
    """Whether the program tells what is wanted; a schedule with a fault is replayed."""
    script, options = path_of(name), wanted[1]
    ran = subprocess.run([program, "explore", script, *options], capture_output=True, text=True, check=False)
    lines = ran.stdout.splitlines()
    if compared(lines) != compared(wanted[0]):
        print(f"{name} {' '.join(options)}: wanted {wanted[0]}, and not {lines} {ran.stderr}")
        return False
    if not lines[1:2] or not lines[1].startswith("ticket "):
        return ran.returncode == 0
    with tempfile.NamedTemporaryFile("w", suffix=".schedule") as file:
        file.write("\n".join(lines[1:3]) + "\n")
        file.flush()
        replayed = subprocess.run([program, "replay", script, file.name], capture_output=True, text=True, check=False)
    if ran.returncode != 1 or replayed.stdout != "yes\n":
        print(f"{name}: status {ran.returncode}, replayed: {replayed.stdout}{replayed.stderr}")
        return False
    return True


def main():
    reader = argparse.ArgumentParser(description=__doc__, formatter_class=argparse.RawDescriptionHelpFormatter)
    reader.add_argument("--orders", type=int, default=1000)
    reader.add_argument("--seed", type=int, default=1)
    reader.add_argument("--compare", metavar="PROGRAM")
    reader.add_argument("names", nargs="*", metavar="NAME", choices=[[], *NAMES])
    given = reader.parse_args()
    options = ["--orders", str(given.orders), "--seed", str(given.seed)]
    passed = failed = 0
    for name in given.names or NAMES:
        told = explored(Launch(name), given.orders, given.seed)
        if given.compare is None:
            print("\n".join([f"{name}:", *(f"  {line}" for line in told)]))
            continue
        right = is_same(os.path.abspath(given.compare), name, (told, options))
        passed, failed = passed + right, failed + (not right)
    if given.compare is not None:
        print(f"{passed} passed, {failed} failed")
    return 1 if failed else 0


if __name__ == "__main__":
    sys.exit(main())
