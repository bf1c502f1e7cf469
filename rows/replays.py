"""The fault replies of all other rows, replayed: each leads to its fault, and with one word changed to what the
definition says. Schedule files cut at each byte are bad. `rows` gives the rows to tools/rows.

What a changed line comes to is worked out from docs/promises/definitions.md alone. For the launches of groups.py, whose
items' actions are known, any schedule is played here by single events, and whether the state that it leads to shows the
fault is read off the log. For all other scripts only changes are made that no kernel lets through: a fault names the
one next action of an item, or two accesses of kinds that conflict in one way only."""

import os
import random
import re
import runpy

HERE = os.path.dirname(os.path.abspath(__file__))
OTHER_CLASS = {"add": "or", "and": "add", "or": "and", "xor": "add",
               "smin": "umin", "smax": "umax", "umin": "smin", "umax": "smax"}
# an item and a group that no launch has, and a byte that no buffer has
NOBODY, NOWHERE = 4_000_000_000, 2_000_000_000
# changed lines of each launch of groups.py, at most
CHANGES = 6


def answered(title, script, ticket, line, yes, option=""):
    """The row of a schedule file of a ticket and a fault's line."""
    return dict(title=title, text=script, schedule=b"ticket %d\n%b\n" % (ticket, line),
                output="yes\n" if yes else "no\n", status=0 if yes else 1,
                command=f"clsim replay FILE SCHEDULE{option}")


# ---- the faults of other rows


def faults():
    """The scripts of all other rows that run with the default budget, each with its place, with the ticket and the line
    of a fault of its replies, and with the option for its limits."""
    tools = runpy.run_path(os.path.join(HERE, "..", "tools", "rows"))
    for name in sorted(os.listdir(HERE)):
        path = os.path.join(HERE, name)
        if name == os.path.basename(__file__) or not name.endswith((".txt", ".py")):
            continue
        for row in tools["read_text" if name.endswith(".txt") else "read_python"](path):
            command, option = row.command[:14], row.command[14:]
            if command == "clsim run FILE" and option in ("", " --limits profile", " --limits large"):
                for ticket, line in enumerate(row.output.splitlines()):
                    if line.startswith(b"fault "):
                        yield f"{row.place}: {row.title}, command {ticket}", row.text, ticket, line, option


def without_last_event(schedule):
    """A schedule without its last event."""
    *runs, last = schedule.split(" ")
    item, _, count = last.partition("*")
    if count and count != "1":
        runs.append(f"{item}*{int(count) - 1}")
    return " ".join(runs) or "-"


def next_word(word):
    """Another number, or another name."""
    if re.fullmatch("-?[0-9]+", word):
        return int(word) + 1 if int(word) < 2**63 - 1 else int(word) - 1
    return word[:62] + ("y" if word.endswith("x") else "x")


def never(line):
    """Changes of a fault's line with which it can't be shown, each with what is changed."""
    fault, _, schedule = line.decode().partition(" schedule ")
    words = fault.split(" ")
    number, item = words[1], words[4]

    def changed(place, word):
        return " ".join([*words[:place], str(word), *words[place + 1:]]) + f" schedule {schedule}"

    yield "another item", changed(4, NOBODY)
    if number in "12":
        kinds = words[5], words[8]
        sort = [["2", "order"], ["1", "race"]][int(number) - 1]
        yield "the other sort of conflict", " ".join([words[0], *sort, *words[3:]]) + f" schedule {schedule}"
        yield "another byte", changed(len(words) - 1, NOWHERE)
        yield "one item twice", changed(7, item)
        if "load" in kinds:
            yield "two loads", changed(8 if kinds[0] == "load" else 5, "load")
        elif number == "2" and kinds[0] != "fetch":
            yield "two updates of one class", changed(8, kinds[0])
        if schedule != "-":
            yield "without the last event", f"{fault} schedule {without_last_event(schedule)}"
    else:
        yield "one event more", f"{fault} schedule {'' if schedule == '-' else schedule + ' '}{item}*1"
    if number in "45":
        yield "another place", changed(len(words) - 1, next_word(words[-1]))
    if number == "6":
        yield "the other fault of division", f"fault 7 divide_overflow item {item} schedule {schedule}"
    if number == "7":
        yield "the other fault of division", f"fault 6 divide_by_zero item {item} schedule {schedule}"
    if number == "8":
        yield "a division", f"fault 6 divide_by_zero item {item} schedule {schedule}"
    yield "an item that no launch has", f"{fault} schedule {'' if schedule == '-' else schedule + ' '}{NOBODY}*1"
    yield "a group that no launch has", f"{fault} schedule {'' if schedule == '-' else schedule + ' '}r{NOBODY}"


def replayed():
    """Each fault of another row, and what it can't be changed to."""
    for place, script, ticket, line, option in faults():
        yield answered(place, script, ticket, line, True, option)
        for change, other in never(line):
            yield answered(f"{place}: {change}", script, ticket, other.encode(), False, option)


# ---- launches of groups.py, played by single events


class Player:
    """The state of a launch: its memory, what each item has done, and the accesses so far."""

    def __init__(self, groups, uniform, data, items, size):
        self.groups, self.uniform, self.items, self.size = groups, uniform, items, size
        self.buffer = bytearray(data)
        self.locals = [[None] * (4 * size) for _ in range(len(items) // size)]
        self.intervals = [{"buffer": 0, "local": 0} for _ in self.locals]
        self.at = [0] * len(items)
        self.log, self.kept = [], {}

    def next(self, item):
        return self.items[item][self.at[item]] if self.at[item] < len(self.items[item]) else ("end",)

    def found(self, item):
        """The next access of an item: its space's cells, its place, the bytes that it touches; or nothing."""
        kind, *rest = self.next(item)
        if kind in ("end", "barrier", "divide"):
            return None
        group, pointer, element = item // self.size, *rest[:2]
        cells, place = (self.locals[group], f"local {group} t") if pointer == "t" else (self.buffer, "buffer m")
        width = self.groups["width_of"](pointer)
        return kind, cells, place, range(element * width, element * width + width), rest[2:], element

    def play(self, event):
        """Makes an event, if it is possible."""
        if event[0] == "r":
            return self.release(int(event[1:]))
        item = int(event)
        access = self.found(item) if item < len(self.items) else None
        if not access:
            return False
        kind, cells, place, touched, value, _ = access
        if touched[-1] >= len(cells) or (kind != "store" and any(cells[byte] is None for byte in touched)):
            return False
        self.groups["Run"].write(self, item, kind, cells, touched, value)
        group = item // self.size
        left = {byte: cells[byte] for byte in touched}
        interval = self.intervals[group]["local" if place[0] == "l" else "buffer"]
        self.log.append((item, kind, place, left, group, interval))
        self.at[item] += 1
        return True

    def release(self, group):
        """Lets a group go on from a barrier, if all its items wait there."""
        if group >= len(self.locals):
            return False
        members = range(group * self.size, (group + 1) * self.size)
        stops = {self.next(item) for item in members}
        if len(stops) > 1 or self.next(members[0])[0] != "barrier":
            return False
        fences = stops.pop()[2]
        self.intervals[group]["local"] += "local" in fences
        self.intervals[group]["buffer"] += "global" in fences
        for item in members:
            self.at[item] += 1
        return True

    def shows(self, fault):
        """Whether the state shows a fault, given as its line's words behind the number."""
        name, words = fault[0], fault[1:]
        item = int(words[1])
        if item >= len(self.items):
            return False
        if name in ("race", "order"):
            place, byte = " ".join(words[6:-2]), int(words[-1])
            return self.has_conflict(name, item, words[2], int(words[4]), words[5], place, byte)
        if name == "divergence":
            return self.diverges(item, " ".join(words[2:]))
        if name == "divide_by_zero":
            return self.next(item)[0] == "divide"
        access = self.found(item)
        if not access:
            return False
        kind, cells, place, touched, _, element = access
        if kind != words[2] or place != " ".join(words[3:-2]):
            return False
        if name == "bounds":
            return touched[-1] >= len(cells) and element == int(words[-1])
        unset = [byte for byte in touched if byte < len(cells) and cells[byte] is None]
        return kind != "store" and touched[-1] < len(cells) and unset[:1] == [int(words[-1])]

    def has_conflict(self, name, item, kind, other, other_kind, place, byte):
        """Whether the log has two such accesses of different items, which nothing orders."""
        def of(who, what):
            return [access for access in self.log
                    if access[0] == who and access[1] == what and access[2] == place and byte in access[3]]

        def clash(one, two):
            return self.groups["clash"](kind, other_kind, self.uniform and one[3][byte] == two[3][byte])
        return item != other and any(
            clash(one, two) == name and (one[4] != two[4] or one[5] == two[5])
            for one in of(item, kind) for two in of(other, other_kind))

    def diverges(self, item, text):
        """Whether two items of a group stop so."""
        stop, _, rest = text.partition(" item ")
        other, _, other_stop = rest.partition(" ")

        def is_at(who, where):
            action = self.next(who)
            reached = "end" if action[0] == "end" else f"barrier {action[1]}" if action[0] == "barrier" else None
            return where == reached
        return (int(other) < len(self.items) and item // self.size == int(other) // self.size and stop != other_stop
                and is_at(item, stop) and is_at(int(other), other_stop))


def says(groups, uniform, launch, line):
    """Whether a fault's line is true of a launch."""
    fault, _, schedule = line.partition(" schedule ")
    player = Player(groups, uniform, *launch)
    for run in [] if schedule == "-" else schedule.split(" "):
        event, _, count = run.partition("*")
        if not all(player.play(event) for _ in range(int(count or 1))):
            return False
    return player.shows(fault.split(" ")[2:])


def varied(rng, line, items):
    """A line with one word changed by chance, which a schedule file may hold."""
    words = line.split(" ")
    place = rng.randrange(2, len(words))
    word = words[place]
    if re.fullmatch("[0-9]+", word) and words[place - 1] in ("item", "barrier", "byte", "element", "local"):
        words[place] = str(rng.choice([int(word) + 1, max(int(word) - 1, 0), rng.randrange(items)]))
    elif word in ("load", "store") or word in OTHER_CLASS:
        words[place] = rng.choice(["load", "store", *OTHER_CLASS])
    elif re.fullmatch("[0-9]+[*][0-9]+", word):
        item, count = map(int, word.split("*"))
        words[place] = f"{rng.choice([item, rng.randrange(items)])}*{rng.choice([count, count + 1, max(count - 1, 1)])}"
    elif re.fullmatch("r[0-9]+", word):
        words[place] = rng.choice([f"r{rng.randrange(4)}", f"{rng.randrange(items)}*1"])
    elif place > words.index("schedule") or word == "schedule":
        return line
    return " ".join(words)


def shuffled(rng, line):
    """A line with two neighbouring runs of its schedule exchanged."""
    fault, _, schedule = line.partition(" schedule ")
    runs = schedule.split(" ")
    if len(runs) > 1:
        place = rng.randrange(len(runs) - 1)
        runs[place:place + 2] = reversed(runs[place:place + 2])
    return f"{fault} schedule {' '.join(runs)}"


def played():
    """Faults of the launches of groups.py, changed by chance in a word or in the order of two runs, or in several."""
    groups = runpy.run_path(os.path.join(HERE, "groups.py"))
    for seed, uniform in groups["launches"]():
        yield from played_of(groups, seed, uniform)


def played_of(groups, seed, uniform):
    """The same of one seed."""
    row = groups["row"](seed, uniform)
    data, _, items, size, _ = groups["launch_of"](seed, uniform)
    launch, rng, lines = (data, items, size), random.Random(-1 - seed), set()
    for ticket, line in enumerate(row["output"].splitlines()):
        if line.startswith("fault "):
            assert says(groups, uniform, launch, line), (seed, line)
            other = line
            for _ in range(CHANGES):
                other = rng.choice([varied(rng, line, len(items)), varied(rng, other, len(items)), shuffled(rng, line)])
                lines.add(other)
            for other in sorted(lines - {line}):
                yes = says(groups, uniform, launch, other)
                yield answered(f"{row['title']}: {other}", row["text"], ticket, other.encode(), yes)


# ---- files that are cut


CUT = [
    "ticket 4\nfault 1 race item 0 load item 1 store buffer a byte 4 schedule 0*2 1*1\n",
    "ticket 10\nfault 3 divergence item 0 barrier 1 item 1 barrier 0 turns 2,7 schedule r0 0*12\n",
    "ticket 0\nfault 5 unset item 0 private t element -1 schedule -\n",
]


def whole_files():
    """Schedule files with a title and the script that is replayed: those above,
    and those of the rows of worked.txt whose script is one."""
    yield from ((f"schedule file {number}", "buffer a 4\n", text) for number, text in enumerate(CUT))
    tools = runpy.run_path(os.path.join(HERE, "..", "tools", "rows"))
    for row in tools["read_text"](os.path.join(HERE, "worked.txt")):
        if row.schedule is not None and b"bad line" not in row.error:
            yield row.title, row.text, row.schedule


def cut():
    """Schedule files cut at each byte: without its last line feed none says anything."""
    for title, script, text in whole_files():
        for length in range(len(text)):
            yield dict(title=f"{title} cut at byte {length}", text=script, schedule=text[:length], output="",
                       error="clsim: bad schedule file\n", status=2, command="clsim replay FILE SCHEDULE")


def rows():
    yield from replayed()
    yield from played()
    yield from cut()
