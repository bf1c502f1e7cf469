"""Each request for memory refused in turn, and each read and write, for tools/rows:
what `clsim` and the program of direct calls do then.

refuse.c is built and preloaded. It runs a program once for each request that it makes, with that one refused, and tells
what came of each run. Of a program that makes more than MOST requests, a sample is refused.

A script gives each command twice, with the bytes of all buffers read behind it, so that the second has memory. What may
come of a run with one request refused is one of these:
  - what comes of the run with none refused: the program does without that memory;
  - nothing on standard output, and `clsim: out of memory`, or `error: out of memory` of the option reader: the script
    was being read, or the program was starting;
  - `refused 16 OutOfMemory` for one command whose row in docs/use/script.md lists it, and for all others what comes of
    the script without that command: so it has changed nothing, and given again it is answered as if for the first time.
Of a script with a command that takes memory, some run has to come to the last of these: a program that gives up
wherever a request is refused would else pass. `clsim serve` reads the same commands from standard input. There,
`clsim: out of memory` may also end a talk, behind whole replies. A script's first launch and the commands before it
have to be answered as its row says. No run may leave more blocks of memory than the run with none refused."""

import os
import re
import shutil
import subprocess
import tempfile
from collections import Counter
from concurrent.futures import ThreadPoolExecutor
from dataclasses import dataclass

HERE = os.path.dirname(os.path.abspath(__file__))
COMPILER = ["cc", "-std=c11", "-O2", "-Wall", "-Wextra", "-Werror", "-shared", "-fPIC"]
# numbers of workers that scripts are tried with
WORKERS = [1, 2]
# seconds of one run, and of all runs of one command line
LIMIT, LIMIT_OF_ALL = 60, 600
# a program that makes more requests would run as often. Of these the first are refused, each so-many-th, and the last
MOST = 5000
FIRST, STEP, LAST = 300, 3000, 10
# what is shown of a failure, at most
SHOWN = 3

REFUSED = b"refused 16 OutOfMemory"
# what is told where the script is read, or the program starts, and where its command line is read
OUT_OF_MEMORY = b"clsim: out of memory\n"
EARLY = [(b"", text, 2) for text in (OUT_OF_MEMORY, b"error: out of memory\n")]
# commands that may be answered so (docs/use/script.md, "Replies")
GROWING = {b"buffer", b"copy", b"program", b"kernel", b"arg", b"launch", b"read"}

# the program of direct calls, which is the crate of its name, and its calls that take memory
CALLER = "refused_calls"
CALLS = [b"passes lex", b"passes parse", b"passes check", b"passes lower", b"store", b"update", b"fetch", b"list note",
         b"list note of a conflict", b"log note", b"log note of a conflict", b"pages note",
         b"pages note of a conflict", b"launches prepare", b"launches start", b"launches run_group by one_group",
         b"launches merge", b"launches run_launch", b"launches replay", b"launches run_parallel", b"orders launch",
         b"orders launch of a race", b"queue open", b"queue drive_one with memory", b"answer open"]
# the call that takes memory while every request is refused
REFUSABLE = b"queue drive_one where memory may be refused"

HEAD = re.compile(rb"run (\d+) status (-?\d+) asked (\d+) refused (\d+) live (-?\d+) output (\d+) error (\d+)\n")


class NoCompiler(Exception):
    """There is no C compiler, so that nothing can be tried."""


class BadReport(Exception):
    """A program that can't be tried, or of which the library told nothing that can be read."""


def library(folder):
    """refuse.c, built."""
    path = os.path.join(folder, "refuse.so")
    if shutil.which(COMPILER[0]) is None:
        raise NoCompiler(f"there is no C compiler named {COMPILER[0]}")
    built = subprocess.run([*COMPILER, "-o", path, os.path.join(HERE, "refuse.c")], capture_output=True, text=True)
    if built.returncode != 0:
        raise BadReport(f"refuse.c does not build: {built.stderr[:400]}")
    return path


@dataclass
class Run:
    """One run: which request was refused (0: none), and what came."""
    number: int
    status: int
    asked: int
    refused: int
    live: int
    output: bytes
    error: bytes

    def came(self):
        return self.output, self.error, self.status


def runs_of(report):
    """The runs that a report tells."""
    place, found = 0, []
    while place < len(report):
        head = HEAD.match(report, place)
        if not head:
            raise BadReport(f"no run: {report[place:place + 80]!r}")
        number, status, asked, refused, live, output, error = map(int, head.groups())
        middle, place = head.end() + output, head.end() + output + error
        found.append(Run(number, status, asked, refused, live, report[head.end():middle], report[middle:place]))
    return found


def each(library, command, folder, what="memory"):
    """The runs of a command: none refused first, then each request in turn, or a sample of more than MOST. The last
    refuses none, since it makes fewer, and comes to what the first came to: else the series ended before all were
    tried. A command of `clsim serve` reads FILE."""
    report = os.path.join(folder, "REPORT")
    environment = {**os.environ, "LD_PRELOAD": library, "WHAT": what, "REFUSE": "each", "REPORT": report,
                   "SECONDS": str(LIMIT), "MOST": str(MOST), "FIRST": str(FIRST), "STEP": str(STEP), "LAST": str(LAST)}
    try:
        with input_of(command, folder) as read:
            came = subprocess.run(command, cwd=folder, env=environment, stdin=read, capture_output=True,
                                  timeout=LIMIT_OF_ALL)
    except subprocess.TimeoutExpired:
        raise BadReport(f"still running after {LIMIT_OF_ALL} s") from None
    if came.returncode != 0 or not os.path.exists(report):
        raise BadReport(f"status {came.returncode}: {came.stderr[:200]!r}")
    with open(report, "rb") as file:
        runs = runs_of(file.read())
    os.remove(report)
    if len(runs) < 2 or runs[0].refused or runs[-1].refused or any(run.refused != 1 for run in runs[1:-1]):
        raise BadReport(f"{len(runs)} runs, of which not each but the first and the last refused one request")
    if runs[-1].came() != runs[0].came():
        raise BadReport(f"run {runs[-1].number}, with none refused, came to {runs[-1].came()!r}"[:600])
    return runs


def input_of(command, folder):
    """What a command reads from standard input: FILE, where it serves, else nothing."""
    return open(os.path.join(folder, "FILE") if command[1:2] == ["serve"] else os.devnull, "rb")


def is_told(run, whole, error):
    """Whether a run ended with this line behind whole replies, with which the whole one begins."""
    return ((run.error, run.status) == (error, 2) and whole.output.startswith(run.output)
            and run.output[-1:] in (b"", b"\n"))


def left(whole, run, workers=1):
    """What is to say of blocks of memory that a run leaves and the whole one doesn't:
    the C library keeps one for each thread that has ended."""
    more = run.live - max(whole.live, workers - 1)
    return [f"request {run.number}: {more} blocks are left that the whole run gives back"] if more > 0 else []


# ---- scripts

@dataclass
class Piece:
    """A command of a script with each command twice: its lines, and the reply that the row gives it,
    where the row decides it."""
    text: bytes
    wanted: bytes = None

    def name(self):
        return self.text.split(b" ")[0].rstrip(b"\n")


def commands_of(script):
    """The version line of a script, or nothing, and its commands, each with the lines of its source."""
    lines = script.splitlines(keepends=True)
    head = lines.pop(0) if lines[:1] in ([b"clsim 2\n"], [b"clsim 3\n"]) else b""
    found = []
    while lines:
        count = int(lines[0].split(b" ")[2]) if lines[0].startswith(b"program ") else 0
        found.append(b"".join(lines[:count + 1]))
        del lines[:count + 1]
    return head, found


def twice(row):
    """The version line of a row's script, and its commands, each twice, with all buffers read behind."""
    head, commands = commands_of(row.text)
    replies = row.output.splitlines()
    reads, pieces, decided = [], [], True
    for command, reply in zip(commands, replies):
        words = command.split()
        if words[0] == b"buffer" and reply == b"ok":
            reads.append(Piece(b"read %b 0 %b\n" % (words[1], words[2])))
        pieces += [Piece(command, reply if decided else None), *reads, Piece(command), *reads]
        decided = decided and words[0] != b"launch"
    return head, pieces


def status_of(replies):
    """The status of a run with these replies."""
    if any(reply.startswith(b"refused") for reply in replies):
        return 2
    return 1 if any(reply.startswith(b"fault") for reply in replies) else 0


class Script:
    """A row's script with each command twice, run or served with some number of workers."""

    def __init__(self, row, workers, command, library, folder):
        self.head, self.pieces, self.workers = *twice(row), workers
        self.command = [*command, "--workers", str(workers)]
        self.library, self.folder = library, folder
        self.without = {}

    def written(self, left_out=None):
        """Writes the file of the script, without one of its commands."""
        with open(os.path.join(self.folder, "FILE"), "wb") as file:
            texts = (piece.text for number, piece in enumerate(self.pieces) if number != left_out)
            file.write(self.head + b"".join(texts))

    def replies_without(self, number):
        """The replies of a run with memory, of the script without one command."""
        if number not in self.without:
            self.written(number)
            with input_of(self.command, self.folder) as read:
                came = subprocess.run(self.command, cwd=self.folder, stdin=read, capture_output=True, timeout=LIMIT)
            self.without[number] = came.stdout.splitlines()
        return self.without[number]

    def wrong_whole(self, whole):
        """What is wrong with the run with none refused, or nothing."""
        replies = whole.output.splitlines()
        if len(replies) != len(self.pieces) or whole.error or whole.status != status_of(replies):
            return f"with memory: {whole.came()!r}"
        for piece, reply in zip(self.pieces, replies):
            if piece.wanted not in (None, reply):
                return f"with memory: {piece.text!r} is answered {reply!r}, and not {piece.wanted!r}"
        return None

    def wrong(self, whole, run):
        """What is wrong with a run of which not all is as in the whole one, and what didn't end early; or nothing."""
        replies, wanted = run.output.splitlines(), whole.output.splitlines()
        if run.error or run.status != 2 or len(replies) != len(wanted):
            return repr(run.came())[:600]
        number = next(place for place, (reply, other) in enumerate(zip(replies, wanted)) if reply != other)
        piece = self.pieces[number]
        if replies[number] != REFUSED or piece.name() not in GROWING:
            return f"{piece.text!r} is answered {replies[number]!r}, and not {wanted[number]!r}"
        if replies[:number] + replies[number + 1:] != self.replies_without(number):
            return f"{piece.text!r} is refused, and behind it come {replies[number + 1:]!r}"
        return None

    def ends(self, run, whole):
        """Whether a run ends where it should for want of memory: at its start, or, where the script is served,
        behind any reply."""
        return run.came() in EARLY or self.command[1] == "serve" and is_told(run, whole, OUT_OF_MEMORY)

    def judged(self):
        """How many requests it makes, what came of each run, counted, and what is wrong."""
        self.written()
        whole, *runs = each(self.library, self.command, self.folder)
        counts, said = Counter(), [self.wrong_whole(whole)]
        if said[0]:
            return whole.asked, counts, said
        said, in_commands = [], False
        for run in runs[:-1]:
            early = self.ends(run, whole)
            counts["told" if early else "done without" if run.came() == whole.came() else "answered 16"] += 1
            if early and in_commands and self.command[1] != "serve":
                said.append(f"request {run.number}: out of memory is told, where commands were answered before")
            elif not early and run.came() != whole.came():
                in_commands = True
                wrong = self.wrong(whole, run)
                said += [f"request {run.number}: {wrong}"] if wrong else []
            said += left(whole, run, self.workers)
        if not counts["answered 16"] and any(piece.name() in GROWING for piece in self.pieces):
            said.append("commands take memory, and no run answers one by refusal 16: each gives up as a whole")
        return whole.asked, counts, said


def judged_line(command, row, library, folder):
    """The same of a command that writes one text or none: the row's outcome, or out of memory with nothing written."""
    written(row, folder)
    whole, *runs = each(library, command, folder)
    if whole.came() != (row.output, row.error, row.status):
        return whole.asked, Counter(), [f"with memory: {whole.came()!r}"]
    counts, said = Counter(), []
    for run in runs[:-1]:
        counts["told" if run.came() in EARLY else "done without"] += 1
        if run.came() not in [*EARLY, whole.came()]:
            said.append(f"request {run.number}: {run.came()!r}")
        said += left(whole, run)
    return whole.asked, counts, said


# ---- reads and writes

def written(row, folder):
    """Writes the files of a row."""
    for name, text in (("FILE", row.text), ("SCHEDULE", row.schedule)):
        if text is not None:
            with open(os.path.join(folder, name), "wb") as file:
                file.write(text)


UNREAD_INPUT = b"clsim: cannot read standard input\n"


def judged_reads(command, row, library, folder):
    """What came of the runs in which a read fails: that a file can't be read, with nothing written, or standard input,
    behind whole replies."""
    written(row, folder)
    whole, *runs = each(library, command, folder, "reads")
    wanted = [(b"", b"clsim: cannot read %b\n" % name, 2) for name in (b"FILE", b"SCHEDULE")]
    said = [] if whole.came() == (row.output, row.error, row.status) else [f"by pieces: {whole.came()!r}"]
    wrong = [run for run in runs[:-1] if run.came() not in wanted and not is_told(run, whole, UNREAD_INPUT)]
    said += [f"read {run.number}: {run.came()!r}" for run in wrong]
    return whole.asked, Counter({"reads": len(runs) - 1}), said


def is_cut(run, whole):
    """Whether a run told that it couldn't write, and wrote a beginning of what the whole one writes. (What is held back
    when the program ends is written then, so that it may be all.)"""
    return run.error == b"clsim: cannot write\n" and run.status == 2 and whole.output.startswith(run.output)


def judged_writes(command, row, library, folder):
    """What came of the runs in which a write of the replies fails: that they couldn't be written,
    with a beginning of them written."""
    written(row, folder)
    whole, *runs = each(library, command, folder, "writes")
    said = [] if whole.came() == (row.output, row.error, row.status) else [f"by pieces: {whole.came()!r}"]
    said += [f"write {run.number}: {run.came()!r}" for run in runs[:-1] if not is_cut(run, whole)]
    return whole.asked, Counter({"writes": len(runs) - 1}), said


# ---- direct calls

def by_section(lines):
    """Lines by their first words, in order."""
    found = {}
    for line in lines:
        found.setdefault(line.split(b" ")[0].rstrip(b":"), []).append(line)
    return found


def is_made_again(lines, wanted):
    """Whether lines are wanted ones up to a call, then one that says that it was refused, and then the wanted ones from
    that call on, or from one before it."""
    place = next((place for place, line in enumerate(lines) if line not in wanted), len(lines))
    if lines[:place] != wanted[:place] or not b"".join(lines[place:place + 1]).endswith(b": out of memory"):
        return False
    rest = lines[place + 1:]
    return len(wanted) - place <= len(rest) <= len(wanted) and rest == wanted[len(wanted) - len(rest):]


def wrong_call(whole, run):
    """What is wrong with the lines of one run of the direct calls in which a request was refused, or nothing: one call
    answered so, or what it needs couldn't be made. Then it was made again, and all lines came."""
    said = set(run.error.splitlines()) <= set(whole.error.splitlines())
    wanted, came = by_section(whole.output.splitlines()), by_section(run.output.splitlines())
    other = [section for section in {**wanted, **came} if came.get(section) != wanted.get(section)]
    if run.status != whole.status or not said:
        return repr(run.came())[:600]
    if len(other) != 1 or other[0] not in wanted or other[0] not in came:
        return f"calls of {other!r} came to something else"
    if not is_made_again(came[other[0]], wanted[other[0]]):
        return f"{other[0]!r} came to {came[other[0]]!r}"
    return None


def judged_calls(command, output, library, folder):
    """What came of the runs of the program of direct calls, and what is wrong. With no request refused its lines are
    those of its own crate, but for the call that takes memory while every request is refused. Each of CALLS has to be
    met by a refusal in some run."""
    whole, *runs = each(library, command, folder)
    wanted = output.replace(REFUSABLE + b": done\n", REFUSABLE + b": out of memory\n")
    if (whole.output, whole.status) != (wanted, 0):
        return whole.asked, Counter(), [f"with memory: {whole.came()!r}"]
    counts, said, met = Counter(), [], set()
    for run in runs[:-1]:
        met.update(line.removesuffix(b": out of memory") for line in run.output.splitlines()
                   if line.endswith(b": out of memory"))
        counts["done without" if run.output == whole.output else "answered by a call"] += 1
        wrong = wrong_call(whole, run) if run.output != whole.output else None
        said += [f"request {run.number}: {wrong}"] if wrong else []
        said += left(whole, run)
    missing = [call.decode() for call in CALLS if call not in met]
    return whole.asked, counts, said + ([f"never met want of memory: {', '.join(missing)}"] if missing else [])


# ---- all of them

@dataclass
class Task:
    """What is tried: a title, and a function that gives how many requests it makes, what came of those that were
    refused, and what is wrong."""
    title: str
    judged: object


@dataclass
class Outcome:
    """What came of all: how many tasks passed, what is to say of the others, those of which a sample was refused,
    and how many requests were."""
    passed: int
    failed: list
    sampled: list
    refused: Counter

    def line(self):
        parts = ", ".join(f"{count:,} {name}" for name, count in sorted(self.refused.items()))
        return f"requests refused: {self.refused.total():,} ({parts}) " \
               f"of {self.passed + len(self.failed)} command lines; " \
               f"a sample of those that make more than {MOST:,}: {'; '.join(self.sampled) or 'none'}"


def tasks(rows, program, library):
    """What is tried of rows: scripts with a launch with some number of workers each, run and served, texts that are
    checked, replayed or explained, and all of them with reads and writes that fail."""
    for row in rows:
        words = [program, *row.command.split()[1:]]
        yield from ends(row, words, library)
        if not row.command.startswith("clsim run FILE"):
            yield task(row, "a request is refused", judged_line, words, library)
            continue
        served = [program, "serve", *words[3:]]
        if not row.error:
            yield from ends(row, served, library)
        if re.search(rb"^launch ", row.text, flags=re.M):
            for command, workers in [*((words, number) for number in WORKERS), (served, 1)]:
                yield Task(f"{row.place}: {row.title} (a request is refused, {command[1]}, workers {workers})",
                           lambda folder, row=row, workers=workers, command=command:
                               Script(row, workers, command, library, folder).judged())


def task(row, what, judge, words, library):
    """A command line on a row's files, judged in some way."""
    return Task(f"{row.place}: {row.title} ({what}, {words[1]})", lambda folder: judge(words, row, library, folder))


def ends(row, words, library):
    """A command line on a row's files with reads and with writes that fail."""
    yield task(row, "a read fails", judged_reads, words, library)
    yield task(row, "a write fails", judged_writes, words, library)


def task_of_calls(crates, library):
    """The program of direct calls, whose output stands in its crate."""
    program = os.path.join(crates, CALLER, "out", CALLER)
    if not os.path.isfile(program) or not os.access(program, os.X_OK):
        raise BadReport(f"no program: {program}")
    with open(os.path.join(crates, CALLER, "stdout"), "rb") as file:
        output = file.read()
    return Task(CALLER, lambda folder: judged_calls([program], output, library, folder))


def done(task, place):
    """A task's title, and what came of it in a folder of its own."""
    folder = tempfile.mkdtemp(dir=place)
    try:
        return task.title, *task.judged(folder)
    except BadReport as fault:
        return task.title, 0, Counter(), [str(fault)]
    finally:
        shutil.rmtree(folder)


def said_of(title, said):
    more = [f"  .. and {len(said) - SHOWN} more"] if len(said) > SHOWN else []
    return "\n".join([f"FAILED {title}", *(f"  {it}" for it in said[:SHOWN]), *more])


def tried(rows, program, crates):
    """Tries the rows and the direct calls. Raises NoCompiler where none can be tried."""
    outcome = Outcome(0, [], [], Counter())
    with tempfile.TemporaryDirectory() as place, ThreadPoolExecutor(os.cpu_count()) as pool:
        built = library(place)
        todo = [task_of_calls(crates, built), *tasks(rows, program, built)]
        for title, asked, counts, said in pool.map(lambda task: done(task, place), todo):
            outcome.refused += counts
            if asked > MOST:
                outcome.sampled.append(f"{title}: {counts.total():,} of {asked:,}")
            if said:
                outcome.failed.append(said_of(title, said))
            else:
                outcome.passed += 1
    return outcome
