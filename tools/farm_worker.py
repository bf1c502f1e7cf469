#!/usr/bin/env python3
"""Judges scripts one after another in the folder of a farm's results, as an engine of tools/farm calls it.

    farm_worker.py judge|queue|chunk FOLDER TEXTS SECONDS MEMORY WORKERS BUDGET LIMITS WIDEN [WORD..]

`judge` judges the scripts that the words name, each as KEY:AT:SIZE: its key, and where its text lies in the file TEXTS.
`queue JOBS` judges those that the lines of standard input name, by so many workers, which share the file and each take
the next line; all hold file 3 open, so that who started them sees when they have ended. `chunk` judges those of chunks,
which hold their texts. The result of each script is a line of JSON, in a file of this worker's own; one of `chunk` is
there whole or not at all. SECONDS and MEMORY (MB, 0 for no limit) are of each script, the others the options of the
program (BUDGET is - for its own); with WIDEN, `widen` and not -, it also asks for which bytes the replies hold.

A small script takes a millisecond. So the worker has bin/farm_run run the scripts where that is there and can be
started (tools/farming/run.c), and sees to what isn't clean. Without it, and where it ends before its time, the worker
does all: it loads few modules, starts programs without copying itself, with words and files that are the same for all
scripts, and makes no file for a script. SIGINT, SIGTERM and SIGHUP end it and the program that it runs, and so does the
end of what started it; the script that was running then has no result. Status 0, 130 where it was ended so, or 2 with a
line on standard error.
"""
import os
import resource
import signal
import sys
import time

PASSED, ORDERED, FAULTY = "clean", "ordered", "fault"
# How often it is looked how a program does, how long one has run when it is looked at first, and how often a worker is
# woken else: rarely, as a wake takes a part of what a small script does, and a busy machine has many to a script.
LOOK, FIRST_LOOK, REST = 0.05, 0.02, 1.0
# The bytes of a line of a queue, which has the words of up to so many scripts, and the number of the pipe that is held.
WIDE_LINE, GROUP, HELD = 896, 16, 3
# How long results wait for others that are written with them; where a script takes longer, they don't wait for it.
WAIT = 0.02
# How many bytes of the outputs are read at a time and are kept, from how many on a text adds to a worker's memory, and
# how many of a line count.
READ, MOST_KEPT, LONG, MOST_OF_LINE = 1 << 12, 1 << 20, 1 << 16, 4000
# How far the system's two counts of a worker's memory may be apart, in KB.
SLACK = 1024
# The program that runs scripts for a worker.
RUNNER = "./bin/farm_run"
# This machine, as names of files and texts of JSON have it.
HOST = "".join(it if it.isalnum() or it in "-." else "_" for it in os.uname().nodename)


def code_of_json():
    """The module json, which takes as long to load as some scripts take, and which clean scripts don't need."""
    import json  # pylint: disable=import-outside-toplevel
    return json


# The line of a clean script of which nothing is said: what most are, as JSON has it without the code for that.
CLEAN = (f'{{"key": "%s", "verdict": "{PASSED}", "status": 0, "line": "", "script_line": null, "seconds": %.3f, '
         f'"mb": %.1f, "mb_at_most": %s, "host": "{HOST}", "explanation": null}}\n')


class Results:
    """The file of a worker's results, a line of JSON each. A line that isn't whole counts as none.

    Results of small scripts are written together, after some milliseconds: so what is loaded for that is loaded once.
    """

    def __init__(self, path):
        self.path, self.file, self.waiting, self.since = path, None, [], 0.0

    def add(self, result):
        """Adds a result: its line, or what CLEAN tells of a clean script."""
        now = time.monotonic()
        if not self.waiting:
            self.since = now
        self.waiting.append(result)
        if now - self.since > WAIT:
            self.write()

    def write(self):
        """Writes the results that wait, so that they stay where the worker ends."""
        left = "".join([it if isinstance(it, str) else CLEAN % it for it in self.waiting]).encode()
        # (what couldn't be written whole isn't written again behind its own beginning)
        self.waiting.clear()
        if self.file is None and left:
            self.file = os.open(self.path, os.O_WRONLY | os.O_CREAT | os.O_APPEND, 0o644)
        while left:
            left = left[os.write(self.file, left) :]


class Options:
    """What the engine asks for."""

    def __init__(self, words):
        self.seconds, self.memory, self.workers = (int(it) for it in words[:3])
        budget, limits, widen = words[3:6]
        self.limits = [] if limits == "profile" else ["--limits", limits]
        self.device = ([] if budget == "-" else ["--budget", budget]) + self.limits
        self.running = ["--workers", str(self.workers), *self.device]
        self.widens = widen == "widen"


def peak_of(number):
    """The most memory that a running process has had, in KB."""
    with open(f"/proc/{number}/status", "rb") as file:
        words = file.read().split()
    return int(words[words.index(b"VmHWM:") + 1])


class Run:
    """What came of a run of the program: its status, negative for a signal or None for too long, its seconds, its most
    memory in MB, and whether it took no more than that, or just that."""

    def __init__(self, status, seconds, memory, is_at_most):
        self.status, self.seconds, self.memory, self.is_at_most = status, seconds, memory, is_at_most


class Program:
    """Runs the program on the script that is judged, and looks at its memory meanwhile.

    The script is in a file of memory, and so are the two outputs, which are used again for each. The program inherits
    the outputs and an empty standard input from the worker, so that a start has nothing to do but to start."""

    def __init__(self, options, parent, others):
        self.options, self.parent, self.others = options, parent, others
        self.number, self.begun, self.late, self.peak, self.is_over = 0, 0.0, False, 0, False
        # (what is done meanwhile, where a program takes long)
        self.meanwhile = lambda: None
        self.most_used = 0.0
        self.script, self.size = os.memfd_create("script"), 0
        self.path, self.text = f"/proc/{os.getpid()}/fd/{self.script}", b""
        self.judging = ["./bin/clsim", "run", self.path, *options.running]
        sys.stderr = os.fdopen(os.dup(2), "w", buffering=1)
        self.put_file(os.open("/dev/null", os.O_RDONLY), 0)
        self.begins, self.environment = {}, dict(os.environb)
        self.renew_outputs()
        self.how = {"setpgroup": 0, "setsigdef": sorted(int(it) for it in signal.valid_signals())}
        self.note_memory()
        resource.setrlimit(resource.RLIMIT_CORE, (0, 0))
        self.limit_processor()
        self.heed_signals()

    def put_file(self, file, number):
        """Gives an open file this number, which programs inherit."""
        os.dup2(file, number)
        os.close(file)

    def renew_outputs(self):
        """Has programs that are started from now on write to outputs that no other one has."""
        for number, name in ((1, "said"), (2, "told")):
            self.put_file(os.memfd_create(name), number)
            self.begins[number] = 0

    def heed_signals(self):
        """From now on looks at the program that runs, and stops where a signal says so."""
        signal.signal(signal.SIGALRM, self.look)
        signal.setitimer(signal.ITIMER_REAL, REST, REST)
        for number in (signal.SIGINT, signal.SIGTERM, signal.SIGHUP):
            # (what is ignored, as of a farm behind nohup, stays so)
            if signal.getsignal(number) != signal.SIG_IGN:
                signal.signal(number, self.stop)

    def look(self, *_):
        """Looks at the memory of the program, and ends it where it is too late, or where nobody waits for it."""
        if os.getppid() != self.parent:
            self.stop()
        if time.process_time() > self.most_used:
            self.limit_processor()
        passed = time.monotonic() - self.begun
        if not self.number or self.is_over:
            return
        try:
            if passed >= self.options.seconds:
                os.killpg(self.number, signal.SIGKILL)
                self.late = True
                return
            self.peak = peak_of(self.number)
            self.meanwhile()
        except (OSError, ValueError):
            # (it has just ended; or the disk is full, which the next result says)
            pass

    def stop(self, *_):
        """Ends the program where it runs, begins no other one, and has the workers end that this one started."""
        self.is_over = True
        for number in ([-self.number] if self.number else []) + self.others:
            try:
                os.kill(number, signal.SIGKILL if number < 0 else signal.SIGTERM)
            except ProcessLookupError:
                pass

    def limit_processor(self):
        """Limits the processor seconds of programs that are started from now on. (The worker ends a program that is
        late; where it was killed itself, the system does. A program has the limit from the worker, of which it is
        raised a second before it is reached.)"""
        self.most_used = time.process_time() + 1
        most = int(self.most_used) + (self.options.seconds + 1) * (self.options.workers + 1)
        hard = resource.getrlimit(resource.RLIMIT_CPU)[1]
        resource.setrlimit(resource.RLIMIT_CPU, (most if hard == resource.RLIM_INFINITY else min(most, hard), hard))

    def note_memory(self):
        """Notes the most memory of the worker itself, from which on the system counts that of a program."""
        self.own = peak_of("self") + SLACK

    def take(self, text):
        """Takes a text as that of the script that is judged."""
        left, at = text, 0
        while left:
            written = os.pwrite(self.script, left, at)
            left, at = left[written:], at + written
        if len(text) != self.size:
            os.ftruncate(self.script, len(text))
        self.text, self.size = text, len(text)

    def spawn(self, words):
        """Starts the program in a group of its own, with its limit of memory: its number."""
        limit, number = self.options.memory << 20, None
        if not limit:
            return os.posix_spawn(words[0], words, self.environment, **self.how)
        before = resource.getrlimit(resource.RLIMIT_AS)
        resource.setrlimit(resource.RLIMIT_AS, (limit, before[1]))
        try:
            number = os.posix_spawn(words[0], words, self.environment, **self.how)
        except (OSError, MemoryError):
            # (the worker itself has more than the limit: the program gets it once it runs)
            pass
        finally:
            resource.setrlimit(resource.RLIMIT_AS, before)
        number = number or os.posix_spawn(words[0], words, self.environment, **self.how)
        try:
            resource.prlimit(number, resource.RLIMIT_AS, (limit, limit))
        except ProcessLookupError:
            # (it has ended)
            pass
        return number

    def run(self, words):
        """Runs the program with these words. What it says then stands behind what was said before."""
        self.late, self.peak = False, 0
        self.begun = time.monotonic()
        signal.setitimer(signal.ITIMER_REAL, FIRST_LOOK, LOOK)
        self.number = self.spawn(words)
        if self.is_over:
            self.stop()
        # (until it is waited for, no other group has its number: what it left running ends with it)
        os.waitid(os.P_PID, self.number, os.WEXITED | os.WNOWAIT)
        os.killpg(self.number, signal.SIGKILL)
        number, self.number = self.number, 0
        _, ended, used = os.wait4(number, 0)
        signal.setitimer(signal.ITIMER_REAL, REST, REST)
        passed = time.monotonic() - self.begun
        # (what the system notes begins with the memory of the one who started it)
        is_small = used.ru_maxrss <= self.own
        memory = used.ru_maxrss if not is_small else self.peak or self.own - SLACK
        status = None if self.late else os.waitstatus_to_exitcode(ended)
        return Run(status, passed, memory / 1024, is_small and not self.peak)

    def call(self, form, *options):
        """Runs another form of the program on the script: the status of its run, and what it says."""
        ran = self.run(["./bin/clsim", form, self.path, *options])
        said, _ = self.said(1), self.said(2)
        return ran.status, said.decode(errors="replace")

    def said(self, output):
        """What the program has written on an output since the last time."""
        begin = self.begins[output]
        parts = [os.pread(output, READ, begin)]
        while len(parts[-1]) == READ:
            parts.append(os.pread(output, READ, begin + READ * len(parts)))
        text = b"".join(parts)
        self.begins[output] = begin + len(text)
        self.drop_said()
        return text

    def said_to(self, output, end):
        """What is written on an output since the last time up to an end."""
        begin, self.begins[output] = self.begins[output], end
        return bytes_at(output, begin, end - begin) if end > begin else b""

    def drop_said(self):
        """Empties outputs of which much was written."""
        for output, begin in self.begins.items():
            if begin >= MOST_KEPT:
                os.ftruncate(output, 0)
                self.begins[output] = os.lseek(output, 0, os.SEEK_SET)


class Runner:
    """Runs groups of scripts by bin/farm_run, which inherits the worker's files. Once it has ended it runs none."""

    def __init__(self, program, texts):
        self.program, self.left, self.lines, self.own = program, b"", [], None
        (groups, self.asking), (self.answers, answers) = os.pipe(), os.pipe()
        try:
            self.number = self.started((groups, answers, texts, program.script))
        except OSError:
            self.end()
            os.close(self.answers)
            raise
        finally:
            os.close(groups)
            os.close(answers)
        program.others.append(self.number)
        if program.is_over:
            program.stop()

    def started(self, files):
        """Starts it with these files: its number."""
        options = self.program.options
        words = [RUNNER, *map(str, files), str(options.seconds), str((options.seconds + 1) * (options.workers + 1)),
                 str(options.memory << 20), *self.program.judging]
        for file in files:
            os.set_inheritable(file, True)
        try:
            return os.posix_spawn(RUNNER, words, self.program.environment,
                                  setsigdef=[signal.SIGPIPE, signal.SIGXFSZ, signal.SIGXCPU])
        finally:
            for file in files:
                os.set_inheritable(file, False)

    def line(self):
        """The next line that is answered, None where it has ended."""
        while not self.lines:
            self.program.meanwhile()
            more = os.read(self.answers, READ)
            if not more:
                return None
            *self.lines, self.left = (self.left + more).split(b"\n")
            self.lines.reverse()
        return self.lines.pop().split()

    def ask(self, places):
        """Tells it a group of scripts, by their places."""
        left = b"".join([b"%d:%d " % (at, size) for _, at, size in places]) + b"\n"
        try:
            while left:
                left = left[os.write(self.asking, left) :]
        except BrokenPipeError:
            # (its end is read)
            pass

    def run(self, places):
        """Runs the program on the scripts at these places: what came of each, and what it said on both outputs, as far
        as the runner goes on."""
        program, at = self.program, 0
        program.size = -1
        self.ask(places)
        while at < len(places):
            line = self.line()
            if line is None:
                # (its program may still write for a moment)
                program.renew_outputs()
                return
            if line[0] == b"error":
                raise OSError(int(line[1]), os.strerror(int(line[1])), program.judging[0])
            if line[0] == b"full":
                program.drop_said()
                self.ask(places[at:])
                continue
            status, took, memory, said, told = map(int, line)
            status = None if status < 0 else os.waitstatus_to_exitcode(status)
            at += 1
            if self.own is None:
                self.note_memory()
            yield (Run(status, took / 1e9, memory / 1024, memory <= self.own), program.said_to(1, said),
                   program.said_to(2, told))
        program.drop_said()

    def note_memory(self):
        """Notes the most memory of the runner itself once it has run a script, from which on the system counts that of
        a program."""
        try:
            self.own = peak_of(self.number) + SLACK // 2
        except (OSError, ValueError):
            # (it has ended)
            self.own = 0

    def end(self):
        """Has the runner end."""
        os.close(self.asking)


def verdict_of(status, lines):
    """The verdict on a script, by the status of its run and its replies."""
    if status is None:
        return "timeout"
    if status < 0:
        return "killed"
    if status == 0:
        return ORDERED if ORDERED in lines else PASSED
    if status == 1 and any(line.startswith("fault ") for line in lines):
        return FAULTY
    if status == 2:
        return "refused" if any(line.startswith("refused ") for line in lines) else "bad"
    return "crashed"


def explanation_of(program, verdict, shown):
    """What `clsim explain` says of the line that is shown of a script with a fault or a refusal; None where that is
    another one, as of want of memory, and where it says nothing."""
    status, text = program.call("explain", "--format", "json", *program.options.device)
    try:
        explanation = code_of_json().loads(text) if status == 0 else None
        is_refusal = (explanation or {}).get("kind") == "refusal"
        # (of a script that has a fault before it, the explanation is that of the fault)
        is_of_it = not is_refusal or number_of(explanation) == shown.split(" ")[1]
        return explanation if is_of_it and is_refusal == (verdict != FAULTY) else None
    except (AttributeError, LookupError, TypeError, ValueError):
        return None


def number_of(refusal):
    """The number of a refusal that is explained, as its reply has it: that of a source that doesn't build is 10."""
    return str(refusal["fault"]["number"]) if refusal["fault"]["kind"] == "command" else "10"


def commands_of(text):
    """The number of the line of each command of a script, also of one that is written by hand."""
    lines, number = text.split("\n"), 1
    by_hand = lines[0].split("#")[0].split() == ["clsim", "3"]
    if by_hand or lines[0] == "clsim 2":
        number = 2
    while number <= len(lines):
        line = lines[number - 1]
        words = line.split("#")[0].split() if by_hand else line.split(" ")
        if words or not by_hand:
            yield number
        number += 1
        if words[:1] == ["program"] and words[2:3]:
            if words[2].isdecimal():
                number += int(words[2])
            elif words[2] == "until":
                ends = (at for at in range(number, len(lines) + 1) if lines[at - 1].split() == words[3:])
                number = next(ends, len(lines)) + 1


def line_of(program, lines, told, shown):
    """The line of the script whose command got the reply that is shown, or that is a bad line; None of others."""
    words = told.split(": ")
    if words[0] == "clsim" and words[1:2] and words[1].startswith("line ") and words[1][5:].isdigit():
        return int(words[1][5:])
    if shown not in lines:
        return None
    numbers = commands_of(program.text.decode("latin-1"))
    return next((number for at, number in enumerate(numbers) if at == lines.index(shown)), None)


def is_as_written(program):
    """Whether a script is its own plain text, whose lines explanations and what is widened tell."""
    text = program.text.decode("latin-1")
    if text.split("\n")[0].split("#")[0].split() != ["clsim", "3"]:
        return True
    status, plain = program.call("plain")
    return status == 0 and plain.encode() == program.text


def widened(program, status):
    """For which bytes of its writes and fills a script has its replies, by `clsim widen`: the lines of these, and this
    in words; None where it doesn't say, and of a script by hand."""
    if not is_as_written(program):
        return None
    ended, text = program.call("widen", "--format", "json", *program.options.limits)
    try:
        told = code_of_json().loads(text)["script"] if ended == status else None
        return told and {"free": told["free"], "text": told["text"]}
    except (KeyError, TypeError, ValueError):
        return None


def is_clean(program, ran, said, told):
    """Whether a script is clean with nothing said of it, and nothing more is asked."""
    return ran.status == 0 and not told and b"\nordered\n" not in said and not program.options.widens


def clean(key, ran):
    """The result of a clean script, as CLEAN tells it."""
    return key, ran.seconds, ran.memory, "true" if ran.is_at_most else "false"


def looked_at(program, key, ran, said, told):
    """The line of the result of a script that was taken and run."""
    found = found_of(program, ran, said.decode(errors="replace"), told.decode(errors="replace"))
    line = code_of_json().dumps({"key": key, **found}) + "\n"
    program.note_memory()
    return line


def judge(program, key, text):
    """Judges a script: its result, as a line or as what CLEAN tells."""
    program.take(text)
    ran = program.run(program.judging)
    said, told = program.said(1), program.said(2)
    if len(text) + len(said) > LONG:
        program.note_memory()
    if is_clean(program, ran, said, told):
        return clean(key, ran)
    return looked_at(program, key, ran, said, told)


def found_of(program, ran, said, told):
    """What is found of the script that was run: its verdict, its first line of interest, and what explains this."""
    lines = said.split("\n")
    verdict = verdict_of(ran.status, lines)
    shown, line, explanation = told.strip().split("\n")[0], None, None
    if verdict == ORDERED:
        shown, line = ORDERED, line_of(program, lines, "", ORDERED)
    elif verdict in (FAULTY, "refused", "bad"):
        first = shown
        shown = next((it for it in lines if it.startswith(f"{verdict} ")), first)
        line = line_of(program, lines, first, shown)
        if shown in lines and is_as_written(program):
            explanation = explanation_of(program, verdict, shown)
    found = {"verdict": verdict, "status": ran.status, "line": shown[:2000], "script_line": line,
             "seconds": round(ran.seconds, 3), "mb": round(ran.memory, 1), "mb_at_most": ran.is_at_most, "host": HOST,
             "explanation": explanation}
    if program.options.widens and verdict in (PASSED, ORDERED, FAULTY, "refused"):
        found["widened"] = widened(program, ran.status)
    return found


def judge_groups(program, results, texts, groups):
    """Judges groups of scripts, and adds their results, as long as nothing ends the worker."""
    file = os.open(texts, os.O_RDONLY)
    runner = runner_of(program, file)
    try:
        for group in groups:
            left = [(key, int(at), int(size)) for key, at, size in (word.split(":") for word in group)]
            if runner:
                left = left[judge_by(runner, results, file, left) :]
            judge_group(program, results, file, left)
            results.write()
            if program.is_over:
                return
    finally:
        if runner:
            runner.end()
        results.write()


def runner_of(program, texts):
    """What runs groups of scripts, None where it isn't there or is of another machine."""
    try:
        return Runner(program, texts) if os.access(RUNNER, os.X_OK) else None
    except OSError:
        return None


def judge_by(runner, results, file, places):
    """Judges a group of scripts by the runner, then looks at those that aren't clean: how many it has run."""
    program, count, others = runner.program, 0, []
    for (ran, said, told), (key, at, size) in zip(runner.run(places), places):
        count += 1
        if is_clean(program, ran, said, told):
            results.add(clean(key, ran))
        else:
            others.append((key, at, size, ran, cut(said), cut(told)))
    for key, at, size, ran, said, told in others:
        if not program.is_over:
            program.take(text_at(file, at, size))
            line = looked_at(program, key, ran, said, told)
        if program.is_over:
            break
        results.add(line)
    return count


def cut(said):
    """What was said, with the begin of each line: data may be long, and a group's are kept until all have run."""
    return b"\n".join([line[:MOST_OF_LINE] for line in said.split(b"\n")]) if len(said) > LONG else said


def judge_group(program, results, file, places):
    """Judges a group of scripts."""
    for (key, _, _), text in zip(places, texts_at(file, places) if places else ()):
        if not program.is_over:
            result = judge(program, key, text)
        if program.is_over:
            return
        results.add(result)


def texts_at(file, places):
    """The texts at places of a file, which are read at once where they lie together."""
    begin, end = places[0][1], places[-1][1] + places[-1][2]
    if 0 <= end - begin <= LONG:
        block = text_at(file, begin, end - begin)
        return [block[at - begin : at - begin + size] for _, at, size in places]
    return (text_at(file, at, size) for _, at, size in places)


def text_at(file, at, size):
    """The text at a place of a file."""
    text = bytes_at(file, at, size)
    if len(text) < size:
        raise OSError(0, "a text is missing", "scripts")
    return text


def bytes_at(file, at, size):
    """The bytes at a place of a file, fewer where it ends before."""
    found = os.pread(file, size, at)
    while len(found) < size:
        more = os.pread(file, size - len(found), at + len(found))
        if not more:
            break
        found += more
    return found


def groups_of_queue(queue):
    """The groups of words in a file that workers share, each taken when it is asked for."""
    while len(line := os.read(queue, WIDE_LINE)) == WIDE_LINE:
        yield line.decode().split()


def groups_of(words):
    """Words in groups."""
    return [words[first : first + GROUP] for first in range(0, len(words), GROUP)]


def judge_chunk(program, name):
    """Judges the scripts of a chunk, and writes their results as one file."""
    new = f"chunks/{name}.new"
    results = Results(new)
    with open(f"chunks/{name}.in", encoding="utf-8") as file:
        texts = code_of_json().load(file)
    for key, text in texts.items():
        line = judge(program, key, text.encode("latin-1"))
        if program.is_over:
            break
        results.add(line)
    results.write()
    if not program.is_over:
        os.replace(new, f"chunks/{name}.out")
    elif os.path.exists(new):
        os.remove(new)


def forked(count):
    """Starts more workers like this one, which has loaded what they need: their numbers, of which they have none."""
    numbers = []
    while len(numbers) < count:
        number = os.fork()
        if number == 0:
            return []
        numbers.append(number)
    return numbers


def work(form, texts, options, words):
    """Does the work of a worker, and waits for the workers that it started: its status."""
    parent, own, others = os.getppid(), os.getpid(), []
    if form == "queue":
        os.set_inheritable(HELD, False)
        others, groups = forked(int(words[0]) - 1), groups_of_queue(os.dup(0))
    else:
        groups = groups_of(words)
    program = Program(options, parent if own == os.getpid() else own, others)
    results, status = Results(f"cases/{HOST}.{os.getpid()}.{time.time_ns()}.jsonl"), 0
    program.meanwhile = results.write
    try:
        if form == "chunk":
            for name in words:
                judge_chunk(program, name)
        else:
            judge_groups(program, results, texts, groups)
    except OSError as fault:
        named = os.environ.get("CLSIM_FARM_NAME", "tools/farm")
        print(f"{named}: {fault.filename or results.path}: {fault.strerror}", file=sys.stderr)
        status = 2
    while others:
        _, ended = os.waitpid(others[0], 0)
        others.pop(0)
        status = status or (2 if ended else 0)
    # (a signal that came while Python ends would end the worker with it)
    signal.setitimer(signal.ITIMER_REAL, 0)
    return 130 if program.is_over else status


def main():
    form, folder, texts = sys.argv[1:4]
    # (where it is ignored, as by what started the farm, the system doesn't tell how programs ended)
    signal.signal(signal.SIGCHLD, signal.SIG_DFL)
    os.chdir(folder)
    return work(form, texts, Options(sys.argv[4:10]), sys.argv[10:])


if __name__ == "__main__":
    sys.exit(main())
