"""Tests what runs scripts for a worker (run.c), as a worker calls it: what it answers, and what it leaves."""
import os
import resource
import signal
import subprocess
import sys
import tempfile
import time

# So that what the sanitizers of a compiler find ends the program with a status that it never has.
SANITIZED = ["-g", "-fsanitize=address,undefined", "-fno-sanitize-recover=all", "-fno-omit-frame-pointer"]
SAID_OF_IT = {"ASAN_OPTIONS": "exitcode=99:detect_leaks=1", "UBSAN_OPTIONS": "exitcode=99:print_stacktrace=1"}
# The program: it does what its script says, which is a script of the shell.
PROGRAM = ["/bin/sh"]


class Runner:
    """A runner with files of its own, as a worker starts it."""

    def __init__(self, path, program=None, seconds=20, processor=20, memory=0, before=None):
        (groups, self.asking), (self.answers, answers) = os.pipe(), os.pipe()
        self.texts, self.script, self.said, self.told = (os.memfd_create("file") for _ in range(4))
        files, self.size, self.left = (groups, answers, self.texts, self.script), 0, b""
        words = program or [*PROGRAM, f"/proc/{os.getpid()}/fd/{self.script}"]
        self.process = subprocess.Popen([path, *map(str, (*files, seconds, processor, memory)), *words], pass_fds=files,
                                        stdin=subprocess.DEVNULL, stdout=self.said, stderr=self.told,
                                        env={**os.environ, **SAID_OF_IT}, preexec_fn=before)
        os.close(groups)
        os.close(answers)

    def places(self, texts):
        """Puts texts behind those that are there: a line for them as a group."""
        places = []
        for text in texts:
            places.append(f"{self.size}:{len(text)} ")
            self.size += os.pwrite(self.texts, text, self.size)
        return "".join(places).encode() + b"\n"

    def ask(self, *texts):
        os.write(self.asking, self.places(texts))

    def line(self):
        """The words of the next answer, None at the end."""
        while b"\n" not in self.left:
            more = os.read(self.answers, 1 << 16)
            if not more:
                return None
            self.left += more
        line, _, self.left = self.left.partition(b"\n")
        return line.decode().split()

    def statuses(self, count):
        """The statuses of the next answers."""
        return [(self.line() or ["none"])[0] for _ in range(count)]

    def output(self, file=None):
        """What was written on an output."""
        file = self.said if file is None else file
        return os.pread(file, os.fstat(file).st_size, 0).decode(errors="replace")

    def end(self):
        """Ends the groups, or what is left of them: the status, and what was said of it on standard error."""
        if self.asking is not None:
            os.close(self.asking)
        status = self.process.wait(60)
        told = self.output(self.told)
        for file in (self.answers, self.texts, self.script, self.said, self.told):
            os.close(file)
        return status, told


def lives(number):
    """Whether a process is there that hasn't ended."""
    try:
        with open(f"/proc/{number}/stat", encoding="utf-8") as file:
            return file.read().rpartition(")")[2].split()[0] != "Z"
    except (FileNotFoundError, ProcessLookupError):
        return False


def none_of(numbers):
    """The processes that are still there, once they had time to end."""
    for _ in range(200):
        if not any(map(lives, numbers)):
            break
        time.sleep(0.05)
    return [it for it in numbers if lives(it)]


def test_answers(path, check):
    """What each answer says, of groups that come in parts, and of two at once."""
    runner = Runner(path)
    texts = [b"echo one\n", b"", b"echo two; echo three >&2; exit 7\n", b"kill -9 $$\n"]
    texts += [b"#" * 200000 + b"\necho long\n"]
    line = runner.places(texts)
    for at in range(len(line)):
        os.write(runner.asking, line[at : at + 1])
    lines = [runner.line() for _ in texts]
    check("statuses", [it[0] for it in lines], ["0", "0", str(7 << 8), "9", "0"])
    check("where standard output ends", [it[3] for it in lines], ["4", "4", "8", "8", "13"])
    check("where standard error ends", [it[4] for it in lines], ["0", "0", "6", "6", "6"])
    one, other = runner.places([b"echo four\n"] * 16), runner.places([b"exit 3\n"] * 16)
    os.write(runner.asking, one + other)
    check("two groups at once", runner.statuses(32), ["0"] * 16 + [str(3 << 8)] * 16)
    check("a group of none", (os.write(runner.asking, b"\n"), runner.ask(b"exit 1\n"), runner.statuses(1))[2], ["256"])
    check("the end", runner.end(), (0, "three\n"))


def test_files(path, check):
    """A program has three open files, and the runner has as many after many runs as before."""
    runner = Runner(path)
    runner.ask(b"ls /proc/$$/fd\n")
    runner.statuses(1)
    before = len(os.listdir(f"/proc/{runner.process.pid}/fd"))
    # (the shell itself has its script open, by a number above these)
    check("open files of a program", [it for it in runner.output().split() if int(it) < 10][:3], ["0", "1", "2"])
    check("others but its script", len(runner.output().split()) <= 4, True)
    for _ in range(20):
        runner.ask(*[b"exit 0\n"] * 16)
        runner.statuses(16)
    check("open files of the runner", len(os.listdir(f"/proc/{runner.process.pid}/fd")), before)
    check("the end", runner.end()[0], 0)


def test_signals(path, check):
    """Signals that only interrupt change no answer; one that ends the runner ends the program."""
    runner = Runner(path)
    runner.ask(b"exit 99\n")
    runner.statuses(1)
    runner.ask(*[f"exit {it}\n".encode() for it in range(16)])
    for _ in range(400):
        os.kill(runner.process.pid, signal.SIGALRM)
        time.sleep(0.0005)
    check("statuses in a storm of signals", runner.statuses(16), [str(it << 8) for it in range(16)])
    check("the end", runner.end(), (0, ""))
    for number in (signal.SIGINT, signal.SIGTERM, signal.SIGHUP):
        runner = Runner(path)
        runner.ask(b"exit 0\n", b"echo $$; sleep 90\n", b"echo never\n")
        while not runner.output().endswith("\n"):
            time.sleep(0.01)
        os.kill(runner.process.pid, number)
        program = int(runner.output())
        check(f"{number.name}: answers", runner.statuses(2), ["0", "none"])
        check(f"{number.name}: the end", runner.end(), (130, ""))
        check(f"{number.name}: programs that still run", none_of([program]), [])


def test_ignored(path, check):
    """The end of a program is told where what started the runner ignores how its own end; what is ignored as behind
    nohup stays so."""
    def ignore():
        for number in (signal.SIGCHLD, signal.SIGHUP):
            signal.signal(number, signal.SIG_IGN)

    runner = Runner(path, before=ignore)
    runner.ask(b"exit 5\n", b"kill -9 $$\n", b"exit 0\n")
    os.kill(runner.process.pid, signal.SIGHUP)
    check("statuses", runner.statuses(3), [str(5 << 8), "9", "0"])
    check("the end", runner.end(), (0, ""))


def test_limits(path, check):
    """A program has its limits, and none above those of the runner; one that takes too long is ended with what it
    started, and so is what another one leaves."""
    told = b"ulimit -St; ulimit -Ht; ulimit -Sv; ulimit -Hv\n"

    def lower():
        resource.setrlimit(resource.RLIMIT_CPU, (4, 7))
        resource.setrlimit(resource.RLIMIT_STACK, resource.getrlimit(resource.RLIMIT_STACK))

    for name, how, wanted in (("as asked", {"processor": 9, "memory": 900 << 20}, ["9", "9", "921600", "921600"]),
                              ("less", {"processor": 9, "before": lower}, ["7", "7", "unlimited", "unlimited"]),
                              ("of any size", {"seconds": 10**30, "processor": 10**30}, ["unlimited"] * 4)):
        runner = Runner(path, **how)
        runner.ask(told)
        check(f"{name}: status", runner.statuses(1), ["0"])
        check(f"{name}: the limits", runner.output().split(), wanted)
        check(f"{name}: the end", runner.end(), (0, ""))
    runner = Runner(path, seconds=1)
    runner.ask(b"sleep 90 & echo $$ $!; wait\n", b"sleep 91 & echo $!\n", b"while :; do :; done\n", b"exit 0\n")
    check("too long, left running, busy, well", runner.statuses(4), ["-1", "0", "-1", "0"])
    check("processes that still run", none_of(list(map(int, runner.output().split()))), [])
    check("the end", runner.end(), (0, ""))


def test_memory(path, check):
    """A program's memory is its own; one that can't be loaded within its limit fails alone; where much is said, the
    rest of a group is left."""
    runner = Runner(path)
    runner.ask(b"x=0123456789abcdef; for i in 1 2 3 4 5 6 7 8 9 a b c d e f g h i j k; do x=$x$x; done\n", b"exit 0\n")
    large, small = (int(runner.line()[2]) for _ in range(2))
    check("the memory of a large program, and of the next", (large > 16 << 10, small < 16 << 10), (True, True))
    check("the end", runner.end(), (0, ""))
    runner = Runner(path, memory=4096)
    runner.ask(b"exit 0\n", b"exit 0\n")
    check("too little memory to be loaded", [it not in ("0", "none") for it in runner.statuses(2)], [True, True])
    check("the end", runner.end()[0], 0)
    runner = Runner(path)
    runner.ask(b"head -c 1048575 /dev/zero\n", b"echo\n", b"echo never\n")
    check("as much as is kept, and more", [(runner.line() or ["none"])[0] for _ in range(3)], ["0", "0", "full"])
    runner.ask(b"exit 4\n")
    check("another group", runner.statuses(1), [str(4 << 8)])
    check("the end", runner.end(), (0, ""))


def test_failures(path, check):
    """What can't be started, what is asked for wrongly, and files that end before."""
    for program, wanted in (("/nowhere", "2"), (os.path.dirname(path), "13"), (os.devnull, "13")):
        runner = Runner(path, program=[program])
        runner.ask(b"one", b"two")
        check(f"{program} can't be started", [runner.line(), runner.line()], [["error", wanted]] * 2)
        check("the end", runner.end(), (0, ""))
    for group in (b"x\n", b"1\n", b"1:\n", b"1:2\n", b":1 \n", b"-1:1 \n", b"0:9999999 \n", b"0:1:1 \n",
                  b"99999999999999999999:1 \n", b"0:99999999999999999999 \n", b"1" * 5000):
        runner = Runner(path)
        os.write(runner.asking, group)
        check(f"the group {group[:24]}", runner.end(), (2, ""))
    runner = Runner(path)
    runner.ask(b"exit 0\n")
    os.close(runner.asking)
    runner.asking = None
    check("the end of the groups behind one", (runner.statuses(2), runner.end()), (["0", "none"], (0, "")))
    for words in ([], ["1"] * 7, ["0", "1", "2", "x", "1", "1", "0", "true"],
                  ["0", "1", "2", "77", "1", "1", "0", "true"], ["0", "1", "2", "2", "1", "", "0", "true"],
                  ["0", "1", "2", "2", "1", "1", "-1", "true"]):
        ran = subprocess.run([path, *words], stdin=subprocess.DEVNULL, capture_output=True, check=False)
        check(f"the words {words}", (ran.returncode, ran.stderr), (2, b""))


# Starts a runner with one script, and waits to be killed; tells the number of the runner.
STARTER = """import sys, time
sys.path.append(sys.argv[1])
from test_run import Runner
runner = Runner(sys.argv[2])
runner.ask(b"echo $$ >" + sys.argv[3].encode() + b"; sleep 90\\n")
print(runner.process.pid, flush=True)
time.sleep(90)
"""


def test_ends(path, check):
    """A runner whose worker was killed ends with its program, and so does a program whose runner was."""
    for killed in ("worker", "runner"):
        with tempfile.NamedTemporaryFile() as noted:
            words = [sys.executable, "-c", STARTER, os.path.dirname(os.path.abspath(__file__)), path, noted.name]
            with subprocess.Popen(words, stdout=subprocess.PIPE, text=True) as worker:
                runner = int(worker.stdout.readline())
                while not noted.read().endswith(b"\n"):
                    noted.seek(0)
                    time.sleep(0.01)
                noted.seek(0)
                program = int(noted.read())
                os.kill(worker.pid if killed == "worker" else runner, signal.SIGKILL)
                check(f"the {killed} is killed: the program runs", none_of([program]), [])
                if killed == "worker":
                    check("the runner runs", none_of([runner]), [])
                worker.kill()
    runner = Runner(path)
    os.close(runner.answers)
    runner.answers = os.open(os.devnull, os.O_RDONLY)
    runner.ask(b"exit 0\n")
    check("nobody reads the answers", runner.end()[0] in (2, -signal.SIGPIPE), True)


TESTS = [test_answers, test_files, test_signals, test_ignored, test_limits, test_memory, test_failures, test_ends]


def test_all(path, check):
    """Tests a runner; `check` is told what is seen, and what is wanted."""
    for test in TESTS:
        test(path, lambda what, seen, wanted, test=test: check(f"{test.__name__[5:]}: {what}", seen, wanted))
