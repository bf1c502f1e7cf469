"""A run of a farm: lays out the folder of results, has an engine judge what has no result, and tells how far it is."""
import os
import re
import sys
import threading
import time

from base import LIBRARY, NAME, ROOT, Plan, bytes_of, device_words, fail, hash_of, which
from reports import report


def side_by_side(plan, keys, options):
    """The engine of this machine."""
    import workers  # pylint: disable=import-outside-toplevel
    workers.side_by_side(plan, keys, options)


def by_parallel(plan, keys, options):
    """GNU parallel. (A start of the farm is dear beside a small script: what few runs need is loaded where it is.)"""
    import hosts  # pylint: disable=import-outside-toplevel
    hosts.by_parallel(plan, keys, options)


def by_slurm(plan, keys, options):
    """Slurm."""
    import hosts  # pylint: disable=import-outside-toplevel
    hosts.by_slurm(plan, keys, options)


ENGINES = {"plain": (None, side_by_side), "parallel": ("parallel", by_parallel), "slurm": ("sbatch", by_slurm)}


def engine_of(options):
    """The engine that is asked for, or the one that fits."""
    if options.engine == "auto":
        options.engine = "parallel" if options.hosts else "slurm" if which("sbatch") else "plain"
    program, call = ENGINES[options.engine]
    if program and not which(program):
        fail(f"{program} is not on the path")
    if options.hosts and options.engine != "parallel":
        fail("--hosts is of GNU parallel: leave --engine out, or name parallel")
    return call


def program_of(word):
    """The path of the program: the one that a word of the command line names, else CLSIM, else that of the clone, else
    the clsim on the PATH."""
    place, name = ("--program", word) if word is not None else ("CLSIM", os.environ.get("CLSIM"))
    if name or place == "--program":
        found = which(name) or which(os.path.abspath(name))
        return found or fail(f"no program {name} ({place}): neither a file that can be run nor a name on the PATH")
    built = f"{ROOT}/crates/clsim/out/clsim"
    return which(built) or which("clsim") or fail(
        f"no program: no --program, no CLSIM, no {built} (tools/build makes it), and no clsim on the PATH")


def scripts_of(names):
    """The scripts that are named: files, the *.txt of folders, and the lines of lists."""
    found = []
    for name in names:
        if name.startswith("@"):
            with open(name[1:], encoding="utf-8") as file:
                found += [line.rstrip("\n") for line in file if line.strip()]
        elif os.path.isdir(name):
            found += sorted(os.path.join(name, it) for it in os.listdir(name) if it.endswith(".txt"))
        else:
            found.append(name)
    return found


def lay_out(folder, scripts, options):
    """Puts the program and the texts of the scripts into the folder of results: the plan."""
    for part in ("bin", "scripts", "cases", "chunks"):
        os.makedirs(f"{folder}/{part}", exist_ok=True)
    program = hash_of(copy_whole(options.program, f"{folder}/bin/clsim")).hexdigest()
    library = f"{os.path.dirname(os.path.realpath(options.program))}/../{LIBRARY}"
    if os.path.isfile(library):
        os.makedirs(os.path.dirname(f"{folder}/{LIBRARY}"), exist_ok=True)
        copy_whole(library, f"{folder}/{LIBRARY}")
    copy_whole(f"{ROOT}/tools/farm_worker.py", f"{folder}/bin/farm_worker.py")
    put_runner(folder, options)
    how = f"{program} {options.seconds} {options.memory} {options.workers} {' '.join(device_words(options))}"
    plan = keep_texts(folder, scripts, hash_of(how.encode() + b"\0"), options)
    plan.write()
    for it in os.listdir(f"{folder}/scripts"):
        if f"scripts/{it}" != plan.texts:
            os.remove(f"{folder}/scripts/{it}")
    return plan


def put_runner(folder, options):
    """Puts what runs scripts for a worker into the folder of results; where it isn't there, says why, and leaves none
    of an earlier farm. (Over ssh no host is given it.)"""
    built, inside = f"{ROOT}/tools/farming/out/farm_run", f"{folder}/bin/farm_run"
    why = why_no_runner(built)
    if why is None:
        copy_whole(built, inside)
        return
    if os.path.exists(inside):
        os.remove(inside)
    if not options.hosts:
        print(f"{NAME}: workers run the scripts themselves, which takes longer: {why}", file=sys.stderr)


def why_no_runner(built):
    """Why what runs scripts for a worker isn't there, None where it is: a clone builds it once."""
    source = f"{ROOT}/tools/farming/run.c"
    if not os.path.isfile(source):
        return None if os.path.isfile(built) else f"no {built}"
    if os.path.isfile(built) and os.stat(source).st_mtime <= os.stat(built).st_mtime:
        return None
    from building import build  # pylint: disable=import-outside-toplevel
    return build(built)


def copy_whole(path, to):
    """Copies a file, whole or not at all, also where another one is there that runs; the same one stays. Gives its
    bytes."""
    data = bytes_of(path)
    if not os.path.isfile(to) or bytes_of(to) != data:
        with open(f"{to}.new", "wb") as file:
            file.write(data)
        os.chmod(f"{to}.new", os.stat(path).st_mode & 0o777)
        os.replace(f"{to}.new", to)
    return data


def keep_texts(folder, scripts, how, options):
    """Copies the texts of scripts into one file, each text once, under the hash of its bytes and of how it is judged:
    the plan. (A file for each would take longer to make than a small script to judge, and a page on the disk.)"""
    planned, places, end, new = [], {}, 0, f"{folder}/scripts/{os.getpid()}.new"
    try:
        with open(new, "wb") as file:
            for script in scripts:
                text, hashed = text_of(script, options.program), how.copy()
                hashed.update(text)
                key = hashed.hexdigest()
                if key not in places:
                    places[key] = end
                    end += file.write(text)
                planned.append({"script": script, "key": key, "at": places[key], "size": len(text)})
                if options.widen:
                    planned[-1]["form"] = form_of(text)
        plan = Plan(folder, planned)
        os.replace(new, f"{folder}/{plan.texts}")
        return plan
    except OSError:
        if os.path.exists(new):
            os.remove(new)
        raise


# The begin of a script that may name files, and a line that does.
BY_HAND, NAMES_FILE = b"clsim 3", re.compile(rb"(?m)^[ \t]*program[ \t]+\w+[ \t]+file[ \t]")


def text_of(script, program):
    """The text of a script as it is judged: its own, and of one that names files the plain text, in which these stand.
    (Where there is none, as without such a file, the script says by its own text what is wrong.)"""
    text = bytes_of(script)
    if not text.lstrip().startswith(BY_HAND) or not NAMES_FILE.search(text):
        return text
    import subprocess  # pylint: disable=import-outside-toplevel
    ran = subprocess.run([program, "plain", script], stdin=subprocess.DEVNULL, capture_output=True, check=False)
    return ran.stdout if ran.returncode == 0 else text


def form_of(text):
    """What a script has in common with those that differ from it in the bytes of writes and fills alone."""
    from widening import mark_of  # pylint: disable=import-outside-toplevel
    return mark_of(text)


def unpack(folder):
    """Keeps the results of the chunks that came back from other machines, and removes all chunks."""
    for place in os.listdir(f"{folder}/chunks"):
        name, kind = os.path.splitext(place)
        if kind == ".out":
            os.replace(f"{folder}/chunks/{place}", f"{folder}/cases/{name}.jsonl")
        else:
            os.remove(f"{folder}/chunks/{place}")


class Progress:
    """Tells how many of a run's scripts have a result, while an engine works: on a terminal in one line."""

    def __init__(self, plan, left):
        self.folder, self.all, self.read, self.done = plan.folder, len(plan.places), {}, 0
        self.more_lines()
        self.done = self.all - len(left)
        self.shown, self.ended = sys.stderr.isatty(), threading.Event()
        self.thread = threading.Thread(target=self.tell, daemon=True)

    def __enter__(self):
        self.thread.start()

    def __exit__(self, *_):
        self.ended.set()
        self.thread.join()

    def more_lines(self):
        """Counts the lines of results that came since the last time."""
        for it in os.scandir(f"{self.folder}/cases"):
            before = self.read.get(it.name, 0)
            if it.stat().st_size > before:
                with open(it.path, "rb") as file:
                    file.seek(before)
                    text = file.read()
                self.read[it.name] = before + len(text)
                self.done += text.count(b"\n")

    def tell(self):
        begun, wait = time.monotonic(), 1 if self.shown else 30
        while not self.ended.wait(wait):
            before = time.monotonic()
            self.more_lines()
            text = f"{NAME}: {min(self.done, self.all)} of {self.all} scripts, {time.monotonic() - begun:.0f} s"
            print(f"\r{text}" if self.shown else text, end="" if self.shown else "\n", file=sys.stderr, flush=True)
            wait = max(wait, 20 * (time.monotonic() - before))
        if self.shown:
            print("\r\033[K", end="", file=sys.stderr, flush=True)


def run(options):
    """Judges scripts by an engine, and writes the reports."""
    try:
        scripts = scripts_of(options.scripts)
        if not scripts:
            fail("no scripts")
        if options.widen and options.budget is not None:
            fail("--widen goes by the program's own budget: leave --budget out")
        options.program = program_of(options.program)
        call = engine_of(options)
        plan = lay_out(options.results, scripts, options)
        unpack(options.results)

        def judge(keys):
            if keys:
                with Progress(plan, plan.left()):
                    call(plan, keys, options)
                unpack(options.results)

        if options.widen:
            from widening import spare  # pylint: disable=import-outside-toplevel
            spare(plan, judge)
        for _ in range(2):
            judge(plan.left())
        return report(plan)
    except OSError as fault:
        return fail(f"{fault.filename or options.results}: {fault.strerror}")
