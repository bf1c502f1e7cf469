"""The folder of a farm's results: the plan with the texts of the scripts, and the lines of results."""
import hashlib
import json
import os
import sys

ROOT = os.path.dirname(os.path.dirname(os.path.dirname(os.path.realpath(__file__))))
# What messages call the farm: `clsim-farm` where it is installed.
NAME = os.environ.get("CLSIM_FARM_NAME", "tools/farm")
# What the program of an archive that runs from any folder finds from its own folder on.
LIBRARY = "lib/clsim/libclsim_older.so"
PASSED, ORDERED, FAULTY = "clean", "ordered", "fault"
VERDICTS = (PASSED, ORDERED, FAULTY, "refused", "bad", "timeout", "killed", "crashed", "missing")
# Those that pass: of an ordered script a launch with `orders` came to an end by one order of its items.
PASSING = (PASSED, ORDERED)


def fail(text):
    print(f"{NAME}: {text}", file=sys.stderr)
    sys.exit(2)


def write_whole(path, text, synced=True):
    """Writes a file, whole or not at all; one that isn't synced may be empty where the machine stops."""
    new = f"{path}.{os.getpid()}.new"
    try:
        with open(new, "w", encoding="utf-8") as file:
            file.write(text)
            file.flush()
            if synced:
                os.fsync(file.fileno())
        os.replace(new, path)
    except OSError:
        if os.path.exists(new):
            os.remove(new)
        raise


def bytes_of(path):
    """The bytes of a file."""
    file, parts = os.open(path, os.O_RDONLY), []
    try:
        while part := os.read(file, 1 << 16):
            parts.append(part)
    finally:
        os.close(file)
    return b"".join(parts)


def which(name):
    """The path of a program that is named as a shell names it, None where it isn't there."""
    paths = [name] if "/" in name else [f"{it or '.'}/{name}" for it in os.environ.get("PATH", os.defpath).split(":")]
    return next((it for it in paths if os.path.isfile(it) and os.access(it, os.X_OK)), None)


# How many characters a key has: those of a hash.
KEY = 24


def hash_of(data):
    """The hash of bytes, to which more may be added."""
    return hashlib.blake2b(data, digest_size=KEY // 2)


class Plan:
    """The scripts of a farm in their order: each with its key, and where its text lies in the file of all texts."""

    def __init__(self, folder, scripts):
        self.folder, self.scripts, self.file = folder, scripts, None
        self.places = {it["key"]: (it["at"], it["size"]) for it in scripts}
        # (another plan has another file, so that a worker of an earlier farm takes no text for another)
        self.texts = f"scripts/{hash_of(' '.join(self.places).encode()).hexdigest()}.txt"

    def text_of(self, key):
        """The text of the script of a key."""
        if self.file is None:
            self.file = os.open(f"{self.folder}/{self.texts}", os.O_RDONLY)
        at, size = self.places[key]
        return os.pread(self.file, size, at)

    def words_in(self, key):
        """The text of the script of a key as a page shows it."""
        return self.text_of(key).decode(errors="replace")

    def words_of(self, keys):
        """What workers are told of the scripts of keys."""
        return [f"{key}:{self.places[key][0]}:{self.places[key][1]}" for key in keys]

    def left(self):
        """The keys that have no result yet, each once."""
        had = lines_of(self.folder)
        return [key for key in self.places if key not in had]

    def write(self):
        write_whole(f"{self.folder}/plan.json", json.dumps(self.scripts))


def plan_of(folder):
    """The plan of a farm that has run."""
    try:
        with open(f"{folder}/plan.json", encoding="utf-8") as file:
            return Plan(folder, json.load(file))
    except FileNotFoundError:
        return fail(f"{folder} holds no results")
    except (KeyError, ValueError):
        return fail(f"{folder} holds results of another farm than this one: judge the scripts into another folder")


# What stands in front of a key in a line of results.
BEFORE_KEY = b'{"key": "'


def lines_of(folder):
    """The line of each result by its key, as it was written. (A line that isn't whole, and what a machine left of one
    as it stopped, counts as none.)"""
    found = {}
    for name in os.listdir(f"{folder}/cases"):
        with open(f"{folder}/cases/{name}", "rb") as file:
            for line in file:
                if line.startswith(BEFORE_KEY) and line.endswith(b"}\n"):
                    found[line[len(BEFORE_KEY) :][:KEY].decode()] = line
    return found


def device_words(options):
    """The options that say what the device is and what is asked of it, as the worker is given them."""
    budget = "-" if options.budget is None else str(options.budget)
    return [budget, options.limits, "widen" if options.widen else "-"]


def words_of(plan, options, form, folder=".", worker="bin/farm_worker.py", python="python3"):
    """The words that an engine calls for scripts in the folder of results, but for the scripts."""
    return [python, "-I", "-S", worker, form, folder, plan.texts, str(options.seconds), str(options.memory),
            str(options.workers), *device_words(options)]
