"""Tests of launches whose result depends on the order of their items (CLSIM_ORDERS): what they answer and leave, what
is told of them, and what is recorded; by host programs in C (ordered.c) and in Python.

`tests(bench, is_with_clang, explains, python)` gives those of opencl/test/run, each with its name and the call that
fails or doesn't."""
import json
import os
import re

HERE = os.path.dirname(os.path.abspath(__file__))
EXEC = os.path.join(os.path.dirname(HERE), "clsim-exec")
CASES = ["queue", "compact", "unite", "says"]
LAUNCHES = 3
# the kernels' own words of the two accesses that meet, and of those that race with a mistake: worked out by hand
MEET = {"queue": "atomic_inc", "compact": "atomic_inc", "unite": "atomic_", "says": "atomic_inc"}
RACE = {"queue": {"done[0] = task"}, "compact": {"count[0]", "atomic_inc(count)"},
        "unite": {"parent[a]", "atomic_cmpxchg(", "atomic_or("}}
GOES_ON = "its result depends on the order of its work-items; it goes on with the bytes of one order"
ALL = "1 to 3"


class Wrong(ValueError):
    """A test that came out otherwise than it should."""


def want(condition, text):
    if not condition:
        raise Wrong(text)


def answers(told):
    """What the launches and their events answer. (The event of the last one is there before it is done.)"""
    return [int(n) for n in re.findall(r"(?:the launch answers|its event is) (-?\d+)", told)]


def faults_in(told):
    return re.findall(r"^clsim: (fault \d+ \w+): ", told, re.M)


def recorded(bench, path):
    """The first line of a recorded script, its launches, and the replies to them."""
    with open(path, encoding="ascii", errors="replace") as file:
        lines = file.read().splitlines()
    replies = [" ".join(reply.split()[:3]) for reply in bench.replies(path)
               if reply.split()[0] in ("clean", "ordered", "fault")]
    return lines[0], [line.endswith(" orders") for line in lines if line.startswith("launch ")], replies


def asked_for(bench, name):
    """Each launch has the word: it is told once, and each reply is `ordered`."""
    script = bench.path(f"orders_always_{name}")
    for word in ("always", "1"):
        told = bench.run([bench.path("ordered"), name], CLSIM_ORDERS=word, CLSIM_SCRIPT=script, CLSIM_STATUS="9")
        want("they are right" in told and answers(told) == 2 * LAUNCHES * [0] and not faults_in(told), told)
        want(f"clsim: ordered: a launch of kernel {name}\n" in told and told.count("clsim: ordered: ") == 1
             and told.count(f"clsim:   {GOES_ON}\nclsim:   reply: ordered\n") == 1
             and f"clsim: ordered launches of a context, of kernel {name}: {ALL}\n" in told
             and "clsim: 3 launches were ordered\n" in told and "faulted" not in told, told)
        found = recorded(bench, script)
        want(found == ("clsim 3", LAUNCHES * [True], LAUNCHES * ["ordered"]), found)


def by_itself(bench, name, explains):
    """Only what is a fault order otherwise is made once more. It is told once, with its places; the later launches of
    the kernel have the word from the start. Where it isn't asked for, each such launch counts as one with a fault."""
    script = bench.path(f"orders_auto_{name}")
    for settings, status in [({"CLSIM_ORDERS": "auto"}, 0), ({"CLSIM_ON_FAULT": "go"}, 9),
                             ({"CLSIM_ORDERS": "auto", "CLSIM_ON_FAULT": "exit"}, 0)]:
        told = bench.run([bench.path("ordered"), name], status, CLSIM_SCRIPT=script, CLSIM_STATUS="9", **settings)
        want("they are right" in told and answers(told) == 2 * LAUNCHES * [0] and not faults_in(told), told)
        want(len(re.findall(r"^clsim: ordered: work-item \d+ fetches, and work-item \d+ fetches, the same bytes, and "
                            rf"it shows which of them is first, in kernel {name}$", told, re.M)) == 1
             and told.count(f"clsim:   {GOES_ON}\nclsim:   reply: fault 2 order item ") == 1
             and f"clsim: ordered launches of a context, of kernel {name}: {ALL}\n" in told
             and ("clsim: 3 launches faulted\n" in told) == (status == 9), told)
        if explains:
            places = re.findall(r"^clsim:   item \d+: fetch at source:\d+:\d+\nclsim: +\d+ \| .*\nclsim: +\| ( *)\^$",
                                told, re.M)
            want(len(places) == 2 and told.count(MEET[name]) >= 2, told)
        want(recorded(bench, script) == ("clsim 3", [False] + LAUNCHES * [True],
                                         ["fault 2 order"] + LAUNCHES * ["ordered"]), recorded(bench, script))


def not_asked_for(bench, name):
    """Without the setting, and by `never`, it is a fault as any other; the script is of version 2."""
    script = bench.path(f"orders_never_{name}")
    for settings, answer in [({}, [-59] * LAUNCHES), ({"CLSIM_ORDERS": "never"}, [-59] * LAUNCHES),
                             ({"CLSIM_ORDERS": "0", "CLSIM_ON_FAULT": "go"}, [0, -59] * LAUNCHES)]:
        told = bench.run([bench.path("ordered"), name], 9, CLSIM_SCRIPT=script, CLSIM_STATUS="9", CLSIM_EXPLAIN="",
                         **settings)
        # (a launch that waits answers success, and its event has the error)
        found = answers(told)
        want(found[:-2] == answer[:-2] if "CLSIM_ON_FAULT" in settings else found == [-59, -59, 0, -59], told)
        want(faults_in(told) == LAUNCHES * ["fault 2 order"] and "ordered" not in told.replace("they are ", "")
             and "they are wrong" in told, told)
        want(recorded(bench, script) == ("clsim 2", LAUNCHES * [False], LAUNCHES * ["fault 2 order"]),
             recorded(bench, script))


def with_mistake(bench, name, explains):
    """A race beside what is ordered is told in each case, at its places, and the launch has a fault."""
    for settings in [{"CLSIM_ORDERS": "always"}, {"CLSIM_ORDERS": "auto"}]:
        told = bench.run([bench.path("ordered"), name, "mistake"], 9, CLSIM_STATUS="9", **settings)
        found = faults_in(told)
        want(answers(told) == [-59, -59, 0, -59] and "they are wrong" in told and "ordered" not in told, told)
        want(found.count("fault 1 race") == LAUNCHES and set(found) <= {"fault 1 race", "fault 2 order"}
             and "clsim: 3 launches faulted\n" in told, told)
        want(settings["CLSIM_ORDERS"] == "auto" or len(found) == LAUNCHES, told)
        if explains:
            race = told[told.index("clsim: fault 1 race"):]
            lines = re.findall(r"^clsim:   item \d+: \w+ at source:\d+:\d+\nclsim: +\d+ \| (.*)\nclsim: +\| ( *)\^$",
                               race, re.M)[:2]
            at = [line[len(mark):] for line, mark in lines]
            want(len(at) == 2 and all(text.startswith(tuple(RACE[name])) for text in at), f"{at}\n{told}")


def not_ordered(bench):
    """A launch in which no two fetches meet is clean with the word, too, and nothing is told."""
    for word in ("always", "auto", "never"):
        told = bench.run([bench.path("ordered"), "own"], CLSIM_ORDERS=word)
        want("they are right" in told and answers(told) == 2 * LAUNCHES * [0] and "clsim: " not in told, told)


def printed(bench):
    """What printf writes in a launch that is ordered."""
    told = bench.run([bench.path("ordered"), "says"], CLSIM_ORDERS="always")
    want(re.findall(r"^item (\d+)$", told, re.M) == LAUNCHES * [str(i) for i in range(16)], told)


def known_words(bench):
    """A word that isn't known is told, and is as if none were there."""
    told = bench.run([bench.path("ordered"), "queue"], 1, CLSIM_ORDERS="perhaps", CLSIM_EXPLAIN="")
    want("clsim: CLSIM_ORDERS is always, auto or never, and not perhaps\n" in told
         and faults_in(told) == LAUNCHES * ["fault 2 order"], told)


OLDER = """\
if [ $1 = serve ]; then
  IFS= read -r line
  [ "$line" = "clsim 2" ] || { echo "clsim: line 1: bad line" >&2; exit 2; }
  (echo "$line"; exec cat) | {clsim} "$@"
else
  exec {clsim} "$@"
fi
"""


def older_device(bench):
    """A device that doesn't know the word is one of version 2, which is told once; order is a fault then."""
    program, script = bench.path("older.sh"), bench.path("orders_older")
    with open(program, "w", encoding="ascii") as file:
        file.write(OLDER.replace("{clsim}", bench.clsim))
    for settings in [{"CLSIM_ORDERS": "always"}, {"CLSIM_ORDERS": "auto"}, {"CLSIM_ON_FAULT": "go"}]:
        told = bench.run([bench.path("ordered"), "queue"], 1, CLSIM_SERVE=f"sh {program} serve", CLSIM_EXPLAIN="",
                         CLSIM_SCRIPT=script, **settings)
        want(told.count("clsim: this clsim has no launches with orders: ") == 1
             and faults_in(told) == LAUNCHES * ["fault 2 order"], told)
        want(recorded(bench, script) == ("clsim 2", LAUNCHES * [False], LAUNCHES * ["fault 2 order"]),
             recorded(bench, script))
    told = bench.run([bench.path("ordered"), "queue"], 3, CLSIM_SERVE="true serve", CLSIM_ORDERS="always")
    want("the simulator is gone" in told and "no launches with orders" not in told, told)


def written(bench, explains):
    """JSON and SARIF have a kind of their own for it, which is no error."""
    path, log = bench.path("orders.json"), bench.path("orders.sarif")
    for word in ("always", "auto"):
        if os.path.exists(path):
            os.remove(path)
        bench.run([bench.path("ordered"), "queue"], CLSIM_ORDERS=word, CLSIM_JSON=path)
        with open(path, encoding="utf-8") as file:
            [line] = file.read().splitlines()
        told = json.loads(line)
        fault, launch = told["fault"], told["launch"]
        want((fault["number"], fault["name"], launch["orders"], launch["command"]) == (2, "ordered", True, 1), line)
        want(fault["line"].startswith("ordered: fault 2 order item " if word == "auto" else "ordered")
             and told["why"][-1] == {"kind": "ordered", "text": GOES_ON}, line)
        want(len(told["items"]) == (2 if word == "auto" and explains else 0), line)
        bench.run([EXEC, "--sarif", log, bench.path("ordered"), "queue"], CLSIM_ORDERS=word)
        with open(log, encoding="utf-8") as file:
            [result] = json.load(file)["runs"][0]["results"]
        want((result["ruleId"], result["level"]) == ("clsim/ordered", "warning")
             and GOES_ON in result["message"]["text"], result)
    told = bench.run([EXEC, "--orders", bench.path("ordered"), "queue"])
    want("they are right" in told and "clsim: ordered: a launch of kernel queue\n" in told, told)


KERNEL = """\
__kernel void compact(__global int *count, __global int *out, int step) {
    int i = get_global_id(0);
    if (i % step == 0) out[atomic_inc(count)] = i;
}
"""


def kernel_command(bench):
    """clsim-kernel --orders: the verdict `ordered` has status 0, and the script has the word."""
    source, script = bench.path("ordered.cl"), bench.path("ordered.txt")
    with open(source, "w", encoding="ascii") as file:
        file.write(KERNEL)
    words = [bench.path("clsim-kernel"), source, "compact", "--global", "8", "--local", "4", "--arg", "count=int[1]",
             "--arg", "out=int[8]", "--arg", "step=2", "--dump", "out"]
    told = bench.run([*words, "--orders", "--script", script], CLSIM_ORDERS="never")
    want(told == "ordered: a launch of kernel compact\n  kernel compact, global size 8, local size 4\n"
         f"  {GOES_ON}\n  reply: ordered\nout[0]: 0 2 4 6 0 0 0 0\n", told)
    want(recorded(bench, script) == ("clsim 3", [True], ["ordered"]), recorded(bench, script))
    want("fault 2 order: " in bench.run(words, 1, CLSIM_ORDERS="always"), "it isn't a fault")
    words[words.index("step=2")] = "step=8"
    want(bench.run([*words, "--orders"]) == "clean\nout[0]: 0 0 0 0 0 0 0 0\n", "it isn't clean")
    words[words.index("count=int[1]")] = "count=int:9"
    want("fault 4 bounds: " in bench.run([*words, "--orders"], 1), "it isn't out of bounds")


def in_python(bench, python):
    """A client in Python that makes its kernels anew for each launch."""
    words = [python, os.path.join(HERE, "python/compaction.py")]
    for settings, first in [({"CLSIM_ORDERS": "auto"}, "work-item "), ({"CLSIM_ORDERS": "always"}, "a launch of ")]:
        told = bench.run(words, CLSIM_STATUS="9", **settings)
        want("compaction is right" in told and told.count(f"clsim: ordered: {first}") == 1
             and "clsim: 4 launches were ordered\n" in told and not faults_in(told), told)
    want("INVALID_OPERATION" in bench.run(words, 1), "it goes on without the setting")
    told = bench.run([*words, "mistake"], 1, CLSIM_ORDERS="always")
    want("clsim: fault 1 race: " in told and "INVALID_OPERATION" in told, told)


def tests(bench, is_with_clang, explains, python):
    """The tests, each with its name."""
    if is_with_clang:
        for name in CASES:
            yield f"orders: {name}, asked for", lambda name=name: asked_for(bench, name)
            yield f"orders: {name}, by itself", lambda name=name: by_itself(bench, name, explains)
            yield f"orders: {name}, not asked for", lambda name=name: not_asked_for(bench, name)
        for name in RACE:
            yield f"orders: {name}, with a mistake", lambda name=name: with_mistake(bench, name, explains)
        yield "orders: not ordered", lambda: not_ordered(bench)
        yield "orders: printf", lambda: printed(bench)
        yield "orders: an unknown word", lambda: known_words(bench)
        yield "orders: an older device", lambda: older_device(bench)
        yield "orders: JSON and SARIF", lambda: written(bench, explains)
    yield "orders: clsim-kernel", lambda: kernel_command(bench)
    if python:
        yield "orders: Python", lambda: in_python(bench, python)
