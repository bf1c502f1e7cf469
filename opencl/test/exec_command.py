"""Tests of clsim-exec and of faults as JSON (CLSIM_JSON): the settings that an option is, SARIF and pages of the
client's own source, worked out by hand.

`tests(bench, explains)` gives those of opencl/test/run, each with its name and the call that fails or doesn't."""
import json
import os
import sys

HERE = os.path.dirname(os.path.abspath(__file__))
OPENCL = os.path.dirname(HERE)
sys.path.append(os.path.join(OPENCL, "../tools/explain"))

from members import wrong_members  # noqa: E402

EXEC = os.path.join(OPENCL, "clsim-exec")
# a race in a function that is translated in place, of the kernel's second turn of a loop
SOURCE = """\
#define NEXT(i) ((i) + 1)
void move(__global int *data, int i) {
    /* "é" \\ */ data[i] = data[NEXT(i)];
}
__kernel void shift(__global int *data) {
    for (int turn = 0; turn < 2; turn++)
        if (turn == 1)
            move(data, get_global_id(0));
}
"""
SCRIPT = f"""\
buffer a 20
program p {SOURCE.count(chr(10))}
{SOURCE}kernel k p shift
arg k 0 buffer a
launch k 4 2
"""
# a race behind accesses of each kind: local memory, a float, an atomic function, a number below 0
TYPED = """\
#define LEAST (-2147483647 - 1)
__kernel void typed(__global int *a, __global float *b) {
    __local short t[4];
    t[get_local_id(0)] = -7;
    b[get_global_id(0)] = 0.1f;
    atomic_sub(a + 2, 5);
    a[1] = LEAST;
}
"""
TYPED_SCRIPT = f"""\
buffer a 12
buffer b 8
program p {TYPED.count(chr(10))}
{TYPED}kernel k p typed
arg k 0 buffer a
arg k 1 buffer b
launch k 2 2
"""
OPTIONS = [(["--uniform"], "CLSIM_UNIFORM=1"), (["--widen"], "CLSIM_WIDEN=1"), (["--check-api"], "CLSIM_CHECK_API=1"),
           (["--orders"], "CLSIM_ORDERS=always"), (["--on-fault", "go"], "CLSIM_ON_FAULT=go"),
           (["--script", "a b"], "CLSIM_SCRIPT=a b"), (["--log", "l"], "CLSIM_LOG=l"),
           (["--workers", "3"], "CLSIM_WORKERS=3"), (["--budget", "9"], "CLSIM_BUDGET=9"),
           (["--budget", "1000000000"], "CLSIM_BUDGET=1000000000"),
           (["--limits", "profile", "--budget", "1000000"], "CLSIM_BUDGET=1000000"),
           (["--local", "7"], "CLSIM_LOCAL=7"), (["--limits", "profile"], "CLSIM_LIMITS=profile")]
WRONG = [(["--sarif"], "--sarif takes a value"), (["--order"], "there is no option --order:"),
         (["--limits", "x", "true"], "--limits takes profile or large, and not x"),
         (["--workers", "17", "true"], "--workers takes a number from 1 to 16, and not 17"),
         (["--workers", "two", "true"], "--workers takes a number from 1 to 16, and not two"),
         (["--budget", "0", "true"], "--budget takes a number from 1 to 1000000000, and not 0"),
         (["--budget", "1000000001", "true"], "--budget takes a number from 1 to 1000000000, and not 1000000001"),
         (["--budget", "1000001", "--limits", "profile", "true"],
          "--budget by the profile takes a number from 1 to 1000000, and not 1000001"),
         (["--local", "99999999999999999999", "true"], "--local takes a number from 1 to 1024, and not 9999"),
         (["--local"], "--local takes a value"),
         (["--on-fault", "x", "true"], "--on-fault takes error, go, exit or abort, and not x"),
         (["--sarif", "/no/such/x", "true"], "/no/such/x can't be written"),
         (["--html", "/proc/x", "true"], "/proc/x can't be made"), (["/no/such/x"], "there is no program /no/such/x")]


class Wrong(ValueError):
    """A test that came out otherwise than it should."""


def want(condition, text):
    if not condition:
        raise Wrong(text)


def options(bench):
    """Each option is a setting of the driver; a wrong one is told in a line, and nothing is run."""
    for words, setting in OPTIONS:
        told = bench.run([EXEC, *words, "env"])
        want(f"\n{setting}\n" in told and "env never asked Clsim's platform for anything" in told, told)
    for words, line in WRONG:
        told = bench.run([EXEC, *words], 2)
        want(line in told and "never asked" not in told, told)
    for word in ("--help", "-h"):
        want(bench.run([EXEC, word]).startswith("Usage: clsim-exec"), "no help")
    bench.run([EXEC, "sh", "-c", "exit 7"], 7)


def run_in(bench, name, words, script=SCRIPT, **settings):
    """Runs a script by words, of which the last one is its name, in a folder that has the source in a file."""
    folder = bench.path(name)
    os.makedirs(os.path.join(folder, "kernels"))
    for path, text in [("script", script), ("kernels/shift.cl", SOURCE)]:
        with open(os.path.join(folder, path), "w", encoding="utf-8") as file:
            file.write(text)
    told = bench.run(["sh", "-c", f"cd {folder} && exec \"$@\"", "sh", *words, "script"], None, **settings)
    return folder, told


def read(*path):
    with open(os.path.join(*path), encoding="utf-8") as file:
        return file.read()


def shown(bench):
    """SARIF and a page have the places of the client's own file, and name it."""
    words = [EXEC, "--sarif", "out.sarif", "--html", "page/of", bench.path("oclrun")]
    folder, told = run_in(bench, "exec_shown", words, CLSIM_STATUS="1")
    log = json.loads(read(folder, "out.sarif"))
    want("fault 1 race" in told and not wrong_members(log), f"{told}{wrong_members(log)}")
    [result] = log["runs"][0]["results"]
    places = [place["physicalLocation"] for place in result["locations"] + result["relatedLocations"]]
    found = sorted((place["artifactLocation"]["uri"], place["region"]["startLine"], place["region"]["startColumn"],
                    place["region"]["snippet"]["text"]) for place in places)
    want(found == [("kernels/shift.cl", 3, 17, "data"), ("kernels/shift.cl", 3, 27, "data")], found)
    want(result["ruleId"] == "clsim/race" and ", in turn 2 of the loop at 6:5" in json.dumps(result)
         and "argument 0 of the kernel: int* data: byte 4 lies in element 1" in result["message"]["text"], result)
    page = read(folder, "page/of/index.html")
    for text in ["kernels/shift.cl:5: <code>__kernel void shift(__global int *data) {</code>, function shift, launch 1 "
                 "of its context, global size 4, local size 2",
                 '<tr class="marked"><td>3</td><td>    /* &quot;é&quot; \\ */ <mark>data</mark>[i] = <mark>data</mark>'
                 '[NEXT(i)];</td>',
                 '<td>8</td><td>            move(data, get_global_id(0));</td><td class="dim">called at column 13</td>',
                 "both work-items are of group 0"]:
        want(text in page, f"{text}\n{page}")


def whole(bench):
    """The JSON of a fault is that of `clsim explain`, in the client's terms."""
    path = bench.path("exec_whole.json")
    run_in(bench, "exec_whole", [bench.path("oclrun")], CLSIM_JSON=path)
    [line] = read(path).splitlines()
    told = json.loads(line)
    spots = [item["spot"] for item in told["items"]]
    want({(spot["file"], spot["line"], spot["script_line"], spot["length"], spot["text"]) for spot in spots}
         == {("source", 3, 3, 4, SOURCE.splitlines()[2])}, spots)
    want(all(SOURCE.encode()[spot["offset"]:].startswith(b"data[") for spot in spots), spots)
    want([(call["line"], call["column"], call["text"]) for call in spots[0]["calls"]]
         == [(8, 13, "            move(data, get_global_id(0));")], spots)
    want([(loop["line"], loop["column"], loop["turn"]) for loop in spots[0]["loops"]] == [(6, 5, 2)], spots)
    want(told["memory"]["parameters"] == [{"index": 0, "name": "data", "type": "int*", "element": 1}], told["memory"])
    want(told["sources"] == [{"name": "source", "text": SOURCE}] and told["launch"]["global_size"] == [4], told)
    want(all(step["place"]["text"] == "data" for step in told["steps"] if "item" in step), told["steps"])
    want([step["text"] for step in told["steps"]] == ["data[2] is 0", "data[1] is 0", "data[1] = 0"], told["steps"])


def typed(bench):
    """Each step tells its number in the client's type, by the client's name."""
    path = bench.path("exec_typed.json")
    folder, _ = run_in(bench, "exec_typed", [EXEC, "--html", "page", "--sarif", "out.sarif", bench.path("oclrun")],
                       TYPED_SCRIPT)
    run_in(bench, "exec_typed_plain", [bench.path("oclrun")], TYPED_SCRIPT, CLSIM_JSON=path)
    told = json.loads(read(path))
    of_first = ["t[0] = -7", "b[0] = 0.1f", "a[2] was 0, now -5", "a[1] = -2147483648"]
    of_second = ["t[1] = -7", "b[1] = 0.1f", "a[2] was -5, now -10", "a[1] = -2147483648"]
    found = {item: [step["text"] for step in told["steps"] if step.get("item") == item] for item in (0, 1)}
    # (which of the two subtracts first is the schedule's)
    turned = {0: of_first[:2] + of_second[2:], 1: of_second[:2] + of_first[2:]}
    want(found in ({0: of_first, 1: of_second}, turned), found)
    page, log = read(folder, "page/index.html"), json.loads(read(folder, "out.sarif"))
    want("store: b[0] = 0.1f" in page and "store: a[1] = -2147483648" in page, page)
    want("store: b[1] = 0.1f" in json.dumps(log["runs"][0]["results"][0]["codeFlows"]), log)


def not_explained(bench):
    """A fault that isn't explained is written too, and a file that can't be is told once."""
    path = bench.path("exec_plain.json")
    for number, words in enumerate([["--limits", "large"], ["--sarif", "out.sarif", "--html", "page"]]):
        folder, told = run_in(bench, f"exec_plain{number}", [EXEC, *words, bench.path("oclrun")], CLSIM_EXPLAIN="",
                              CLSIM_JSON=path)
        want("fault 1 race" in told, told)
    told = json.loads(read(path))
    want((told["items"], told["memory"], told["why"], told["steps"]) == ([], None, [], []), told)
    want(told["version"] == 3 and "steps_left" not in told, told)
    want(told["fault"]["line"].startswith("fault 1 race item 0 load item 1 store buffer b1 byte 4"), told)
    [result] = json.loads(read(folder, "out.sarif"))["runs"][0]["results"]
    want(result["locations"][0]["physicalLocation"]["region"]["startLine"] == 5, result)
    want("It isn't explained further." in read(folder, "page/index.html"), "no page")
    _, told = run_in(bench, "exec_nowhere", [bench.path("oclrun")], CLSIM_JSON="/no/such/x")
    want(told.count("clsim: cannot write /no/such/x: No such file or directory") == 1, told)


def held(bench):
    """A fault of the flags of a buffer has a rule of its own."""
    path = bench.path("exec_held.json")
    told = bench.run([bench.path("held")], CLSIM_JSON=path)
    lines = [json.loads(line) for line in read(path).splitlines()]
    flags = [line for line in lines if line["fault"]["name"] == "flags"]
    want(len(flags) == told.count("clsim: fault flags") > 0, told)
    want(all(line["fault"]["line"].startswith("fault flags item ") and " element " not in line["fault"]["line"]
             and line["why"][0]["kind"] == "flags" and line["items"][0]["spot"]["file"] == "source" for line in flags),
         flags[:1])


def headers(bench):
    """A place in a header that the client gave has the header's name, and its text is there."""
    path = bench.path("exec_headers.json")
    bench.run([bench.path("linking"), "headers"], CLSIM_JSON=path)
    told = json.loads(read(path).splitlines()[0])
    spot = told["items"][0]["spot"]
    want((spot["file"], spot["line"], spot["column"]) == ("ops/add.h", 5, 5), spot)
    want([(call["file"], call["line"], call["column"]) for call in spot["calls"]] == [("source", 5, 47)], spot)
    want({source["name"] for source in told["sources"]} >= {"ops/add.h", "source"}, told["sources"])


def tests(bench, is_with_clang, explains):
    """The tests, each with its name."""
    yield "clsim-exec: options", lambda: options(bench)
    if not is_with_clang or not explains:
        return
    yield "clsim-exec: SARIF and a page", lambda: shown(bench)
    yield "clsim-exec: faults that aren't explained", lambda: not_explained(bench)
    yield "faults as JSON", lambda: whole(bench)
    yield "faults as JSON: numbers by their types", lambda: typed(bench)
    yield "faults as JSON: flags", lambda: held(bench)
    yield "faults as JSON: headers", lambda: headers(bench)
