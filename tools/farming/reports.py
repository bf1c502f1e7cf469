"""The reports of a farm, from its plan and the lines of results: a summary, JUnit XML, SARIF and pages."""
import collections
import json
import os
import re
import sys

import page
from base import FAULTY, ORDERED, PASSING, ROOT, VERDICTS, lines_of, plan_of, write_whole
from page import escaped, first_of, holds_of

# What the result of a script says of which no line is there.
MISSING = {"verdict": "missing", "line": "no result", "script_line": None, "seconds": 0, "mb": 0, "mb_at_most": False,
           "host": "", "explanation": None}


def results_of(plan):
    """Each script of the plan with its result; one without a result is missing."""
    lines = lines_of(plan.folder)
    had = [key for key in plan.places if key in lines]
    # (all lines at once take half as long as each by itself)
    found = dict(zip(had, json.loads(b"[%s]" % b",".join([lines[key] for key in had]))))
    results = [found.get(it["key"], MISSING) | it for it in plan.scripts]
    names = None
    for it in results:
        if "as" in it:
            names = names or {it["key"]: it["script"] for it in reversed(plan.scripts)}
            it["as_script"] = names.get(it["as"], f"the script of {it['as']}")
    return results


def summary_of(results):
    counted, others = collections.Counter([it["verdict"] for it in results]), sum("as" in it for it in results)
    text = ", ".join(f"{counted[it]} {it}" for it in VERDICTS if counted[it])
    text = f"{len(results)} script{'s' * (len(results) != 1)}: {text}"
    return text + (f" ({others} by the verdict on another)" if others else "")


# ---- JUnit


def noted_of(it):
    """What is told of a script beside its fault: at which line it is ordered, and for which bytes its replies hold."""
    at = f"{ORDERED}, line {it['script_line']}" if it["verdict"] == ORDERED else ""
    return "; ".join(text for text in (at, holds_of(it)) if text)


def in_xml(text):
    """Text as XML has it, also between quotes; a character that XML has not is a question mark."""
    if not (text.isascii() and text.isprintable()):
        text = re.sub(r"[^\x20-\ud7ff\ue000-\ufffd\U00010000-\U0010ffff]", "?", text)
    return escaped(text)


def case_of(it):
    """A script as a case of JUnit: a fault or a refusal is a failure, what wasn't judged an error."""
    folder, _, name = it["script"].rpartition("/")
    case = f'  <testcase classname="{in_xml(folder or ".")}" name="{in_xml(name)}" time="{it["seconds"]}">\n'
    if it["verdict"] not in PASSING:
        word = "failure" if it["verdict"] in (FAULTY, "refused") else "error"
        case += f'    <{word} type="{it["verdict"]}" message="{in_xml(first_of(it))}"/>\n'
    noted = noted_of(it)
    return case + (f"    <system-out>{in_xml(noted)}</system-out>\n" if noted else "") + "  </testcase>\n"


def junit_of(results):
    """The results as JUnit XML."""
    failures = sum(it["verdict"] in (FAULTY, "refused") for it in results)
    errors = sum(it["verdict"] not in (*PASSING, FAULTY, "refused") for it in results)
    total = round(sum([it["seconds"] for it in results]), 3)
    head = f'<testsuite name="clsim" tests="{len(results)}" failures="{failures}" errors="{errors}" time="{total}">\n'
    cases = "".join([case_of(it) for it in results])
    return f'<?xml version="1.0" encoding="UTF-8"?>\n{head}{cases}</testsuite>\n'


# ---- what is explained


def code_of(name):
    """The code of a script of tools/explain, loaded once for all that it makes, or None where it isn't there."""
    folder = f"{ROOT}/tools/explain"
    if not os.path.isfile(f"{folder}/{name}.py"):
        return None
    import importlib.util  # pylint: disable=import-outside-toplevel
    if folder not in sys.path:
        sys.path.append(folder)
    about = importlib.util.spec_from_file_location(f"explain_{name}", f"{folder}/{name}.py")
    found = importlib.util.module_from_spec(about)
    about.loader.exec_module(found)
    return found


def made(make, explanations):
    """What a function of tools/explain makes of explanations, or None of such as it can't read."""
    try:
        return make(explanations)
    except (ArithmeticError, AttributeError, LookupError, TypeError, ValueError):
        return None


def write_sarif(folder, explanations):
    """Writes explanations as SARIF."""
    writer = code_of("sarif")
    text = writer and made(writer.log_of, explanations)
    if text:
        write_whole(f"{folder}/results.sarif", text)


def write_pages(folder, explained):
    """Writes a page for each explanation that has none yet."""
    left = [(key, it) for key, it in explained if not os.path.exists(f"{folder}/explanations/{key}.html")]
    writer = code_of("html") if left else None
    for key, explanation in left if writer else []:
        text = made(writer.page_of, [explanation])
        if text:
            write_whole(f"{folder}/explanations/{key}.html", text, synced=False)


def told_of(it):
    """What SARIF is told of a script without an explanation: what was said, and at which line."""
    word = "bad line" if it["verdict"] == "bad" else it["line"].split(" schedule ")[0]
    name = "bad_line" if it["verdict"] == "bad" else word.split(" ")[2]
    return {"kind": "command", "script": it["script"], "script_line": it["script_line"], "reply": word, "name": name}


def write_explanations(plan, results):
    """Writes what `clsim explain` said of scripts with a fault or a refusal: all as SARIF, in which what has no
    explanation, as a bad line, is told with its line alone, and a page for each that has none yet.

    A result's `explanation` is the JSON that `clsim explain SCRIPT --format json` wrote for the worker, or None where
    the program has no such command. It names the file that the worker had, in place of which the script itself is
    named here.
    """
    explained = [(it["key"], {**it["explanation"], "script": it["script"]}) for it in results if it["explanation"]]
    reading = code_of("reading") if explained else None
    explained = [it for it in explained if reading and reading.is_known(it[1])]
    told = [it for it in results if it["verdict"] not in PASSING and not it["explanation"] and it.get("script_line")
            and "as" not in it]
    write_sarif(plan.folder, [explanation for _, explanation in explained] + [told_of(it) for it in told])
    os.makedirs(f"{plan.folder}/explanations", exist_ok=True)
    write_pages(plan.folder, explained[: page.MOST_ROWS])
    for it in told[: page.MOST_ROWS]:
        place = f"{plan.folder}/explanations/{it['key']}.html"
        if not os.path.exists(place):
            write_whole(place, page.place_page(plan, it), synced=False)


# ---- all


def write_reports(plan, results):
    """Writes the reports, each whole."""
    write_explanations(plan, results)
    write_whole(f"{plan.folder}/junit.xml", junit_of(results))
    write_whole(f"{plan.folder}/index.html", page.page_of(plan, results, summary_of(results)))
    write_whole(f"{plan.folder}/summary.txt", summary_of(results) + "\n")


def report(plan):
    """Writes the reports, prints the summary, and gives the status."""
    results = results_of(plan)
    try:
        write_reports(plan, results)
    finally:
        print(f"{summary_of(results)}: {os.path.join(plan.folder, 'index.html')}", flush=True)
    verdicts = {it["verdict"] for it in results}
    return 2 if verdicts - {*PASSING, FAULTY} else 1 if FAULTY in verdicts else 0


def report_again(options):
    """Writes the reports of a folder of results anew."""
    return report(plan_of(options.results))
