"""Scripts that differ in bytes alone for which their replies hold (--widen): of these one is judged."""
import hashlib
import json
import os
import re
import time

from base import KEY, lines_of, write_whole

# A line that puts bytes into a buffer, and these bytes.
PUT = re.compile(rb"((?:write [A-Za-z_]\w* \d+|fill [A-Za-z_]\w* \d+ \d+) )((?:[0-9a-f]{2})+)")


def mark_of(text, free=None):
    """What scripts have in common that differ in the bytes of the writes and fills in these lines alone, or of all."""
    mark, left = hashlib.sha256(), 0
    for number, line in enumerate(text.split(b"\n"), 1):
        put = PUT.fullmatch(line) if left == 0 and (free is None or number in free) else None
        mark.update(b"bytes %s%d\n" % (put[1], len(put[2])) if put else b"line %s\n" % line)
        program = re.fullmatch(rb"program \w+ (\d{1,5})", line) if left == 0 else None
        left = int(program[1]) if program else max(0, left - 1)
    return mark.hexdigest()[:KEY]


def firsts(left, marks):
    """Of the scripts that have no result the first of each mark that none with a result has."""
    had, found = {marks[key] for key in marks.keys() - set(left)}, {}
    for key in left:
        if marks[key] not in had:
            found.setdefault(marks[key], key)
    return list(found.values())


def judged_in(folder, keys):
    """The results of these scripts, by their keys, as far as they are there."""
    lines = lines_of(folder)
    return {key: json.loads(lines[key]) for key in keys if key in lines}


def free_in(result):
    """The lines of the writes and fills for all of whose bytes the replies to a script hold, None where that isn't
    known."""
    return (result.get("widened") or {}).get("free")


def spare(plan, judge):
    """Judges of scripts that differ in free bytes alone the first, and adds results of the others, which name it.

    Of all that differ in bytes one is judged first; what is free there mostly is so in each of them. Then one is judged
    of all that differ in these bytes. That they are free is taken from its own result."""
    forms = {it["key"]: it["form"] for it in plan.scripts}
    judge(firsts(plan.left(), forms))
    free = {forms[key]: free_in(it) for key, it in judged_in(plan.folder, forms).items()}
    marks = {key: mark_of(plan.text_of(key), frozenset(free.get(form) or ())) for key, form in forms.items()}
    judge(firsts(plan.left(), marks))
    judged = {marks[key]: it for key, it in judged_in(plan.folder, forms).items()
              if "as" not in it and free_in(it) and free_in(it) == free.get(forms[key])}
    others = [as_another(key, judged[marks[key]]) for key in plan.left() if marks[key] in judged]
    if others:
        write_whole(f"{plan.folder}/cases/{os.uname().nodename}.{os.getpid()}.{time.time_ns()}.jsonl", "".join(others))


def as_another(key, judged):
    """The line of the result of a script whose replies are those of another."""
    own = {"seconds": 0, "mb": 0, "mb_at_most": False, "explanation": None, "as": judged["key"]}
    return json.dumps({"key": key, **{name: it for name, it in judged.items() if name != "key"}, **own}) + "\n"
