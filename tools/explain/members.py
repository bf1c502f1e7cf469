"""What a log of SARIF 2.1.0 has to hold, as far as tools/explain writes it: the members of each object, by its standard
(OASIS SARIF 2.1.0, sections 3.13 to 3.38, and its schema)."""

import re

# A member is a kind of object, a list of one (which isn't empty where it is marked by +), or a plain type. A mark !
# means that the standard requires the member, or that code hosts do.
KINDS = {
    "log": {"$schema": str, "version!": str, "runs!": ["run"]},
    "run": {"tool!": "tool", "columnKind": str, "results!": ["result"]},
    "tool": {"driver!": "driver"},
    "driver": {"name!": str, "rules": ["rule"]},
    "rule": {"id!": str, "name": str, "shortDescription": "text"},
    "text": {"text!": str},
    "result": {
        "message!": "text", "ruleId!": str, "level": str, "locations!": ["location", "+"],
        "relatedLocations": ["location"], "partialFingerprints": dict, "codeFlows": ["flow"],
    },
    "location": {"id": int, "physicalLocation!": "physical", "message": "text"},
    "physical": {"artifactLocation!": "artifact", "region!": "region", "contextRegion": "region"},
    "artifact": {"uri!": str},
    "region": {"startLine!": int, "startColumn": int, "endColumn": int, "snippet": "text"},
    "flow": {"threadFlows!": ["thread", "+"], "message": "text"},
    "thread": {"id": str, "locations!": ["step", "+"]},
    "step": {"location": "location", "executionOrder": int},
}
VALUES = {"version": ["2.1.0"], "columnKind": ["utf16CodeUnits", "unicodeCodePoints"],
          "level": ["none", "note", "warning", "error"]}
# a reference to a file by RFC 3986, without a scheme
REFERENCE = r"(?:[\w.~!$&'()*+,;=@/-]|%[0-9A-Fa-f]{2})+"


def wrong_members(value, kind="log", name="log"):
    """What is wrong with a value of a kind, each as a line of text."""
    if isinstance(kind, list):
        if not isinstance(value, list) or (kind[1:] and not value):
            return [f"{name} is no list with something in it"]
        return [words for number, part in enumerate(value)
                for words in wrong_members(part, kind[0], f"{name}[{number}]")]
    if not isinstance(kind, str):
        if isinstance(value, bool) or not isinstance(value, kind):
            return [f"{name} is {value!r}"]
        return []
    if not isinstance(value, dict):
        return [f"{name} is no object"]
    members = {member.rstrip("!"): (part, member.endswith("!")) for member, part in KINDS[kind].items()}
    wrong = [f"{name} lacks {member}" for member, (_, required) in members.items() if required and member not in value]
    for member, part in value.items():
        if member not in members:
            wrong.append(f"{name} has {member}")
        else:
            wrong += wrong_members(part, members[member][0], f"{name}.{member}")
            if member in VALUES and part not in VALUES[member]:
                wrong.append(f"{name}.{member} is {part!r}")
    return wrong + (wrong_place(value, name) if kind in ("region", "artifact", "result") else [])


def wrong_place(value, name):
    """What is wrong with the numbers of a region, the name of a file, or the texts by which a result is known again."""
    if "uri" in value:
        return [] if re.fullmatch(REFERENCE, str(value["uri"])) else [f"{name}.uri is {value['uri']!r}"]
    if "startLine" in value:
        first, end = value.get("startColumn", 1), value.get("endColumn")
        right = value["startLine"] >= 1 and first >= 1 and (end is None or end > first)
        return [] if right else [f"{name} is {value!r}"]
    prints = value.get("partialFingerprints", {})
    if all(isinstance(part, str) for part in prints.values()):
        return []
    return [f"{name}.partialFingerprints is {prints!r}"]
