"""The helpers of a file: their heads, their texts, and which call which."""
import re

HEAD = re.compile(r"^(\w+) (\w+)\(([^)]*)\) \{$")


class Helper:
    def __init__(self, result, name, parameters):
        self.result, self.name = result, name
        self.types = [parameter.split()[0] for parameter in parameters.split(",")]
        self.lines, self.calls = [], []


def read_helpers(path):
    """By name, in the order of the file."""
    helpers, current = {}, None
    with open(path) as file:
        text = re.sub(r"/\*.*?\*/", "", file.read(), flags=re.S)
    for line in text.splitlines():
        head = HEAD.match(line)
        if head:
            current = Helper(*head.groups())
        if current:
            current.lines.append(line.strip())
            for name in re.findall(r"(\w+)\(", line):
                if name in helpers and name not in current.calls:
                    current.calls.append(name)
        if line == "}" and current:
            helpers[current.name] = current
            current = None
    return helpers


def text_of(helpers, names):
    """The text of these helpers and of all that they call."""
    wanted, rest = set(), list(names)
    while rest:
        name = rest.pop()
        if name not in wanted:
            wanted.add(name)
            rest += helpers[name].calls
    return "".join("\n".join(helper.lines) + "\n" for name, helper in helpers.items() if name in wanted)
