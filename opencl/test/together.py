"""Sources as one source: what each declares for all of it gets a name of its own."""
import re

LINES = re.compile(r"(?m)^[ \t]*#.*(?:\\\n.*)*")
MACRO = re.compile(r"#[ \t]*define[ \t]+(\w+)")
ENUMERATORS = re.compile(r"\benum\b[^{;]*\{([^{}]*)\}")
# a name in front of parameters, of an array's length, of what it is set to, of members, or of the end
DECLARED = re.compile(r"(\w+)\s*(?:\(\)|\[|=|\{\}|;)")
KEYWORDS = {"struct", "union", "enum", "__attribute__", "typedef", "packed", "aligned"}


def emptied(text, begin, end):
    """A text without what stands between brackets."""
    inner = re.compile(rf"\{begin}[^{begin}{end}]*\{end}")
    while inner.search(text):
        text = inner.sub("\0", text)
    return text.replace("\0", begin + end)


def declared(source):
    """The names that a source declares for all of it."""
    lines = "\n".join(LINES.findall(source))
    text = re.sub(r"//.*|/\*.*?\*/|\"(?:[^\"\\]|\\.)*\"|'(?:[^'\\]|\\.)*'", " ", LINES.sub("", source), flags=re.S)
    names = {name for line in ENUMERATORS.findall(text) for name in re.findall(r"\b([A-Za-z_]\w*)\s*(?:=|,|$)", line)}
    names |= set(MACRO.findall(lines))
    outside = emptied(emptied(text, "{", "}"), "(", ")")
    return {name for name in names | set(DECLARED.findall(outside)) if not name[0].isdigit()} - KEYWORDS


def together(sources):
    """One source of all. Macros end with their source."""
    parts = []
    for n, source in enumerate(sources):
        names = declared(source)
        if names:
            source = re.sub(rf"\b({'|'.join(sorted(names))})\b", rf"\1_{n}", source)
        parts.append(source if source.endswith("\n") else source + "\n")
    return "".join(parts)
