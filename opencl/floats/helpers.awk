# Makes the rows of helpers.h of floats.cl: HELPER(name, result, parameters, calls, text) for each helper, in an order
# in which each stands behind those that it calls. `parameters` and `calls` are words with a space between; the text is
# the helper as it is sent, without comments.
#
# Each variable and parameter gets a `_` at its end, so that a kernel whose name is `sum` doesn't meet a variable of this
# name: no variable may have the name of a function of the text.
#
# In floats.cl a helper's head is one line that begins with its type and ends with `{`, and its last line is `}`.

# A line as a string of C.
function quoted(line) {
    gsub(/\\/, "\\\\", line)
    gsub(/"/, "\\\"", line)
    return "\n    \"" line "\\n\""
}

# The types of the parameters between the brackets of a head.
function types_of(head, parts, count, i, words, types) {
    sub(/^[^(]*\(/, "", head)
    sub(/\).*$/, "", head)
    count = split(head, parts, /, */)
    types = ""
    for (i = 1; i <= count; i++) {
        split(parts[i], words, " ")
        types = types (i > 1 ? " " : "") words[1]
    }
    return types
}

# A line with a `_` behind each name that is no word of the language and no helper.
function with_own_names(line, result, name) {
    result = ""
    while (match(line, /[A-Za-z0-9_]+/)) {
        name = substr(line, RSTART, RLENGTH)
        result = result substr(line, 1, RSTART - 1) name
        if (name ~ /^[a-z]/ && !(name in word) && !(name in known)) result = result "_"
        line = substr(line, RSTART + RLENGTH)
    }
    return result line
}

# Adds the known names in front of a bracket to `calls`, each once.
function note_calls(line, name) {
    while (match(line, /[a-z][a-z0-9_]*\(/)) {
        name = substr(line, RSTART, RLENGTH - 1)
        line = substr(line, RSTART + RLENGTH)
        if ((name in known) && index(" " calls " ", " " name " ") == 0) calls = calls (calls == "" ? "" : " ") name
    }
}

BEGIN {
    print "/* Made of floats.cl by helpers.awk. */"
    count = split("char uchar short ushort int uint long ulong if else for while do break continue return min max clz abs", list, " ")
    for (i = 1; i <= count; i++) word[list[i]] = 1
}

/^[a-z].*\{$/ {
    inside = 1
    split($0, words, /[ (]/)
    name = words[2]
    calls = ""
    known[name] = 1
    text = quoted(with_own_names($0))
    head = name ", " words[1] ", \"" types_of($0) "\""
    next
}

inside {
    line = $0
    gsub(/\/\*[^*]*\*\//, "", line)
    sub(/^ +/, "", line)
    note_calls(line)
    text = text quoted(with_own_names(line))
}

inside && /^\}$/ {
    inside = 0
    print "HELPER(" head ", \"" calls "\"," text ")"
}
