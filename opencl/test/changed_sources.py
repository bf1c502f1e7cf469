"""Sources of clients with changes by chance, most of them no programs any more: words that are left out, doubled,
repeated many times, moved, or others."""
import random
import re

WORDS = re.compile(r"\w+|\s+|[^\w\s]")
OTHERS = ["0", "4294967296", "18446744073709551615", "-1", "(", "{", "}", "[", ";", ",", "\\\n", '"', "'", "'a'",
          "/*", "//", "#", "unsigned", "const", "__constant", "*", "&", "?", ":", "sizeof", "switch", "case", "enum",
          "typedef", "\x80", "0x", "1e9"]


def change(numbers, words, all_words):
    """Makes one change in a list of words."""
    at = numbers.randrange(len(words))
    kind = numbers.randrange(6)
    if kind == 0:
        del words[at]
    elif kind == 1:
        words.insert(at, numbers.choice(all_words))
    elif kind == 2:
        words[at] = numbers.choice(all_words)
    elif kind == 3:
        words[at] = numbers.choice(OTHERS)
    elif kind == 4:
        begin = numbers.randrange(len(words))
        words[at:at] = words[begin:begin + numbers.randrange(1, 12)]
    else:
        words[at] *= numbers.choice([2, 3, 70, 300])


def changed(seed, sources):
    """One of these sources with up to six changes."""
    numbers = random.Random(seed)
    words = WORDS.findall(numbers.choice(sources))
    all_words = [word for source in sources for word in WORDS.findall(source)]
    for _ in range(numbers.choice([1, 1, 2, 3, 6])):
        if words:
            change(numbers, words, all_words)
    return "".join(words)
