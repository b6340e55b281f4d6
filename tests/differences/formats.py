"""The lists of docs/DIFFERENCES.md: which records only the crate opens, and the fewest bytes, all zero, that it takes in each."""
import re

import crate
import document
from figures import BY_FORMAT
from recipes import Recipe, Unreadable

# the enterprises whose 4,096 formats are all tried: those of the lists, sFlow-RT's, and the least and the greatest other one
ENTERPRISES = (0, 4413, 5703, 4300, 1, 1048575)


def listed(kind):
    """The format words, each with its bytes."""
    found, text = {}, re.search(r"^- %s records: ((?:.+\n)(?:  .+\n)*)" % kind, document.text(), re.M)
    if not text:
        raise Unreadable(f"docs/DIFFERENCES.md has no list of {kind.lower()} records")
    for part in text.group(1).split(";"):
        enterprise = int((re.search(r"of\s+enterprise\s+(\d+)", part) or [0, 0])[1])
        found.update((enterprise << 12 | int(form), int(size)) for form, size in re.findall(r"(\d+) \((\d+)\)", part))
    return found


def taken(inputs):
    """Which of these the crate accepts."""
    return [one for one, (shown, _) in zip(inputs, crate.told(inputs.values(), "--outcome")) if shown.startswith("Ok")]


def check(checks):
    for name, kind, number in (("Flow", "flow", 2), ("Counter", "counter", 3)):
        expected = listed(name)
        words = [enterprise << 12 | form for enterprise in ENTERPRISES for form in range(4096)]
        empty = {word: of(kind, word, 0) for word in words}
        opened = set(words) - set(taken(empty)) - {form for own, form in BY_FORMAT if own == number}
        checks.same(f"{name} records that only the crate opens", set(), opened ^ set(expected))
        sizes = {(word, size): of(kind, word, size) for word, least in expected.items() for size in range(least + 1)}
        found = {}
        for word, size in taken(sizes):
            found.setdefault(word, size)
        checks.same(f"{name} records: the fewest bytes that the crate takes", expected, found)


def of(kind, word, size):
    return Recipe(f"{kind} {word >> 12}/{word & 0xfff}: " + "00" * size).input()
