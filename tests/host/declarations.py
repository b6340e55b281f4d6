"""A declaration that is not the library's own must be noticed.

Copies of the header are made in which two neighbouring fields of a struct have changed places, and the same calls are made through
them: for each struct and each pair, some answer must come out wrong, and of each function that answers this struct. In other copies a
function is declared as that of the other mode: its answers must come out wrong, and no other's."""
import os
import re

import building
import library_checks
from encoder import LAYOUTS

STRUCT = re.compile(r"typedef struct (latchplume_\w+) \{\n(.*?)\n\} \1;", re.S)
# What many answers are made of is tried by itself.
SHARED = {"latchplume_outcome", "latchplume_span", "latchplume_address", "latchplume_answer", "latchplume_decoded", "latchplume_listed",
          "latchplume_segment", "latchplume_data_source_expanded", "latchplume_interface_expanded"}


def structs():
    with open(building.at("include", "latchplume.h")) as f:
        header = f.read()
    return header, {m.group(1): m.group(2).split("\n") for m in STRUCT.finditer(header)}


def swapped(header, name, pair):
    """The header with the fields `pair` and `pair + 1` of a struct in each other's place."""
    m = next(m for m in STRUCT.finditer(header) if m.group(1) == name)
    fields = m.group(2).split("\n")
    fields[pair], fields[pair + 1] = fields[pair + 1], fields[pair]
    return header[:m.start(2)] + "\n".join(fields) + header[m.end(2):]


def wrong_groups(script, header, name):
    """What comes out wrong through this header, by the name of what was called."""
    folder = building.made(name)
    os.makedirs(folder, exist_ok=True)
    with open(os.path.join(folder, "latchplume.h"), "w") as f:
        f.write(header)
    building.program(name + ".program", building.calls_sources(), building.LIBRARY, ["-O0"], include=folder)
    _, lines, _ = library_checks.answers([building.made(name + ".program")], script)
    lines += ["nothing"] * (len(script.expected) - len(lines))
    return {group for group, expected, got in zip(script.groups, script.expected, lines) if expected != got}


def answering(header, name):
    """The functions that answer a struct."""
    return set(re.findall(r"^%s (latchplume_\w+)\([^;{]*;$" % name, header, re.M))


def functions(groups):
    return {library_checks.function_of(group) for group in groups}


def in_other_mode(header, function):
    """The header with a function that leads to that of the other mode."""
    other = function[:-len("_base")] if function.endswith("_base") else function + "_base"
    return re.sub(r"^(latchplume_\w+ %s\([^;{]*\));$" % function, r'\1 __asm__("%s");' % other, header, flags=re.M)


def check_modes(checks, header, script):
    for function in (name for name in building.declared() if name.endswith("_base")):
        for one in (function, function[:-len("_base")]):
            wrong = wrong_groups(script, in_other_mode(header, one), "header-other-mode")
            checks.same(f"{one} in the other mode is noticed", {one}, functions(wrong))


def rounds(of):
    """In each round every struct has one pair swapped, as long as it has pairs."""
    for pair in range(max(len(fields) for fields in of.values()) - 1):
        yield [(name, pair) for name, fields in of.items() if pair + 1 < len(fields)]


def check(checks):
    header, of = structs()
    script = library_checks.script(25)
    checks.same("the header as it is", set(), wrong_groups(script, header, "header-as-it-is"))
    own = {name: fields for name, fields in of.items() if name not in SHARED}
    checks.same("structs of the header", len(LAYOUTS) + len(SHARED) + 3, len(of))
    for number, pairs in enumerate(rounds(own)):
        text = header
        for name, pair in pairs:
            text = swapped(text, name, pair)
        wrong = wrong_groups(script, text, f"header-swapped-{number}")
        for name, pair in pairs:
            calls = answering(header, name)
            noticed = calls and calls <= functions(wrong)
            checks.holds(f"{name}: fields {pair} and {pair + 1} swapped are noticed", noticed, "no answer of a call is wrong")
    for name in sorted(SHARED):
        for pair in range(len(of[name]) - 1):
            wrong = wrong_groups(script, swapped(header, name, pair), "header-swapped-shared")
            noticed = wrong and answering(header, name) <= functions(wrong)
            checks.holds(f"{name}: fields {pair} and {pair + 1} swapped are noticed", noticed, "no answer of a call is wrong")
    check_modes(checks, header, script)
