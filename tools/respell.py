#!/usr/bin/env python3
"""Spells the repository's own definitions and lemmas as today's Rattle does: words in snake case, types in camel case.

usage: tools/respell.py     at the top, once, after the toolchain's port.py

A name is the repository's own where a file of specs/ or a lemma file of proofs/ declares it. It turns in every .rt and .antt file and every
must-fail edit, and stays in a file that imports a library's name of that spelling or gives it to a call, in a comment and in a string. Two names that would fall
together in one file are said, and nothing is written.
"""
import collections
import pathlib
import re
import sys

WORD = re.compile(r"[A-Za-z_◌\w'′·]+(?:-[\w'′◌]+)+|[\w'′]*′[\w'′]*")
DECLARED = re.compile(
    r"^\s*(?:(?:pub|abbrev|unfoldable|record|data|package|axiom|open)\s+)*((?:[^\s(){}.;,:=⟨⟩]+\s+)*?[^\s(){}.;,:=⟨⟩]+)\s+(?:\([^\n]*?\)\s+|\{[^\n]*?\}\s+)*:\s",
    re.M,
)
QUIET = re.compile(r'"(?:[^"\\\n]|\\.)*"|(?<![^\s(){}.;,@"«»])--[^\n]*|//[^\n]*')
OUTSIDE = re.compile(r"^\s*(?:pub )?(?:ghost )?use (?!Rattle\.(?:%s)\.)[^\n]*?\{([^}]*)\}", re.M)


# Other names that imports give, and names of arguments.
OTHER_NAMES = """base-mode a-count a-long a-mode a-part is-part in-it script-behind long-fields fields-whole fields-faulty run-whole run-faulty
asked-kind asked-format""".split()

# A definition that has the name of a function, of whose answer it speaks.
SAME_AS_A_FUNCTION = {"whole-span", "payload-span", "list-word", "well-formed", "ill-formed"}


def spelled(name):
    if name in SAME_AS_A_FUNCTION:
        return name.replace("-", "_") + "_of"
    name = name.replace("′", "'")
    if name[0].isupper():
        parts = name.split("-")
        out = parts[0]
        for p in parts[1:]:
            out += ("_" if p[0].isdigit() and out[-1].isdigit() else "") + p[0].upper() + p[1:]
        return out
    return name.replace("-", "_")


def outside_comments(text, turn):
    out, at = [], 0
    for m in QUIET.finditer(text):
        out += [turn(text[at : m.start()]), m[0]]
        at = m.end()
    return "".join(out + [turn(text[at:])])


def main():
    if len(sys.argv) > 1:
        sys.exit("respell: takes no words")
    top = pathlib.Path(".")
    if not (top / "crates.txt").is_file():
        sys.exit("respell: run it at the top of the repository")
    crates = sorted(p.name for p in (top / "crates").iterdir() if p.is_dir())
    outside = re.compile(OUTSIDE.pattern % "|".join(crates), re.M)
    files = [p for p in sorted(top.glob("crates/**/*")) if p.suffix in (".rt", ".antt", ".edit") and "out" not in p.parts]
    own = set(OTHER_NAMES)
    for p in files:
        rest = p.parts[2:]
        if p.suffix == ".antt" and (rest[0] == "specs" or rest[0] == "proofs" and len(rest) == 2):
            for m in DECLARED.finditer(p.read_text()):
                own |= {w for w in m[1].split() if WORD.fullmatch(w) and not w.startswith("-")}
    clash, written = [], {}
    for p in files:
        text = p.read_text()
        theirs = {w.split(" as ")[0].strip() for m in outside.finditer(text) for w in m[1].split(",")}
        theirs |= {w.split(" as ")[-1].strip() for m in outside.finditer(text) for w in m[1].split(",")}
        calls = set(re.findall(r" as ([\w'-]+)$", text, re.M)) if p.name == "Proof.antt" else set()  # what a proof calls the functions that are called
        here = own - theirs - (calls - set(OTHER_NAMES))
        plain = set(re.findall(r"(?<![\w'.])[\w']+(?![\w'.])", QUIET.sub(" ", text)))  # a path's parts aside
        turned = collections.defaultdict(set)

        def one(m):
            if m[0] not in here:
                return m[0]
            turned[spelled(m[0])].add(m[0])
            return spelled(m[0])

        if p.suffix == ".edit":
            new = "\n".join(WORD.sub(one, line) if line.startswith(("old:", "new:")) else line for line in text.split("\n"))
        else:
            new = outside_comments(text, lambda t: WORD.sub(one, t))
        for name, olds in turned.items():
            if len(olds) > 1 or name in plain:
                clash.append(f"{p}: {', '.join(sorted(olds))} and {name}")
        new = new.replace("&&", "⊞") if p.suffix != ".rt" else new  # two readings joined: the library has the old sign for its own
        if new != text:
            written[p] = new
    for line in clash:
        print("respell: falls together: " + line)
    if clash:
        sys.exit("respell: nothing was written")
    for p, new in written.items():
        p.write_text(new)
    print(f"respell: {len(own)} names, {len(written)} files")


main()
