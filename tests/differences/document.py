"""The rows of docs/DIFFERENCES.md: what each says of its input, and what the library, the crate and tshark give for it.

A row's claims stand in `code`, in the column of the one that they are about. What is given is put in the same words as the claim, so that
the two can be compared."""
import os
import re

import figures
import tshark_checks
from given import IN_BASE, Given
from recipes import Recipe, Unreadable

PATH = os.path.join(figures.ROOT, "docs", "DIFFERENCES.md")
CODE = re.compile(r"`([^`]*)`")
COLUMNS = {"the crate": "crate", "here": "here", "the public documents, others": "others"}


class Row:
    def __init__(self, what, recipe, claims):
        self.what, self.recipe, self.claims = what, recipe, claims

    def asks_tshark(self):
        return any(who == "others" for who, _ in self.claims)

    def asks_base(self):
        return any(who == "here" and claim.startswith(IN_BASE) for who, claim in self.claims)

    def alone(self):
        """Whether the crate's process may end, and has to be asked for this row only."""
        return any(who == "crate" and claim.startswith("ends") for who, claim in self.claims)


def text():
    with open(PATH) as f:
        return f.read()


def rows():
    """Each row of a table that has an input."""
    found, names = [], []
    for line in text().splitlines():
        cells = [cell.strip() for cell in line.strip("|").split("|")] if line.startswith("|") else []
        if "what" in cells and "input" in cells:
            names = cells
        elif not cells:
            names = []
        elif names and set(line) - set("|-"):
            found.append(row_of(dict(zip(names, cells))))
    return found


def row_of(cells):
    claims = [(who, claim) for name, who in COLUMNS.items() for claim in CODE.findall(cells.get(name, ""))]
    written = CODE.fullmatch(cells["input"])
    if not written or not {"crate", "here"} <= {who for who, _ in claims}:
        raise Unreadable(f"the row '{cells['what']}' lacks an input, or what the crate or the library gives")
    return Row(cells["what"], Recipe(written.group(1)), claims)


def without_places(claim):
    return re.sub(r" at \d+", "", claim)


def check(checks, rows_found):
    named = {row.what for row in rows_found}
    checks.same("what tests/captures declares of tshark has a row", set(), set(tshark_checks.DECLARED) - named)
    shorter = {row: list(row.recipe.shorter()) for row in rows_found}
    given = Given([(row, one) for row in rows_found for one in (row.recipe.input(), *shorter[row])])
    for row in rows_found:
        for who, claim in row.claims:
            checks.same(f"{row.what}: {who}", claim, given.like(claim, who, row.recipe.input()))
        still = [one for one in shorter[row] if holds_of(row, one, given)]
        checks.same(f"{row.what}: shorter inputs of this shape of which the row holds too", [], still)


def holds_of(row, one, given):
    """Whether a row's claims hold of another input, wherever the places are."""
    return all(without_places(claim) == without_places(given.like(claim, who, one)) for who, claim in row.claims)
