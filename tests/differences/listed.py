"""The oracle's own list of differences outside the domain of equality (oracle/judge/src/listed.rs): each is a row of docs/DIFFERENCES.md, with
the same answers."""
import os
import re
import subprocess
from collections import namedtuple

import figures

ORACLE = os.path.join(figures.ROOT, "oracle", "run")
SHOWN = 512  # bytes of an input that the oracle shows

Listed = namedtuple("Listed", "length first code at crate run_code run_at crate_run datagrams")


def listed():
    ran = subprocess.run([ORACLE, "--listed"], capture_output=True, text=True)
    if ran.returncode:
        raise figures.building.Failed(f"oracle/run --listed: {(ran.stderr.strip() or 'it failed').splitlines()[-1]}")
    for line in ran.stdout.splitlines():
        length, first, *numbers = line.split()
        yield Listed(int(length), first, *map(int, numbers))


def shown(one):
    """The length and the first bytes of an input, which is hex and how far zeros fill it up."""
    data, _, size = one.partition("*")
    length = int(size or len(data) // 2)
    return length, data[:2 * SHOWN].ljust(2 * min(length, SHOWN), "0")


def like(claim, who, one):
    """What the list has, put as the claim puts it; None where the claim is of something that the list leaves out."""
    code, at, datagrams = (one.run_code, one.run_at, None) if who == "here" else (one.crate_run, None, one.datagrams)
    if claim.startswith("run: "):
        if claim.endswith(("datagram", "datagrams")):
            return claim if code == 0 and datagrams in (None, int(claim.split()[1])) else f"run: {code}"
        return f"run: {code} at {at}" if " at " in claim else f"run: {code}"
    if re.fullmatch(r"\d+ at \d+", claim):
        return f"{one.code} at {one.at}"
    if claim.isdigit():
        return str(one.crate)
    return None


def check(checks, rows):
    by_input = {shown(row.recipe.input()): row for row in rows}
    for one in listed():
        row = by_input.get((one.length, one.first))
        checks.same(f"the oracle's list: an input of {one.length} bytes, {one.first[:160]}, has a row", True, row is not None)
        for who, claim in row.claims if row else ():
            checks.same(f"{row.what}: {who}, in the oracle's list", claim, like(claim, who, one) or claim)
