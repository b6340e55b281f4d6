"""Times and instructions of a case's contestants."""
import re
import subprocess
from concurrent.futures import ThreadPoolExecutor
from statistics import median

import making
import workloads

ROUNDS = 80  # in all places of the code together
CONTESTANTS = ("ours", "fields", "crate", "walk", "floor")
CALLGRIND = ["valgrind", "--tool=callgrind", "--collect-atstart=no", "--callgrind-out-file=/dev/null"]


def ran(words, case):
    done = subprocess.run(words, input=workloads.sent(case), capture_output=True)
    if done.returncode:
        said = done.stderr.decode("utf-8", "replace").strip().split("\n")[-1]
        raise making.Failed(f"case {case.name}: {said or f'{words[0]} ended with status {done.returncode}'}")
    return done


def rounds(program, case, names, count):
    """So many rounds, each with the nanoseconds for one unit of every contestant."""
    lines = ran([program, str(count), *names], case).stdout.decode().split("\n")[:-1]
    found = [[float(word) for word in line.split()] for line in lines]
    if len(found) != count or any(len(one) != len(names) for one in found):
        raise making.Failed(f"case {case.name}: the measurement ended early")
    return found


class Figures(dict):
    """The median over the rounds, for one unit, by contestant; and how two contestants compare."""

    def __init__(self, names, rounds):
        self.each = dict(zip(names, zip(*rounds)))
        super().__init__({name: median(ns) for name, ns in self.each.items()})

    def over(self, one, other):
        """The median of one's figure over the other's in the same round: the machine's speed changes from round to round."""
        return median(a / b for a, b in zip(self.each[one], self.each[other]))


def times(programs, case, names, count=ROUNDS):
    """In nanoseconds; each program runs its part of the rounds."""
    return Figures(names, [one for program in programs for one in rounds(program, case, names, count // len(programs))])


def instructions(programs, case, name):
    """The instructions of one pass over the case, for one unit."""
    said = ran([*CALLGRIND, programs[0], "--count", name], case).stderr
    counted = re.search(rb"Collected : (\d+)", said)
    if not counted:
        raise making.Failed(f"case {case.name}: callgrind counted nothing")
    return int(counted.group(1)) / case.units


def all_instructions(programs, cases, names):
    """For each case the instructions by contestant; two at a time, since noise does not move them."""
    with ThreadPoolExecutor(max_workers=2) as pool:
        asked = {(case.name, name): pool.submit(instructions, programs, case, name) for case in cases for name in names}
        for case in cases:
            yield case.name, Figures(names, [[asked[case.name, name].result() for name in names]])
