"""Cost by length: instructions, which callgrind counts, and times.

The time for 16 MiB is held against that for 1 MiB in one place, which stays in the caches, and against 1 MiB of the same memory, as one of
sixteen inputs side by side. A string is nothing but bytes to look at, at a speed that the memory gives: it is judged by the same memory.
One that goes bad at its end is held against the same one accepted: what it costs to tell the place."""
import os
import re
import struct
import subprocess
from concurrent.futures import ThreadPoolExecutor
from statistics import median

import build
from library import MAX_INPUT
from long import ENDINGS, LISTS, LONG, STRINGS
from shapes import COUNTER_KINDS, KINDS, with_counter, with_record

MIB = MAX_INPUT // 16  # so that 16 of them are the longest input
MOST = 17
MOST_OF_ACCEPTED = 2
ROUNDS = 7
CALLGRIND = ["valgrind", "--tool=callgrind", "--collect-atstart=no", "--callgrind-out-file=/dev/null"]


def sent(*inputs):
    return b"".join(struct.pack("<I", len(data)) + data for data in inputs)


def instructions(command, call, code, data, at=None):
    """The instructions of one call, which answers this code at this place, or at the input's end."""
    at = len(data) if at is None else at
    ran = subprocess.run([*CALLGRIND, *command, call], input=sent(data), capture_output=True)
    counted = re.search(rb"Collected : (\d+)", ran.stderr)
    if ran.returncode or not counted:
        build.fail("callgrind counted nothing: " + ran.stderr.decode("utf-8", "replace").strip().split("\n")[-1])
    if ran.stdout.split() != [b"%d" % code, b"%d" % at]:
        build.fail(f"a call over {len(data)} bytes answers {ran.stdout.decode().strip()}, not {code} at {at}")
    return int(counted.group(1))


def times(command, call, code, small, big):
    """For each round the times for 16 MiB, for 1 MiB of the same memory, and for 1 MiB in the caches."""
    first, *rounds = build.run([*command, call, str(ROUNDS)], input=sent(small, big)).decode().strip().split("\n")
    if first.split() != [str(n) for n in (code, len(small), code, len(big))]:
        build.fail(f"calls over {len(small)} and {len(big)} bytes answer {first}, not {code} at their ends")
    return [tuple(map(float, line.split())) for line in rounds]


def timed_figure(time, name, call, code, shape):
    rounds = times(time, call, code, shape(MIB), shape(16 * MIB))
    in_place = median(big / place for big, _, place in rounds)
    side_by_side = median(big / side for big, side, _ in rounds)
    met = side_by_side <= MOST and (name in STRINGS or in_place <= MOST)
    return met, f", {in_place:.2f} in time ({side_by_side:.2f} over the same memory)"


def long_figures(count, pool, timed):
    def ratio(case):
        _, call, code, shape = case
        small, big = (instructions(count, call, code, shape(size)) for size in (MIB, 16 * MIB))
        return big / small

    time = build.program("time")
    for (name, call, code, shape), ratio_found in zip(LONG, list(pool.map(ratio, LONG))):
        met, said = timed_figure(time, name, call, code, shape) if timed else (True, "")
        text = f"{ratio_found:.2f} in instructions{said}, at most {MOST}"
        yield ratio_found <= MOST and met, f"16 MiB over 1 MiB, {name}: {text}"


def ending_figures(count, pool):
    """Strings that go bad at their end, over the same ones accepted."""
    def both(case):
        _, shape, bad = case
        data = shape(16 * MIB)
        at = len(data) - 8 - len(bad)  # two words are behind the string
        return instructions(count, "decode", 0, data), instructions(count, "decode", 7, data[:at] + bad + data[-8:], at)

    for (name, _, _), (accepted, refused) in zip(ENDINGS, pool.map(both, ENDINGS)):
        text = f"{refused / accepted:.2f} in instructions ({refused} and {accepted}), at most {MOST_OF_ACCEPTED}"
        yield refused <= MOST_OF_ACCEPTED * accepted, f"a string of 16 MiB refused at its end over accepted, {name}: {text}"


def list_figures(count, pool):
    def both(case):
        return [instructions(count, "decode", 0, case[1](n)) for n in (10, 1000000)]

    for (name, _), (few, many) in zip(LISTS, pool.map(both, LISTS)):
        yield few == many, f"a list of 10 words and one of 1000000, {name}: {few} and {many} instructions, which must be equal"
    one, eight = pool.map(lambda form: instructions(count, "decode", 0, with_record(form, KINDS[form])), (1011, 3))
    yield eight - one < 7, f"a row of one word and one of eight: {one} and {eight} instructions, less than 7 more"
    few, many = pool.map(lambda form: instructions(count, "decode", 0, with_counter(form, COUNTER_KINDS[form])), (5, 1))
    yield many - few < 13, f"a counter record of 6 items and one of 19: {few} and {many} instructions, less than 13 more"


def figures(timed):
    count = build.program("count")
    with ThreadPoolExecutor(os.cpu_count()) as pool:
        yield from list_figures(count, pool)
        yield from ending_figures(count, pool)
        yield from long_figures(count, pool, timed)
