"""Calls, and what docs/RULES.md has them answer and leave in the store: each expected word is a session's own, or follows from the rules
for descriptors and first bytes (7) and for where a string goes bad (R2.16)."""
from collections import namedtuple

from library import DESCRIPTOR_WORDS, MAX_DEPTH, NOBODY
from long import LONG
from shapes import (
    COUNTER_KINDS, COUNTERS, CUT_KINDS, EVERY_KIND, IPV6, KINDS, P2, P3, P4, P6, P7, P9, P11, P12, P12_DEEPER, P13, counter_sample, deepest, frame,
    header, with_counter, with_string, words)

# as answers.c has them: what the store holds before a call, and how many words behind it are shown too
FILL = 0xA5A5A5A5
SPARE = 2 * DESCRIPTOR_WORDS
NO_HEADER = (0, bytes(16), 0, 0, 0, 0)

# the calls, by their place in answers.c
CALLS = ("decode", "run", "decode_base", "run_base")
RUNS = ("run", "run_base")

# what is expected is a Shown; None stands for anything
Case = namedtuple("Case", "group call data room expected")
Shown = namedtuple("Shown", "code at steps needed header store")
# an input, its header, and what is answered where the store has room
Session = namedtuple("Session", "data header at steps rows")


def nested(count):
    """The descriptors of so many aggregations, each in the other's PDU."""
    rows = [(0, 0, 0, 64 + 16 * count, NOBODY, 0, 0), (1, 1, 32, 32 + 16 * count, 0, 0, 24)]
    for depth in range(1, count + 1):
        start, inside, record = 56 + 16 * depth, 16 * (count - depth), 2 * depth
        rows += [(2, 1016, start, 8 + inside, record - 1, depth, start - 8), (4, 0, start + 8, inside, record, depth, start + 4)]
    return rows


def of_counters():
    """The descriptors of one counter sample with a record of each kind that is opened."""
    rows, start = [], 52
    for form, data in COUNTER_KINDS.items():
        rows.append((3, form, start, len(data), 1, 1, start - 8))
        start += len(data) + 8
    return [(0, 0, 0, start - 8, NOBODY, 0, 0), (1, 2, 32, start - 40, 0, 0, 24), *rows]


def of_h(samples):
    return (0, bytes(16), 0, 1, 0, samples)


S2 = Session(P2, of_h(0), 24, 6, [(0, 0, 0, 24, NOBODY, 0, 0)])
S9 = Session(P9, of_h(1), 44, 11, [(0, 0, 0, 44, NOBODY, 0, 0), (1, 2, 32, 12, 0, 0, 24)])
S11 = Session(P11, of_h(1), 80, 20, nested(1))
S12 = Session(P12, of_h(1), 64 + 16 * MAX_DEPTH, 16 + 4 * MAX_DEPTH, nested(MAX_DEPTH))
WITH_ADDRESS = Session(words(5) + IPV6 + words(7, 8, 9, 0), (2, bytes(range(16)), 7, 8, 9, 0), 40, 7, [(0, 0, 0, 40, NOBODY, 0, 0)])
WITH_COUNTERS = Session(header(1) + counter_sample(2, 2 * frame(4097, b"\1")), of_h(1), 68, 15, [
    (0, 0, 0, 68, NOBODY, 0, 0), (1, 2, 32, 36, 0, 0, 24), (3, 4097, 52, 1, 1, 1, 44), (3, 4097, 64, 1, 1, 1, 56)])

# eleven steps to the records, two for each of them, and their 19, 13, 18, 14, 6 and 5 items
WITH_OPENED = Session(header(1) + COUNTERS, of_h(1), 440, 98, of_counters())

# a malformed datagram, its code, position and steps
MALFORMED = [(P3, 3, 0, 0), (P4, 4, 4, 1), (P6, 2, 28, 7), (P7, 5, 28, 7), (P12_DEEPER, 8, S12.at, S12.steps), (P13, 6, 72, 18)]
# the octets of a VLAN, of which four bytes of eight are there
MALFORMED += [(with_counter(5, words(1, 0)), 2, 56, 14)]
# strings that are not UTF-8, and how many of their bytes are before the first ill-formed sequence
ILL_FORMED = [
    (b"\xff", 0), (b"\xe2\x28\xa1", 0), (b"plain\xc3", 5), (b"\xf0\x9f\xa6\x80\xf0\x9f\xa6", 4), (80 * b"\xc3\xbc" + b"\xed\xa0\x80", 160),
]
MALFORMED += [(with_string(data), 7, 76 + good, 18) for data, good in ILL_FORMED]


def accepted(session, call, room):
    written = [word for row in session.rows for word in row]
    header = NO_HEADER if call in RUNS else session.header
    return Shown(0, session.at, session.steps, len(session.rows), header, tuple(written + [FILL] * (room + SPARE - len(written))))


def unwritten(code, at, steps, needed, room):
    return Shown(code, at, steps, needed, NO_HEADER, (FILL,) * (room + SPARE))


def with_rooms(group, call, session, rooms):
    """The call with a store of each of these lengths."""
    needed = len(session.rows)
    for room in rooms:
        if room // DESCRIPTOR_WORDS >= needed:
            yield Case(group, call, session.data, room, accepted(session, call, room))
        else:
            yield Case(group, call, session.data, room, unwritten(9, 0, session.steps, needed, room))


def edges(call):
    few, near = 4 * DESCRIPTOR_WORDS + 3, DESCRIPTOR_WORDS + 1
    for session in (S2, S9, S11, S12, WITH_ADDRESS, WITH_COUNTERS, WITH_OPENED):
        edge = DESCRIPTOR_WORDS * len(session.rows)
        rooms = {*range(few), *range(max(0, edge - near), edge + near + 1)}
        yield from with_rooms(f"stores of 0 to {few - 1} words, and of {near} less to {near} more than what is needed", call, session, sorted(rooms))


def malformed(call):
    group = "a malformed datagram, whatever the store"
    for room in (0, DESCRIPTOR_WORDS - 1, DESCRIPTOR_WORDS, 600):
        for data, code, at, steps in MALFORMED:
            # code 2 ends a run, which then has no datagram
            ends = call in RUNS and code == 2
            yield Case(group, call, data, room, unwritten(0, 0, steps, 0, room) if ends else unwritten(code, at, steps, 0, room))
        if call in RUNS:
            yield Case(group, call, P9 + P3, room, unwritten(3, 44, 11, 0, room))


def sum_of_run():
    """P9, P2 and P11 end to end: each of them fits where the sum does not."""
    rows = list(S9.rows)
    for session, start in ((S2, 44), (S11, 68)):
        index = len(rows)
        rows += [(k, f, at + start, n, p if p == NOBODY else p + index, d, first + start) for k, f, at, n, p, d, first in session.rows]
    three = Session(P9 + P2 + P11, NO_HEADER, 148, 37, rows)
    for call in RUNS:
        yield from with_rooms("a run whose sum does not fit, and one that just does", call, three, range(DESCRIPTOR_WORDS * (len(rows) + 2)))


# flow record 2 without its last word: to the base mode it is whole
TWENTY = deepest([frame(2, KINDS[2][:20])])


def deep(call):
    group = f"every kind of record, flow records at depth {MAX_DEPTH}, whole, and cut short before each of its words"
    above = 2 + 2 * (MAX_DEPTH - 1)
    needed = above + len(KINDS) + 2 + 1 + len(COUNTER_KINDS)
    yield Case(group, call, EVERY_KIND, 600, Shown(0, len(EVERY_KIND), None, needed, None, None))
    for data in CUT_KINDS:
        if data == TWENTY and call.endswith("_base"):
            yield Case(group, call, data, 600, Shown(0, len(data), None, above + 1, None, None))
        else:
            yield Case(group, call, data, 600, unwritten(0 if call in RUNS else 2, None, None, 0, 600))


def long():
    for _, call, code, shape in LONG:
        data = shape(16384)
        room = len(data) // 4 * DESCRIPTOR_WORDS
        yield Case("inputs of one shape, 16 KiB each", call, data, room, Shown(code, len(data), None, None, None, None))


def all_cases():
    yield from with_rooms("P11 with a store for three descriptors: code 9, needed 4, 20 steps", "decode", S11, [3 * DESCRIPTOR_WORDS])
    for call in CALLS:
        yield from edges(call)
        yield from malformed(call)
        yield from deep(call)
    yield from sum_of_run()
    yield from long()
