"""Every function of the library, called from C, against the encoder's figures."""
import random
import re
import subprocess

import building
import encoder
import ethernet_checks
import library
from encoder import (
    BASE, Body, COUNTERS, COUNTER_SAMPLES, DESCRIPTOR_WORDS, LAYOUTS, MAX_DEPTH, MAX_INPUT, MEMO, MODES, NOBODY, RECORDS, SAMPLES, Wire, pads)

NO_ADDRESS = "0/" + "00" * 16
NO_HEADER = f" agent_address={NO_ADDRESS} sub_agent_id=0 sequence_number=0 uptime=0 num_samples=0"
MOST = 2 ** 64 - 1

# the functions that do not read fields, by the names that their calls are counted under
CALLED = {
    "decode": "latchplume_decode", "decode_base": "latchplume_decode_base", "run": "latchplume_decode_run", "run_base": "latchplume_decode_run_base",
    "payload": "latchplume_payload", "whole": "latchplume_whole", "word": "latchplume_list_word", "segment": "latchplume_next_segment",
}


def spelt(row):
    """A descriptor for the program `calls`; the words that are left out at its end are 0."""
    return " ".join(map(str, [*row, *[0] * (DESCRIPTOR_WORDS - len(row))]))


class Script:
    """Lines for the program `calls`, each with the answer that it must give and the name that it is counted under; and the mode that is asked."""

    def __init__(self):
        self.lines, self.expected, self.groups, self.mode = [], [], [], MEMO

    def named(self, name):
        """A call's name in the mode that is asked."""
        return name + "_base" if self.mode == BASE else name

    def data(self, data, size=None):
        self.lines.append("data " + ((bytes(data).hex() or "-") if size is None else f"{bytes(data).hex()}*{size}"))

    def ask(self, group, request, expected):
        self.lines.append(request)
        self.expected.append(expected)
        self.groups.append(group)

    def refused(self, words, code, at, steps, needed=0):
        name = self.named("decode")
        self.ask(name, f"{name} {words}", f"{name} code={code} at={at} steps={steps} needed={needed}{NO_HEADER} changed=0")

    def decoded(self, wire, head, words):
        fields = head.values(0).replace(" version=5", "")
        rows = "".join(" " + ",".join(map(str, row)) for row in wire.rows)
        name = self.named("decode")
        answer = f"{name} code=0 at={len(wire.data)} steps={wire.steps} needed={len(wire.rows)}"
        self.ask(name, f"{name} {words}", f"{answer}{fields}{rows} changed=0")

    def ran(self, words, code, at, steps, needed, rows=()):
        shown = "".join(" " + ",".join(map(str, row)) for row in rows)
        name = self.named("run")
        self.ask(name, f"{name} {words}", f"{name} code={code} at={at} steps={steps} needed={needed}{shown} changed=0")

    def read(self, body, row, expected):
        group = self.named(body.name) if body.name == ethernet_checks.NAME else body.name
        self.ask(group, f"{self.named('read')} {body.name} {spelt(row)}", f"{body.name} {expected}")

    def read_refused(self, body, row, code, at=0, steps=0):
        self.read(body, row, f"code={code} at={at} steps={steps}{body.zeros()}")

    def read_whole(self, body, row, base):
        self.read(body, row, f"code=0 at={base + len(body.data)} steps={len(body.items)}{body.values(base)}")

    def payload(self, row, start, count):
        self.ask("payload", "payload " + spelt(row), f"payload {start}+{count}")

    def whole(self, row, start, count):
        self.ask("whole", "whole " + spelt(row), f"whole {start}+{count}")

    def word(self, start, count, n, value):
        answer = "present=0 value=0" if value is None else f"present=1 value={value}"
        self.ask("word", f"word {start} {count} {n}", f"word {answer}")

    def segment(self, at, code, end, steps, kind=0, path="0+0"):
        self.ask("segment", f"segment {at}", f"segment code={code} at={end} steps={steps} kind={kind} path={path}")


def body_checks(s, body, row, base):
    """A body that was put in: its fields, its lists word by word, its AS path segment by segment."""
    s.read_whole(body, row, base)
    for start, values in body.lists:
        for n, value in enumerate(values):
            s.word(base + start, len(values), n, value)
        s.word(base + start, len(values), len(values), None)
    for start, segments in body.paths:
        at = base + start
        for kind, path in segments:
            end = at + 8 + 4 * len(path)
            s.segment(at, 0, end, 2 + len(path), kind, f"{at + 8}+{len(path)}")
            at = end


def whole_datagrams(s, rng, count):
    for _ in range(count):
        wire, head = encoder.any_datagram(rng, mode=s.mode)
        room = DESCRIPTOR_WORDS * len(wire.rows)
        s.data(wire.data)
        s.decoded(wire, head, room)
        s.decoded(wire, head, room + rng.randint(1, 40))
        s.refused(room - 1, 9, 0, wire.steps, len(wire.rows))
        s.ran(room, 0, len(wire.data), wire.steps, len(wire.rows), wire.rows)
        for row in wire.rows:
            s.payload(row, row[2], row[3])
            s.whole(row, row[6], row[2] + row[3] + pads(row[3]) - row[6])
        for row, body, base, _ in wire.bodies:
            body_checks(s, body, wire.rows[row], base)
        s.data(wire.data + rng.randbytes(rng.randint(1, 9)))
        s.decoded(wire, head, room)


def cut_datagrams(s, rng, count):
    """A datagram that ends early: code 2 at the first item that passes the end."""
    for _ in range(count):
        wire, _ = encoder.any_datagram(rng, mode=s.mode)
        for length in sorted(rng.sample(range(len(wire.data)), min(60, len(wire.data)))):
            start, _, steps = next(item for item in wire.outer if item[1] > length)
            s.data(wire.data[:length])
            s.refused(6000, 2, start, steps)


def runs(s, rng, count):
    for _ in range(count):
        wire, ends = Wire(rng, s.mode), [(0, 0, 0)]
        for _ in range(rng.randint(1, 4)):
            encoder.any_datagram(rng, wire)
            ends.append((len(wire.data), wire.steps, len(wire.rows)))
        s.data(wire.data)
        s.ran(DESCRIPTOR_WORDS * len(wire.rows) + 3, 0, len(wire.data), wire.steps, len(wire.rows), wire.rows)
        s.ran(DESCRIPTOR_WORDS * len(wire.rows) - 1, 9, 0, wire.steps, len(wire.rows))
        for length in rng.sample(range(len(wire.data)), 12):
            end, _, rows = [e for e in ends if e[0] <= length][-1]
            stopped = next(item for item in wire.outer if item[1] > length)
            s.data(wire.data[:length])
            s.ran(60000, 0, end, stopped[2] if length > end else dict((e[0], e[1]) for e in ends)[end], rows, wire.rows[:rows])


def spoiled(wire, base, offset, raw):
    data = bytearray(wire.data)
    data[base + offset:base + offset + len(raw)] = raw
    return data


def wire_of(rng, name, depth, mode=MEMO):
    """A datagram in which this layout stands once, and where: its body, row, first byte, and the steps before it."""
    body = Body(name, rng, mode)
    if name in RECORDS:
        wire = encoder.of_one_record(rng, body, rng.choice(("flow_sample", "flow_sample_expanded", "discarded_packet")), depth)
    elif name in COUNTERS:
        wire = encoder.of_one_record(rng, body, rng.choice(COUNTER_SAMPLES))
    else:
        wire = Wire(rng)
        wire.datagram([] if name == "header" else [wire.put_sample(name, [])])
    return wire, *next(one for one in wire.bodies if one[1].name == name)


def faults(s, rng):
    """Each item that a code is for, spoiled: in a datagram, in a run behind another, and in field reading."""
    first = Wire(rng)
    first.datagram([])
    for name in ["header", *SAMPLES, *RECORDS]:
        for turn in range(6):
            wire, row, body, base, steps = wire_of(rng, name, (1, 2, MAX_DEPTH)[turn % 3], s.mode)
            for item, offset, code, raw, bad in body.faults:
                data, at = spoiled(wire, base, offset, raw), base + bad
                s.data(data)
                s.refused(6000, code, at, steps + item)
                s.read_refused(body, wire.rows[row], code, at, item)
                s.data(first.data + data)
                s.ran(6000, code, at + len(first.data), first.steps + steps + item, 0)


def cut_layouts(s, rng):
    """Each layout in a range that is too short: in field reading by the descriptor, in a datagram by the opaque's own length."""
    for name in LAYOUTS:
        if name == "extended_80211_aggregation":
            continue
        for _ in range(3):
            wire, row, body, base, _ = wire_of(rng, name, 1, s.mode)
            kind, form, start, *rest = wire.rows[row]
            s.data(wire.data)
            for length in range(len(body.data)):
                item, offset = body.cut_at(length)
                s.read_refused(body, (kind, form, start, length, *rest[1:]), 2, base + offset, item)
        for sample in ["flow_sample"] if name in RECORDS else COUNTER_SAMPLES if name in COUNTERS else []:
            cut_records(s, rng, Body(name, rng, s.mode), sample)


def cut_records(s, rng, body, sample):
    for length in range(len(body.data)):
        wire = Wire(rng)
        whole = body.data
        wire.datagram([wire.put_sample(sample, [wire.put_raw(body.kind, body.format, whole[:length])])])
        item, offset = body.cut_at(length)
        s.data(wire.data)
        s.refused(6000, 2, wire.rows[2][2] + offset, wire.steps + item)


def too_deep(s, rng):
    """A record at the deepest depth is read; one below it is refused where it would begin, whatever its bytes are."""
    for record in (bytes(8), bytes(1), b"", b"\xff" * 12):
        wire = Wire(rng)
        put = wire.put_raw(2, 0, b"")
        for _ in range(MAX_DEPTH):
            put = wire.put_aggregation([[put]])
        wire.datagram([wire.put_sample("flow_sample", [put])])
        depth, start = wire.rows[-1][5], wire.rows[-1][6]
        assert depth == MAX_DEPTH + 1
        s.data(wire.data)
        s.refused(6000, 8, start, wire.steps - 2)
    wire = encoder.of_one_record(rng, Body("extended_80211_rx", rng), depth=MAX_DEPTH)
    s.data(wire.data)
    s.decoded(wire, wire.bodies[0][1], DESCRIPTOR_WORDS * len(wire.rows))


def longest(s, rng):
    """The longest input is read, and one byte more is not, by any call."""
    wire = Wire(rng)
    head = wire.datagram([])
    s.data(wire.data, MAX_INPUT)
    s.decoded(wire, head, 12)
    s.ran(12, 3, len(wire.data), wire.steps, 0)
    s.read_whole(head, wire.rows[0], 0)
    s.data(wire.data, MAX_INPUT + 1)
    s.refused(12, 1, 0, 0)
    s.ran(12, 1, 0, 0, 0)
    for name, (kind, form, _) in LAYOUTS.items():
        body = Body(name, rng, s.mode)
        s.read_refused(body, (kind, form, 0, 24), 1)
        s.read_refused(body, (kind + 9, form, NOBODY, 24), 1)
    s.payload(wire.rows[0], 0, 0)
    s.whole(wire.rows[0], 0, 0)
    s.segment(0, 1, 0, 0)
    s.word(0, 1, 0, 5)


def nothing(s, rng):
    """NULL and 0 for the input, and for the store."""
    s.data(b"")
    s.refused(0, 2, 0, 0)
    s.refused(12, 2, 0, 0)
    s.ran(0, 0, 0, 0, 0)
    s.ran(12, 0, 0, 0, 0)
    for name, (kind, form, _) in LAYOUTS.items():
        body = Body(name, rng, s.mode)
        s.read_refused(body, (kind, form), 2, 0, 0)
        s.read_refused(body, (kind, form, 1), 10)
        s.read_refused(body, (kind + 1, form), 11)
    for length in (0, 1):
        s.payload((0, 0, 0, length), 0, 0)
        s.whole((0, 0, 0, length), 0, 0)
    s.word(0, 0, 0, None)
    s.word(0, 1, 0, None)
    s.segment(0, 2, 0, 0)
    wire = Wire(rng)
    wire.datagram([])
    s.data(wire.data)
    s.refused(0, 9, 0, wire.steps, 1)
    s.ran(0, 9, 0, wire.steps, 1)


def ranges_and_kinds(s, rng):
    """Code 10 before 11; a range is never taken modulo 2^32."""
    for name, (kind, form, _) in LAYOUTS.items():
        body = Body(name, rng, s.mode)
        size = len(body.data)
        s.data(body.data)
        half = 1 << 31
        past = [(size, 1), (size + 1, 0), (0, size + 1), (1, size)]
        past += [(NOBODY, 1), (NOBODY, NOBODY), (1, NOBODY), (half, half), (NOBODY - 3, 4 + size)]
        for start, length in past:
            s.read_refused(body, (kind, form, start, length), 10)
            s.read_refused(body, (kind + 1, form + 1, start, length), 10)
            s.payload((kind, form, start, length), 0, 0)
            s.whole((kind, form, start, length), 0, 0)
        for other, (other_kind, other_form, _) in LAYOUTS.items():
            if other != name:
                s.read_refused(body, (other_kind, other_form, 0, size), 11)
        others = [(other, form) for other in range(5) if other != kind]
        for wrong in (*others, (kind, form + (1 << 12)), (kind, form | half), (4, 0), (kind + 256, form), (NOBODY, form)):
            s.read_refused(body, (*wrong, 0, size), 11)
        s.read_whole(body, (kind, form, 0, size, *(rng.getrandbits(32) for _ in range(DESCRIPTOR_WORDS - 4))), 0)


def wholes(s, rng):
    """All of what some descriptor stands for: from its first byte to the pad's end, where the input has all of that."""
    size = 40
    s.data(rng.randbytes(size))
    for start in (0, 1, 8, size - 4, size, size + 1, NOBODY):
        for length in (0, 1, 3, 4, size - 8, size - 7, NOBODY):
            for first in {0, max(0, start - 8), start, min(NOBODY, start + 1), NOBODY}:
                end = start + length + pads(length)
                there = first <= start and end <= size
                s.whole((2, 1, start, length, 0, 1, first), *((first, end - first) if there else (0, 0)))


def words_and_segments(s, rng):
    """Going through parts that are not there."""
    data = rng.randbytes(20)
    s.data(data)
    for start in range(22):
        for n in range(6):
            value = int.from_bytes(data[start + 4 * n:start + 4 * n + 4], "big") if start + 4 * n + 4 <= 20 else None
            s.word(start, 5, n, value)
            s.word(start, n, n, None)
    for start, count, n in ((MOST, 1, 0), (MOST - 3, 2, 1), (0, MOST, MOST - 1), (0, MOST, 1 << 62), (4, MOST, 1 << 62), (MOST, MOST, MOST)):
        s.word(start, count, n, None)
    path = b"".join(map(encoder.word, (2, 3, 65001, 65002, 65003)))
    for length in range(len(path) + 1):
        s.data(path[:length])
        item = length // 4
        if length == len(path):
            s.segment(0, 0, 20, 5, 2, "8+3")
        elif length:
            s.segment(0, 2, 4 * item, item)
    s.data(path)
    s.segment(len(path), 2, len(path), 0)
    s.segment(len(path) + 1, 10, 0, 0)
    s.segment(MOST, 10, 0, 0)
    s.segment(4, 2, 20, 4)


def splits(s, rng):
    for word in [0, 1, 4095, 4096, (1 << 24) - 1, 1 << 24, (1 << 30) - 1, 1 << 30, 1 << 31, NOBODY] + [rng.getrandbits(32) for _ in range(40)]:
        parts = (word // 4096, word % 4096, word // 2 ** 24, word % 2 ** 24, word // 2 ** 30, word % 2 ** 30)
        s.ask("split", f"split {word}", "split %d:%d %d:%d %d:%d" % parts)


def script(count):
    """All of it, in both modes; `count` says how many datagrams are made of everything at random for each."""
    s = Script()
    for mode in MODES:
        s.mode, rng = mode, random.Random(20260101)
        whole_datagrams(s, rng, count)
        cut_datagrams(s, rng, max(2, count // 20))
        runs(s, rng, max(4, count // 5))
        for part in (faults, cut_layouts, too_deep, longest, nothing, ranges_and_kinds):
            part(s, rng)
    for part in (wholes, words_and_segments, splits, ethernet_checks.check):
        part(s, random.Random(20260102))
    return s


def function_of(group):
    return CALLED.get(group, "latchplume_read_" + group)


def answers(words, s):
    ran = subprocess.run(words, input="\n".join(s.lines) + "\n", capture_output=True, text=True)
    return ran.returncode, ran.stdout.splitlines(), ran.stderr.strip()


def check(checks, s, program):
    check_answers(checks, s, [building.made(program)], program)


def check_answers(checks, s, words, program):
    """What the program that these words run answers to the script."""
    status, lines, said = answers(words, s)
    checks.same(f"{program}: status and what it says", (0, ""), (status, said[-2000:]))
    checks.same(f"{program}: answers", len(s.expected), len(lines))
    for expected, got in zip(s.expected, lines):
        checks.same(f"{program}: {expected.split()[0]}", expected, got)


def codes_met(checks, s):
    """Every code is reached by some call, and every function is called."""
    met = {int(m) for line in s.expected for m in re.findall(r"code=(\d+)", line)}
    checks.same("codes that are met", set(range(12)), met)
    names = {function_of(group) for group in s.groups if group != "split"}
    checks.same("functions that are called", building.declared(), sorted(names))


def sizes(checks):
    """The header's sizes are those that the encoder has by its own hand."""
    for name in ("DESCRIPTOR_WORDS", "MAX_INPUT", "MAX_OPAQUE", "MAX_DEPTH", "NOBODY"):
        checks.same(f"the header: {name}", getattr(encoder, name), getattr(library, name))


def check_all(checks, count):
    sizes(checks)
    s = script(count)
    codes_met(checks, s)
    check(checks, s, "calls")
    check(checks, s, "calls-checked")
