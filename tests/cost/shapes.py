"""Inputs: sessions of docs/RULES.md, every kind of record, flow records at the deepest depth, and long inputs of one shape."""
import os
import struct
import sys

sys.path.append(os.path.dirname(os.path.dirname(os.path.abspath(__file__))))
from library import MAX_DEPTH, MAX_OPAQUE

MOST = 4294967295


def words(*numbers):
    return struct.pack(f">{len(numbers)}I", *numbers)


def header(samples):
    return words(5, 0, 0, 1, 0, samples)


def opaque(data):
    return words(len(data)) + data + bytes(-len(data) % 4)


def frame(form, data):
    return words(form) + opaque(data)


def flow_sample(count, records):
    return frame(1, words(0, 0, 0, 0, 0, 0, 0, count) + records)


def counter_sample(count, records):
    return frame(2, words(1, 0, count) + records)


def aggregations(depth, count, records):
    """So many aggregations, each in the other's PDU; the innermost PDU announces `count` records and holds these."""
    if depth == 1:
        return frame(1016, words(1, count) + records)
    return frame(1016, words(1, 1) + aggregations(depth - 1, count, records))


def with_record(form, data):
    """A datagram with one sample of one record."""
    return header(1) + flow_sample(1, frame(form, data))


def with_string(data):
    """A datagram with one string, whose bytes begin at byte 76, and two words behind it."""
    return with_record(1008, opaque(data) + words(0, 0))


def with_aggregations(depth, count, records):
    return header(1) + flow_sample(1, aggregations(depth, count, records))


P2 = header(0)
P3 = words(4)
P4 = words(5, 3)
P5 = header(1) + frame(4097, b"\1")
P6 = P5[:-1]
P7 = P5[:28] + words(MAX_OPAQUE + 1) + P5[32:]
P8 = P5[:28] + words(MAX_OPAQUE) + P5[32:]
P9 = header(1) + counter_sample(0, b"")
P11 = with_aggregations(1, 0, b"")
P12 = with_aggregations(MAX_DEPTH, 0, b"")
P12_DEEPER = with_aggregations(MAX_DEPTH, 1, b"")
P13 = with_record(1, words(MOST, 0))

IPV6 = words(2) + bytes(range(16))
TEXT = opaque("plain, then \u00fc \u20ac \U0001f980".encode())
LIST = words(2, 7, 8)

# a payload of each kind of flow record that is opened, with every part that its layout can have; and one that stays raw
RAW_KIND = 1017
KINDS = {
    1: words(1, 64, 4) + opaque(b"frame"),
    2: words(60) + bytes(16) + words(2048),
    3: words(1, 2, 3, 4, 5, 6, 7, 8),
    4: words(60, 6) + bytes(32) + words(1, 2, 3, 4),
    1001: words(1, 2, 3, 4),
    1002: IPV6 + words(24, 16),
    1003: IPV6 + words(1, 2, 3) + words(2) + words(1) + LIST + words(2) + LIST + LIST + words(9),
    1004: words(106) + TEXT + words(106) + TEXT,
    1005: words(1) + TEXT + TEXT,
    1006: IPV6 + LIST + LIST,
    1007: IPV6 + IPV6,
    1008: TEXT + words(1, 2),
    1009: TEXT + words(1, 2, 3),
    1010: IPV6 + words(1),
    1011: words(1),
    1012: LIST,
    1013: words(1) + opaque(b"payload"),
    1014: TEXT + bytes(8) + words(1, 2) + bytes(8) + words(3, 4, 5),
    1015: TEXT + bytes(8) + words(1, 2, 3, 4, 5) + bytes(8) + words(6),
    1016: words(2, 0, 0),
    RAW_KIND: b"raw",
}


# a payload of each kind of counter record that is opened: so many words, which are its items, or two of them one
COUNTER_KINDS = {form: words(*range(size // 4)) for form, size in ((1, 88), (2, 52), (3, 72), (4, 80), (5, 28), (1001, 28))}


def with_counter(form, data):
    """A datagram with one counter sample of one record, whose payload begins at byte 52."""
    return header(1) + counter_sample(1, frame(form, data))


def deepest(records):
    return with_aggregations(MAX_DEPTH - 1, len(records), b"".join(records))


def together(*datagrams):
    """The samples of datagrams with the same header, in one."""
    return header(len(datagrams)) + b"".join(data[len(P2):] for data in datagrams)


COUNTERS = counter_sample(len(COUNTER_KINDS), b"".join(frame(form, data) for form, data in COUNTER_KINDS.items()))
EVERY_KIND = together(deepest([frame(form, data) for form, data in KINDS.items()]), header(1) + COUNTERS)
# each opened kind, cut short before each of its words
CUT_KINDS = [deepest([frame(form, data[:end])]) for form, data in KINDS.items() if form != RAW_KIND for end in range(0, len(data), 4)]
CUT_KINDS += [with_counter(form, data[:end]) for form, data in COUNTER_KINDS.items() for end in range(0, len(data), 4)]
