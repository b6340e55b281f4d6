"""The cases that are measured: inputs by the layouts of docs/RULES.md, the same on every machine."""
import itertools
import random
import struct
from collections import namedtuple

import encoder
from datagrams import typical
from library import MAX_DEPTH, MAX_INPUT
from shapes import frame, flow_sample, header, opaque, with_string, words

MIB = MAX_INPUT // 16  # so that 16 of them are the longest input
LONGEST_UDP = 65535

# name, whether its inputs are runs, whether each has a store of its own, how many units a pass is divided by, and the inputs
Case = namedtuple("Case", "name run apart units inputs")

SENTENCES = (
    "Größere Übertragungen über die Brücke", "où l'élève déjà naïf à Noël", "ένα δίκτυο με πολλούς κόμβους", "сеть передачи данных",
    "無線局の名前は東京タワー", "数据报采样与转发", "شبكة لاسلكية", "नेटवर्क का नाम", "plain words in between", "📡 → 🛰️ ok",
)


def one_by_one(name, inputs):
    return Case(name, False, False, len(inputs), inputs)


def samples_of(datagrams):
    """The samples of typical datagrams, as bytes, over and over."""
    size = (len(datagrams[0]) - 28) // 7
    return itertools.cycle(d[at:at + size] for d in datagrams for at in range(28, len(d), size))


def filled(length, samples, last=b""):
    """A datagram of at most this length: as many samples as there is room for, and one more at its end where it is given."""
    found, size = [], len(header(0)) + len(last)
    for sample in samples:
        if size + len(sample) > length:
            break
        found.append(sample)
        size += len(sample)
    return header(len(found) + bool(last)) + b"".join(found) + last


def nested_records(rng, depth):
    """What an aggregation's PDU holds: how an 802.11 packet was received, its payload, and the next aggregation; the deepest holds none."""
    if depth > MAX_DEPTH:
        return 0, b""
    payload = words(0x000fac04) + opaque(rng.randbytes(24))
    received = opaque(b"plume-%02d" % rng.randrange(100)) + rng.randbytes(6) + bytes(2) + words(8, 36) + rng.randbytes(8) + words(1, 2, 3)
    count, inner = nested_records(rng, depth + 1)
    return 3, frame(1014, received) + frame(1013, payload) + frame(1016, words(1, count) + inner)


def nested(rng):
    samples = []
    for _ in range(2):
        count, records = nested_records(rng, 1)
        samples.append(flow_sample(count, records))
    return header(len(samples)) + b"".join(samples)


def small_sample(rng, order):
    """Small records: one of each format with little in it, in the order that this agent sends them, and one that stays raw."""
    records = [frame(encoder.LAYOUTS[name][1], bytes(encoder.Body(name, rng).data)) for name in order]
    records.append(frame(4097, rng.randbytes(4)))
    return flow_sample(len(records), b"".join(records))


def long_strings(rng, text):
    """Four records with a URL of some two thousand bytes each."""
    records = [frame(1005, words(1) + opaque(text(rng, 2000)) + opaque(text(rng, 40))) for _ in range(4)]
    return header(1) + flow_sample(len(records), b"".join(records))


def ascii_text(rng, length):
    return bytes(rng.choices(b"abcdefghijklmnopqrstuvwxyz0123456789/-_.?=&%", k=length))


def mixed_text(rng, length):
    """Words of many scripts, up to this many bytes."""
    text = bytearray()
    while True:
        sentence = (rng.choice(SENTENCES) + " ").encode()
        if len(text) + len(sentence) > length:
            return bytes(text)
        text += sentence


def counters(rng):
    """Counter samples as a switch sends them: an interface's counters, Ethernet's, and now and then those of a VLAN or of the processor."""
    samples = []
    for number in range(6):
        records = [frame(1, rng.randbytes(88)), frame(2, rng.randbytes(52))]
        records += [frame(form, rng.randbytes(28)) for form in {0: [5, 1001], 1: [5]}.get(number % 3, [])]
        form, fields = (2, words(number, 7, len(records))) if number % 2 else (4, words(number, 0, 7, len(records)))
        samples.append(frame(form, fields + b"".join(records)))
    return header(len(samples)) + b"".join(samples)


def late(samples):
    """As long as a datagram gets, and refused for its last string."""
    return filled(LONGEST_UDP, samples, flow_sample(1, frame(1008, opaque(b"a name\xff") + words(1, 2))))


def all_cases():
    rng = random.Random(6343)
    usual = typical(1000, 7)
    usual_samples = samples_of(usual)
    order = rng.sample(encoder.RECORDS, len(encoder.RECORDS))
    small = [small_sample(rng, order) for _ in range(200)]
    dense = itertools.cycle(small)
    yield one_by_one("typical", usual)
    yield one_by_one("nested", [nested(rng) for _ in range(200)])
    yield one_by_one("small", [header(1) + sample for sample in small])
    yield one_by_one("ascii", [long_strings(rng, ascii_text) for _ in range(50)])
    yield one_by_one("text", [long_strings(rng, mixed_text) for _ in range(50)])
    yield one_by_one("counters", [counters(rng) for _ in range(500)])
    yield Case("run", True, False, len(usual), [b"".join(usual)])
    yield one_by_one("late", [late(usual_samples) for _ in range(20)])
    # of small records, which are the most work for a byte, so that the time is the decoder's and less the memory's
    yield from mib_cases("", dense)


def mib_cases(prefix, samples):
    """Sixteen inputs of 1 MiB side by side, each with a store of its own, and one of 16 MiB: the same memory."""
    yield Case(prefix + "mib1", False, True, 16, [filled(MIB, samples) for _ in range(16)])
    yield Case(prefix + "mib16", False, True, 1, [filled(16 * MIB, samples)])


def usual_mib_cases():
    """The same of typical samples, of which a decoder reads few bytes, so that the time is the memory's more than its own."""
    return list(mib_cases("usual-", samples_of(typical(1000, 7))))


TEXTS = {"utf8-ascii": ascii_text, "utf8-mixed": mixed_text}


def text_cases():
    """One string of 60,000 bytes and hardly anything else, for the UTF-8 test alone; and the same with no string, which is the rest."""
    rng = random.Random(3629)
    for name, text in {**TEXTS, "utf8-none": lambda *_: b""}.items():
        yield one_by_one(name, [with_string(text(rng, 60000))])


def ending_cases():
    """For each kind of text a string that fills 16 MiB, and the same with a last byte that begins a character, which the end cuts short."""
    rng = random.Random(3629)
    room = 16 * MIB - len(with_string(b""))
    for name, text in TEXTS.items():
        part = text(rng, 60000)
        whole = (room // len(part) * part).rjust(room, b"a")
        yield Case(name + "-mib16", False, False, 1, [with_string(whole), with_string(whole[:-1] + b"\xe2")])


def sent(case):
    """A case as measure.c reads it."""
    head = struct.pack("<4I", case.run, case.apart, case.units, len(case.inputs))
    return head + b"".join(struct.pack("<I", len(data)) + data for data in case.inputs)
