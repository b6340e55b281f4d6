"""The walk held to the oracle and to the library, input by input; and where strings go bad, both held to Rust's from_utf8."""
import glob
import os
import random
import struct
import subprocess

import encoder
import making
import paths
import workloads
from long import LONG
from shapes import CUT_KINDS, EVERY_KIND, P2, P3, P4, P5, P6, P7, P9, P11, P12, P12_DEEPER, P13, deepest, frame, opaque, with_record, words

SESSIONS = [b"", P2, P3, P4, P5, P6, P7, P9, P11, P12, P12_DEEPER, P13, P9 + P2 + P11, P9 + P3]
# how the walk is compiled for a comparison with the library, and up to which length an input, its cuts and its changed bytes are tried
HELD = (("", making.RELEASE, "as it is measured", 2000), ("-checked", making.CHECKED, "every access checked", 400))
# what the oracle tries, at each run and where all is asked for
SOME = (["200000", "1"], ["--counters"], ["--ethernet"], ["--strings"])
ALL = (["2000000", "2"], ["--counters"], ["--ethernet"], ["--strings"], ["--every-byte"], ["--long"])


def grown(count):
    """Random datagrams by the layouts, alone and in runs."""
    rng = random.Random(5)
    for number in range(count):
        wire = None
        for _ in range(1 + number % 3):
            wire, _ = encoder.any_datagram(rng, wire)
        yield bytes(wire.data)


def ethernet():
    """Sampled Ethernet records of 0 to 40 bytes, in a sample and at the deepest depth."""
    for length in range(41):
        yield with_record(2, bytes(range(length)))
        yield deepest([frame(2, bytes(range(length)))])


def strings():
    """Strings of many lengths, which end where the input ends, or behind which bytes stand that could go on with a character."""
    for length in range(241):
        for text in (b"abcdefgh" * 30, "ü€🦀 éa".encode() * 18, "日本é🦀".encode() * 20):
            yield with_record(1005, words(1) + opaque(b"") + opaque(text[:length]))
            yield with_record(1008, opaque(text[:length]) + b"\x80" * 8)


def texts():
    """Texts for the place where a string goes bad: of characters of one length, and of all; short ones at every place, and a long one."""
    for character in "aü€🦀":
        yield (character * 140).encode()[:140]
    yield ("aü€🦀" * 14).encode()
    yield workloads.mixed_text(random.Random(7), 400)


def captures():
    for path in sorted(glob.glob(os.path.join(paths.ROOT, "tests", "captures", "*", "*.bin"))):
        with open(path, "rb") as f:
            yield f.read()


def inputs():
    yield from SESSIONS
    yield EVERY_KIND
    yield from CUT_KINDS
    yield from (shape(300) for _, _, _, shape in LONG)
    yield from grown(100)
    yield from ethernet()
    yield from strings()
    yield from captures()
    for case in workloads.all_cases():
        yield from case.inputs[:1]


def compared(program, inputs, wrong):
    """What a program that compares prints over the inputs; Failed, with what is wrong then, where something differs."""
    sent = b"".join(struct.pack("<I", len(data)) + data for data in inputs)
    ran = subprocess.run([program], input=sent, capture_output=True, env={**os.environ, "ASAN_OPTIONS": "detect_leaks=0"})
    said = (ran.stdout + ran.stderr).decode("utf-8", "replace").strip()
    if ran.returncode:
        access = next((line for line in said.split("\n") if "ERROR" in line or "runtime error" in line), said)
        raise making.Failed(wrong + access)
    return said.split("\n")[-1]


def judged(judge, words):
    """What the oracle prints of the walk; Failed where it differs."""
    ran = subprocess.run([judge, *words], stdout=subprocess.PIPE)
    said = ran.stdout.decode("utf-8", "replace").strip().split("\n")
    if ran.returncode:
        raise making.Failed(f"the walk is not what the oracle expects ({' '.join(words)}): " + "\n".join(said[-12:]))
    return said[-1]


def check(by_oracle):
    """A line for each comparison; Failed at the first that is not as it must be."""
    for name, options, how, longest in HELD:
        short = [data for data in inputs() if len(data) <= longest]
        said = compared(making.check(options, "check" + name), short, "the walk is not the library's equal: ")
        yield f"walk against the library, {how}: {said}"
        said = compared(making.texts(options, "texts" + name), texts(), "a string does not go bad where Rust's from_utf8 has it: ")
        yield f"walk and library against from_utf8, where strings go bad, {how}: {said}"
    judge = making.judge()
    for words in by_oracle:
        yield f"walk against the oracle, {' '.join(words)}: {judged(judge, words)}"
