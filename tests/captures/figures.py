"""What is compared: the descriptors of a datagram, each with the values of its fields, and what the library answers.

A field's value is a number; two numbers for a pair of words; bytes for a block, an opaque, a string or a list; its type and its bytes for
an address; and how many segments there are, with their bytes, for an AS path."""
import collections
import os
import re
import subprocess
import sys

ROOT = os.path.dirname(os.path.dirname(os.path.dirname(os.path.abspath(__file__))))
sys.path.insert(0, os.path.join(ROOT, "tests", "host"))
import building
from encoder import BASE, LAYOUTS, MEMO, pads
from library import DESCRIPTOR_WORDS
from library_checks import spelt

# the layout of a kind and a format, as a name and its fields, each with its shape
BY_FORMAT = {row[:2]: name for name, row in LAYOUTS.items()}
SHAPES = {name: [(field, shape or "plain") for field, _, shape in (one.partition(":") for one in row[2].split())]
          for name, row in LAYOUTS.items()}

# the words of a descriptor, as the listing names them
WORDS = ("kind", "format", "start", "length", "parent", "depth", "first")
# the calls that decode one datagram, a run, and that read fields, by their mode
DECODE = {MEMO: "decode", BASE: "decode_base"}
RUN = {MEMO: "run", BASE: "run_base"}
READ = {MEMO: "read", BASE: "read_base"}
ROW = re.compile(r" (\d+(?:,\d+){%d})" % (DESCRIPTOR_WORDS - 1))

Answer = collections.namedtuple("Answer", "code at steps needed rows")
Place = collections.namedtuple("Place", "kind format parent depth")


class Node:
    """What a descriptor stands for. `raw` is the payload of what is not opened, where it is known."""

    def __init__(self, place, name=None, fields=None, raw=None):
        self.place, self.name, self.fields, self.raw = place, name, fields or {}, raw


def prepare():
    """Builds the library, the listing programs and the program that calls every function of the library."""
    os.makedirs(building.INTO, exist_ok=True)
    archive = building.archive()
    building.listings()
    building.program("calls", building.calls_sources(), archive, building.PLAIN)


def called(lines, **more):
    """What `calls` prints for these lines, a line for each that asks something."""
    ran = subprocess.run([building.made("calls")], input="\n".join(lines) + "\n", capture_output=True, text=True, **more)
    if ran.returncode:
        raise building.Failed(f"calls ended with {ran.returncode}: {ran.stderr.strip()}")
    return ran.stdout.splitlines()


def answer_of(line):
    numbers = {key: int(value) for key, value in re.findall(r"\b(code|at|steps|needed)=(\d+)", line)}
    rows = [tuple(map(int, row.split(","))) for row in ROW.findall(line)]
    return Answer(**numbers, rows=rows)


def decoded(inputs, call="decode", **more):
    """The library's answers; an input is hex, or HEX*N where zeros fill it up to N bytes. The store has room for 4,096 descriptors."""
    lines = (line for one in inputs for line in (f"data {one or '-'}", f"{call} {4096 * DESCRIPTOR_WORDS}"))
    return [answer_of(line) for line in called(lines, **more)]


def listing_of(answer):
    """What the listing program must print for an answer."""
    lines = [f"code={answer.code} at={answer.at} steps={answer.steps} descriptors={answer.needed}"]
    lines += [" ".join(f"{name}={value}" for name, value in zip(WORDS, row)) for row in answer.rows]
    return "".join(line + "\n" for line in lines)


def text_of(program, data, *words):
    """What a listing program prints."""
    ran = subprocess.run([building.at("tests", "program"), program, *words], input=data, capture_output=True)
    return ran.stdout.decode() if ran.returncode == 0 else f"status {ran.returncode}: {ran.stderr.decode()}"


def rows_of(listing):
    """A listing's descriptors."""
    return [tuple(map(int, re.findall(r"=(\d+)", line))) for line in listing.splitlines()[1:]]


def span(shape, text, data):
    start, count = map(int, text.split("+"))
    if shape == "list":
        return data[start:start + 4 * count]
    if shape == "segments":
        end = start
        for _ in range(count):
            end += 8 + 4 * int.from_bytes(data[end + 4:end + 8], "big")
        return count, data[start:end]
    return data[start:start + count]


def value_of(shape, text, data):
    """A field as `calls` prints it."""
    if shape in ("ethernet", "six_of_eight", "sixteen"):
        return bytes.fromhex(text)
    if shape == "address":
        kind, octets = text.split("/")
        return int(kind), bytes.fromhex(octets)[:(0, 4, 16)[int(kind)]]
    if shape == "two_words":
        return tuple(map(int, text.split("/")))
    return span(shape, text, data) if "+" in text else int(text)


def ours(datagrams, mode=MEMO):
    """The nodes of each datagram, from its bytes and its descriptors: the library reads the fields."""
    lines = []
    for data, rows in datagrams:
        lines.append("data " + data.hex())
        lines += [f"{READ[mode]} {BY_FORMAT[row[:2]]} {spelt(row)}" for row in rows if row[:2] in BY_FORMAT]
    printed = iter(called(lines))
    return [[node_of(data, row, printed) for row in rows] for data, rows in datagrams]


def node_of(data, row, printed):
    kind, form, start, length, parent, depth, *_ = row
    name, place = BY_FORMAT.get((kind, form)), Place(kind, form, parent, depth)
    if not name:
        return Node(place, raw=data[start:start + length])
    line = next(printed)
    if not line.startswith(f"{name} code=0 "):
        raise building.Failed(f"the fields of an accepted descriptor are refused: {line}")
    texts = dict(re.findall(r" (\w+)=(\S+)", line))
    return Node(place, name, {field: value_of(shape, texts[field], data) for field, shape in SHAPES[name]})


def size_of(shape, value):
    """How many bytes a field takes, as the memo has it."""
    if shape == "address":
        return 4 + len(value[1])
    if shape in ("opaque", "string", "list"):
        return 4 + len(value) + pads(len(value))
    if shape == "segments":
        return 4 + len(value[1])
    return {"two_words": 8, "long": 8, "ethernet": 8, "six_of_eight": 8, "sixteen": 16}.get(shape, 4)


def placed(name, fields, start):
    """Each field of a layout that begins at `start`: its name, its first byte, and its value."""
    for field, shape in SHAPES[name]:
        yield field, start, fields[field]
        start += size_of(shape, fields[field])
