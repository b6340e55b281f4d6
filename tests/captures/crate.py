"""The crate sflow-parser 0.7.0: what it gives, read from Rust's own rendering of its structure (crate/src/main.rs prints it)."""
import functools
import importlib.util
import ipaddress
import os
import re
import resource
import struct
import subprocess

from figures import BY_FORMAT, ROOT, SHAPES, Node, Place, building
from library import NOBODY

HERE = os.path.join(ROOT, "tests", "captures", "crate")
PROGRAM = os.path.join(ROOT, "target", "captures", "release", "told")

# the table that a field's names are from
TABLES = {"version": "DatagramVersion", "protocol": "HeaderProtocol", "reason": "DropReason", "direction": "UrlDirection",
          "path_type": "AsPathType"}
# how the text of a refusal begins, and the code for it (docs/RULES.md, 5)
REFUSALS = {"Invalid version": 3, "Invalid address type": 4, "Opaque data length": 5, "Unknown header protocol": 6,
            "Invalid UTF-8 string": 7}
TOKEN = re.compile(r'\s*(?:"((?:[^"\\]|\\.)*)"|(\w+): |([\[\](){},])|([^\s,(){}\[\]"]+))')
ESCAPE = re.compile(r"\\(?:u\{([0-9a-f]+)\}|(.))")


def prepare():
    """Builds the program, over the files as published."""
    spec = importlib.util.spec_from_file_location("oracle_building", os.path.join(ROOT, "oracle", "building.py"))
    oracle = importlib.util.module_from_spec(spec)
    spec.loader.exec_module(oracle)
    try:
        oracle.check_crate()
        env = {**os.environ, "CARGO_TARGET_DIR": os.path.join(ROOT, "target", "captures")}
        oracle.output(["cargo", "build", "--release", "--offline", "--locked", "--quiet"], "cargo build", cwd=HERE, env=env)
    except FileNotFoundError as missing:
        raise building.Failed(f"'{missing.filename}' is missing: install Rust's toolchain")
    except oracle.Failed as trouble:
        raise building.Failed(str(trouble))


def ran(inputs, options, memory=None):
    """The program over these inputs, with a stack of 8 MiB and, where it is given, so many bytes of memory."""
    def limit():
        resource.setrlimit(resource.RLIMIT_CORE, (0, 0))
        resource.setrlimit(resource.RLIMIT_STACK, (8 << 20, resource.getrlimit(resource.RLIMIT_STACK)[1]))
        if memory:
            resource.setrlimit(resource.RLIMIT_AS, (memory, memory))
    return subprocess.run([PROGRAM, *options], input="".join(one + "\n" for one in inputs).encode(), capture_output=True, preexec_fn=limit)


def told(inputs, *options):
    """Two lines for each input: as one datagram, and as a run."""
    done = ran(inputs, options)
    if done.returncode:
        raise building.Failed(f"the crate's program ended with {done.returncode}: {done.stderr.decode().strip()[:200]}")
    lines = done.stdout.decode().splitlines()
    return list(zip(lines[::2], lines[1::2]))


def ends(one, memory=None):
    """Whether the input ends the crate's process, by a signal."""
    return ran([one], ["--outcome"], memory).returncode < 0


class Named:
    """A value with a name: a struct, whose parts are by name; a variant, whose parts are in a list; or nothing but the name."""

    def __init__(self, name, parts=None):
        self.name, self.parts = name, parts

    def __getattr__(self, part):
        return self.parts[part]


def unescaped(text):
    named = {"n": "\n", "t": "\t", "r": "\r", "0": "\0"}
    return ESCAPE.sub(lambda m: chr(int(m.group(1), 16)) if m.group(1) else named.get(m.group(2), m.group(2)), text)


def parsed(line):
    """Rust's rendering of a value."""
    tokens = [m.groups() for m in TOKEN.finditer(line)] + [(None,) * 4]
    value, end = value_at(tokens, 0)
    if end != len(tokens) - 1:
        raise building.Failed(f"not understood, of the crate: {line[:200]}")
    return value


def value_at(tokens, at):
    text, _, mark, atom = tokens[at]
    if text is not None:
        return unescaped(text), at + 1
    if mark == "[":
        return parts_at(tokens, at + 1, "]")
    following = tokens[at + 1][2]
    if following in ("{", "("):
        parts, end = parts_at(tokens, at + 2, "}" if following == "{" else ")")
        return Named(atom, dict(parts) if following == "{" else parts), end
    return (int(atom) if atom.isdigit() else Named(atom)), at + 1


def parts_at(tokens, at, close):
    parts = []
    while tokens[at][2] != close:
        key = tokens[at][1]
        value, at = value_at(tokens, at if key is None else at + 1)
        parts.append(value if key is None else (key, value))
        at += tokens[at][2] == ","
    return parts, at + 1


def code_of(value):
    """The code (docs/RULES.md, 5) for an answer of the crate."""
    if value.name == "Ok":
        return 0
    error, = value.parts
    detail, = error.parts
    if error.name == "Io" and detail.kind.name == "UnexpectedEof":
        return 2
    code = next((code for text, code in REFUSALS.items() if error.name == "InvalidData" and detail.startswith(text)), None)
    if code is None:
        raise building.Failed(f"the crate's refusal has no code in docs/RULES.md: {detail}")
    return code


@functools.cache
def table(name):
    """The number of each name in a table of numbers, from the published source."""
    for source in ("core.rs", "record_flows.rs"):
        with open(os.path.join(ROOT, "oracle", "crate", "src", "models", source)) as f:
            found = re.search(r"pub enum %s \{(.*?)\n\}" % name, f.read(), re.S)
        if found:
            return {one: int(number) for one, number in re.findall(r"(\w+) = (\d+),", found.group(1))}
    raise building.Failed(f"the crate has no table {name}")


def number(value, field=None):
    """A number, the word inside a type of its own, an IPv4 address as a word, or a name from a table."""
    if isinstance(value, int):
        return value
    if value.parts:
        return value.parts[0]
    return int(ipaddress.IPv4Address(value.name)) if "." in value.name else table(TABLES[field])[value.name]


def words(values):
    return struct.pack(f">{len(values)}I", *values)


def field_of(field, shape, value):
    """A field of the crate's in the form of figures.py."""
    if shape == "address":
        octets = ipaddress.ip_address(value.parts[0].name).packed if value.parts else b""
        return {0: 0, 4: 1, 16: 2}[len(octets)], octets
    if shape in ("ethernet", "six_of_eight"):
        return bytes(value.parts[0])
    if shape == "sixteen":
        return ipaddress.IPv6Address(value.name).packed
    if shape == "two_words":
        return tuple(value.parts.values())
    if shape == "segments":
        return len(value), b"".join(words([number(one.path_type, "path_type"), one.path_length]) + words(one.path) for one in value)
    if shape == "list":
        return words(value)
    if shape in ("opaque", "string"):
        return value.encode() if isinstance(value, str) else bytes(value)
    return number(value, field)


def opened(place, value, **counts):
    name = BY_FORMAT[(place.kind, place.format)]
    fields = {field: field_of(field, shape, value.parts[field]) for field, shape in SHAPES[name] if field not in counts}
    return Node(place, name, {**fields, **counts})


def nodes(datagram):
    """The crate's structure as the descriptors that the rules have for it. What only the crate opens has neither fields nor payload."""
    head = opened(Place(0, 0, NOBODY, 0), datagram, num_samples=len(datagram.samples))
    found = [head]
    for sample in datagram.samples:
        add_sample(found, sample)
    return found


def add_sample(found, sample):
    place, data = Place(1, number(sample.sample_type), 0, 0), sample.sample_data
    parent = len(found)
    if (1, place.format) not in BY_FORMAT:
        found.append(Node(place, raw=bytes(data.data)))
        return
    inside, = data.parts
    counters = inside.parts.get("counters", [])
    flows = inside.parts.get("flow_records", [])
    found.append(opened(place, inside, num_records=len(counters) + len(flows)))
    for record in counters:
        add_counter(found, record, parent)
    for record in flows:
        add_flow(found, record, parent, 1)


def add_counter(found, record, parent):
    place, data = Place(3, number(record.counter_format), parent, 1), record.counter_data
    if (3, place.format) not in BY_FORMAT:
        found.append(Node(place, raw=raw_of(data)))
        return
    inside, = data.parts
    found.append(opened(place, inside))


def raw_of(data):
    return bytes(data.data) if data.name == "Unknown" else None


def add_flow(found, record, parent, depth):
    place, data = Place(2, number(record.flow_format), parent, depth), record.flow_data
    if (2, place.format) not in BY_FORMAT:
        found.append(Node(place, raw=raw_of(data)))
        return
    inside, = data.parts
    own = len(found)
    if place.format != 1016:
        found.append(opened(place, inside))
        return
    found.append(opened(place, inside, pdu_count=len(inside.pdus)))
    for pdu in inside.pdus:
        pdu_at = len(found)
        found.append(Node(Place(4, 0, own, depth)))
        for inner in pdu.flow_records:
            add_flow(found, inner, pdu_at, depth + 1)
