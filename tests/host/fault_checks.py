"""What the command says of a string that is not UTF-8: the record and the field that it is in, and what was expected where it goes bad."""
import captures
import encoder
import library_checks
from encoder import Body, LAYOUTS, RECORDS

KINDS = {1: "sample", 2: "record", 4: "PDU"}
NONE_BEGINS = "0x00 to 0x7F or 0xC2 to 0xF4, and "

# Bytes that no character of RFC 3629's table begins, and the words for them, read off its rows.
EXPECTED = [
    ("80", NONE_BEGINS + "0x80 stands there"), ("bf 41", NONE_BEGINS + "0xBF stands there"), ("c0 af", NONE_BEGINS + "0xC0 stands there"),
    ("c1 bf", NONE_BEGINS + "0xC1 stands there"), ("f5 80 80 80", NONE_BEGINS + "0xF5 stands there"), ("ff", NONE_BEGINS + "0xFF stands there"),
    ("c2", "0x80 to 0xBF after 0xC2, and the string ends there"), ("df c0", "0x80 to 0xBF after 0xDF, and 0xC0 stands there"),
    ("e0 9f 80", "0xA0 to 0xBF after 0xE0, and 0x9F stands there"), ("e0 a0", "0x80 to 0xBF after 0xE0 0xA0, and the string ends there"),
    ("e1", "0x80 to 0xBF after 0xE1, and the string ends there"), ("ec bf 7f", "0x80 to 0xBF after 0xEC 0xBF, and 0x7F stands there"),
    ("e2 28 a1", "0x80 to 0xBF after 0xE2, and 0x28 stands there"), ("ed a0 80", "0x80 to 0x9F after 0xED, and 0xA0 stands there"),
    ("ed", "0x80 to 0x9F after 0xED, and the string ends there"), ("ee c0", "0x80 to 0xBF after 0xEE, and 0xC0 stands there"),
    ("ef bf", "0x80 to 0xBF after 0xEF 0xBF, and the string ends there"), ("f0 8f bf bf", "0x90 to 0xBF after 0xF0, and 0x8F stands there"),
    ("f0 9f 98", "0x80 to 0xBF after 0xF0 0x9F 0x98, and the string ends there"), ("f1 80 80 c0", "0x80 to 0xBF after 0xF1 0x80 0x80, and 0xC0 stands there"),
    ("f3 80 00 80", "0x80 to 0xBF after 0xF3 0x80, and 0x00 stands there"), ("f4 90 80 80", "0x80 to 0x8F after 0xF4, and 0x90 stands there"),
    ("f4 8f bf", "0x80 to 0xBF after 0xF4 0x8F 0xBF, and the string ends there"),
]


def string_fields():
    return [(name, field[:-len(":string")]) for name in RECORDS for field in LAYOUTS[name][2].split() if field.endswith(":string")]


def place_of(wire, row):
    """The sample, and the records and PDUs down to this one, each by its number among its siblings."""
    said = []
    while wire.rows[row][0] in KINDS:
        kind, parent = wire.rows[row][0], wire.rows[row][4]
        said.insert(0, f"{KINDS[kind]} {1 + sum(other[4] == parent for other in wire.rows[:row])}")
        row = parent
    return ", ".join(said)


def wire_around(rng, body):
    """A datagram with this record somewhere among others."""
    wire = encoder.Wire(rng)

    def some(depth, least=0):
        return [encoder.any_record(wire, rng, depth) for _ in range(rng.randint(least, 2))]

    put, depth = wire.put_record(body), rng.choice((1, 1, 2, 3, encoder.MAX_DEPTH))
    for below in range(depth, 1, -1):
        put = wire.put_aggregation([*[some(below) for _ in range(rng.randint(0, 2))], [*some(below), put, *some(below)]])
    other = wire.put_sample("counters_sample", [wire.put_raw(3, 6, b"abcde"), wire.put_record(Body("vlan_counters", rng))])
    wire.datagram([*[other] * rng.randint(0, 2), wire.put_sample("flow_sample", [*some(1), put]), other])
    return wire


def spoiled(rng, name, field, text, ends):
    """A datagram in which this field goes bad with these bytes, its last where it `ends` too early: the data, the position, and where
    that is in words."""
    before, after = "é" * rng.randint(0, 40) + "x" * rng.randint(0, 3), "" if ends else rng.choice(("", "ab"))
    body = Body(name, rng, **{field: before + "y" * len(text) + after})
    wire = wire_around(rng, body)
    row, base = next((row, base) for row, one, base, _ in wire.bodies if one is body)
    at = base + body.fields[field].start + len(before.encode())
    return bytes(library_checks.spoiled(wire, at, 0, text)), at, f"{place_of(wire, row)}, {name}, {field}"


def check(tool, rng):
    first = bytes(encoder.any_datagram(rng)[0].data)
    for number, (name, field) in enumerate(string_fields() * 12):
        hexadecimal, words = EXPECTED[number % len(EXPECTED)]
        data, at, where = spoiled(rng, name, field, bytes.fromhex(hexadecimal), "string ends" in words)
        status, out, said = tool.run("show", tool.file("bad", data))
        lines = [f"  in: {where}", f"  expected: {words}"]
        tool.checks.same("show: a string's fault", (1, lines, ""), (status, out.split("\n")[2:4], said))
        line = f"in {where}: expected {words}\n"
        listed = tool.run("list", "bad")
        tool.checks.same("list: a string's fault", (1, f"latchplume: bad: a string is not UTF-8 at {at}, {line}"), (listed[0], listed[2]))
        ran = tool.run("run", tool.file("two", first + data))
        tool.checks.same("run: a string's fault", (1, f"latchplume: two: a string is not UTF-8 at {at + len(first)}, {line}"), (ran[0], ran[2]))
    last_of_capture(tool, first, data, f"at {at}, in packet 2, {line[len('in '):]}")


def last_of_capture(tool, first, data, line):
    capture = tool.file("capture", captures.pcap([captures.ethernet(captures.ipv4(captures.udp(one))) for one in (first, data)]))
    tool.checks.same("list: a string's fault in a packet", "latchplume: capture: a string is not UTF-8 " + line, tool.run("list", capture)[2])
