"""The listings' figures against tshark: every field that tshark names, with its first byte and its value, and whether it finds a fault.

Where tshark and docs/RULES.md part, DECLARED says how and how often, and docs/DIFFERENCES.md why. A difference that is not declared is wrong,
and so is a declared one that occurs more or less often."""
import collections
import random

import figures
import tshark
from encoder import BASE, Body, COUNTER_SAMPLES, COUNTERS, MAX_OPAQUE, Wire, pads

# beside the fields: whether the datagram is accepted, and whether a refusal's fault is what tshark reads at its place
ACCEPTED, FAULT = (0, "accepted"), (0, "the fault")
SAMPLE_LENGTH, RECORD_LENGTH = "sflow_5.sample_length", "sflow_5.flow_data_length"
RECORDS = ("sflow.flow_sample.flow_record", "sflow.counters_sample.counters_records")
ETHERNET_RECORDS = 7  # all of them in SFlowEthernetFramePacket


def passes_end(one, reading):
    """Whether the length that tshark reads where the refusal is passes the end: of the sample for a record, else of the datagram."""
    samples = {at: at + 4 + value for (at, name), value in reading.fields.items() if name == SAMPLE_LENGTH}
    length = reading.fields.get((one.at, RECORD_LENGTH))
    if one.at in samples:
        return samples[one.at] > len(one.data)
    return length is not None and one.at + 4 + length + pads(length) > samples[max(at for at in samples if at < one.at)]


def same_fault(one, reading):
    if one.code == 3:
        return one.at == 0 and not reading.taken
    if one.at == len(one.data):
        return one.code == 2 and reading.malformed and all(at < one.at for at, _ in reading.fields)
    if one.code == 5:
        return reading.fields.get((one.at, RECORD_LENGTH), 0) > MAX_OPAQUE
    return one.code == 2 and passes_end(one, reading)


def not_stepped_over(one, reading, key, ours, theirs):
    """From such a record's payload to the end of its sample; to the end of all where tshark then finds a fault."""
    for kind, _, start, _, parent, *_ in one.rows:
        if kind == 3 and start - 8 in reading.unknown:
            end = len(one.data) if reading.malformed else sum(one.rows[parent][2:4])
            if start <= key[0] < end or key == ACCEPTED and reading.malformed:
                return True
    return False


def with_pad(one, reading, key, ours, theirs):
    return key[1] == "sflow_245.header" and ours is not None and theirs == one.data[key[0]:key[0] + len(ours) + pads(len(ours))]


def held_to_packet(one, reading, key, ours, theirs):
    return key == ACCEPTED and theirs and same_fault(one, reading)


def count_cut(one, reading, key, ours, theirs):
    """None of 256 records, or of a multiple of it, is read."""
    counts = [(at, value) for (at, name), value in reading.fields.items() if name in RECORDS and at < one.at]
    return key == FAULT and bool(counts) and max(counts)[1] > 255 and max(counts)[1] % 256 == 0


# what tshark does; in how many captures, over how many of its fields, as seen with Debian's tshark 4.0.17; and which differences those are
DECLARED = {
    "does not step over the payload of a counter record that it does not know": (8, 730, not_stepped_over),
    "shows the sampled header with its pad": (15, 57, with_pad),
    "holds a record to the packet and not to its sample": (2, 2, held_to_packet),
    "counts a sample's records in eight bits": (1, 1, count_cut),
}


def check(checks, captures):
    found = {reason: collections.Counter() for reason in DECLARED}
    readings = tshark.read([one.data for one in captures])
    for one, reading in zip(captures, readings):
        compare(checks, one, reading, found)
    for reason, (in_captures, over_fields, _) in DECLARED.items():
        times = len(found[reason]), sum(found[reason].values())
        checks.same(f"tshark {reason}: in how many captures, over how many fields", (in_captures, over_fields), times)
    check_ethernet(checks, captures, readings)
    check_counters(checks)


def check_ethernet(checks, captures, readings):
    """Addresses and type of each sampled Ethernet record: the plain call's as tshark has them, and the base call's as its 20 bytes give them."""
    in_base = figures.ours([(one.data, one.rows) for one in captures], BASE)
    found, before = 0, checks.wrong
    for one, reading, others in zip(captures, readings, in_base):
        for row, node, other in zip(one.rows, one.nodes, others):
            if node.name == "sampled_ethernet":
                found += 1
                as_tshark_has_it(checks, f"{one.name}: the sampled Ethernet record at {row[2]}", reading, row, node)
                as_base_has_it(checks, f"{one.name}: the sampled Ethernet record at {row[2]}", one.data[row[2]:row[2] + 20], other)
    checks.same("sampled Ethernet records in the captures", ETHERNET_RECORDS, found)
    print(f"{found} sampled Ethernet records, both addresses and the type of each beside tshark's: {checks.wrong - before} wrong")


def as_tshark_has_it(checks, what, reading, row, node):
    names = {"src_mac": "source_mac_address", "dst_mac": "destination_mac_address", "eth_type": "packet_type"}
    inside = {name: value for (at, name), value in reading.fields.items() if row[2] <= at < row[2] + row[3]}
    for field, name in names.items():
        checks.same(f"{what}: {field} by tshark", inside.get(f"sflow_245.ethernet.{name}"), node.fields[field])


def as_base_has_it(checks, what, data, node):
    expected = {"length": int.from_bytes(data[:4], "big"), "src_mac": data[4:10], "dst_mac": data[10:16], "eth_type": int.from_bytes(data[16:], "big")}
    checks.same(f"{what}, in the base mode", expected, node.fields)


def check_counters(checks):
    """A record of each counter format, in both samples, made here: no capture has all of them."""
    rng = random.Random(11)
    wire = Wire(rng)
    wire.datagram([wire.put_sample(name, [wire.put_record(Body(record, rng)) for record in COUNTERS]) for name in COUNTER_SAMPLES])
    data = bytes(wire.data)
    nodes, = figures.ours([(data, wire.rows)])
    reading, = tshark.read([data])
    expected = tshark.expected(wire.rows, nodes)
    checks.same("each counter format: accepted, by tshark", (True, False), (reading.taken, reading.malformed))
    for key in sorted(expected.keys() | reading.fields.keys()):
        checks.same(f"each counter format: {key[1]} at {key[0]}, by tshark", reading.fields.get(key), expected.get(key))


def compare(checks, one, reading, found):
    expected, got = {ACCEPTED: one.code == 0}, {ACCEPTED: reading.taken and not reading.malformed}
    if one.code == 0:
        expected.update(tshark.expected(one.rows, one.nodes))
        got.update(reading.fields)
    else:
        expected[FAULT], got[FAULT] = True, same_fault(one, reading)
    for key in sorted(expected.keys() | got.keys()):
        ours, theirs = expected.get(key), got.get(key)
        reasons = [reason for reason, (_, _, is_one) in DECLARED.items() if ours != theirs and is_one(one, reading, key, ours, theirs)]
        if reasons:
            found[reasons[0]][one.name] += 1
        else:
            checks.same(f"{one.name}: {key[1]} at {key[0]}, by tshark", theirs, ours)
