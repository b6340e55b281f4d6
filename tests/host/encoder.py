"""Datagrams made by the layouts of docs/RULES.md, with what a decoder must answer for each of them.

The values that it puts in are the values that are expected back; no code of the decoder has a part in either."""
import struct

# The rules' sizes, as this judge has them: written by hand on purpose, and not taken from the header, which tests/host/run holds to them.
DESCRIPTOR_WORDS = 7
MAX_INPUT = 16777216
MAX_OPAQUE = 104857600
MAX_DEPTH = 8
NOBODY = 4294967295

# How a sampled Ethernet record is read: as the memo has it, an address in eight bytes of which the last two are its pad; and in six.
MEMO, BASE = MODES = ("memo", "base")

# The rows of docs/RULES.md, 3, with the crate's names: kind, format, and the fields in order. A field is a word where no shape is named.
LAYOUTS = {
    "header": (0, 0, "version:version agent_address:address sub_agent_id sequence_number uptime num_samples"),
    "flow_sample": (1, 1, "sequence_number source_id sampling_rate sample_pool drops input output num_records"),
    "counters_sample": (1, 2, "sequence_number source_id num_records"),
    "flow_sample_expanded": (
        1, 3, "sequence_number source_id:two_words sampling_rate sample_pool drops input:two_words output:two_words num_records"),
    "counters_sample_expanded": (1, 4, "sequence_number source_id:two_words num_records"),
    "discarded_packet": (1, 5, "sequence_number source_id:two_words drops input_ifindex output_ifindex reason num_records"),
    "sampled_header": (2, 1, "protocol:protocol frame_length stripped header:opaque"),
    "sampled_ethernet": (2, 2, "length src_mac:ethernet dst_mac:ethernet eth_type"),
    "sampled_ipv4": (2, 3, "length protocol src_ip dst_ip src_port dst_port tcp_flags tos"),
    "sampled_ipv6": (2, 4, "length protocol src_ip:sixteen dst_ip:sixteen src_port dst_port tcp_flags priority"),
    "extended_switch": (2, 1001, "src_vlan src_priority dst_vlan dst_priority"),
    "extended_router": (2, 1002, "next_hop:address src_mask_len dst_mask_len"),
    "extended_gateway": (
        2, 1003, "next_hop:address as_number src_as src_peer_as dst_as_path:segments communities:list local_pref"),
    "extended_user": (2, 1004, "src_charset src_user:string dst_charset dst_user:string"),
    "extended_url": (2, 1005, "direction url:string host:string"),
    "extended_mpls": (2, 1006, "next_hop:address in_stack:list out_stack:list"),
    "extended_nat": (2, 1007, "src_address:address dst_address:address"),
    "extended_mpls_tunnel": (2, 1008, "tunnel_lsp_name:string tunnel_id tunnel_cos"),
    "extended_mpls_vc": (2, 1009, "vc_instance_name:string vll_vc_id vc_label vc_cos"),
    "extended_mpls_fec": (2, 1010, "fec_addr_prefix:address fec_prefix_len"),
    "extended_mpls_lvp_fec": (2, 1011, "mpls_fec_addr_prefix_length"),
    "extended_vlan_tunnel": (2, 1012, "stack:list"),
    "extended_80211_payload": (2, 1013, "cipher_suite data:opaque"),
    "extended_80211_rx": (2, 1014, "ssid:string bssid:six_of_eight version channel speed:long rsni rcpi packet_duration"),
    "extended_80211_tx": (
        2, 1015, "ssid:string bssid:six_of_eight version transmissions packet_duration retrans_duration channel speed:long power"),
    "extended_80211_aggregation": (2, 1016, "pdu_count"),
    "generic_interface_counters": (
        3, 1, "if_index if_type if_speed:long if_direction if_status if_in_octets:long if_in_ucast_pkts if_in_multicast_pkts if_in_broadcast_pkts"
        " if_in_discards if_in_errors if_in_unknown_protos if_out_octets:long if_out_ucast_pkts if_out_multicast_pkts if_out_broadcast_pkts"
        " if_out_discards if_out_errors if_promiscuous_mode"),
    "ethernet_interface_counters": (
        3, 2, "dot3_stats_alignment_errors dot3_stats_fcs_errors dot3_stats_single_collision_frames dot3_stats_multiple_collision_frames"
        " dot3_stats_sqe_test_errors dot3_stats_deferred_transmissions dot3_stats_late_collisions dot3_stats_excessive_collisions"
        " dot3_stats_internal_mac_transmit_errors dot3_stats_carrier_sense_errors dot3_stats_frame_too_longs"
        " dot3_stats_internal_mac_receive_errors dot3_stats_symbol_errors"),
    "token_ring_counters": (
        3, 3, "dot5_stats_line_errors dot5_stats_burst_errors dot5_stats_ac_errors dot5_stats_abort_trans_errors dot5_stats_internal_errors"
        " dot5_stats_lost_frame_errors dot5_stats_receive_congestions dot5_stats_frame_copied_errors dot5_stats_token_errors"
        " dot5_stats_soft_errors dot5_stats_hard_errors dot5_stats_signal_loss dot5_stats_transmit_beacons dot5_stats_recoverys"
        " dot5_stats_lobe_wires dot5_stats_removes dot5_stats_singles dot5_stats_freq_errors"),
    "vg100_interface_counters": (
        3, 4, "dot12_in_high_priority_frames dot12_in_high_priority_octets:long dot12_in_norm_priority_frames dot12_in_norm_priority_octets:long"
        " dot12_in_ipm_errors dot12_in_oversize_frame_errors dot12_in_data_errors dot12_in_null_addressed_frames"
        " dot12_out_high_priority_frames dot12_out_high_priority_octets:long dot12_transition_into_trainings"
        " dot12_hc_in_high_priority_octets:long dot12_hc_in_norm_priority_octets:long dot12_hc_out_high_priority_octets:long"),
    "vlan_counters": (3, 5, "vlan_id octets:long ucast_pkts multicast_pkts broadcast_pkts discards"),
    "processor_counters": (3, 1001, "cpu_5s cpu_1m cpu_5m total_memory:long free_memory:long"),
}
RECORDS = [name for name, row in LAYOUTS.items() if row[0] == 2 and row[1] != 1016]
COUNTERS = [name for name, row in LAYOUTS.items() if row[0] == 3]
COUNTER_SAMPLES = ["counters_sample", "counters_sample_expanded"]
SAMPLES = [name for name, row in LAYOUTS.items() if row[0] == 1]
WORDS_OF_NAMES = ["", "a", "eth0", "guest", "Café 3", "日本", "\x00\x1b[31m", "😀", "plume-latch-7"]


def word(number):
    return struct.pack(">I", number)


def descriptor(kind, form, start, length, parent, depth, first):
    """The words of a descriptor, in their order."""
    return kind, form, start, length, parent, depth, first


def pads(length):
    return -length % 4


class Span:
    """A part of the payload: where it begins in it, and how many bytes, words or segments it has."""

    def __init__(self, start, count):
        self.start, self.count = start, count


# Sequences that RFC 3629's table has not, each as it begins a string; a shorter string ends in the middle of one.
NO_CHARACTERS = [bytes.fromhex(text) for text in ("ff", "80", "c0 af", "e2 28 a1", "e0 80 80", "ed a0 80", "f0 8f bf bf", "f4 90 80 80", "c3", "f0 9f 98", "e2 82 41")]


def ill_formed(value, rng):
    """Two texts of as many bytes that are not UTF-8: at the end, and somewhere."""
    yield value[:-1] + b"\xff"
    bad, at = rng.choice(NO_CHARACTERS), rng.randrange(len(value))
    text = (value[:at] + bad + value[at:])[:len(value)]
    if goes_bad(text) is not None:
        yield text


def goes_bad(text):
    """The first byte of the first sequence that is no character, by Python's own decoder."""
    try:
        text.decode()
    except UnicodeDecodeError as fault:
        return fault.start


class Body:
    """The bytes of one layout, the items that they are, the values of its fields, and where an item can be spoiled, and how."""

    def __init__(self, name, rng, mode=MEMO, **given):
        self.name, self.rng, self.mode, self.given = name, rng, mode, given
        self.kind, self.format, fields = LAYOUTS[name]
        self.data, self.items, self.fields, self.faults = bytearray(), [], {}, []
        self.lists, self.paths, self.pads = [], [], []  # each with its first byte and its values
        for field in fields.split():
            field, _, shape = field.partition(":")
            self.fields[field] = getattr(self, shape or "plain")(field)

    def item(self, raw):
        self.items.append((len(self.data), len(self.data) + len(raw)))
        self.data += raw

    def fault(self, code, raw, on=0):
        """The item that comes next is refused with this code where these are its first bytes: so many bytes behind its first."""
        self.faults.append((len(self.items), len(self.data), code, raw, len(self.data) + on))

    def number(self, field, bits=32):
        return self.given.get(field, self.rng.getrandbits(bits))

    def plain(self, field):
        value = self.number(field)
        self.item(word(value))
        return value

    def version(self, _):
        self.fault(3, word(4))
        self.fault(3, word(5 << 16))
        self.item(word(5))
        return 5

    def protocol(self, field):
        self.fault(6, word(0))
        self.fault(6, word(18))
        value = self.given.get(field, self.rng.randint(1, 17))
        self.item(word(value))
        return value

    def two_words(self, field):
        pair = self.given.get(field) or (self.rng.getrandbits(32), self.rng.getrandbits(32))
        for value in pair:
            self.item(word(value))
        return "%d/%d" % tuple(pair)

    def long(self, field):
        value = self.number(field, 64)
        self.item(struct.pack(">Q", value))
        return value

    def block(self, size, shown, field):
        value = self.given.get(field) or self.rng.randbytes(shown)
        self.item(value + self.rng.randbytes(size - shown))
        return value.hex()

    def ethernet(self, field):
        return self.block(6 if self.mode == BASE else 8, 6, field)

    def six_of_eight(self, field):
        return self.block(8, 6, field)

    def sixteen(self, field):
        return self.block(16, 16, field)

    def address(self, field):
        self.fault(4, word(3))
        value = self.given.get(field)
        if value is None:
            value = self.rng.randbytes(self.rng.choice((0, 4, 16)))
        kind = {0: 0, 4: 1, 16: 2}[len(value)]
        self.item(word(kind))
        if value:
            self.item(value)
        return f"{kind}/{value.ljust(16, bytes(1)).hex()}"

    def opaque(self, field):
        self.fault(5, word(MAX_OPAQUE + 1))
        value = self.given.get(field)
        if value is None:
            value = self.rng.randbytes(self.rng.randint(0, 9))
        start, pad = len(self.data) + 4, self.rng.choice((bytes(3), self.rng.randbytes(3)))[:pads(len(value))]
        self.item(word(len(value)) + value + pad)
        self.pads.append((start + len(value), pad))
        return Span(start, len(value))

    def string(self, field):
        value = self.given.get(field, self.rng.choice(WORDS_OF_NAMES)).encode()
        for bad in ill_formed(value, self.rng) if value else ():
            self.fault(7, word(len(value)) + bad, 4 + goes_bad(bad))
        self.given[field] = value
        return self.opaque(field)

    def list(self, field):
        values = self.given.get(field)
        if values is None:
            values = [self.rng.getrandbits(32) for _ in range(self.rng.randint(0, 4))]
        self.item(word(len(values)))
        start = len(self.data)
        self.lists.append((start, values))
        for value in values:
            self.item(word(value))
        return Span(start, len(values))

    def segments(self, field):
        rng = self.rng
        values = self.given.get(field)
        if values is None:
            values = [(rng.randint(1, 2), [rng.getrandbits(32) for _ in range(rng.randint(0, 3))]) for _ in range(rng.randint(0, 3))]
        self.item(word(len(values)))
        start = len(self.data)
        self.paths.append((start, values))
        for kind, path in values:
            self.item(word(kind))
            self.given[field + "[]"] = path
            self.list(field + "[]")
        return Span(start, len(values))

    def values(self, base):
        """The fields as the test program prints them, for a payload at `base`."""
        shown = ((f, f"{base + v.start}+{v.count}" if isinstance(v, Span) else v) for f, v in self.fields.items())
        return "".join(f" {field}={value}" for field, value in shown)

    def zeros(self):
        """The fields of a refusal."""
        zero = {"address": "0/" + "00" * 16, "two_words": "0/0", "ethernet": "00" * 6, "six_of_eight": "00" * 6, "sixteen": "00" * 16}
        zero.update(dict.fromkeys(("opaque", "string", "list", "segments"), "0+0"))
        rows = (field.partition(":") for field in LAYOUTS[self.name][2].split())
        return "".join(f" {field}={zero.get(shape, 0)}" for field, _, shape in rows)

    def cut_at(self, length):
        """The first item that passes the end of this many bytes: its index and its first byte; None where all fit."""
        return next(((i, start) for i, (start, end) in enumerate(self.items) if end > length), None)


class Wire:
    """Datagrams end to end: the bytes, the steps of reading them, the descriptors, and the body that each of those stands for."""

    def __init__(self, rng, mode=MEMO):
        self.rng, self.mode, self.data, self.steps, self.rows, self.bodies = rng, mode, bytearray(), 0, [], []
        self.outer = []  # items that nothing encloses: first byte, end, and the steps before it
        self.pads = []  # each with its first byte

    def body(self, row, body):
        self.bodies.append((row, body, len(self.data), self.steps))
        self.pads += [(len(self.data) + start, pad) for start, pad in body.pads]
        if row is not None and self.rows[row][0] == 0:
            base = len(self.data)
            self.outer += [(base + start, base + end, self.steps + i) for i, (start, end) in enumerate(body.items)]
        self.data += body.data
        self.steps += len(body.items)

    def enclosed(self, kind, form, parent, depth, fill):
        """A format word and an opaque, which `fill` fills; and sometimes bytes that are left over in it."""
        begin, before = len(self.data), self.steps
        self.data += word(form) + bytes(4)
        self.steps += 2
        row, start = len(self.rows), len(self.data)
        self.rows.append(None)
        self.rows[row] = descriptor(kind, form, start, 0, parent, depth, begin)
        left_over = fill(row)
        self.data += self.rng.randbytes(left_over or 0)
        length = len(self.data) - start
        self.data[start - 4:start] = word(length)
        self.pads.append((len(self.data), self.rng.randbytes(pads(length))))
        self.data += self.pads[-1][1]
        self.rows[row] = descriptor(kind, form, start, length, parent, depth, begin)
        if kind == 1:
            self.outer += [(begin, begin + 4, before), (begin + 4, len(self.data), before + 1)]

    def raw(self, kind, form, parent, depth, data):
        def fill(_):
            self.data += data
        self.enclosed(kind, form, parent, depth, fill)

    def record(self, parent, depth, body, left_over=0):
        def fill(row):
            self.body(row, body)
            return left_over
        self.enclosed(body.kind, body.format, parent, depth, fill)

    def aggregation(self, parent, depth, pdus):
        """Each PDU is a list of functions that put a record, given its parent and depth."""
        def fill(row):
            self.body(row, Body("extended_80211_aggregation", self.rng, pdu_count=len(pdus)))
            for records in pdus:
                begin = len(self.data)
                self.data += word(len(records))
                self.steps += 1
                pdu, start = len(self.rows), len(self.data)
                self.rows.append(None)
                for put in records:
                    put(pdu, depth + 1)
                self.rows[pdu] = descriptor(4, 0, start, len(self.data) - start, row, depth, begin)
        self.enclosed(2, 1016, parent, depth, fill)

    def sample(self, parent, name, puts, left_over=0, **given):
        """A sample and its records, which are functions as in an aggregation."""
        def fill(row):
            self.body(row, Body(name, self.rng, num_records=len(puts), **given))
            for put in puts:
                put(row, 1)
            return left_over
        self.enclosed(1, LAYOUTS[name][1], parent, 0, fill)

    def datagram(self, puts, **given):
        """A datagram and its samples: functions that put a sample, given its parent."""
        row, start = len(self.rows), len(self.data)
        self.rows.append(descriptor(0, 0, start, 0, NOBODY, 0, start))
        head = Body("header", self.rng, num_samples=len(puts), **given)
        self.body(row, head)
        for put in puts:
            put(row)
        self.rows[row] = descriptor(0, 0, start, len(self.data) - start, NOBODY, 0, start)
        return head

    def put_record(self, body, left_over=0):
        return lambda parent, depth: self.record(parent, depth, body, left_over)

    def put_raw(self, kind, form, data):
        return lambda parent, depth: self.raw(kind, form, parent, depth, data)

    def put_aggregation(self, pdus):
        return lambda parent, depth: self.aggregation(parent, depth, pdus)

    def put_sample(self, name, puts, left_over=0, **given):
        return lambda parent: self.sample(parent, name, puts, left_over, **given)


def of_one_record(rng, body, sample="flow_sample", depth=1):
    """A datagram with this one record, so deep."""
    wire = Wire(rng, body.mode)
    put = wire.put_record(body)
    for _ in range(depth - 1):
        put = wire.put_aggregation([[put]])
    wire.datagram([wire.put_sample(sample, [put])])
    return wire


def any_record(wire, rng, depth):
    """A function that puts some record: of a known format, raw, or an aggregation where there is room below."""
    turn = rng.random()
    if turn < 0.15 and depth < MAX_DEPTH:
        return wire.put_aggregation([[any_record(wire, rng, depth + 1) for _ in range(rng.randint(0, 2))] for _ in range(rng.randint(0, 3))])
    if turn < 0.3:
        return wire.put_raw(2, rng.choice((1017, 1 << 12 | 1, 5, 0, 4095, 1036)), rng.randbytes(rng.randint(0, 9)))
    return wire.put_record(Body(rng.choice(RECORDS), rng, wire.mode), rng.choice((0, 0, 1, 4)))


def any_counter(wire, rng):
    """A function that puts some counter record: of a known format, or raw."""
    if rng.random() < 0.3:
        form = rng.choice((0, 6, 11, 1000, 4095, 1 << 12 | 1, 1 << 12 | 1001, 1 << 31 | 5, rng.getrandbits(32) | 1 << 12))
        return wire.put_raw(3, form, rng.randbytes(rng.randint(0, 9)))
    return wire.put_record(Body(rng.choice(COUNTERS), rng), rng.choice((0, 0, 1, 4, 8)))


def any_sample(wire, rng):
    if rng.random() < 0.15:
        form, data = rng.choice((4300 << 12 | 1002, 4300 << 12 | 1003, 6, 1 << 12 | 1)), rng.randbytes(rng.randint(0, 9))
        return lambda parent: wire.raw(1, form, parent, 0, data)
    name = rng.choice(SAMPLES)
    count = rng.randint(0, 4)
    puts = [any_counter(wire, rng) if name in COUNTER_SAMPLES else any_record(wire, rng, 1) for _ in range(count)]
    return wire.put_sample(name, puts, rng.choice((0, 0, 0, 3)))


def any_datagram(rng, wire=None, mode=MEMO):
    wire = wire or Wire(rng, mode)
    head = wire.datagram([any_sample(wire, rng) for _ in range(rng.randint(0, 4))])
    return wire, head


# The sizes of the items of a sampled Ethernet record, in their order: the length, the two addresses, the type.
ETHERNET = {MEMO: (4, 8, 8, 4), BASE: (4, 6, 6, 4)}


def ethernet_cut(payload, mode):
    """How many items of a sampled Ethernet record these bytes have, and where the first is that they cut, or the end of the last."""
    at, items = 0, 0
    for size in ETHERNET[mode]:
        if at + size > len(payload):
            break
        at, items = at + size, items + 1
    return items, at


def ethernet_values(payload, mode):
    """Its fields, as the test program prints them; an address is the first six of its bytes."""
    ends = [sum(ETHERNET[mode][:n]) for n in range(5)]
    length, source, destination, kind = (payload[start:end] for start, end in zip(ends, ends[1:]))
    numbers = int.from_bytes(length, "big"), int.from_bytes(kind, "big")
    return f" length={numbers[0]} src_mac={source[:6].hex()} dst_mac={destination[:6].hex()} eth_type={numbers[1]}"
