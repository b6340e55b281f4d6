"""The examples: a call for each layout, each sample, the header and each kind of refusal, and what is expected of it."""
from structures import MEMO, START, Body, Number, Part, antt_list, number, word, words_of

# The rules' sizes, as this judge has them: written by hand on purpose, and not taken from the header.
DESCRIPTOR_WORDS = 7
MAX_OPAQUE = 104857600
MAX_DEPTH = 8
NOBODY = 4294967295


class Example:
    """A name, a call in antt, and for the list its bytes and what is expected."""

    def __init__(self, name, call, lines):
        self.name, self.call, self.lines = name, call, lines


def named(body):
    return '%s, format %d' % (body.name, body.format) if body.kind else body.name


def in_mode(body, call):
    """The call; of its own mode alone, where the other reads something else."""
    return 'in_mode %s (%s)' % (body.mode, call) if body.name == 'sampled_ethernet' else call


def accepted(body, note=''):
    names = ', '.join(field for _, field in body.fields)
    end = START + len(body.data)
    call = in_mode(body, 'accepts %d %d %s\n%d %d %s' % (body.kind, body.format, words_of(body.data), end, len(body.items), antt_list(body.texts())))
    said = ['%s: %s' % (field, value.antt()) for (_, field), value in zip(body.fields, body.values)]
    return Example('%s%s: %s' % (named(body), note, names), call, [body.data.hex(' ', -4), 'code 0, at %d, steps %d' % (end, len(body.items)), *said])


def begun(body, data, extent, note):
    """Accepted, of a range of so many of these bytes: they begin with the body's, and the rest is left over."""
    assert data.startswith(body.data)
    end = START + len(body.data)
    call = in_mode(body, 'begins %d %d %s %d\n%d %d %s' % (body.kind, body.format, words_of(data), extent, end, len(body.items), antt_list(body.texts())))
    return Example(named(body) + note, call, ['%s, of which %d bytes are the range' % (data.hex(' ', -4), extent), 'code 0, at %d, steps %d' % (end, len(body.items))])


def refused(body, why, code, at, steps, extent=None, data=None, asked=None):
    data = bytes(data or body.data)
    extent = len(data) if extent is None else extent
    of = '%d %d' % (body.kind, body.format)
    head = 'mistakes %s %d %d' % (of, *asked) if asked else 'refuses ' + of
    call = in_mode(body, '%s %s %d\n%d %d %d %s' % (head, words_of(data), extent, code, at, steps, antt_list(body.zeros())))
    return Example('%s: %s' % (named(body), why), call, ['%s, of which %d bytes are the range' % (data.hex(' ', -4), extent), 'code %d, at %d, steps %d' % (code, at, steps)])


def cut(body, label, there, why):
    """Code 2: of this item so many bytes are in the range, and the input goes on."""
    steps, first, end = body.found(label)
    assert there < end - first
    return refused(body, why, 2, START + first, steps, extent=first + there)


def spoiled(body, label, raw, on, code, why):
    """These bytes in place of the item's, from `on` on, or from its first."""
    steps, first, _ = body.found(label)
    data = bytearray(body.data)
    data[first + on:first + on + len(raw)] = raw
    return refused(body, why, code, START + first + (on if code == 7 else 0), steps, data=data)


def flow_bodies():
    return [Body(name, '64' if row[1] in (1003, 1010) else '46') for name, row in MEMO.items() if row[0] == 2]


def counter_bodies():
    return [Body(name) for name, row in MEMO.items() if row[0] == 3]


def sample_bodies():
    return [Body(name) for name, row in MEMO.items() if row[0] == 1]


def header_bodies():
    return [Body('header', kind) for kind in '460']


def flow_records():
    return [accepted(body) for body in flow_bodies()]


def counter_records():
    return [accepted(body) for body in counter_bodies()]


def samples():
    return [accepted(body) for body in sample_bodies()]


def headers():
    return [accepted(body, ' with an address of type %d' % body.data[7]) for body in header_bodies()]


def two_modes():
    memo, base = Body('sampled_ethernet'), Body('sampled_ethernet', mode='base')
    for extent in (20, 23, 24):
        yield cut(memo, 'eth_type', extent - 20, 'of %d bytes' % extent) if extent < 24 else accepted(memo, ' of 24 bytes')
        yield begun(base, memo.data, extent, ' of %d bytes, in the base mode' % extent)


def refusals():
    def body(name, addresses='46', mode='memo'):
        return Body(name, addresses, mode)

    yield cut(body('extended_switch'), 'dst_vlan', 3, 'a word is cut')
    yield cut(body('flow_sample'), 'drops', 3, 'a word of a sample is cut')
    yield cut(body('header', '4'), 'uptime', 3, 'a word of the header is cut')
    yield cut(body('sampled_header'), 'protocol', 3, 'the protocol is cut')
    yield cut(body('extended_80211_rx'), 'speed', 7, 'a u64 is cut')
    yield cut(body('sampled_ethernet'), 'dst_mac', 7, 'an address is cut, behind the six that are shown')
    yield cut(body('sampled_ethernet', mode='base'), 'dst_mac', 5, 'an address of six bytes is cut, in the base mode')
    yield cut(body('extended_80211_tx'), 'bssid', 7, 'a block of eight bytes is cut, behind the six that are shown')
    yield cut(body('sampled_ipv6'), 'dst_ip', 15, 'a block of sixteen bytes is cut')
    yield cut(body('extended_router'), 'next_hop', 3, "an address's type is cut")
    yield cut(body('extended_nat'), 'src_address bytes', 3, 'the four bytes of an address are cut')
    yield cut(body('extended_nat'), 'dst_address bytes', 15, 'the sixteen bytes of an address are cut')
    yield cut(body('header', '6'), 'agent_address bytes', 15, "the sixteen bytes of the agent's address are cut")
    yield cut(body('sampled_header'), 'header', 3, "an opaque's length is cut")
    yield cut(body('sampled_header'), 'header', 8, "an opaque's payload is cut")
    yield cut(body('sampled_header'), 'header', 11, "an opaque's pad is cut")
    yield cut(body('extended_user'), 'dst_user', 3, "a string's length is cut")
    yield cut(body('extended_user'), 'dst_user', 9, "a string's payload is cut")
    yield cut(body('extended_user'), 'dst_user', 11, "a string's pad is cut")
    yield cut(body('extended_mpls'), 'out_stack', 3, "a list's count is cut")
    yield cut(body('extended_mpls'), 'out_stack[2]', 3, 'the last word of a list is cut')
    yield cut(body('extended_gateway'), 'dst_as_path', 3, 'the count of segments is cut')
    yield cut(body('extended_gateway'), 'dst_as_path[1].type', 3, "a segment's type is cut")
    yield cut(body('extended_gateway'), 'dst_as_path[0].path', 3, "a segment's count is cut")
    yield cut(body('extended_gateway'), 'dst_as_path[0].path[1]', 3, 'an AS number of a segment is cut')
    yield cut(body('extended_80211_aggregation'), 'pdu_count', 3, 'the count of PDUs is cut')
    yield cut(body('vlan_counters'), 'multicast_pkts', 3, 'a word of a counter record is cut')
    yield cut(body('generic_interface_counters'), 'if_out_octets', 4, 'a u64 of a counter record is cut, behind its first word')
    yield cut(body('processor_counters'), 'cpu_5s', 0, 'a counter record is empty')
    yield spoiled(body('header', '4'), 'version', word(4), 0, 3, 'version 4')
    yield spoiled(body('header', '4'), 'agent_address', word(3), 0, 4, 'an address of type 3')
    yield spoiled(body('extended_nat'), 'dst_address', word(3), 0, 4, 'an address of type 3')
    yield spoiled(body('extended_80211_payload'), 'data', word(MAX_OPAQUE + 1), 0, 5, "an opaque's length is one above the limit")
    yield spoiled(body('extended_80211_payload'), 'data', word(MAX_OPAQUE), 0, 2, 'the largest length, which is not there')
    yield spoiled(body('extended_url'), 'host', word(MAX_OPAQUE + 1), 0, 5, "a string's length is one above the limit")
    yield spoiled(body('sampled_header'), 'protocol', word(0), 0, 6, 'protocol 0')
    yield spoiled(body('sampled_header'), 'protocol', word(18), 0, 6, 'protocol 18')
    yield spoiled(body('extended_user'), 'dst_user', b'\xe9', 4 + 2, 7, 'the third byte of a string begins no character')
    yield spoiled(body('extended_80211_rx'), 'ssid', b'\xe2\x82', 4 + 3, 7, "a string's last character is cut")
    one = body('vlan_counters')
    yield refused(one, 'asked for, and of the same format of another enterprise', 11, 0, 0, asked=(3, 0x1005))
    one = body('extended_switch')
    yield refused(one, 'the range passes the input', 10, 0, 0, extent=len(one.data) + 5)
    yield refused(one, 'asked for, and of the kind of a sample', 11, 0, 0, asked=(1, 1001))
    yield refused(one, 'asked for, and of format 1002', 11, 0, 0, asked=(2, 1002))
    yield refused(one, 'the range passes the input, and the format is another: 10 comes first', 10, 0, 0, extent=len(one.data) + 5, asked=(2, 1002))


def segments():
    data = word(1) + word(2) + bytes(range(0x11, 0x19))
    call = 'segment %s\n0 %d 4 %s' % (words_of(data), START + 16, antt_list([Number(1).antt(), Part((START + 8, 2)).antt()]))
    yield Example('a segment of an AS path: type, path', call, [data.hex(' ', -4), 'code 0, at %d, steps 4' % (START + 16)])


def spans():
    """A record of format 0x11121314 with five bytes of payload: a format word and an opaque."""
    data = word(0x11121314) + word(5) + bytes(range(0x15, 0x1a)) + b'\xf1\xf2\xf3'
    shown = data.hex(' ', -4)
    yield Example('the payload of a record: five bytes from byte 12', 'pays %s\n12 5 12 5' % words_of(data), [shown, 'start 12, count 5'])
    yield Example('a range of so many bytes that it passes the input', 'pays %s\n12 13 0 0' % words_of(data), [shown, 'start 0, count 0'])
    yield Example('all of it: a format word, a length word, the payload and its pad', 'stands %s\n12 5 4 4 16' % words_of(data), [shown, 'start 4, count 16'])
    yield Example('a first byte that lies behind the start', 'stands %s\n12 5 13 0 0' % words_of(data), [shown, 'start 0, count 0'])


LISTED = ((1, True, 0x15161718), (2, False, 0))


def list_words():
    body = Body('extended_vlan_tunnel')
    for i, there, value in LISTED:
        call = 'lists %s\n8 2 %d %s %s' % (words_of(body.data), i, str(there).lower(), number(value))
        yield Example('the word with index %d of a list of two, at byte 8' % i, call, [body.data.hex(' ', -4), 'present %s, value %s' % (there, number(value))])


HEADER_NAMES = {'sub_agent_id': 'sub_agent', 'sequence_number': 'sequence', 'uptime': 'uptime', 'num_samples': 'sample_count'}


def head_of(body):
    """The header's record in the definitions."""
    names = [field for _, field in body.fields]
    agent = body.values[names.index('agent_address')]
    said = ['address_type = %d' % {0: 0, 4: 1, 16: 2}[len(agent)], 'address = %s' % agent_bytes(agent)]
    said += ['%s = %s' % (HEADER_NAMES[f], number(v)) for f, v in zip(names, body.values) if f in HEADER_NAMES]
    return 'record { %s }' % '; '.join(said)


def agent_bytes(agent):
    rest = 16 - len(agent)
    return ' ++ '.join(['w %s' % words_of(agent)] * bool(agent) + ['replicate %d 0' % rest] * bool(rest))


def raw_samples(n):
    """Samples that stay raw, each with one byte of payload: their bytes, and their descriptors when the first begins at `at`."""
    data = b''.join(word(0x1001 + i) + word(1) + bytes((0x71 + i,)) + b'\xf1\xf2\xf3' for i in range(n))
    return data, lambda at: [(1, 0x1001 + i, at + 12 * i + 8, 1, 0, 0, at + 12 * i) for i in range(n)]


class Datagram:
    """A header and as many raw samples as it says."""

    def __init__(self, addresses, n):
        self.head = Body('header', addresses, num_samples=n)
        data, rows = raw_samples(n)
        self.data = bytes(self.head.data) + data
        self.at, self.steps, self.needed = len(self.data), len(self.head.items) + 2 * n, n + 1
        self.store = [(0, 0, 0, len(self.data), NOBODY, 0, 0), *rows(len(self.head.data))]

    def descriptors(self):
        return antt_list([' '.join(['desc', *map(str, row)]) for row in self.store])

    def words(self):
        """The store's words, one behind another."""
        return antt_list([str(n) for row in self.store for n in row])


class Counters(Datagram):
    """A header and a counter sample: a record that is opened, and one of the same format of another enterprise, which stays raw."""

    def __init__(self):
        self.head, sample, record = Body('header', '0', num_samples=1), Body('counters_sample', num_records=2), Body('vlan_counters')
        start, size = len(self.head.data), len(record.data)
        inside = bytes(sample.data) + word(5) + word(size) + bytes(record.data) + word(0x1005) + word(4) + word(0x71727374)
        self.data = bytes(self.head.data) + word(2) + word(len(inside)) + inside
        self.at, self.steps, self.needed = len(self.data), sum(len(b.items) for b in (self.head, sample, record)) + 6, 4
        first = start + 8 + len(sample.data)
        second = first + 8 + size
        self.store = [(0, 0, 0, len(self.data), NOBODY, 0, 0), (1, 2, start + 8, len(inside), 0, 0, start),
                      (3, 5, first + 8, size, 1, 1, first), (3, 0x1005, second + 8, 4, 1, 1, second)]


def whole_datagrams():
    return [Datagram('4', 2), Datagram('6', 3), Counters()]


def ended_run():
    """The first of these, and behind it the first word of another, which ends the run there: its one item counts."""
    d = whole_datagrams()[0]
    d.data += word(5)
    d.steps += 1
    return d


def whole():
    for d in whole_datagrams():
        call = 'decodes %s\n%d %d %d (%s)\n%s' % (words_of(d.data), d.at, d.steps, d.needed, head_of(d.head), d.descriptors())
        yield Example('a datagram whose agent has an address of type %d: sub-agent, sequence, uptime, sample count' % d.head.data[7], call,
                      [d.data.hex(' ', -4), 'code 0, at %d, steps %d, descriptors %d' % (d.at, d.steps, d.needed), head_of(d.head)])
    for d, about in ((whole_datagrams()[0], 'the first of these as a run'), (ended_run(), 'the same, and behind it the first word of another, which ends the run')):
        call = 'runs %s\n%d %d %d %s' % (words_of(d.data), d.at, d.steps, d.needed, d.descriptors())
        yield Example(about, call, [d.data.hex(' ', -4), 'code 0, at %d, steps %d, descriptors %d' % (d.at, d.steps, d.needed)])


def undecoded():
    d = Datagram('4', 1)
    yield Example('no room: the store has a word less than two descriptors take', 'stops %s\n%d 9 0 %d 2' % (words_of(d.data), 2 * DESCRIPTOR_WORDS - 1, d.steps),
                  [d.data.hex(' ', -4), 'code 9, at 0, steps %d, descriptors 2' % d.steps])
    sample = bytes(Body('counters_sample', num_records=1).data) + word(5) + word(8) + word(1) + word(0)
    data = bytes(d.head.data) + word(2) + word(len(sample)) + sample
    at, steps = len(data) - 4, len(d.head.items) + 2 + 3 + 2 + 1
    yield Example('a counter record is cut, behind the first word of its u64', 'stops %s\n200 2 %d %d 0' % (words_of(data), at, steps),
                  [data.hex(' ', -4), 'code 2, at %d, steps %d' % (at, steps)])
    inner = b''
    for _ in range(MAX_DEPTH):
        inner = word(1016) + word(8 + len(inner)) + word(1) + word(1) + inner
    sample = bytes(Body('flow_sample', num_records=1).data) + inner
    data = bytes(d.head.data) + word(1) + word(len(sample)) + sample
    steps = len(d.head.items) + 2 + 8 + MAX_DEPTH * 4
    yield Example("a record would begin at depth 9: eight aggregations, each in the other's PDU", 'stops %s\n200 8 %d %d 0' % (words_of(data), len(data), steps),
                  [data.hex(' ', -4), 'code 8, at %d, steps %d' % (len(data), steps)])
