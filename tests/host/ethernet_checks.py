"""Sampled Ethernet records of 0 to 40 bytes, the same bytes in both modes: what is expected is the encoder's own reading of them."""
from encoder import BASE, Body, DESCRIPTOR_WORDS, ETHERNET, MAX_DEPTH, MODES, Wire, ethernet_cut, ethernet_values

NAME = "sampled_ethernet"
LENGTHS = range(41)
DEPTHS = (1, 2, MAX_DEPTH)
SAMPLES = ("flow_sample", "flow_sample_expanded", "discarded_packet")


class Record:
    """A record of these bytes in a datagram of its own, so deep, with so many other datagrams around it, and what each mode answers."""

    def __init__(self, rng, payload, depth, sample, around=0):
        self.rng, self.payload, self.wire = rng, payload, Wire(rng)
        for _ in range(around):
            self.wire.datagram([])
        self.first = len(self.wire.data), len(self.wire.rows)
        put = self.put
        for _ in range(depth - 1):
            put = self.wire.put_aggregation([[put]])
        other = self.wire.put_raw(2, 1017, rng.randbytes(rng.randint(0, 9)))
        puts = [put, other] if rng.random() < 0.5 else [put]
        self.head = self.wire.datagram([self.wire.put_sample(sample, puts, rng.choice((0, 0, 3)))])
        for _ in range(around):
            self.wire.datagram([])
        self.wire.steps += len(ETHERNET[BASE])  # where it is read

    def put(self, parent, depth):
        self.wire.raw(2, 2, parent, depth, self.payload)
        self.row, self.before = self.wire.rows[-1], self.wire.steps

    def read(self, mode):
        """Code, position and items of its field reading."""
        items, at = ethernet_cut(self.payload, mode)
        return 0 if items == len(ETHERNET[mode]) else 2, self.row[2] + at, items

    def decoded(self, mode):
        """Code, position and steps of the one datagram."""
        code, at, items = self.read(mode)
        return (2, at, self.before + items) if code else (0, len(self.wire.data), self.wire.steps)

    def ran(self, mode):
        """Code, position, steps and descriptors of the run: a record that is cut ends it where its datagram begins."""
        code, _, items = self.read(mode)
        if code:
            return 0, self.first[0], self.before + items, self.wire.rows[:self.first[1]]
        return 0, len(self.wire.data), self.wire.steps, self.wire.rows


def records(rng, around=0):
    """One of each length at each depth, in each sample that holds flow records."""
    for length in LENGTHS:
        for depth in DEPTHS:
            for sample in SAMPLES:
                yield Record(rng, rng.randbytes(length), depth, sample, around)


def field_reading(s, one):
    body, (code, at, items) = Body(NAME, one.rng, s.mode), one.read(s.mode)
    if code:
        s.read_refused(body, one.row, code, at, items)
    else:
        s.read(body, one.row, f"code=0 at={at} steps={items}{ethernet_values(one.payload, s.mode)}")


def alone(s, one):
    """As one datagram, as a run, and field by field; where it is accepted, without room too."""
    code, at, steps = one.decoded(s.mode)
    rows = one.wire.rows
    room = DESCRIPTOR_WORDS * len(rows)
    if code:
        s.refused(room, code, at, steps)
    else:
        s.decoded(one.wire, one.head, room)
        s.refused(room - 1, 9, 0, steps, len(rows))
    field_reading(s, one)
    in_run(s, one)


def in_run(s, one):
    code, at, steps, rows = one.ran(s.mode)
    s.ran(DESCRIPTOR_WORDS * len(one.wire.rows) + 3, code, at, steps, len(rows), rows)


def check(s, rng):
    """The script's part for these records."""
    for around, part in ((0, alone), (1, in_run)):
        for one in records(rng, around):
            s.data(one.wire.data)
            for mode in MODES:
                s.mode = mode
                part(s, one)
