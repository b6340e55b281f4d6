"""The reading of one datagram by docs/RULES.md, in Python; and, one at a time, the faults that other decoders
have had."""
from encoder import BASE, MAX_DEPTH, MAX_INPUT, MAX_OPAQUE, MEMO, NOBODY, descriptor, pads
from figures import BY_FORMAT, SHAPES, Answer

# what a decoder with the fault does
PACKET = "a nested item is bounded by the packet"
SAMPLE = "a record is bounded by the packet, and not by its sample"
HEADER = "the sampled header's length is not compared with its record"
MASKED = "the enterprise is masked off"
JUMPED = "an unknown sample is stepped over without its pad"
EIGHT_BITS = "a sample's count of records is cut to eight bits"
EXTRA = "bytes left over are not ignored"
UNKNOWN = "an unknown format is refused"
NO_SAMPLES = "a datagram without samples is refused"
LIST_WRAPS = "a list's length in bytes wraps at 32 bits"


class Refused(Exception):
    pass


class Reader:
    def __init__(self, data, fault, mode):
        self.data, self.fault, self.mode, self.at, self.steps, self.rows = data, fault, mode, 0, 0, []

    def end(self, end):
        """The end of what encloses an item inside a record."""
        return len(self.data) if self.fault == PACKET else end

    def item(self, size, end):
        if self.at + size > end:
            raise Refused(2, self.at)
        self.at, self.steps = self.at + size, self.steps + 1
        return self.data[self.at - size:self.at]

    def word(self, end, code=2, good=lambda value: True):
        if self.at + 4 > end:
            raise Refused(2, self.at)
        value = int.from_bytes(self.data[self.at:self.at + 4], "big")
        if not good(value):
            raise Refused(code, self.at)
        self.item(4, end)
        return value

    def opaque(self, end, text=False):
        """The first byte and the length of what is in it."""
        if self.at + 4 > end:
            raise Refused(2, self.at)
        length, start = int.from_bytes(self.data[self.at:self.at + 4], "big"), self.at + 4
        if length > MAX_OPAQUE:
            raise Refused(5, self.at)
        if start + length + pads(length) > end:
            raise Refused(2, self.at)
        if text:
            well_formed(self.data[start:start + length], start)
        self.item(4 + length + pads(length), end)
        return start, length

    def list(self, end):
        count = self.word(end)
        if self.fault == LIST_WRAPS and self.at + 4 * count % 2 ** 32 <= end:
            count = 4 * count % 2 ** 32 // 4
        for _ in range(count):
            self.word(end)

    def field(self, name, shape, end):
        sizes = {"long": 8, "ethernet": 6 if self.mode == BASE else 8, "six_of_eight": 8, "sixteen": 16}
        if shape in sizes:
            self.item(sizes[shape], end)
        elif shape == "address":
            kind = self.word(end, 4, lambda value: value <= 2)
            if kind:
                self.item((0, 4, 16)[kind], end)
        elif shape in ("opaque", "string"):
            self.opaque(len(self.data) if self.fault == HEADER and name == "header" else end, shape == "string")
        elif shape == "list":
            self.list(end)
        elif shape == "segments":
            for _ in range(self.word(end)):
                self.word(end)
                self.list(end)
        elif shape == "two_words":
            return self.word(end), self.word(end)
        else:
            codes = {"version": (3, lambda value: value == 5), "protocol": (6, lambda value: 1 <= value <= 17)}
            return self.word(end, *codes.get(shape, ()))

    def layout(self, name, end):
        """Answers the last field, which is the count where things follow."""
        return [self.field(field, shape, end) for field, shape in SHAPES[name]][-1]

    def frame(self, kind, end, parent, depth):
        """A format word and an opaque; what is in it is read, and what is left of it is stepped over."""
        first = self.at
        form = self.word(end)
        start, length = self.opaque(end)
        behind, stop = self.at, start + length
        index = len(self.rows)
        self.rows.append(descriptor(kind, form, start, length, parent, depth, first))
        name = BY_FORMAT.get((kind, form & 0xfff if self.fault == MASKED else form))
        if not name:
            if self.fault == UNKNOWN:
                raise Refused(2, start)
            self.at = behind - pads(length) if self.fault == JUMPED and kind == 1 else behind
            return
        self.at = start
        self.inside(name, stop, index, depth)
        if self.fault == EXTRA and self.at != stop:
            raise Refused(2, self.at)
        self.at = behind

    def inside(self, name, end, index, depth):
        count = self.layout(name, self.end(end) if depth else end)
        if name == "extended_80211_aggregation":
            for _ in range(count):
                self.pdu(end, index, depth)
        elif depth == 0:
            kind = 3 if name.startswith("counters") else 2
            self.records(count % 256 if self.fault == EIGHT_BITS else count, kind, end, index, 1)

    def records(self, count, kind, end, parent, depth):
        for _ in range(count):
            if depth > MAX_DEPTH:
                raise Refused(8, self.at)
            self.frame(kind, len(self.data) if self.fault == SAMPLE else end, parent, depth)

    def pdu(self, end, parent, depth):
        first = self.at
        count = self.word(end)
        index, start = len(self.rows), self.at
        self.rows.append(None)
        self.records(count, 2, end, index, depth + 1)
        self.rows[index] = descriptor(4, 0, start, self.at - start, parent, depth, first)

    def datagram(self):
        self.rows.append(None)
        count = self.layout("header", len(self.data))
        if count == 0 and self.fault == NO_SAMPLES:
            raise Refused(2, self.at)
        for _ in range(count):
            self.frame(1, len(self.data), 0, 0)
        if self.fault == EXTRA and self.at != len(self.data):
            raise Refused(2, self.at)
        self.rows[0] = descriptor(0, 0, 0, self.at, NOBODY, 0, 0)


def well_formed(text, start):
    """Refuses a text where Python's own decoder finds it ill-formed; its first byte is at `start`."""
    try:
        text.decode()
    except UnicodeDecodeError as fault:
        raise Refused(7, start + fault.start) from None


def read(data, fault=None, mode=MEMO):
    if len(data) > MAX_INPUT:
        return Answer(1, 0, 0, 0, [])
    reader = Reader(data, fault, mode)
    try:
        reader.datagram()
    except Refused as why:
        return Answer(*why.args, reader.steps, 0, [])
    return Answer(0, reader.at, reader.steps, len(reader.rows), reader.rows)
