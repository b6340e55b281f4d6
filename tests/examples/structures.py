"""The memo's structures, put together byte by byte: what is expected of them is counted as it is put in.

The bytes are 11, 12, 13 .. in hexadecimal where no rule binds them, and the texts go by the letters of the alphabet, so that no two
fields have the same value, and a field that is read at a wrong byte has a wrong one. Pads are f1, f2, f3."""
import os

HERE = os.path.dirname(os.path.abspath(__file__))
START = 4  # where a range begins: one word stands before it
WORDS = 'unsigned_int data_source interface drop_reason ip_v4 charset url_direction cipher_suite ieee80211_version duration_us percentage'.split()


def structures():
    """memo.txt: by name, the kind, the format, the module, and the fields as (type, name)."""
    found, row = {}, None
    with open(os.path.join(HERE, 'memo.txt')) as f:
        for line in f:
            parts = line.split()
            if not parts or line[0] == '#':
                continue
            if line[0] != ' ':
                row = found[parts[2]] = (int(parts[0]), int(parts[1]), parts[3], [])
            else:
                row[3].append((parts[0], parts[1]))
    return found


MEMO = structures()


# ---- values, and how antt and a reader of the list see them

def word(n):
    return n.to_bytes(4, 'big')


def number(n):
    return str(n) if n < 256 else '0x%0*x' % (8 if n < 2 ** 32 else 16, n)


def antt_list(texts):
    return '(%s)' % ' ∷ '.join([*texts, '[]']) if texts else '[]'


def words_of(data):
    """The bytes as words, four to each."""
    assert len(data) % 4 == 0
    return antt_list(['0x' + data[i:i + 4].hex() for i in range(0, len(data), 4)])


class Number(int):
    zero = 'number 0'

    def antt(self):
        return 'number ' + number(self)

    def field(self):
        return number(self)


class Octets(bytes):
    def antt(self):
        return 'octets ' + self.field()

    def field(self):
        return antt_list(['0x%02x' % b for b in self])

    @property
    def zero(self):
        return 'octets (replicate %d 0)' % len(self)


class Address(bytes):
    zero = 'nowhere'

    def antt(self):
        return {0: 'nowhere', 4: 'v4 0x' + self.hex(), 16: 'v6 ' + words_of(self)}[len(self)]

    def field(self):
        kind = {0: 0, 4: 1, 16: 2}[len(self)]
        return 'record { kind = %d; bytes = %s }' % (kind, antt_list(['0x%02x' % b for b in self.ljust(16, b'\0')]).replace('0x00', '0'))


class Part(tuple):
    """Where an opaque, a text or a list lies: its first byte after the length or count word, and that length or count."""
    zero = 'lies 0 0'

    def antt(self):
        return 'lies %d %d' % self

    def field(self):
        return 'record { start = %d; count = %d }' % self


# ---- a structure, put together

class Body:
    """The bytes of a structure, its items as (name, first byte, behind the last), and the values of its fields."""

    def __init__(self, name, addresses='46', mode='memo', **given):
        self.name, self.addresses, self.mode, self.given = name, list(addresses), mode, given
        self.kind, self.format, self.module, self.fields = MEMO[name]
        self.data, self.items, self.values = bytearray(), [], []
        self.next, self.letter = 0x11, ord('a')
        self.sizes = iter((2, 3, 4))  # of lists, in their order
        for kind, field in self.fields:
            self.values.append(getattr(self, 'number' if kind in WORDS else kind)(field))
        assert len({value.antt() for value in self.values}) == len(self.values), name + ': two fields have the same value'

    def at(self):
        return START + len(self.data)

    def bytes(self, n):
        """The next n bytes."""
        self.next += n
        return bytes(range(self.next - n, self.next))

    def item(self, label, raw):
        self.items.append((label, len(self.data), len(self.data) + len(raw)))
        self.data += raw

    def number(self, field, size=4):
        raw = word(self.given[field]) if field in self.given else self.bytes(size)
        self.item(field, raw)
        return Number(int.from_bytes(raw, 'big'))

    def unsigned_hyper(self, field):
        return self.number(field, 8)

    def version(self, field):
        self.item(field, word(5))
        return Number(5)

    def header_protocol(self, field):
        self.item(field, word(11))  # IPv4
        return Number(11)

    def block(self, field, size, shown):
        raw = self.bytes(size)
        self.item(field, raw)
        return Octets(raw[:shown])

    def ethernet_mac(self, field):
        return self.block(field, 6 if self.mode == 'base' else 8, 6)

    def mac(self, field):
        return self.block(field, 8, 6)

    def ip_v6(self, field):
        return self.block(field, 16, 16)

    def address(self, field):
        kind = self.addresses.pop(0)
        raw = self.bytes({'0': 0, '4': 4, '6': 16}[kind])
        self.item(field, word({'0': 0, '4': 1, '6': 2}[kind]))
        if raw:
            self.item(field + ' bytes', raw)
        return Address(raw)

    def opaque(self, field):
        return self.lengthy(field, self.bytes(5))

    def string(self, field):
        size = 5 if self.letter == ord('a') else 6
        self.letter += size
        return self.lengthy(field, bytes(range(self.letter - size, self.letter)))

    def lengthy(self, field, raw):
        part = Part((self.at() + 4, len(raw)))
        self.item(field, word(len(raw)) + raw + b'\xf1\xf2\xf3'[:-len(raw) % 4])
        return part

    def list(self, field):
        size = next(self.sizes)
        self.item(field, word(size))
        part = Part((self.at(), size))
        for i in range(size):
            self.item('%s[%d]' % (field, i), self.bytes(4))
        return part

    def as_path(self, field):
        """Two segments: a set and a sequence."""
        self.item(field, word(2))
        part = Part((self.at(), 2))
        for i in range(2):
            self.item('%s[%d].type' % (field, i), word(1 + i))
            self.list('%s[%d].path' % (field, i))
        return part

    # what is expected of it

    def found(self, label):
        """The item of this name: how many are before it, its first byte, and the one behind its last."""
        i = [name for name, _, _ in self.items].index(label)
        return i, self.items[i][1], self.items[i][2]

    def texts(self):
        return [v.antt() for v in self.values]

    def zeros(self):
        return [v.zero for v in self.values]
