#!/usr/bin/env python3
"""The vectors that the program `probe` reads, and the lines that it must print.

usage: vectors.py           writes crates/probe/stdin and crates/probe/stdout
       vectors.py --check   fails where the stored files are not what this script makes
       vectors.py --list    prints each vector's name with its line

No code of ours has a part in the expected lines: numbers are struct's, the verdict on UTF-8 and where it goes bad are Python's
strict decoder's, and other positions, steps and codes are written out below from docs/RULES.md.

A vector is stored as four bytes, the item's letter, a count (of words, for a run of them), where the cursor starts and how many
bytes follow; and those bytes. The file ends in a vector that announces more bytes than there are."""
import os
import struct
import sys

sys.dont_write_bytecode = True
sys.path.append(os.path.dirname(os.path.dirname(os.path.abspath(__file__))))
from library import replace, tell

# the rules', as this judge has it: written by hand on purpose, and not taken from the header
MAX_OPAQUE = 104857600

LETTERS = {
    'u32': 'w', 'u64': 'l', 'i32': 'i', 'block4': '4', 'block6': '6', 'block8': '8', 'block16': 'x',
    'opaque': 'o', 'string': 's', 'address': 'a', 'words': 'r',
}


# ---- what docs/RULES.md, 2, says of each item

class Refused(Exception):
    """An item is refused: a code, a position, and the steps before it."""


def need(data, at, n, steps, item_at):
    """n bytes at `at`, or code 2 at the item's first byte."""
    if len(data) - at < n:
        raise Refused(2, item_at, steps)
    return data[at:at + n]


def number(form, data, at):
    n = struct.calcsize(form)
    return ' got=%d' % struct.unpack(form, need(data, at, n, 0, at)), at + n, 1


def block(n, data, at):
    return ' bytes=' + need(data, at, n, 0, at).ljust(16, b'\0').hex(), at + n, 1


def opaque(data, at, is_string):
    """In this order: the length word is there, 5, payload and pad are there, 7."""
    n, = struct.unpack('>I', need(data, at, 4, 0, at))
    if n > MAX_OPAQUE:
        raise Refused(5, at, 0)
    pad = -n % 4
    payload = need(data, at + 4, n + pad, 0, at)[:n]
    if is_string:
        try:
            payload.decode('utf-8', 'strict')
        except UnicodeDecodeError as fault:
            raise Refused(7, at + 4 + fault.start, 0)
    return ' start=%d count=%d' % (at + 4, n), at + 4 + n + pad, 1


def address(data, at):
    """Two items: a type word, and the bytes of that type if it has any."""
    kind, = struct.unpack('>I', need(data, at, 4, 0, at))
    if kind > 2:
        raise Refused(4, at, 0)
    n = (0, 4, 16)[kind]
    octets = need(data, at + 4, n, 1, at + 4)
    return ' type=%d bytes=%s' % (kind, octets.ljust(16, b'\0').hex()), at + 4 + n, 2 if n else 1


def words(count, data, at):
    """Each word is an item; the first that is missing is refused."""
    for i in range(count):
        need(data, at + 4 * i, 4, i, at + 4 * i)
    return '', at + 4 * count, count


# what stands on a line before a refusal: a block and an address are all zero then
ZERO = {'block': ' bytes=' + '00' * 16, 'address': ' type=0 bytes=' + '00' * 16}


def answer(item, data, at, count):
    if item in ('u32', 'u64', 'i32'):
        return number({'u32': '>I', 'u64': '>Q', 'i32': '>i'}[item], data, at)
    if item.startswith('block'):
        return block(int(item[5:]), data, at)
    if item in ('opaque', 'string'):
        return opaque(data, at, item == 'string')
    if item == 'address':
        return address(data, at)
    return words(count, data, at)


def line(item, data, at, count):
    said = '%s from=%d' % (data.hex() or '-', at)
    if item not in LETTERS or at > len(data):
        return 'input=bad ' + said
    said = '%s %s' % (item, said)
    if item == 'words':
        said += ' words=%d' % count
    try:
        value, end, steps = answer(item, data, at, count)
        return said + value + ' at=%d steps=%d' % (end, steps)
    except Refused as r:
        return said + ZERO.get(item.rstrip('1468'), '') + ' code=%d at=%d steps=%d' % r.args


# ---- the vectors: (name, item, bytes, start, count)

def word(n):
    return struct.pack('>I', n)


def padded(payload, pad=b'\0\0\0'):
    """A length word, the payload, and as many bytes of `pad` as there must be."""
    return word(len(payload)) + payload + pad[:-len(payload) % 4]


def cuts(name, item, data, start=0, count=0):
    """All of `data`, and every shorter beginning of what follows the start."""
    yield name, item, data, start, count
    for n in range(start, len(data)):
        yield '%s, cut to %d' % (name, n), item, data[:n], start, count


# RFC 4506, section 7: the worked example of a file `sillyprog`
SILLYPROG = bytes.fromhex(
    '00000009' '73696c6c' '7970726f' '67000000'  # length 9, "sillyprog", three bytes of fill
    '00000002'                                   # EXEC = 2
    '00000004' '6c697370'                        # length 4, "lisp"
    '00000004' '6a6f686e'                        # length 4, "john"
    '00000006' '28717569' '74290000')            # length 6, "(quit)", two bytes of fill


def rfc4506():
    for name, at in (('filename', 0), ('interpretor', 20), ('owner', 28), ('data', 36)):
        yield 'RFC 4506 7: ' + name, 'opaque', SILLYPROG, at, 0
        yield 'RFC 4506 7: ' + name, 'string', SILLYPROG, at, 0
    yield 'RFC 4506 7: filekind', 'u32', SILLYPROG, 16, 0
    yield 'RFC 4506 7: filekind, an enum is a signed number', 'i32', SILLYPROG, 16, 0
    yield 'RFC 4506 7: the whole file as words', 'words', SILLYPROG, 0, 12
    yield 'RFC 4506 7: at its end', 'u32', SILLYPROG, 48, 0


# numbers at their limits, and every cut of one
def numbers():
    for v in (0, 1, 5, 0x01020304, 2**31 - 1, 2**31, 2**32 - 2, 2**32 - 1):
        yield 'u32 %d' % v, 'u32', struct.pack('>I', v), 0, 0
        yield 'the same word as an i32', 'i32', struct.pack('>I', v), 0, 0
    for v in (-1, -2, -256, -2**31 + 1, -2**31):
        yield 'i32 %d' % v, 'i32', struct.pack('>i', v), 0, 0
    for v in (0, 1, 2**31, 2**32 - 1, 2**32, 0x0102030405060708, 2**63 - 1, 2**63, 2**64 - 1):
        yield 'u64 %d' % v, 'u64', struct.pack('>Q', v), 0, 0
    for item, n in (('u32', 4), ('i32', 4), ('u64', 8)):
        yield from cuts(item + ' behind three other bytes', item, b'abc' + bytes(range(0xf1, 0xf1 + n)), 3)
        yield item + ' with more behind it', item, bytes(range(1, n + 2)), 0, 0


def blocks():
    for n in (4, 6, 8, 16):
        item = 'block%d' % n
        yield from cuts('%d bytes' % n, item, bytes(range(0xa1, 0xa1 + n)))
        yield from cuts('%d bytes behind five others' % n, item, b'other' + bytes(range(0xe0, 0xe0 + n)), 5)
        yield '%d bytes with more behind them' % n, item, bytes(range(1, n + 9)), 0, 0
        yield '%d bytes of 255' % n, item, b'\xff' * n, 0, 0


def opaques():
    """An opaque that is ASCII is a string too, with the same answer."""
    for item in ('opaque', 'string'):
        for n in range(6):
            yield 'length %d, pad of zeros' % n, item, padded(b'abcde'[:n]), 0, 0
            yield from cuts('length %d, pad of rubbish' % n, item, padded(b'abcde'[:n], b'\xff\x80\xc0'))
            yield 'length %d, at 2, with more behind it' % n, item, b'\xff\xff' + padded(b'abcde'[:n]) + b'more', 2, 0
        yield f'{MAX_OPAQUE} is a length, and not there', item, word(MAX_OPAQUE) + b'abcd', 0, 0
        yield f'{MAX_OPAQUE + 1} is none', item, word(MAX_OPAQUE + 1) + b'abcd', 0, 0
        yield f'nor is {MAX_OPAQUE + 1} with nothing behind it', item, word(MAX_OPAQUE + 1), 0, 0
        yield f'{MAX_OPAQUE + 1} at 3', item, b'abc' + word(MAX_OPAQUE + 1), 3, 0
        yield 'the largest length', item, word(2**32 - 1) + b'abcd', 0, 0
        yield 'a length whose pad would pass 32 bits', item, word(2**32 - 3), 0, 0
        yield 'one less than is said', item, word(9) + b'abcdefgh', 0, 0
        yield 'all but the pad', item, word(9) + b'abcdefghi', 0, 0
        yield 'a vector of 255 bytes', item, padded(b'x' * 248) + b'abc', 0, 0
    yield 'bytes of any value', 'opaque', padded(b'\xff\x00\xc0\x80\xed\xa0\x80'), 0, 0


def addresses():
    yield from cuts('type 0', 'address', word(0))
    yield 'type 0, with more behind it', 'address', word(0) + b'abcd', 0, 0
    yield from cuts('type 1, 192.0.2.1 of RFC 5737', 'address', word(1) + bytes((192, 0, 2, 1)))
    yield from cuts('type 2, 2001:db8::1 of RFC 3849', 'address', word(2) + bytes.fromhex('20010db8000000000000000000000001'))
    yield 'type 2, all bytes set', 'address', word(2) + b'\xff' * 17, 0, 0
    for kind in (3, 4, 256, 2**24, 2**31, 2**32 - 1):
        yield 'type %d' % kind, 'address', word(kind) + b'\x01' * 16, 0, 0
    yield 'type 3 with nothing behind it', 'address', word(3), 0, 0
    yield from cuts('type 1 at 6', 'address', b'before' + word(1) + b'\x0a\x0b\x0c\x0d\x0e', 6)
    yield 'type 3 at 6', 'address', b'before' + word(3), 6, 0


def runs():
    five = b''.join(word(n) for n in (1, 2, 3, 4, 5))
    for n in range(7):
        yield '%d words of five' % n, 'words', five, 0, n
    yield from cuts('three words at 2', 'words', b'\xff\xff' + five[:12], 2, 3)
    yield 'no word of nothing', 'words', b'', 0, 0
    yield 'one word of nothing', 'words', b'', 0, 1
    yield 'no word at the end', 'words', b'abc', 3, 0
    yield 'one word at the end', 'words', b'abc', 3, 1
    yield '255 words of two and a half', 'words', b'abcdefghij', 0, 255
    yield '62 words, all there', 'words', b'\x5a' * 250, 0, 62
    yield '63 words, the last cut', 'words', b'\x5a' * 250, 0, 63
    yield '63 words at 3, all there', 'words', b'\x5a' * 255, 3, 63


# RFC 3629: the examples of section 7, and the ill-formed ones of sections 3 and 10; the first and last of each length; and others
WELL_FORMED = (
    ('RFC 3629 7: A, not identical to, Alpha, full stop', '41 e2 89 a2 ce 91 2e'),
    ('RFC 3629 7: "hangugeo"', 'ed 95 9c ea b5 ad ec 96 b4'),
    ('RFC 3629 7: "nihongo"', 'e6 97 a5 e6 9c ac e8 aa 9e'),
    ('RFC 3629 7: byte order mark, U+233B4', 'ef bb bf f0 a3 8e b4'),
    ('U+0000', '00'), ('U+007F', '7f'),
    ('U+0080', 'c2 80'), ('U+07FF', 'df bf'),
    ('U+0800', 'e0 a0 80'), ('U+D7FF, before the surrogates', 'ed 9f bf'),
    ('U+E000, after the surrogates', 'ee 80 80'), ('U+FFFF', 'ef bf bf'),
    ('U+10000', 'f0 90 80 80'), ('U+10FFFF', 'f4 8f bf bf'),
)
ILL_FORMED = (
    ('RFC 3629 3: U+0000 in two bytes', 'c0 80'),
    ('RFC 3629 10: "/../" with a full stop in two bytes', '2f c0 ae 2e 2f'),
    ('U+0000 in three bytes', 'e0 80 80'), ('U+07FF in three bytes', 'e0 9f bf'),
    ('U+0000 in four bytes', 'f0 80 80 80'), ('U+FFFF in four bytes', 'f0 8f bf bf'),
    ('U+007F in two bytes', 'c1 bf'),
    ('U+D800, a surrogate', 'ed a0 80'), ('U+DFFF, a surrogate', 'ed bf bf'),
    ('RFC 3629 3: U+233B4 as a pair of surrogates', 'ed a1 8c ed be b4'),
    ('U+110000', 'f4 90 80 80'), ('a sequence that begins with F5', 'f5 80 80 80'),
    ('a sequence of five bytes', 'f8 88 80 80 80'), ('a sequence of six bytes', 'fc 84 80 80 80 80'),
    ('FE', 'fe'), ('FF', 'ff'), ('FE FF, a byte order mark of UTF-16', 'fe ff'),
    ('80 alone', '80'), ('BF alone', 'bf'), ('a tail too many', 'c2 80 80'), ('four tails after F4', 'f4 80 80 80 80'),
)

# RFC 3629, section 4: the corners of its table, a first byte and a second
FIRST = (0x7f, 0x80, 0xbf, 0xc0, 0xc1, 0xc2, 0xdf, 0xe0, 0xe1, 0xec, 0xed, 0xee, 0xef, 0xf0, 0xf1, 0xf3, 0xf4, 0xf5, 0xff)
SECOND = (0x00, 0x7f, 0x80, 0x8f, 0x90, 0x9f, 0xa0, 0xbf, 0xc0)


def strings():
    for name, text in WELL_FORMED + ILL_FORMED:
        s = bytes.fromhex(text)
        yield name, 'string', padded(s), 0, 0
        yield name + ', in ASCII, at 1', 'string', b'\xff' + padded(b'ab' + s + b'c', b'\xff\xff\xff'), 1, 0
        for n in range(1, len(s)):
            yield '%s, first %d' % (name, n), 'string', padded(s[:n]), 0, 0
    for name, text in WELL_FORMED:
        s = bytes.fromhex(text)
        if len(s) in (2, 3):
            yield name + ', its end in the pad', 'string', word(len(s) - 1) + s + b'\x80\x80\x80'[:-len(s) % 4], 0, 0
    for a in FIRST:
        for b in SECOND:
            n = 4 if a >= 0xf0 else 3 if a >= 0xe0 else 2
            yield '%02x %02x and tails' % (a, b), 'string', padded(bytes((a, b)) + b'\x80' * (n - 2)), 0, 0
    for third in (0x7f, 0x80, 0xbf, 0xc0):
        yield 'third of three %02x' % third, 'string', padded(bytes((0xe1, 0x80, third))), 0, 0
        yield 'third of four %02x' % third, 'string', padded(bytes((0xf1, 0x80, third, 0x80))), 0, 0
        yield 'fourth of four %02x' % third, 'string', padded(bytes((0xf1, 0x80, 0x80, third))), 0, 0
    ascii_text = b'The quick brown fox jumps over the lazy dog'
    yield '43 bytes of ASCII', 'string', padded(ascii_text), 0, 0
    for at in (0, 1, 7, 8, 15, 16, 17, 31, 32, 39, 40, 42):
        for bad in (0x80, 0xc2, 0xff):
            yield '%02x at %d of 43' % (bad, at), 'string', padded(ascii_text[:at] + bytes((bad,)) + ascii_text[at + 1:]), 0, 0
        yield 'two bytes at %d of 44' % at, 'string', padded(ascii_text[:at] + b'\xc2\x80' + ascii_text[at + 1:]), 0, 0
    yield 'ill-formed, and the pad is missing: code 2 comes first', 'string', word(5) + b'abcd\xff', 0, 0
    yield 'ill-formed only in the pad', 'string', word(5) + b'abcde\xff\xfe\x80', 0, 0
    yield 'ill-formed only behind', 'string', padded(b'abcd') + b'\xff\xff\xff\xff', 0, 0


def bad():
    yield 'a start behind the end', 'u32', b'abcd', 5, 0
    yield 'a start behind nothing', 'words', b'', 1, 0
    yield 'no item has this letter', '?', b'abcd', 0, 0


def vectors():
    for group in (rfc4506, numbers, blocks, opaques, addresses, runs, strings, bad):
        yield from group()


# ---- the files

def made():
    inputs, lines = [], []
    for name, item, data, start, count in vectors():
        inputs.append(LETTERS.get(item, item).encode() + bytes((count, start, len(data))) + data)
        lines.append(line(item, data, start, count))
    inputs.append(b'w\0\0\x04abc')
    lines.append('input=cut')
    out = b''.join(inputs)
    if len(out) > 65536:
        sys.exit('vectors.py: %d bytes of vectors, and the program reads 65536' % len(out))
    return {'stdin': out, 'stdout': ('\n'.join(lines) + '\n').encode()}


def main(args):
    folder = os.path.join(os.path.dirname(os.path.abspath(__file__)), '..', '..', 'crates', 'probe')
    if args == ['--list']:
        for name, item, data, start, count in vectors():
            print('%s: %s' % (name, line(item, data, start, count)))
        return
    tell(args, __doc__)
    if args not in ([], ['--check']):
        print('vectors.py: usage: tests/probe/vectors.py [--check | --list]', file=sys.stderr)
        sys.exit(2)
    if not os.path.isdir(folder):
        sys.exit('vectors.py: no folder crates/probe beside tests/')
    for file, text in made().items():
        path = os.path.join(folder, file)
        if not args:
            replace(path, text)
        elif not os.path.exists(path):
            sys.exit('vectors.py: crates/probe/%s is missing: run tests/probe/vectors.py' % file)
        elif open(path, 'rb').read() != text:
            sys.exit('vectors.py: crates/probe/%s is not what this script makes: run tests/probe/vectors.py and look at the difference' % file)
    if args:
        print('%d vectors, stored as they are made' % len(list(vectors())))


main(sys.argv[1:])
