"""Long inputs of one shape, by their size: a function answers at most so many bytes."""
from library import MAX_DEPTH
from shapes import MOST, P2, P9, aggregations, counter_sample, flow_sample, frame, header, with_record, with_string, words

RAW = words(4097, 0)


def filled(around, unit, announced=None):
    """What `around` makes of a count and units: as many units as there is room for, and their number or the announced one."""
    def of_size(size):
        count = (size - len(around(0, b""))) // len(unit)
        return around(announced or count, unit * count)
    return of_size


def samples(count, units):
    return header(count) + units


def flow_records(count, units):
    return header(1) + flow_sample(count, units)


def counter_records(count, units):
    return header(1) + counter_sample(count, units)


def pdus(count, units):
    return with_record(1016, words(count) + units)


def records_of_pdu(count, units):
    return with_record(1016, words(1, count) + units)


def segments(count, units):
    return with_record(1003, words(0, 0, 0, 0, count) + units)


def list_words(count, units):
    return with_record(1006, words(0, count) + units)


def string(_, units):
    return with_string(units)


def datagrams(_, units):
    return units


NESTED = flow_sample(1, aggregations(MAX_DEPTH, 0, b""))

# name, call, the code that is answered at the input's end, and the input
LONG = [
    ("raw samples", "decode", 0, filled(samples, RAW)),
    ("flow records of one word", "decode", 0, filled(flow_records, frame(1011, words(7)))),
    ("raw flow records", "decode", 0, filled(flow_records, RAW)),
    ("raw counter records", "decode", 0, filled(counter_records, RAW)),
    ("counter records of a VLAN", "decode", 0, filled(counter_records, frame(5, words(1, 0, 2, 3, 4, 5, 6)))),
    ("aggregations eight deep", "decode", 0, filled(samples, NESTED)),
    ("PDUs without records", "decode", 0, filled(pdus, words(0))),
    ("a string of ASCII", "decode", 0, filled(string, b"text")),
    ("a string of two-byte characters", "decode", 0, filled(string, "\u00fc\u00fc".encode())),
    ("sample count 4294967295", "decode", 2, filled(samples, RAW, MOST)),
    ("flow record count 4294967295", "decode", 2, filled(flow_records, RAW, MOST)),
    ("counter record count 4294967295", "decode", 2, filled(counter_records, RAW, MOST)),
    ("PDU count 4294967295", "decode", 2, filled(pdus, words(0), MOST)),
    ("a PDU's record count 4294967295", "decode", 2, filled(records_of_pdu, RAW, MOST)),
    ("segment count 4294967295", "decode", 2, filled(segments, words(0, 0), MOST)),
    ("list count 4294967295", "decode", 2, filled(list_words, words(0), MOST)),
    ("a run of empty datagrams", "run", 0, filled(datagrams, P2)),
    ("a run of datagrams of one sample", "run", 0, filled(datagrams, P9)),
]

# of these, the ones that are a single string
STRINGS = ("a string of ASCII", "a string of two-byte characters")

# a string of one shape, and its end that is ill-formed from the first byte on: a wrong byte, a character cut by the end, one cut by another
ENDINGS = [
    ("ASCII", filled(string, b"text"), b"\xff"),
    ("two-byte characters", filled(string, "\u00fc\u00fc".encode()), b"\xe2\x82"),
    ("characters of one to four bytes", filled(string, 2 * "a\u00fc\u20ac\U0001f980".encode()), b"\xf0\x9f\xa6("),
]

# for each place where a layout has a list: a datagram whose list has so many words
LISTS = [
    ("1006, the first", lambda n: with_record(1006, words(0, n) + bytes(4 * n) + words(0))),
    ("1006, the second", lambda n: with_record(1006, words(0, 0, n) + bytes(4 * n))),
    ("1012", lambda n: with_record(1012, words(n) + bytes(4 * n))),
    ("1003, a segment's", lambda n: with_record(1003, words(0, 0, 0, 0, 1, 1, n) + bytes(4 * n) + words(0, 0))),
    ("1003, the communities", lambda n: with_record(1003, words(0, 0, 0, 0, 0, n) + bytes(4 * n) + words(0))),
]
