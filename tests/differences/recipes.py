"""The inputs of docs/DIFFERENCES.md, built from the recipes in its rows; the document says how they are written."""
import re

import shapes
from shapes import flow_sample, frame, header, words

RECIPE = re.compile(r"(?P<exactly>exactly )?(?P<kind>[a-zP]\w*)(?: (?P<number>\d+)(?:/(?P<form>\d+))?)?(?: of (?P<count>\d+))?"
                    r"(?::(?P<data>[^,]*))?(?:, then (?P<tail>[^,]*))?(?:, to (?P<size>\d+) bytes)?")
PIECE = re.compile(r"\((?P<group>[^)]*)\)\*(?P<times>\d+)|(?P<session>P\d+)|(?P<hex>(?:[0-9a-f]{2})+)")
SESSIONS = {"P1": b"", "P10": header(1) + frame(2, words(1, 0))}


class Unreadable(Exception):
    pass


def session(name):
    found = SESSIONS.get(name, getattr(shapes, name, None))
    if not isinstance(found, bytes):
        raise Unreadable(f"'{name}' is neither a kind of input nor a session")
    return found


def data_of(text, fewer=0):
    """Bytes as they are written; the first group that is repeated, so many times less."""
    out, at = b"", 0
    for m in PIECE.finditer(text):
        if text[at:m.start()].strip():
            raise Unreadable(f"'{text[at:m.start()].strip()}' is no hex")
        at = m.end()
        if m["group"] is not None:
            out, fewer = out + data_of(m["group"]) * (int(m["times"]) - fewer), 0
        else:
            out += session(m["session"]) if m["session"] else bytes.fromhex(m["hex"])
    if text[at:].strip():
        raise Unreadable(f"'{text[at:].strip()}' is no hex")
    return out


def counter_sample(count, records):
    """Its fields are 0, as those of the flow sample."""
    return frame(2, words(0, 0, count) + records)


def deep(levels, count, data):
    """Aggregations, each in the other's PDU."""
    record = frame(1016, words(1, count) + data)
    for _ in range(levels - 1):
        record = frame(1016, words(1, 1) + record)
    return header(1) + flow_sample(1, record)


class Recipe:
    def __init__(self, text):
        m = RECIPE.fullmatch(text)
        if not m:
            raise Unreadable(f"'{text}' is no recipe")
        self.exactly, self.kind = bool(m["exactly"]), m["kind"]
        self.number = int(m["number"] or 0) << 12 | int(m["form"]) if m["form"] else int(m["number"] or 0)
        self.count, self.text = int(m["count"] or 0), m["data"] or ""
        self.data, self.tail, self.size = data_of(self.text), data_of(m["tail"] or ""), int(m["size"] or 0)

    def whole(self, number, data):
        makers = {
            "flow": lambda: header(1) + flow_sample(1, frame(number, data)),
            "counter": lambda: header(1) + counter_sample(1, frame(number, data)),
            "sample": lambda: header(1) + frame(number, data),
            "flows": lambda: header(1) + flow_sample(number, data),
            "counters": lambda: header(1) + counter_sample(number, data),
            "samples": lambda: header(number) + data,
            "deep": lambda: deep(number, self.count, data),
            "bytes": lambda: data,
        }
        return makers[self.kind]() if self.kind in makers else session(self.kind)

    def input(self):
        """Hex; and how far zeros fill it up."""
        return filled(self.whole(self.number, self.data) + self.tail, self.size)

    def shorter(self):
        """Inputs of fewer bytes: this one cut in its last hex, or with one repetition, one level or one byte of filling less."""
        return [] if self.exactly else [one for one in self.less() if self.size or len(one) < len(self.input())]

    def less(self):
        if self.size:
            yield filled(self.whole(self.number, self.data) + self.tail, self.size - 1)
        elif self.tail:
            yield from ((self.whole(self.number, self.data) + self.tail[:end]).hex() for end in range(len(self.tail)))
        elif self.kind == "deep" and not self.data:
            yield self.whole(self.number - 1, self.data).hex()
        elif re.fullmatch(r"\s*\([^)]*\)\*\d+", self.text) and self.kind in ("flows", "counters", "samples", "bytes"):
            yield self.whole(self.number - 1, data_of(self.text, 1)).hex()
        else:
            yield from (self.whole(self.number, self.data[:end]).hex() for end in range(len(self.data)))


def filled(data, size):
    return data.hex() + (f"*{size}" if size else "")
