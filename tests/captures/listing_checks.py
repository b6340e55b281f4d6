"""The stored listings, each beside its datagram, against the listing program of today, the library, and the model of docs/RULES.md."""
import glob
import os

import figures
import library
import model
from encoder import BASE


class Capture:
    """A datagram from outside: its name, its bytes, its stored listing, and what that listing says."""

    def __init__(self, path):
        self.path, self.name = path, os.path.relpath(path, os.path.join(figures.ROOT, "tests", "captures"))
        with open(path, "rb") as f:
            self.data = f.read()
        self.stored = ""
        if os.path.exists(self.listing_path()):
            with open(self.listing_path()) as f:
                self.stored = f.read()
        self.rows = figures.rows_of(self.stored)
        self.code = int(self.stored.partition("code=")[2].partition(" ")[0] or -1)
        self.at = int(self.stored.partition(" at=")[2].partition(" ")[0] or -1)
        self.nodes = []  # once the library has read the fields

    def listing_path(self):
        return os.path.splitext(self.path)[0] + ".listing"


def all_captures():
    return [Capture(path) for path in sorted(glob.glob(os.path.join(figures.ROOT, "tests", "captures", "*", "*.bin")))]


def write(captures):
    """Stores what the program prints today; nothing where one of them is no listing."""
    texts = [figures.text_of("listing", one.data) for one in captures]
    for one, text in zip(captures, texts):
        if not text.startswith("code="):
            raise figures.building.Failed(f"{one.name}: the listing program gives no listing: {text}")
    for one, text in zip(captures, texts):
        library.replace(one.listing_path(), text.encode())


def read_fields(captures):
    """The fields of each descriptor that is listed, by the library."""
    for one, nodes in zip(captures, figures.ours([(one.data, one.rows) for one in captures])):
        one.nodes = nodes


def check(checks, captures):
    paths = {one.listing_path() for one in captures}
    stored = set(glob.glob(os.path.join(figures.ROOT, "tests", "captures", "*", "*.listing")))
    checks.same("listings without a datagram, and datagrams without a listing", set(), paths ^ stored)
    answers, in_base = (figures.decoded([one.data.hex() for one in captures], call) for call in figures.DECODE.values())
    for one, answer, base in zip(captures, answers, in_base):
        checks.same(f"{one.name}: the listing program", one.stored, figures.text_of("listing", one.data))
        checks.same(f"{one.name}: the library", one.stored, figures.listing_of(answer))
        checks.same(f"{one.name}: the rules, as the model reads them", one.stored, figures.listing_of(model.read(one.data)))
        expected = model.read(one.data, mode=BASE)
        checks.same(f"{one.name}: the library in the base mode", expected, base)
        checks.same(f"{one.name}: the listing program in the base mode", figures.listing_of(expected), figures.text_of("listing", one.data, "--base"))
