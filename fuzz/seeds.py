"""What the fuzzer begins with: the captures, the sessions of docs/RULES.md, a record of each format, and one of each mode."""
import glob
import hashlib
import os
import shutil
import sys

import making

LONGEST = 8192


def captures():
    for path in sorted(glob.glob(os.path.join(making.ROOT, "tests", "captures", "*", "*.bin"))):
        with open(path, "rb") as f:
            yield f.read()


def sessions():
    listing = making.script("tests", "listing", "run")
    for _, data, _ in listing.SESSIONS + listing.RUNS:
        yield data


def records():
    sys.path.insert(0, os.path.join(making.ROOT, "tests", "cost"))
    import shapes
    for form, data in shapes.KINDS.items():
        yield shapes.with_record(form, data)
    for form, data in shapes.COUNTER_KINDS.items():
        yield shapes.with_counter(form, data)
    yield shapes.EVERY_KIND


def inputs():
    yield from captures()
    yield from sessions()
    yield from records()


def ethernet():
    """A sampled Ethernet record as each mode has it: in the memo's, two bytes of pad are behind an address."""
    sys.path.insert(0, os.path.join(making.ROOT, "tests", "cost"))
    import shapes
    for pad in (b"", b"pd"):
        yield shapes.with_record(2, shapes.words(60) + b"source" + pad + b"target" + pad + shapes.words(2048))


def own(paths):
    for path in paths:
        with open(path, "rb") as f:
            yield f.read()


def write(folder, paths):
    """Puts the seeds into a folder, or the files' bytes where there are files; answers how many there are."""
    shutil.rmtree(folder, ignore_errors=True)
    os.makedirs(folder)
    for data in own(paths) if paths else (*inputs(), *ethernet()):
        # AFL++ takes no empty file, and nothing longer than it may make itself.
        if 0 < len(data) <= LONGEST:
            with open(os.path.join(folder, hashlib.sha256(data).hexdigest()[:16]), "wb") as f:
                f.write(data)
    return len(os.listdir(folder))
