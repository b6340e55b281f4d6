"""What the tests, the oracle, the benchmark and the fuzzer take from the library: the archive that ./build makes, and the header's sizes."""
import os
import re
import subprocess
import sys

ROOT = os.path.dirname(os.path.dirname(os.path.abspath(__file__)))
HEADER = os.path.join(ROOT, "include", "latchplume.h")

with open(HEADER) as f:
    _macros = dict(re.findall(r"^#define LATCHPLUME_(\w+) (\d+)u$", f.read(), re.M))
DESCRIPTOR_WORDS, MAX_INPUT, MAX_OPAQUE, MAX_DEPTH, NOBODY = (
    int(_macros[name]) for name in ("DESCRIPTOR_WORDS", "MAX_INPUT", "MAX_OPAQUE", "MAX_DEPTH", "NOBODY"))


class Failed(Exception):
    """Something is missing, or could not be built."""


def tell(args, doc):
    """Where a script is asked for --help it prints what it says of itself, and ends."""
    if args in (["--help"], ["-h"]):
        print(doc)
        sys.exit(0)


def replace(path, data):
    """Writes a file anew; until that is done the old one stays."""
    with open(path + ".new", "wb") as f:
        f.write(data)
    os.replace(path + ".new", path)


def archive(*more):
    """The path of the archive. What ./build says, of the crates that it proves too, goes to standard error as it comes."""
    ran = subprocess.run([os.path.join(ROOT, "build"), "--static", *more], stdout=subprocess.PIPE)
    if ran.returncode:
        raise Failed("the library could not be built")
    return ran.stdout.decode().strip()
