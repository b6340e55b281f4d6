"""No heap: what the archive needs from outside, and what it asks of the allocator."""
import re
import struct

import build
from shapes import EVERY_KIND

DECODES = 10000
WRAPPED = ("malloc", "calloc", "realloc", "aligned_alloc", "posix_memalign", "mmap", "sbrk")
# the compiler may write these for a copy or a fill
PLAIN = {"memcpy", "memmove", "memset"}


def figures():
    listed = build.run(["nm", build.library("x86_64")]).decode()
    if " T latchplume_decode\n" not in listed:
        build.fail("nm does not list the x86-64 archive")
    undefined = set(re.findall(r" U (.+)$", listed, re.M))
    said = " ".join(["heap: undefined symbols of the x86-64 archive, none but memcpy, memmove and memset:", *sorted(undefined or {"none"})])
    yield undefined <= PLAIN, said
    command = build.program("heap", *(f"-Wl,--wrap={name}" for name in WRAPPED))
    said = build.run([*command, str(DECODES)], input=struct.pack("<I", len(EVERY_KIND)) + EVERY_KIND)
    own, calls, codes = map(int, said.split())
    if own != 1 or codes != 9:
        build.fail("the program heap counts nothing, or its calls do not answer 0 and 9")
    yield calls == 0, f"heap: {calls} allocations in {DECODES} decodes with room, {DECODES} without and {DECODES} runs, in each mode, at most 0"
