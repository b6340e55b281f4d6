"""Two million datagrams, whose sizes and nesting rise in steps, and the resident memory of a process that is fed them."""
import fcntl
import itertools
import re
import resource
import struct
import subprocess
from collections import namedtuple

import making
import workloads
from datagrams import typical
from shapes import flow_sample, frame, header, words

MARK = struct.pack("<I", 4294967295)
STACK = 8 << 20  # what a process gets by custom

# how deep the aggregations are, how many of a thousand datagrams hold one, and how long the twenty large ones of a thousand are
Step = namedtuple("Step", "depth deep large")
STEPS = [
    Step(0, 0, 248), Step(1, 100, 464), Step(2, 100, 680), Step(3, 100, 896), Step(4, 100, 1112), Step(5, 100, 1328), Step(6, 100, 1540),
    Step(7, 100, 4000), Step(8, 100, 9000), Step(16, 100, 9000), Step(64, 100, 9000), Step(250, 10, 16000), Step(500, 10, 24000),
    Step(1000, 1, 32000), Step(2000, 1, 48000), Step(3000, 1, 65535), Step(4000, 1, 65535), Step(8, 100, 9000), Step(1, 100, 1540),
    Step(0, 0, 1540),
]
LARGE = 20
BLOCK = 1000
BLOCKS = 100  # of each step
BLOCKS_EACH = 5  # between two looks at the memory
DATAGRAMS = len(STEPS) * BLOCKS * BLOCK

# the step, the datagrams so far, and in KiB what is resident now and the most that was since the look before
Look = namedtuple("Look", "step datagrams now most")
# its looks, and the numbers that it printed last: accepted, refused, and of the crate's the calls of the allocator
Fed = namedtuple("Fed", "looks counts")


def aggregations(depth):
    """P12's shape: so many aggregations, each in the other's PDU, the innermost of which is empty."""
    record = frame(1016, words(1, 0))
    for _ in range(depth - 1):
        record = frame(1016, words(1, 1) + record)
    return header(1) + flow_sample(1, record)


def block_of(number, step):
    """A thousand datagrams of a step, as a process reads them: one kind after another would not show that they come mixed."""
    samples = min(1 + number, 7)
    usual = itertools.cycle(typical(20, samples))
    pool = workloads.samples_of(typical(100, 7))
    large = workloads.filled(step.large, pool)
    deep = aggregations(step.depth)
    made = []
    for place in range(BLOCK):
        if step.deep and place % (BLOCK // step.deep) == 0:
            made.append(deep)
        else:
            made.append(large if place % (BLOCK // LARGE) == 1 else next(usual))
    return b"".join(struct.pack("<I", len(data)) + data for data in made)


def status(process):
    """Resident memory in KiB, now and at most since this was asked before."""
    with open(f"/proc/{process.pid}/status") as f:
        said = f.read()
    found = [re.search(rf"^{name}:\s*(\d+) kB", said, re.M) for name in ("VmRSS", "VmHWM")]
    if not all(found):
        raise making.Failed("the kernel does not tell a process's resident memory")
    with open(f"/proc/{process.pid}/clear_refs", "w") as f:
        f.write("5")
    return tuple(int(m.group(1)) for m in found)


def marked(process):
    """What the process prints once it has read all so far."""
    process.stdin.write(MARK)
    process.stdin.flush()
    said = process.stdout.readline()
    if not said:
        raise BrokenPipeError
    return [int(word) for word in said.split()]


def start(program):
    def limit():
        hard = resource.getrlimit(resource.RLIMIT_STACK)[1]
        resource.setrlimit(resource.RLIMIT_STACK, (STACK if hard == resource.RLIM_INFINITY else min(STACK, hard), hard))

    process = subprocess.Popen([program], stdin=subprocess.PIPE, stdout=subprocess.PIPE, preexec_fn=limit)
    fcntl.fcntl(process.stdin, fcntl.F_SETPIPE_SZ, 1 << 20)
    return process


def feed(program, progress):
    """Feeds the process all datagrams; `progress` is told where it has come to."""
    process, looks, counts = start(program), [], []
    try:
        counts = marked(process)
        status(process)
        for number, step in enumerate(STEPS):
            block = block_of(number, step)
            for turn in range(0, BLOCKS, BLOCKS_EACH):
                process.stdin.write(block * BLOCKS_EACH)
                counts = marked(process)
                looks.append(Look(number, (number * BLOCKS + turn + BLOCKS_EACH) * BLOCK, *status(process)))
            progress(looks[-1])
        process.stdin.close()
    except (BrokenPipeError, ProcessLookupError, FileNotFoundError):
        after = looks[-1].datagrams if looks else 0
        raise making.Failed(f"{program} ended early, with status {process.wait()}, after {after} datagrams") from None
    finally:
        process.kill()
        process.wait()
    return Fed(looks, counts)
