"""The collector, fed over the loopback: its counts, and its memory over a million datagrams."""
import collections
import ipaddress
import os
import random
import re
import signal
import socket
import subprocess
import time

import building
import encoder
import library_checks
import tool_checks

BURST = 128


class Collector:
    """A collector under test, and a socket that sends to it no faster than it reads."""

    def __init__(self, program):
        environment = {**os.environ, **building.ENVIRONMENT}
        self.process = subprocess.Popen([program, "0"], stdout=subprocess.PIPE, text=True, env=environment)
        self.port = int(self.process.stdout.readline().partition("=")[2])
        self.socket = socket.socket(socket.AF_INET, socket.SOCK_DGRAM)
        self.socket.connect(("127.0.0.1", self.port))
        self.sent = 0

    def __enter__(self):
        return self

    def __exit__(self, *_):
        self.socket.close()
        if self.process.poll() is None:
            self.process.kill()
        self.process.stdout.close()
        self.process.wait()

    def waiting(self):
        """The bytes that it has not read yet."""
        with open("/proc/net/udp") as f:
            lines = [line.split() for line in f]
        queue = next(line[4] for line in lines if line[1].endswith(":%04X" % self.port))
        return int(queue.partition(":")[2], 16)

    def drain(self):
        while self.waiting():
            time.sleep(0.0002)

    def send(self, data):
        self.socket.send(data)
        self.sent += 1
        if self.sent % BURST == 0 or len(data) > 256:
            self.drain()

    def counts(self, number):
        """What it prints on a signal: the counts of each agent."""
        self.drain()
        time.sleep(0.05)
        self.process.send_signal(number)
        found = {}
        for line in iter(self.process.stdout.readline, "end\n"):
            name, _, rest = line.strip().partition(" accepted=")
            accepted, *codes = rest.split()
            found[name] = {"accepted": int(accepted), **{c.partition("=")[0]: int(c.partition("=")[2]) for c in codes}}
        return found

    def memory(self):
        """The resident memory in kB, as the kernel keeps count and as it stands page by page."""
        with open(f"/proc/{self.process.pid}/status") as f:
            kept = int(re.search(r"VmRSS:\s+(\d+)", f.read()).group(1))
        with open(f"/proc/{self.process.pid}/smaps_rollup") as f:
            return kept, int(re.search(r"Rss:\s+(\d+)", f.read()).group(1))

    def end(self):
        found = self.counts(signal.SIGTERM)
        return found, self.process.wait(timeout=10)


class Expected:
    """The counts that there should be."""

    def __init__(self):
        self.agents = collections.defaultdict(collections.Counter)
        self.agents["no agent"]["accepted"] = self.agents["other agents"]["accepted"] = 0

    def add(self, agent, code):
        self.agents[agent]["accepted"] += code == 0
        if code:
            self.agents[agent][f"code{code}"] += 1

    def counts(self):
        return {agent: dict(counts) for agent, counts in self.agents.items()}


def agent_of(data):
    """Who sent a datagram, by its first bytes."""
    kind = int.from_bytes(data[4:8], "big")
    size = {0: 0, 1: 4, 2: 16}.get(kind)
    if data[:4] != encoder.word(5) or size is None or len(data) < 24 + size:
        return "no agent"
    return "agent=" + (str(ipaddress.ip_address(data[8:8 + size])) if size else "unknown")


def inputs(tool, rng):
    """Real datagrams, damaged ones, and ones that are made to be refused: each with its code."""
    real = [data for _, data in tool_checks.real()]
    for data in real + [tool_checks.damaged(rng.choice(real), rng) for _ in range(60)]:
        answer = tool.run("list", tool.file("one", data))[1]
        yield data, int(re.match(r"code=(\d+)", answer).group(1))
    for name in ("header", "extended_router", "sampled_header", "extended_80211_rx"):
        wire, _, body, base, _ = library_checks.wire_of(rng, name, 1)
        for _, offset, code, raw, _ in body.faults:
            yield bytes(library_checks.spoiled(wire, base, offset, raw)), code


def counted(checks, tool, collector, rng):
    """What it counts is what was sent to it."""
    expected = Expected()
    for data, code in inputs(tool, rng):
        collector.send(data)
        expected.add(agent_of(data), code)
    checks.same("collector: counts on SIGUSR1", expected.counts(), collector.counts(signal.SIGUSR1))
    known = sum(name.startswith("agent=") for name in expected.agents)
    for number in range(100):
        address = ipaddress.ip_address("198.51.100.0") + number
        wire = encoder.Wire(rng)
        wire.datagram([], agent_address=address.packed)
        collector.send(wire.data)
        expected.add(f"agent={address}" if known + number < 64 else "other agents", 0)
    checks.same("collector: counts on SIGTERM, with more agents than it has places", (expected.counts(), 0), collector.end())


def still(checks, collector, rng, most):
    """So many datagrams move its memory by nothing."""
    packed = encoder.Wire(rng)
    packed.datagram([packed.put_sample("flow_sample", [packed.put_aggregation([[]] * 16000)])], agent_address=bytes((10, 0, 0, 1)))
    good, bad = bytes(encoder.any_datagram(random.Random(3))[0].data)[:1000], encoder.word(4)
    small = encoder.Wire(rng)
    small.datagram([small.put_sample("flow_sample", [])], agent_address=bytes((10, 0, 0, 1)))
    for data in (packed.data, bad, small.data, good):
        collector.send(data)
    # the largest of them takes its pages while it is decoded, which the socket's queue does not tell
    collector.drain()
    time.sleep(0.5)
    before, begun = collector.memory(), time.monotonic()
    one, send = bytes(small.data), collector.send
    for number in range(most):
        send(bad if number % 10 == 0 else one)
    collector.drain()
    after, seconds = collector.memory(), time.monotonic() - begun
    print(f"collector: {most} datagrams in {seconds:.1f} s, VmRSS {before[0]} kB, then {after[0]} kB; page by page {before[1]}, then {after[1]}")
    checks.same("collector: resident memory, page by page", before[1], after[1])
    # the kernel keeps this number only to within some pages for each processor
    checks.holds("collector: VmRSS", abs(after[0] - before[0]) <= 512, f"{before[0]} kB, then {after[0]} kB")
    found, status = collector.end()
    total = sum(sum(counts.values()) for counts in found.values())
    checks.same("collector: all were counted", (most + 4, most // 10 + 1, 0), (total, found["no agent"].get("code3"), status))


def check_all(checks, room):
    tool = tool_checks.Tool(checks, room, building.made("latchplume"))
    for program in ("collector", "collector-checked"):
        with Collector(building.made(program)) as collector:
            counted(checks, tool, collector, random.Random(11))
    with Collector(building.made("collector")) as collector:
        still(checks, collector, random.Random(12), 1000000)
