"""Typical datagrams: an IPv4 agent and K flow samples, each with a sampled header of 128 bytes and an extended switch record.

K = 7 gives datagrams of 1,540 bytes, K = 6 of 1,324. The same N and K give the same bytes on every machine."""
import random
import struct

from shapes import words

FRAME_BYTES = 1514
SAMPLED_BYTES = 128
DOCUMENTATION = bytes((0x20, 1, 0xd, 0xb8))  # 2001:db8::/32


def internet(rng, v6, tcp, length):
    """An IP header with its type word in front, for so many bytes behind it."""
    protocol = 6 if tcp else 17
    if v6:
        head = struct.pack(">HIHBB", 0x86dd, 6 << 28, length, protocol, rng.randrange(32, 255))
        return head + DOCUMENTATION + rng.randbytes(12) + DOCUMENTATION + rng.randbytes(12)
    head = struct.pack(">HBBHHHBBH", 0x0800, 0x45, 0, length + 20, rng.getrandbits(16), 0x4000, rng.randrange(32, 255), protocol, 0)
    return head + bytes((10,)) + rng.randbytes(3) + bytes((rng.randrange(1, 223),)) + rng.randbytes(3)


def transport(rng, tcp, length):
    ports = rng.randrange(1024, 65535), rng.choice((80, 443, 443, 53, 22, 8080))
    if not tcp:
        return struct.pack(">HHHH", *ports, length, 0)
    numbers = rng.getrandbits(32), rng.getrandbits(32), 0x50, 0x10, rng.getrandbits(16), rng.getrandbits(16), 0
    return struct.pack(">HHIIBBHHH", *ports, *numbers)


def packet(rng):
    """The first bytes of an Ethernet frame."""
    source, target = (rng.getrandbits(48) & ~(1 << 40) for _ in range(2))
    tagged = rng.random() < 0.3
    head = target.to_bytes(6, "big") + source.to_bytes(6, "big")
    if tagged:
        head += struct.pack(">HH", 0x8100, rng.randrange(1, 4095))
    v6, tcp = rng.random() < 0.2, rng.random() < 0.8
    length = FRAME_BYTES - 14 - 4 * tagged - (40 if v6 else 20)
    head += internet(rng, v6, tcp, length) + transport(rng, tcp, length)
    return (head + rng.randbytes(SAMPLED_BYTES))[:SAMPLED_BYTES]


def typical(count, samples):
    """So many datagrams of so many samples each, all of one length."""
    rng = random.Random(20240607 + samples)
    made, pools, sequence = [], {}, 0
    for number in range(count):
        datagram = words(5, 1, 0x0a000000 + rng.randrange(1, 17), 0, number + 1, 1000000 + number * 7, samples)
        for _ in range(samples):
            sequence += 1
            port = rng.randrange(1, 49)
            pools[port] = pools.get(port, 0) + rng.randrange(1, 4096)
            sampled = packet(rng)
            switch = words(rng.randrange(1, 4095), 0, rng.randrange(1, 4095), 0)
            fields = words(sequence, port, 2048, pools[port] & 0xffffffff, 0, port, rng.randrange(1, 49), 2)
            body = fields + words(1, 16 + len(sampled), 1, FRAME_BYTES, 4, len(sampled)) + sampled + words(1001, len(switch)) + switch
            datagram += words(1, len(body)) + body
        made.append(datagram)
    return made
