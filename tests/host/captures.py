"""pcap and pcapng files, and the packets in them, as their public documents have them."""
import ipaddress
import struct

ETHERNET, NULL, LOOP, RAW, SLL, SLL2 = 1, 0, 108, 101, 113, 276
PORT = 6343


def udp(data, port=PORT, announced=None):
    return struct.pack(">HHHH", 40000, port, (8 + len(data)) if announced is None else announced, 0) + data


def ipv4(data, protocol=17, options=b"", piece=0, total=None):
    size = 20 + len(options)
    head = struct.pack(">BBHHHBBH4s4s", 0x40 | size // 4, 0, size + len(data) if total is None else total, 7, piece, 64, protocol, 0,
                       bytes((10, 0, 0, 1)), bytes((10, 0, 0, 2)))
    return head + options + data


def ipv6(data, following=17, extensions=b""):
    ends = ipaddress.ip_address("2001:db8::1").packed + ipaddress.ip_address("2001:db8::2").packed
    return struct.pack(">IHBB", 6 << 28, len(extensions) + len(data), following, 64) + ends + extensions + data


def ethernet(packet, tags=(), kind=None):
    """A frame around an IP packet, with VLAN tags in front of its type."""
    kind = kind or (0x0800 if packet[0] >> 4 == 4 else 0x86dd)
    return bytes(range(12)) + b"".join(struct.pack(">HH", tpid, 5) for tpid in tags) + struct.pack(">H", kind) + packet


def cooked(packet):
    return struct.pack(">HHH8sH", 0, 1, 6, bytes(8), 0x0800 if packet[0] >> 4 == 4 else 0x86dd) + packet


def cooked2(packet):
    return struct.pack(">HHIHBB8s", 0x0800 if packet[0] >> 4 == 4 else 0x86dd, 0, 1, 1, 0, 6, bytes(8)) + packet


def loopback(packet, order="<"):
    return struct.pack(order + "I", 2 if packet[0] >> 4 == 4 else 10) + packet


def pcap(frames, link=ETHERNET, order="<", nanoseconds=False, snap=65535):
    """A classic file; a frame longer than `snap` is cut to it."""
    out = struct.pack(order + "IHHiIII", 0xa1b23c4d if nanoseconds else 0xa1b2c3d4, 2, 4, 0, 0, 65535, link)
    for number, frame in enumerate(frames):
        out += struct.pack(order + "IIII", 1700000000, number, min(snap, len(frame)), len(frame)) + frame[:snap]
    return out


def block(kind, body, order):
    body += bytes(-len(body) % 4)
    size = 12 + len(body)
    return struct.pack(order + "II", kind, size) + body + struct.pack(order + "I", size)


def pcapng(frames, link=ETHERNET, order="<"):
    """A section, an interface, and the frames as enhanced packets."""
    out = block(0x0a0d0d0a, struct.pack(order + "IHHq", 0x1a2b3c4d, 1, 0, -1), order)
    out += block(1, struct.pack(order + "HHI", link, 0, 65535), order)
    for number, frame in enumerate(frames):
        out += block(6, struct.pack(order + "IIIII", 0, 0, number, len(frame), len(frame)) + frame, order)
    return out
