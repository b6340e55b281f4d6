"""The command, on pcap and pcapng files."""
import random

import building
import captures
import encoder
from tool_checks import SHORT, SHORT_LISTED, Tool, damaged, real


def frames():
    """Ways in which a capture holds a datagram: what it is, the link type, and the frame."""
    v4, v6 = captures.ipv4(captures.udp(SHORT)), captures.ipv6(captures.udp(SHORT))
    for what, packet in (("IPv4", v4), ("IPv6", v6)):
        yield what, captures.ETHERNET, captures.ethernet(packet)
        yield what + ", a VLAN tag", captures.ETHERNET, captures.ethernet(packet, [0x8100])
        yield what + ", two VLAN tags", captures.ETHERNET, captures.ethernet(packet, [0x88a8, 0x8100])
        yield what + ", padded", captures.ETHERNET, captures.ethernet(packet) + b"\xaa" * 20
        yield what + ", cooked", captures.SLL, captures.cooked(packet)
        yield what + ", cooked v2", captures.SLL2, captures.cooked2(packet)
        yield what + ", raw", captures.RAW, packet
        yield what + ", loopback", captures.NULL, captures.loopback(packet)
        yield what + ", loopback, other order", captures.LOOP, captures.loopback(packet, ">")
    yield "IPv4 with options", captures.RAW, captures.ipv4(captures.udp(SHORT), options=bytes(8))
    yield "IPv4 of no length", captures.RAW, captures.ipv4(captures.udp(SHORT), total=0)
    yield "IPv6 with extensions", captures.RAW, captures.ipv6(captures.udp(SHORT), 0, bytes([60]) + bytes(7) + bytes([17, 1]) + bytes(14))
    yield "IPv6, one fragment in all", captures.RAW, captures.ipv6(captures.udp(SHORT), 44, bytes([17]) + bytes(7))


def in_captures(tool):
    """Each way that a datagram can be in a capture, in each form that a capture has."""
    expected = (0, f"packet 1\n{SHORT_LISTED}{summary(1, 1)}\n", "")
    for what, link, frame in frames():
        for form, data in (("pcap", captures.pcap([frame], link)), ("pcap, big-endian", captures.pcap([frame], link, ">")),
                           ("pcap, nanoseconds", captures.pcap([frame], link, nanoseconds=True)),
                           ("pcapng", captures.pcapng([frame], link)), ("pcapng, big-endian", captures.pcapng([frame], link, ">"))):
            tool.same(f"{what} in {form}", expected, "list", tool.file("capture", data))
            tool.same(f"{what} in {form} through a pipe", expected, "run", "-", data=data)


def summary(everything, datagrams=0, cut=0, fragments=0, others=0):
    return f"{everything} packets: {datagrams} datagrams, {cut} cut, {fragments} fragments, {others} others"


def counted(tool, what, frames_in, expected, *words, link=captures.RAW, snap=65535):
    """What becomes of these frames: the status, and the lines about packets."""
    status, out, said = tool.run("list", *words, tool.file("capture", captures.pcap(frames_in, link, snap=snap)))
    lines = [line for line in out.split("\n") if "packet" in line]
    tool.checks.same(f"capture: {what}", expected, (status, *lines, said))


def cut_packets(tool):
    """A packet with fewer bytes than are announced, by the capture, by IP or by UDP, is not decoded."""
    good = captures.ipv4(captures.udp(SHORT))

    def expected(there, announced):
        return 1, f"packet 1 is cut, and not decoded: {there} bytes of {announced} are there", summary(1, cut=1), ""
    counted(tool, "IP announces more", [good[:-1]], expected(23, 24))
    counted(tool, "captured in part", [good], expected(12, 24), snap=40)
    counted(tool, "UDP announces more", [captures.ipv4(captures.udp(SHORT, announced=33))], expected(24, 25))
    counted(tool, "UDP of no length", [captures.ipv4(captures.udp(SHORT, announced=7))], expected(24, 0))


def fragments(tool):
    def expected(there, announced):
        said = f"packet 1 is in fragments, and not decoded: {there} bytes of {announced} are in the first"
        return 1, said, summary(2, fragments=2), ""
    pieces = [captures.ipv4(captures.udp(SHORT, announced=60), piece=0x2000), captures.ipv4(bytes(28), piece=4)]
    counted(tool, "fragments of IPv4", pieces, expected(24, 52))
    first, later = bytes((17, 0, 0, 1, 0, 0, 0, 9)), bytes((17, 0, 0, 32, 0, 0, 0, 9))
    pieces = [captures.ipv6(captures.udp(SHORT, announced=60), 44, first), captures.ipv6(bytes(28), 44, later)]
    counted(tool, "fragments of IPv6", pieces, expected(24, 52))


def other_packets(tool):
    """What is not for the port is counted, and a capture without any datagram is said to be one."""
    data = captures.udp(SHORT)
    good, domain = captures.ipv4(data), captures.ipv4(captures.udp(SHORT, 53))
    none = "latchplume: capture: has no UDP packet to port 6343 (--port names another)\n"
    counted(tool, "two", [good, good], (0, "packet 1", "packet 2", summary(2, 2), ""))
    others = [captures.ipv4(data, 6), domain, b"", b"\x45", good[:27], captures.ipv6(data, 6), captures.ipv6(data, 0)]
    counted(tool, "others", others, (2, summary(7, others=7), none))
    counted(tool, "--port", [domain], (0, "packet 1", summary(1, 1), ""), "--port", "53")
    counted(tool, "no packet", [], (2, summary(0), none))
    arp = captures.ethernet(bytes(28), kind=0x0806)
    counted(tool, "ARP", [arp, captures.ethernet(good)], (0, "packet 2", summary(2, 1, others=1), ""), link=captures.ETHERNET)


def bad_captures(tool):
    good = captures.ipv4(captures.udp(SHORT))
    status, out, said = tool.run("list", tool.file("capture", captures.pcap([good], 147)))
    tool.checks.same("capture: link type", (2, "", True), (status, out, said.startswith("latchplume: capture: packets of the link type ")))
    status, out, said = tool.run("list", tool.file("capture", captures.pcap([good, good], captures.RAW)[:-3]))
    tool.checks.same("capture: ends early", (2, True, 1), (status, "packet 1\ncode=0" in out, said.count("\n")))
    longer = captures.pcap([captures.ipv4(captures.udp(SHORT + b"abc"))], captures.RAW)
    status, out, said = tool.run("show", tool.file("capture", longer))
    tool.checks.same("capture: bytes behind a datagram are no fault", (0, ""), (status, said))


def real_in_captures(tool):
    """The real datagrams as packets of one capture: each packet's listing is the datagram's own."""
    all_real = list(real())
    data = captures.pcapng([captures.ethernet(captures.ipv6(captures.udp(one))) for _, one in all_real])
    status, out, said = tool.run("list", tool.file("capture", data))
    expected = "".join(f"packet {i + 1}\n" + tool.run("list", tool.file("one", one))[1] for i, (_, one) in enumerate(all_real))
    expected += summary(len(all_real), len(all_real)) + "\n"
    tool.checks.same("the real datagrams in a capture", (1, expected, ""), (status, out, said))


def damaged_files(tool, rng, count):
    """Whatever is in a file, the command ends by itself, with a status of its own and without a fault of memory."""
    of_link = {link: [frame for _, one, frame in frames() if one == link] for link in (captures.RAW, captures.ETHERNET)}
    seeds = [captures.pcap(of_link[captures.RAW], captures.RAW), captures.pcapng(of_link[captures.ETHERNET])]
    seeds += [one for _, one in rng.sample(list(real()), 10)] + [bytes(encoder.any_datagram(rng)[0].data) for _ in range(10)]
    for number in range(count):
        data = rng.choice(seeds)
        for _ in range(rng.randint(1, 4)):
            data = damaged(data, rng) or SHORT
        status, _, said = tool.run(("show", "show", "list", "run")[number % 4], tool.file("damaged", data))
        tool.checks.holds("a damaged file", status in (0, 1, 2) and said.count("\n") <= 1, f"status {status}: {said[-1500:]}")


def without_libpcap(checks, room):
    tool = Tool(checks, room, building.made("latchplume-bare"))
    tool.file("capture", captures.pcap([], captures.RAW))
    why = "pcap files are not read here, since libpcap-dev was missing: install it and run ./latchplume again"
    tool.same("no libpcap", (2, "", f"latchplume: capture: {why}\n"), "show", "capture")
    tool.same("no libpcap", (0, SHORT_LISTED, ""), "list", tool.file("one", SHORT))


def check_all(checks, room):
    tool = Tool(checks, room, building.made("latchplume-checked"))
    for part in (in_captures, cut_packets, fragments, other_packets, bad_captures, real_in_captures):
        part(tool)
    damaged_files(tool, random.Random(8), 200)
    without_libpcap(checks, room)
