"""What `latchplume show` must print, worked out from what the encoder put in."""
import ipaddress
import re

import library_checks
from encoder import Body, COUNTERS, LAYOUTS, MAX_DEPTH, MAX_OPAQUE, MEMO, RECORDS, Span, Wire, of_one_record

# the words of docs/RULES.md, 5
CODES = {
    2: "an item passes the end of what encloses it", 3: "version is not 5", 4: "address type above 2", 5: f"opaque length above {MAX_OPAQUE:,}",
    6: "header protocol unknown to HeaderProtocol", 7: "string is not UTF-8", 8: f"a record would begin at depth {MAX_DEPTH + 1}",
}

# A layout, the values of some of its fields, and lines that the tree must have.
EXAMPLES = [
    ("header", {"agent_address": bytes((192, 0, 2, 7)), "uptime": 90061007}, ["agent_address: 192.0.2.7", "uptime: 90061007 ms (1 d 01:01:01)"]),
    ("flow_sample", {"source_id": 1 << 24 | 12, "input": 7, "output": 1 << 30 | 258},
     ["source_id: smonVlanDataSource 12", "input: ifIndex 7", "output: discarded, reason 258 (acl)"]),
    ("flow_sample", {"source_id": 9 << 24 | 12, "input": 0x3fffffff, "output": 2 << 30 | 3},
     ["source_id: unknown type 12 (type 9)", "input: the device itself", "output: 3 interfaces"]),
    ("flow_sample_expanded", {"source_id": (0, 16777216), "input": (0, 4294967295), "output": (1, 0)},
     ["source_id: ifIndex 16777216", "input: the device itself", "output: discarded, reason 0 (net_unreachable)"]),
    ("discarded_packet", {"reason": 303}, ["reason: 303 (split_horizon)"]),
    ("discarded_packet", {"reason": 16}, ["reason: 16"]),
    ("sampled_header", {"protocol": 11, "header": b"E\0<tag>"}, ["protocol: 11 (IPv4)", "header: 7 bytes"]),
    ("sampled_header", {"protocol": 17}, ["protocol: 17 (802.11 A-MSDU)"]),
    ("sampled_ethernet", {"src_mac": bytes.fromhex("00005e005301"), "dst_mac": bytes.fromhex("00005e0053fe"), "eth_type": 0x86dd},
     ["src_mac: 00:00:5e:00:53:01", "dst_mac: 00:00:5e:00:53:fe", "eth_type: 34525 (0x86dd)"]),
    ("sampled_ipv4", {"protocol": 6, "src_ip": 0xc0000201, "tcp_flags": 0x12}, ["protocol: 6 (TCP)", "src_ip: 192.0.2.1", "tcp_flags: 18 (SYN ACK)"]),
    ("extended_switch", {"src_vlan": 4294967295, "dst_vlan": 20}, ["src_vlan: 4294967295 (unknown)", "dst_vlan: 20"]),
    ("extended_gateway", {"dst_as_path": [(2, [65001, 65002]), (1, [65003]), (7, [])], "communities": [65000 << 16 | 100]},
     ["dst_as_path: 3 segments", "AS_SEQUENCE: 65001 65002", "AS_SET: 65003", "unknown type:", "communities: 1 in a list", "4259840100 (65000:100)"]),
    ("extended_mpls", {"in_stack": [16 << 12 | 5 << 9 | 1 << 8 | 64]}, ["in_stack: 1 in a list", "68416 (label 16, class 5, bottom, ttl 64)"]),
    ("extended_vlan_tunnel", {"stack": [0x8100 << 16 | 3 << 13 | 100]}, ["2164285540 (TPID 0x8100, priority 3, VLAN 100)"]),
    ("extended_url", {"direction": 2, "host": "www.example.com"}, ["direction: 2 (destination)", 'host: "www.example.com"']),
    ("extended_80211_payload", {"cipher_suite": 0x000fac04, "data": b""}, ["cipher_suite: 1027076 (00-0f-ac:4)", "data: 0 bytes"]),
    ("extended_80211_rx", {"ssid": "guest", "bssid": bytes.fromhex("0a0b0c0d0e0f"), "version": 3, "speed": 54000000},
     ['ssid: "guest"', "bssid: 0a:0b:0c:0d:0e:0f", "version: 3 (802.11g)", "speed: 54000000 bit/s"]),
    ("extended_80211_tx", {"power": 100, "retrans_duration": 9}, ["power: 100 mW", "retrans_duration: 9 us"]),
    ("generic_interface_counters", {"if_type": 6, "if_speed": 10 ** 9, "if_direction": 1, "if_status": 3, "if_in_octets": 7, "if_out_discards": 1},
     ["if_type: 6 (ethernetCsmacd)", "if_speed: 1000000000 bit/s", "if_direction: 1 (full-duplex)", "if_status: 3 (ifAdminStatus up, ifOperStatus up)",
      "if_in_octets: 7 octets", "if_out_discards: 1 packet"]),
    ("generic_interface_counters", {"if_direction": 4, "if_status": 1, "if_out_octets": 2 ** 64 - 1, "if_in_errors": 2 ** 32 - 1, "if_promiscuous_mode": 2},
     ["if_direction: 4 (out)", "if_status: 1 (ifAdminStatus up, ifOperStatus down)", "if_out_octets: 18446744073709551615 (unknown)",
      "if_in_errors: 4294967295 (unknown)", "if_promiscuous_mode: 2 (false)"]),
    ("ethernet_interface_counters", {"dot3_stats_fcs_errors": 2, "dot3_stats_late_collisions": 1},
     ["dot3_stats_fcs_errors: 2 frames", "dot3_stats_late_collisions: 1 time"]),
    ("vg100_interface_counters", {"dot12_hc_out_high_priority_octets": 2 ** 32}, ["dot12_hc_out_high_priority_octets: 4294967296 octets"]),
    ("processor_counters", {"cpu_5s": 2 ** 32 - 1, "cpu_1m": 1205, "cpu_5m": 10000, "total_memory": 2 ** 34},
     ["cpu_5s: 4294967295 (unknown)", "cpu_1m: 1205 (12.05 %)", "cpu_5m: 10000 (100.00 %)", "total_memory: 17179869184 bytes"]),
]

# RFC 5952's own rules and examples
for _text in ("2001:db8::1", "2001:db8:0:1:1:1:1:1", "2001:0:0:1::1", "2001:db8::1:0:0:1", "::", "::1", "1::", "fe80::1:0:0:abcd", "::2:3:4:5:6:7:8",
              "1:2:3:4:5:6:7::", "::ffff:192.0.2.1", "::102:304", "ff02::fb", "1:2:3:4:5:6:7:8"):
    # a single group of zeros is not shortened
    _shown = {"::2:3:4:5:6:7:8": "0:2:3:4:5:6:7:8", "1:2:3:4:5:6:7::": "1:2:3:4:5:6:7:0"}.get(_text, _text)
    EXAMPLES.append(("header", {"agent_address": ipaddress.ip_address(_text).packed}, ["agent_address: " + _shown]))


def wire_of(rng, name):
    return library_checks.wire_of(rng, name, 1)


def wire_with(rng, name, given, mode=MEMO):
    """A datagram with this layout and these values in it."""
    if name in RECORDS + COUNTERS:
        return of_one_record(rng, Body(name, rng, mode, **given), "counters_sample" if name in COUNTERS else "flow_sample")
    wire = Wire(rng)
    if name == "header":
        wire.datagram([], **given)
    else:
        wire.datagram([wire.put_sample(name, [], **given)])
    return wire


def escaped(text):
    named = {"\n": "\\n", "\t": "\\t", '"': '\\"', "\\": "\\\\"}
    return '"' + "".join(named.get(c) or (c if c.isprintable() else "\\u{%x}" % ord(c)) for c in text) + '"'


def interface(form, value, itself):
    if form == 0:
        return "the device itself" if value == itself else f"ifIndex {value}"
    if form == 2:
        return f"{value} interface" + ("" if value == 1 else "s")
    return f"discarded, reason {value}" if form == 1 else f"format {form}, value {value}"


def source(kind, index):
    return f"{('ifIndex', 'smonVlanDataSource', 'entPhysicalEntry')[kind]} {index}" if kind < 3 else f"unknown type {index} (type {kind})"


def spoken(body, field, shape, value):
    """A value as the tree has it; of a number only the number."""
    if field in ("input", "output"):
        return interface(*map(int, value.split("/")), 4294967295) if shape else interface(value >> 30, value & 0x3fffffff, 0x3fffffff)
    if field == "source_id":
        return source(*map(int, value.split("/"))) if shape else source(value >> 24, value & 0xffffff)
    if shape == "address":
        kind, octets = value.split("/")
        return str(ipaddress.ip_address(bytes.fromhex(octets)[:(0, 4, 16)[int(kind)]])) if int(kind) else "unknown"
    if body.name == "sampled_ipv4" and field in ("src_ip", "dst_ip"):
        return str(ipaddress.ip_address(value))
    if shape == "sixteen":
        return str(ipaddress.ip_address(bytes.fromhex(value)))
    if shape in ("ethernet", "six_of_eight"):
        return bytes.fromhex(value).hex(":")
    if shape == "string":
        return escaped(bytes(body.data[value.start:value.start + value.count]).decode())
    return str(value.count if isinstance(value, Span) else value)


def expected_fields(wire):
    """Each field: how far it is indented, its name, and its value."""
    found = []
    for row, body, _, _ in sorted(wire.bodies, key=lambda one: one[0]):
        kind, depth = wire.rows[row][0], wire.rows[row][5]
        indent = 2 + 2 * (kind if kind < 2 else 2 * depth)
        for field in LAYOUTS[body.name][2].split():
            name, _, shape = field.partition(":")
            found.append((indent, name, spoken(body, name, shape, body.fields[name])))
    return found


def fields_of(out):
    """The same, read off the tree."""
    found = []
    for line in out.split("\n"):
        m = re.fullmatch(r"( +)([a-z][a-z0-9_]*): (.*)", line)
        if m:
            value = m.group(3)
            if m.group(2) not in ("input", "output", "source_id"):
                value = re.sub(r"^(\d+) .*", r"\1", value)
            found.append((len(m.group(1)), m.group(2), re.sub(r"^(discarded, reason \d+) .*", r"\1", value)))
    return found


def refusal_shown(checks, out, data, code, at, steps):
    """The code's words, the position, and the byte there in brackets, in a row whose place gives its position."""
    lines = out.split("\n")
    checks.same("a refusal's first line", f"refused: code {code}: {CODES[code]}", lines[0].partition(": ")[2])
    checks.same("a refusal's position", f"  position: {at}, after {steps} items that were read", lines[1])
    mark = f"[{data[at]:02x}] is the byte at {at}" if at < len(data) else f"[  ] is the end of the input, at {at}"
    checks.same("a refusal's mark", "  " + mark, lines[-2])
    rows = [m for m in (re.fullmatch(r" +(\d+): (.*)", line) for line in lines) if m and "[" in m.group(2)[:48]]
    checks.same("the row with the mark", [at], [int(m.group(1)) + m.group(2).index("[") // 3 for m in rows])
