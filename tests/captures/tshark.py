"""tshark: what it reads in a datagram, and what it should read where it agrees with the descriptors and fields of figures.py."""
import collections
import os
import re
import shutil
import subprocess
import tempfile
import xml.etree.ElementTree

import captures
from figures import building, placed

# what tshark found in a datagram: whether it took it for sFlow, whether it called it malformed, its fields by first byte and name, and
# where the records begin that it says it does not know
Reading = collections.namedtuple("Reading", "taken malformed fields unknown")

# before the datagram: Ethernet, IPv4 and UDP
FRONT = 14 + 20 + 8


def prepare():
    if not shutil.which("tshark"):
        raise building.Failed("'tshark' is missing: install Debian's package tshark")


def version():
    return re.search(r"\d+(\.\d+)+", building.run(["tshark", "--version"])).group()


def read(datagrams):
    """tshark's reading of each datagram, sent to the sFlow port; the sampled packets are left as they are."""
    frames = [captures.ethernet(captures.ipv4(captures.udp(data))) for data in datagrams]
    with tempfile.TemporaryDirectory() as room:
        path = os.path.join(room, "all.pcap")
        with open(path, "wb") as f:
            f.write(captures.pcap(frames))
        words = ["tshark", "-n", "-o", "sflow.enable_dissection:FALSE", "-r", path, "-T", "pdml"]
        ran = subprocess.run(words, capture_output=True, env={**os.environ, "HOME": room, "XDG_CONFIG_HOME": room})
    if ran.returncode:
        raise building.Failed(f"tshark failed: {ran.stderr.decode().strip().splitlines()[-1]}")
    packets = xml.etree.ElementTree.fromstring(ran.stdout).findall("packet")
    if len(packets) != len(frames):
        raise building.Failed(f"tshark shows {len(packets)} packets of {len(frames)}")
    return [reading(packet) for packet in packets]


def reading(packet):
    protocols = {one.get("name"): one for one in packet.findall("proto")}
    found = protocols.get("sflow")
    inside = list(found.iter("field")) if found is not None else []
    named = [one for one in inside if one.get("name", "").startswith("sflow")]
    fields = {(int(one.get("pos")) - FRONT, one.get("name")): value_of(one) for one in named}
    unknown = {int(one.get("pos")) - FRONT for one in inside if one.get("show", "").startswith("Unknown sample format")}
    return Reading(found is not None, "_ws.malformed" in protocols, fields, unknown)


def value_of(one):
    """A number, or bytes."""
    shown = one.get("show")
    if re.fullmatch(r"0x[0-9a-f]+|\d+", shown) and not one.get("name").endswith(TEXTS):
        return int(shown, 0)
    return bytes.fromhex(one.get("value") or "")


# the fields that hold text or bytes, which may look like a number
TEXTS = (".url", ".host", "_user", "_name", ".ssid", ".header", ".payload", "_description")


# A name below is a function from the value of a field to what tshark has for it: behind how many of its bytes, by which name, which value.

def word(name):
    return lambda value: [(0, name, value)]


def split(upper_name, lower_name, bits):
    """The two parts of a word."""
    return lambda value: [(0, upper_name, value >> bits), (0, lower_name, value & (1 << bits) - 1)]


def pair(first, second):
    return lambda value: [(0, first, value[0]), (4, second, value[1])]


def address(v4, v6, kind=None):
    """An address's bytes by its type, and the type where it has a name."""
    def found(value):
        return ([(0, kind, value[0])] if kind else []) + [(4, name, value[1]) for name in ({1: v4, 2: v6}.get(value[0]),) if name]
    return found


def opaque(length, inside):
    return lambda value: [(0, length, len(value)), (4, inside, value)]


def words(value):
    return [int.from_bytes(value[n:n + 4], "big") for n in range(0, len(value), 4)]


def communities(value):
    """A list, whose words tshark calls by the name of an AS number."""
    numbers = words(value)
    return [(0, "sflow_245.communityEntries", len(numbers))] + [(4 + 4 * n, "sflow_245.dstAS", one) for n, one in enumerate(numbers)]


def path(value):
    """The segments of an AS path: for each its type, and the AS numbers behind its count."""
    count, segments = value
    found, at, numbers = [(0, "sflow_245.dstASentries", count)], 4, words(segments)
    for _ in range(count):
        kind, length = numbers[:2]
        found += [(at, "sflow.as_type", kind)] + [(at + 8 + 4 * n, "sflow_245.dstAS", one) for n, one in enumerate(numbers[2:2 + length])]
        at, numbers = at + 8 + 4 * length, numbers[2 + length:]
    return found


def status(value):
    """The two bits that say whether an interface is up; tshark shows no others."""
    return [(0, "sflow_245.ifadmin_status", value & 1), (0, "sflow_245.ifoper_status", value >> 1 & 1)]


# tshark's names for what a field of a layout holds
FLOW, COUNTERS, USER, URL = "sflow.flow_sample.", "sflow.counters_sample.", "sflow_5.extended_user.", "sflow_5.extended_url."
NAMES = {
    "header": {
        "version": word("sflow_245.version"),
        "agent_address": address("sflow_245.agent", "sflow_245.agent.v6", "sflow_245.agenttype"),
        "sub_agent_id": word("sflow_245.sub_agent_id"),
        "sequence_number": word("sflow_245.sequence_number"),
        "uptime": word("sflow_245.sysuptime"),
        "num_samples": word("sflow_245.numsamples"),
    },
    "flow_sample": {
        "sequence_number": word(FLOW + "sequence_number"),
        "source_id": split(FLOW + "source_id_class", FLOW + "index", 24),
        "sampling_rate": word(FLOW + "sampling_rate"),
        "sample_pool": word(FLOW + "sample_pool"),
        "drops": word(FLOW + "dropped_packets"),
        "input": word(FLOW + "input_interface"),
        "output": lambda value: [(0, FLOW + "output_interface", value)] + split(
            FLOW + "output_interface_format", FLOW + "output_interface_value", 30)(value),
        "num_records": word(FLOW + "flow_record"),
    },
    "counters_sample": {
        "sequence_number": word(COUNTERS + "sequence_number"),
        "source_id": split(COUNTERS + "source_id_type", COUNTERS + "source_id_index", 24),
        "num_records": word(COUNTERS + "counters_records"),
    },
    "counters_sample_expanded": {
        "sequence_number": word(COUNTERS + "sequence_number"),
        "source_id": pair(COUNTERS + "source_id_type", COUNTERS + "source_id_index"),
        "num_records": word(COUNTERS + "counters_records"),
    },
    "sampled_header": {
        "protocol": word("sflow_245.header_protocol"),
        "frame_length": word("sflow_245.header.frame_length"),
        "stripped": word("sflow_245.header.payload_stripped"),
        "header": opaque("sflow_245.header.sampled_header_length", "sflow_245.header"),
    },
    "sampled_ethernet": {
        "length": word("sflow_245.ethernet.length"),
        "src_mac": word("sflow_245.ethernet.source_mac_address"),
        "dst_mac": word("sflow_245.ethernet.destination_mac_address"),
        "eth_type": word("sflow_245.ethernet.packet_type"),
    },
    "extended_switch": {
        "src_vlan": word("sflow_245.vlan.in"),
        "src_priority": word("sflow_245.pri.in"),
        "dst_vlan": word("sflow_245.vlan.out"),
        "dst_priority": word("sflow_245.pri.out"),
    },
    "extended_user": {
        "src_charset": word(USER + "source_character_set"),
        "src_user": opaque(USER + "source_user_string_length", USER + "source_user"),
        "dst_charset": word(USER + "destination_character_set"),
        "dst_user": opaque(USER + "destination_user_string_length", USER + "destination_user"),
    },
    "extended_url": {
        "direction": word(URL + "direction"),
        "url": opaque(URL + "url_length", URL + "url"),
        "host": opaque(URL + "host_length", URL + "host"),
    },
    "extended_gateway": {
        "next_hop": address("sflow_245.nexthop", "sflow_245.nexthop.v6"),
        "as_number": word("sflow_245.as"),
        "src_as": word("sflow_245.srcAS"),
        "src_peer_as": word("sflow_245.peerAS"),
        "dst_as_path": path,
        "communities": communities,
        "local_pref": word("sflow_245.localpref"),
    },
    "generic_interface_counters": {
        "if_index": word("sflow_245.ifindex"),
        "if_type": word("sflow_245.iftype"),
        "if_speed": word("sflow_245.ifspeed"),
        "if_direction": word("sflow_245.ifdirection"),
        "if_status": status,
        "if_in_octets": word("sflow_245.ifinoct"),
        "if_in_ucast_pkts": word("sflow_245.ifinpkt"),
        "if_in_multicast_pkts": word("sflow_245.ifinmcast"),
        "if_in_broadcast_pkts": word("sflow_245.ifinbcast"),
        "if_in_discards": word("sflow_245.ifindisc"),
        "if_in_errors": word("sflow_245.ifinerr"),
        "if_in_unknown_protos": word("sflow_245.ifinunk"),
        "if_out_octets": word("sflow_245.ifoutoct"),
        "if_out_ucast_pkts": word("sflow_245.ifoutpkt"),
        "if_out_multicast_pkts": word("sflow_245.ifoutmcast"),
        "if_out_broadcast_pkts": word("sflow_245.ifoutbcast"),
        "if_out_discards": word("sflow_245.ifoutdisc"),
        "if_out_errors": word("sflow_245.ifouterr"),
        "if_promiscuous_mode": word("sflow_245.ifpromisc"),
    },
    "ethernet_interface_counters": {
        "dot3_stats_alignment_errors": word("sflow_245.dot3StatsAlignmentErrors"),
        "dot3_stats_fcs_errors": word("sflow_245.dot3StatsFCSErrors"),
        "dot3_stats_single_collision_frames": word("sflow_245.dot3StatsSingleCollisionFrames"),
        "dot3_stats_multiple_collision_frames": word("sflow_245.dot3StatsMultipleCollisionFrames"),
        "dot3_stats_sqe_test_errors": word("sflow_245.dot3StatsSQETestErrors"),
        "dot3_stats_deferred_transmissions": word("sflow_245.dot3StatsDeferredTransmissions"),
        "dot3_stats_late_collisions": word("sflow_245.dot3StatsLateCollisions"),
        "dot3_stats_excessive_collisions": word("sflow_245.dot3StatsExcessiveCollisions"),
        "dot3_stats_internal_mac_transmit_errors": word("sflow_245.dot3StatsInternalMacTransmitErrors"),
        "dot3_stats_carrier_sense_errors": word("sflow_245.dot3StatsCarrierSenseErrors"),
        "dot3_stats_frame_too_longs": word("sflow_245.dot3StatsFrameTooLongs"),
        "dot3_stats_internal_mac_receive_errors": word("sflow_245.dot3StatsInternalMacReceiveErrors"),
        "dot3_stats_symbol_errors": word("sflow_245.dot3StatsSymbolErrors"),
    },
    "token_ring_counters": {
        "dot5_stats_line_errors": word("sflow_245.dot5StatsLineErrors"),
        "dot5_stats_burst_errors": word("sflow_245.dot5StatsBurstErrors"),
        "dot5_stats_ac_errors": word("sflow_245.dot5StatsACErrors"),
        "dot5_stats_abort_trans_errors": word("sflow_245.dot5StatsAbortTransErrors"),
        "dot5_stats_internal_errors": word("sflow_245.dot5StatsInternalErrors"),
        "dot5_stats_lost_frame_errors": word("sflow_245.dot5StatsLostFrameErrors"),
        "dot5_stats_receive_congestions": word("sflow_245.dot5StatsReceiveCongestions"),
        "dot5_stats_frame_copied_errors": word("sflow_245.dot5StatsFrameCopiedErrors"),
        "dot5_stats_token_errors": word("sflow_245.dot5StatsTokenErrors"),
        "dot5_stats_soft_errors": word("sflow_245.dot5StatsSoftErrors"),
        "dot5_stats_hard_errors": word("sflow_245.dot5StatsHardErrors"),
        "dot5_stats_signal_loss": word("sflow_245.dot5StatsSignalLoss"),
        "dot5_stats_transmit_beacons": word("sflow_245.dot5StatsTransmitBeacons"),
        "dot5_stats_recoverys": word("sflow_245.dot5StatsRecoveries"),
        "dot5_stats_lobe_wires": word("sflow_245.dot5StatsLobeWires"),
        "dot5_stats_removes": word("sflow_245.dot5StatsRemoves"),
        "dot5_stats_singles": word("sflow_245.dot5StatsSingles"),
        "dot5_stats_freq_errors": word("sflow_245.dot5StatsFreqErrors"),
    },
    "vg100_interface_counters": {
        "dot12_in_high_priority_frames": word("sflow_245.dot12InHighPriorityFrames"),
        "dot12_in_high_priority_octets": word("sflow_245.dot12InHighPriorityOctets"),
        "dot12_in_norm_priority_frames": word("sflow_245.dot12InNormPriorityFrames"),
        "dot12_in_norm_priority_octets": word("sflow_245.dot12InNormPriorityOctets"),
        "dot12_in_ipm_errors": word("sflow_245.dot12InIPMErrors"),
        "dot12_in_oversize_frame_errors": word("sflow_245.dot12InOversizeFrameErrors"),
        "dot12_in_data_errors": word("sflow_245.dot12InDataErrors"),
        "dot12_in_null_addressed_frames": word("sflow_245.dot12InNullAddressedFrames"),
        "dot12_out_high_priority_frames": word("sflow_245.dot12OutHighPriorityFrames"),
        "dot12_out_high_priority_octets": word("sflow_245.dot12OutHighPriorityOctets"),
        "dot12_transition_into_trainings": word("sflow_245.dot12TransitionIntoTrainings"),
        "dot12_hc_in_high_priority_octets": word("sflow_245.dot12HCInHighPriorityOctets"),
        "dot12_hc_in_norm_priority_octets": word("sflow_245.dot12HCInNormPriorityOctets"),
        "dot12_hc_out_high_priority_octets": word("sflow_245.dot12HCOutHighPriorityOctets"),
    },
    "vlan_counters": {
        "vlan_id": word("sflow_245.vlan_id"),
        "octets": word("sflow_245.octets"),
        "ucast_pkts": word("sflow_245.ucastPkts"),
        "multicast_pkts": word("sflow_245.multicastPkts"),
        "broadcast_pkts": word("sflow_245.broadcastPkts"),
        "discards": word("sflow_245.discards"),
    },
    "processor_counters": {
        "cpu_5s": word("sflow_5.cpu_5s"),
        "cpu_1m": word("sflow_5.cpu_1m"),
        "cpu_5m": word("sflow_5.cpu_5m"),
        "total_memory": word("sflow_5.total_memory"),
        "free_memory": word("sflow_5.free_memory"),
    },
}
FRAMES = {1: ("sflow_245.sampletype", "sflow_5.sample_length"), 2: ("sflow_245.flow_record_format", "sflow_5.flow_data_length"),
          3: ("sflow_245.counters_record_format", "sflow_5.flow_data_length")}


def of_node(row, node):
    """What tshark should find of one descriptor: first byte, name, value."""
    kind, form, start, length = row[:4]
    if kind in FRAMES:
        number, size = FRAMES[kind]
        yield start - 8, "sflow.enterprise", form >> 12
        yield start - 8, number, form & 0xfff
        yield start - 4, size, length
    for field, at, value in placed(node.name, node.fields, start) if node.name else ():
        for behind, name, part in NAMES[node.name][field](value):
            yield at + behind, name, part


def expected(rows, nodes):
    return {(at, name): value for row, node in zip(rows, nodes) for at, name, value in of_node(row, node)}
