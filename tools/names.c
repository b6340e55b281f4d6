#include "names.h"

#include "latchplume.h"

#include <inttypes.h>
#include <stdbool.h>
#include <stdio.h>

#define COUNT(table) (sizeof(table) / sizeof *(table))

static const char *const CODES[] = {
    "accepted",
    "input longer than %s",
    "an item passes the end of what encloses it",
    "version is not 5",
    "address type above 2",
    "opaque length above %s",
    "header protocol unknown to HeaderProtocol",
    "string is not UTF-8",
    "a record would begin at depth %s",
    "all else accepted, but the store holds fewer than needed",
    "field reading: range passes the input",
    "field reading: kind or format not the one asked",
};

/* The number in the words of a code. */
static const uint32_t LIMITS[COUNT(CODES)] = {
    [LATCHPLUME_INPUT_LENGTH] = LATCHPLUME_MAX_INPUT,
    [LATCHPLUME_OPAQUE_LENGTH] = LATCHPLUME_MAX_OPAQUE,
    [LATCHPLUME_DEPTH] = LATCHPLUME_MAX_DEPTH + 1,
};

/* What the library keeps raw and the crate has a name for. */
static const struct {
    uint32_t kind, enterprise, format;
    const char *name;
} RAW[] = {
    {LATCHPLUME_SAMPLE, 4300, 1002, "rt_metric"},
    {LATCHPLUME_SAMPLE, 4300, 1003, "rt_flow"},
    {LATCHPLUME_FLOW_RECORD, 0, 1017, "extended_open_flow_v1"},
    {LATCHPLUME_FLOW_RECORD, 0, 1018, "extended_fc"},
    {LATCHPLUME_FLOW_RECORD, 0, 1019, "extended_queue_length"},
    {LATCHPLUME_FLOW_RECORD, 0, 1020, "extended_nat_port"},
    {LATCHPLUME_FLOW_RECORD, 0, 1021, "extended_l2_tunnel_egress"},
    {LATCHPLUME_FLOW_RECORD, 0, 1022, "extended_l2_tunnel_ingress"},
    {LATCHPLUME_FLOW_RECORD, 0, 1023, "extended_ipv4_tunnel_egress"},
    {LATCHPLUME_FLOW_RECORD, 0, 1024, "extended_ipv4_tunnel_ingress"},
    {LATCHPLUME_FLOW_RECORD, 0, 1025, "extended_ipv6_tunnel_egress"},
    {LATCHPLUME_FLOW_RECORD, 0, 1026, "extended_ipv6_tunnel_ingress"},
    {LATCHPLUME_FLOW_RECORD, 0, 1027, "extended_decapsulate_egress"},
    {LATCHPLUME_FLOW_RECORD, 0, 1028, "extended_decapsulate_ingress"},
    {LATCHPLUME_FLOW_RECORD, 0, 1029, "extended_vni_egress"},
    {LATCHPLUME_FLOW_RECORD, 0, 1030, "extended_vni_ingress"},
    {LATCHPLUME_FLOW_RECORD, 0, 1031, "extended_infini_band_lrh"},
    {LATCHPLUME_FLOW_RECORD, 0, 1032, "extended_infini_band_grh"},
    {LATCHPLUME_FLOW_RECORD, 0, 1033, "extended_infini_band_bth"},
    {LATCHPLUME_FLOW_RECORD, 0, 1034, "extended_vlan_in"},
    {LATCHPLUME_FLOW_RECORD, 0, 1035, "extended_vlan_out"},
    {LATCHPLUME_FLOW_RECORD, 0, 1036, "extended_egress_queue"},
    {LATCHPLUME_FLOW_RECORD, 0, 1037, "extended_acl"},
    {LATCHPLUME_FLOW_RECORD, 0, 1038, "extended_function"},
    {LATCHPLUME_FLOW_RECORD, 0, 1039, "extended_transit"},
    {LATCHPLUME_FLOW_RECORD, 0, 1040, "extended_queue"},
    {LATCHPLUME_FLOW_RECORD, 0, 1041, "extended_hw_trap"},
    {LATCHPLUME_FLOW_RECORD, 0, 1042, "extended_linux_drop_reason"},
    {LATCHPLUME_FLOW_RECORD, 0, 2000, "transaction"},
    {LATCHPLUME_FLOW_RECORD, 0, 2001, "extended_nfs_storage_transaction"},
    {LATCHPLUME_FLOW_RECORD, 0, 2002, "extended_scsi_storage_transaction"},
    {LATCHPLUME_FLOW_RECORD, 0, 2003, "extended_http_transaction"},
    {LATCHPLUME_FLOW_RECORD, 0, 2100, "extended_socket_ipv4"},
    {LATCHPLUME_FLOW_RECORD, 0, 2101, "extended_socket_ipv6"},
    {LATCHPLUME_FLOW_RECORD, 0, 2102, "extended_proxy_socket_ipv4"},
    {LATCHPLUME_FLOW_RECORD, 0, 2103, "extended_proxy_socket_ipv6"},
    {LATCHPLUME_FLOW_RECORD, 0, 2200, "memcache_operation"},
    {LATCHPLUME_FLOW_RECORD, 0, 2201, "http_request_deprecated"},
    {LATCHPLUME_FLOW_RECORD, 0, 2202, "app_operation"},
    {LATCHPLUME_FLOW_RECORD, 0, 2203, "app_parent_context"},
    {LATCHPLUME_FLOW_RECORD, 0, 2204, "app_initiator"},
    {LATCHPLUME_FLOW_RECORD, 0, 2205, "app_target"},
    {LATCHPLUME_FLOW_RECORD, 0, 2206, "http_request"},
    {LATCHPLUME_FLOW_RECORD, 0, 2207, "extended_proxy_request"},
    {LATCHPLUME_FLOW_RECORD, 0, 2208, "extended_nav_timing"},
    {LATCHPLUME_FLOW_RECORD, 0, 2209, "extended_tcp_info"},
    {LATCHPLUME_FLOW_RECORD, 0, 2210, "extended_entities"},
    {LATCHPLUME_FLOW_RECORD, 4413, 1, "extended_bst_egress_queue"},
    {LATCHPLUME_COUNTER_RECORD, 0, 6, "ieee80211"},
    {LATCHPLUME_COUNTER_RECORD, 0, 7, "lag_port_stats"},
    {LATCHPLUME_COUNTER_RECORD, 0, 8, "slow_path_counts"},
    {LATCHPLUME_COUNTER_RECORD, 0, 9, "infini_band_counters"},
    {LATCHPLUME_COUNTER_RECORD, 0, 10, "optical_sfp_qsfp"},
    {LATCHPLUME_COUNTER_RECORD, 0, 1002, "radio_utilization"},
    {LATCHPLUME_COUNTER_RECORD, 0, 1003, "queue_length"},
    {LATCHPLUME_COUNTER_RECORD, 0, 1004, "open_flow_port"},
    {LATCHPLUME_COUNTER_RECORD, 0, 1005, "open_flow_port_name"},
    {LATCHPLUME_COUNTER_RECORD, 0, 2000, "host_description"},
    {LATCHPLUME_COUNTER_RECORD, 0, 2001, "host_adapters"},
    {LATCHPLUME_COUNTER_RECORD, 0, 2002, "host_parent"},
    {LATCHPLUME_COUNTER_RECORD, 0, 2003, "host_cpu"},
    {LATCHPLUME_COUNTER_RECORD, 0, 2004, "host_memory"},
    {LATCHPLUME_COUNTER_RECORD, 0, 2005, "host_disk_io"},
    {LATCHPLUME_COUNTER_RECORD, 0, 2006, "host_net_io"},
    {LATCHPLUME_COUNTER_RECORD, 0, 2007, "mib2_ip_group"},
    {LATCHPLUME_COUNTER_RECORD, 0, 2008, "mib2_icmp_group"},
    {LATCHPLUME_COUNTER_RECORD, 0, 2009, "mib2_tcp_group"},
    {LATCHPLUME_COUNTER_RECORD, 0, 2010, "mib2_udp_group"},
    {LATCHPLUME_COUNTER_RECORD, 0, 2100, "virtual_node"},
    {LATCHPLUME_COUNTER_RECORD, 0, 2101, "virtual_cpu"},
    {LATCHPLUME_COUNTER_RECORD, 0, 2102, "virtual_memory"},
    {LATCHPLUME_COUNTER_RECORD, 0, 2103, "virtual_disk_io"},
    {LATCHPLUME_COUNTER_RECORD, 0, 2104, "virtual_net_io"},
    {LATCHPLUME_COUNTER_RECORD, 0, 2105, "jvm_runtime"},
    {LATCHPLUME_COUNTER_RECORD, 0, 2106, "jvm_statistics"},
    {LATCHPLUME_COUNTER_RECORD, 0, 2200, "memcache_counters_deprecated"},
    {LATCHPLUME_COUNTER_RECORD, 0, 2201, "http_counters"},
    {LATCHPLUME_COUNTER_RECORD, 0, 2202, "app_operations"},
    {LATCHPLUME_COUNTER_RECORD, 0, 2203, "app_resources"},
    {LATCHPLUME_COUNTER_RECORD, 0, 2204, "memcache_counters"},
    {LATCHPLUME_COUNTER_RECORD, 0, 2206, "app_workers"},
    {LATCHPLUME_COUNTER_RECORD, 0, 2207, "ovs_dp_stats"},
    {LATCHPLUME_COUNTER_RECORD, 0, 3000, "energy"},
    {LATCHPLUME_COUNTER_RECORD, 0, 3001, "temperature"},
    {LATCHPLUME_COUNTER_RECORD, 0, 3002, "humidity"},
    {LATCHPLUME_COUNTER_RECORD, 0, 3003, "fans"},
    {LATCHPLUME_COUNTER_RECORD, 4413, 1, "broadcom_device_buffers"},
    {LATCHPLUME_COUNTER_RECORD, 4413, 2, "broadcom_port_buffers"},
    {LATCHPLUME_COUNTER_RECORD, 4413, 3, "broadcom_tables"},
    {LATCHPLUME_COUNTER_RECORD, 5703, 1, "nvidia_gpu"},
};

static const char *const PROTOCOLS[] = {
    "Ethernet", "ISO 802.4 token bus", "ISO 802.5 token ring", "FDDI", "frame relay", "X.25", "PPP", "SMDS", "AAL5", "AAL5 IP",
    "IPv4", "IPv6", "MPLS", "POS", "802.11 MAC", "802.11 A-MPDU", "802.11 A-MSDU",
};

/* Reasons from 0 on, and from 256 on. */
static const char *const REASONS[] = {
    "net_unreachable", "host_unreachable", "protocol_unreachable", "port_unreachable", "frag_needed", "src_route_failed",
    "dst_net_unknown", "dst_host_unknown", "src_host_isolated", "dst_net_prohibited", "dst_host_prohibited",
    "dst_net_tos_unreachable", "dst_host_tos_unreacheable", "comm_admin_prohibited", "host_precedence_violation",
    "precedence_cutoff",
};
static const char *const MORE_REASONS[] = {
    "unknown", "ttl_exceeded", "acl", "no_buffer_space", "red", "traffic_shaping", "pkt_too_big", "src_mac_is_multicast",
    "vlan_tag_mismatch", "ingress_vlan_filter", "ingress_spanning_tree_filter", "port_list_is_empty", "port_loopback_filter",
    "blackhole_route", "non_ip", "uc_dip_over_mc_dmac", "dip_is_loopback_address", "sip_is_mc", "sip_is_loopback_address",
    "ip_header_corrupted", "ipv4_sip_is_limited_bc", "ipv6_mc_dip_reserved_scope", "ipv6_mc_dip_interface_local_scope",
    "unresolved_neigh", "mc_reverse_path_forwarding", "non_routable_packet", "decap_error", "overlay_smac_is_mc", "unknown_l2",
    "unknown_l3", "unknown_l3_exception", "unknown_buffer", "unknown_tunnel", "unknown_l4", "sip_is_unspecified",
    "mlag_port_isolation", "blackhole_arp_neigh", "src_mac_is_dmac", "dmac_is_reserved", "sip_is_class_e", "mc_dmac_mismatch",
    "sip_is_dip", "dip_is_local_network", "dip_is_link_local", "overlay_smac_is_dmac", "egress_vlan_filter",
    "uc_reverse_path_forwarding", "split_horizon",
};

/* Interface types that switches and routers have, of those that IANA gives. */
static const struct {
    uint32_t number;
    const char *name;
} INTERFACE_TYPES[] = {
    {1, "other"}, {6, "ethernetCsmacd"}, {9, "iso88025TokenRing"}, {15, "fddi"}, {18, "ds1"}, {23, "ppp"}, {24, "softwareLoopback"},
    {32, "frameRelay"}, {37, "atm"}, {39, "sonet"}, {53, "propVirtual"}, {54, "propMultiplexor"}, {55, "ieee80212"}, {62, "fastEther"},
    {69, "fastEtherFX"}, {71, "ieee80211"}, {117, "gigabitEthernet"}, {131, "tunnel"}, {135, "l2vlan"}, {136, "l3ipvlan"},
    {150, "mplsTunnel"}, {161, "ieee8023adLag"}, {166, "mpls"}, {209, "bridge"},
};

const char *name_of_number(uint32_t number)
{
    static char said[16];
    char *to = said + sizeof said - 1;
    for (unsigned digits = 0; digits == 0 || number > 0; digits++, number /= 10) {
        if (digits > 0 && digits % 3 == 0)
            *--to = ',';
        *--to = (char)('0' + number % 10);
    }
    return to;
}

const char *name_of_code(uint32_t code)
{
    static char said[100];
    if (code >= COUNT(CODES))
        return "not a code of this version";
    snprintf(said, sizeof said, CODES[code], name_of_number(LIMITS[code]));
    return said;
}

const char *name_of_format(uint32_t kind, uint32_t format)
{
    for (size_t i = 0; i < COUNT(RAW); i++)
        if (RAW[i].kind == kind && (RAW[i].enterprise << 12 | RAW[i].format) == format)
            return RAW[i].name;
    return NULL;
}

const char *name_of_source(uint32_t type)
{
    static const char *const types[] = {"ifIndex", "smonVlanDataSource", "entPhysicalEntry"};
    return type < COUNT(types) ? types[type] : "unknown type";
}

const char *name_of_segment(uint32_t kind)
{
    return kind == 1 ? "AS_SET" : kind == 2 ? "AS_SEQUENCE" : "unknown type";
}

static void say(const char *name)
{
    printf(" (%s)", name);
}

void say_header_protocol(uint32_t value)
{
    if (value - 1 < COUNT(PROTOCOLS))
        say(PROTOCOLS[value - 1]);
}

void say_ip_protocol(uint32_t value)
{
    static const struct {
        uint32_t number;
        const char *name;
    } known[] = {{1, "ICMP"}, {2, "IGMP"}, {6, "TCP"}, {17, "UDP"}, {47, "GRE"}, {50, "ESP"}, {58, "ICMPv6"}, {89, "OSPF"}, {132, "SCTP"}};
    for (size_t i = 0; i < COUNT(known); i++)
        if (known[i].number == value)
            say(known[i].name);
}

void say_hexadecimal(uint32_t value)
{
    printf(" (0x%04x)", (unsigned)value);
}

void say_tcp_flags(uint32_t value)
{
    static const char *const flags[] = {"FIN", "SYN", "RST", "PSH", "ACK", "URG", "ECE", "CWR"};
    if ((value & 255) == 0)
        return;
    const char *before = " (";
    for (size_t i = 0; i < COUNT(flags); i++)
        if (value >> i & 1) {
            printf("%s%s", before, flags[i]);
            before = " ";
        }
    putchar(')');
}

void say_drop_reason(uint32_t value)
{
    if (value < COUNT(REASONS))
        say(REASONS[value]);
    else if (value - 256 < COUNT(MORE_REASONS))
        say(MORE_REASONS[value - 256]);
}

void say_direction(uint32_t value)
{
    if (value == 1 || value == 2)
        say(value == 1 ? "source" : "destination");
}

void say_number_or_unknown(uint32_t value)
{
    if (value == UINT32_MAX)
        say("unknown");
}

void say_uptime(uint32_t value)
{
    unsigned s = value / 1000;
    printf(" ms (%u d %02u:%02u:%02u)", s / 86400, s / 3600 % 24, s / 60 % 60, s % 60);
}

void say_microseconds(uint32_t value)
{
    (void)value;
    printf(" us");
}

void say_milliwatts(uint32_t value)
{
    (void)value;
    printf(" mW");
}

void say_80211_version(uint32_t value)
{
    if (value >= 1 && value <= 4)
        printf(" (802.11%c)", "abgn"[value - 1]);
}

/* An OUI, and the number that it gives the suite. */
void say_cipher_suite(uint32_t value)
{
    unsigned v = value;
    printf(" (%02x-%02x-%02x:%u)", v >> 24, v >> 16 & 255, v >> 8 & 255, v & 255);
}

/* RFC 3032: 20 bits of label, 3 of traffic class, the bottom of the stack, 8 of time to live. */
void say_label(uint32_t value)
{
    unsigned v = value;
    printf(" (label %u, class %u%s, ttl %u)", v >> 12, v >> 9 & 7, v >> 8 & 1 ? ", bottom" : "", v & 255);
}

void say_tag(uint32_t value)
{
    unsigned v = value;
    printf(" (TPID 0x%04x, priority %u, VLAN %u)", v >> 16, v >> 13 & 7, v & 0xfff);
}

void say_community(uint32_t value)
{
    printf(" (%u:%u)", (unsigned)(value >> 16), (unsigned)(value & 0xffff));
}

/* A number of things, or that it is not known. */
static void say_count(const char *thing, bool known, bool one)
{
    if (known)
        printf(" %s%s", thing, one ? "" : "s");
    else
        say("unknown");
}

void say_packets(uint32_t value)
{
    say_count("packet", value != UINT32_MAX, value == 1);
}

void say_frames(uint32_t value)
{
    say_count("frame", value != UINT32_MAX, value == 1);
}

void say_times(uint32_t value)
{
    say_count("time", value != UINT32_MAX, value == 1);
}

/* Hundredths of a percent. */
void say_percentage(uint32_t value)
{
    if (value == UINT32_MAX)
        say("unknown");
    else
        printf(" (%" PRIu32 ".%02" PRIu32 " %%)", value / 100, value % 100);
}

void say_truth_value(uint32_t value)
{
    if (value == 1 || value == 2)
        say(value == 1 ? "true" : "false");
}

void say_iftype(uint32_t value)
{
    for (size_t i = 0; i < COUNT(INTERFACE_TYPES); i++)
        if (INTERFACE_TYPES[i].number == value)
            say(INTERFACE_TYPES[i].name);
}

void say_ifdirection(uint32_t value)
{
    static const char *const directions[] = {"unknown", "full-duplex", "half-duplex", "in", "out"};
    if (value < COUNT(directions))
        say(directions[value]);
}

void say_ifstatus(uint32_t value)
{
    printf(" (ifAdminStatus %s, ifOperStatus %s)", value & 1 ? "up" : "down", value & 2 ? "up" : "down");
}

void say_bit_s(uint64_t value)
{
    (void)value;
    printf(" bit/s");
}

void say_octets(uint64_t value)
{
    say_count("octet", value != UINT64_MAX, value == 1);
}

void say_memory(uint64_t value)
{
    say_count("byte", value != UINT64_MAX, value == 1);
}
