#include "layouts.h"

#include "names.h"

/* The call that reads a layout, into the place that the union has for it; and the base mode's, where that is another. */
#define READ(what) READ_BY(what, read_##what, latchplume_read_##what)
#define READ_BASE(what) READ_BY(what, read_##what##_base, latchplume_read_##what##_base)
#define READ_BY(what, name, call)                                                                                     \
    static void name(union reading *into, const uint8_t *data, size_t length, const uint32_t *descriptor)             \
    {                                                                                                                 \
        into->what = call(data, length, descriptor);                                                                  \
    }

#define FIELD(what, name, shape) {#name, shape, offsetof(latchplume_##what, name), NULL, NULL}
#define SAID(what, name, shape, say) {#name, shape, offsetof(latchplume_##what, name), say, NULL}
#define SAID_LONG(what, name, shape, say) {#name, shape, offsetof(latchplume_##what, name), NULL, say}

#define LAYOUT(kind, format, what, fields) LAYOUT_BY(kind, format, what, read_##what, fields)
#define LAYOUT_BASE(kind, format, what, fields) LAYOUT_BY(kind, format, what, read_##what##_base, fields)
#define LAYOUT_BY(kind, format, what, base, fields) \
    {kind, format, #what, {[MEMO] = read_##what, [BASE] = base}, fields, sizeof(fields) / sizeof *(fields)}

/* made by layouts/make from layouts/table: from here */
READ(header)
READ(flow_sample)
READ(counters_sample)
READ(flow_sample_expanded)
READ(counters_sample_expanded)
READ(discarded_packet)
READ(sampled_header)
READ(sampled_ethernet)
READ_BASE(sampled_ethernet)
READ(sampled_ipv4)
READ(sampled_ipv6)
READ(extended_switch)
READ(extended_router)
READ(extended_gateway)
READ(extended_user)
READ(extended_url)
READ(extended_mpls)
READ(extended_nat)
READ(extended_mpls_tunnel)
READ(extended_mpls_vc)
READ(extended_mpls_fec)
READ(extended_mpls_lvp_fec)
READ(extended_vlan_tunnel)
READ(extended_80211_payload)
READ(extended_80211_rx)
READ(extended_80211_tx)
READ(extended_80211_aggregation)
READ(generic_interface_counters)
READ(ethernet_interface_counters)
READ(token_ring_counters)
READ(vg100_interface_counters)
READ(vlan_counters)
READ(processor_counters)

static const struct field HEADER[] = {
    FIELD(header, version, NUMBER),
    FIELD(header, agent_address, ADDRESS),
    FIELD(header, sub_agent_id, NUMBER),
    FIELD(header, sequence_number, NUMBER),
    SAID(header, uptime, NUMBER, say_uptime),
    FIELD(header, num_samples, NUMBER),
};

static const struct field FLOW_SAMPLE[] = {
    FIELD(flow_sample, sequence_number, NUMBER),
    FIELD(flow_sample, source_id, SOURCE),
    FIELD(flow_sample, sampling_rate, NUMBER),
    FIELD(flow_sample, sample_pool, NUMBER),
    FIELD(flow_sample, drops, NUMBER),
    FIELD(flow_sample, input, INTERFACE),
    FIELD(flow_sample, output, INTERFACE),
    FIELD(flow_sample, num_records, NUMBER),
};

static const struct field COUNTERS_SAMPLE[] = {
    FIELD(counters_sample, sequence_number, NUMBER),
    FIELD(counters_sample, source_id, SOURCE),
    FIELD(counters_sample, num_records, NUMBER),
};

static const struct field FLOW_SAMPLE_EXPANDED[] = {
    FIELD(flow_sample_expanded, sequence_number, NUMBER),
    FIELD(flow_sample_expanded, source_id, SOURCE_EXPANDED),
    FIELD(flow_sample_expanded, sampling_rate, NUMBER),
    FIELD(flow_sample_expanded, sample_pool, NUMBER),
    FIELD(flow_sample_expanded, drops, NUMBER),
    FIELD(flow_sample_expanded, input, INTERFACE_EXPANDED),
    FIELD(flow_sample_expanded, output, INTERFACE_EXPANDED),
    FIELD(flow_sample_expanded, num_records, NUMBER),
};

static const struct field COUNTERS_SAMPLE_EXPANDED[] = {
    FIELD(counters_sample_expanded, sequence_number, NUMBER),
    FIELD(counters_sample_expanded, source_id, SOURCE_EXPANDED),
    FIELD(counters_sample_expanded, num_records, NUMBER),
};

static const struct field DISCARDED_PACKET[] = {
    FIELD(discarded_packet, sequence_number, NUMBER),
    FIELD(discarded_packet, source_id, SOURCE_EXPANDED),
    FIELD(discarded_packet, drops, NUMBER),
    FIELD(discarded_packet, input_ifindex, NUMBER),
    FIELD(discarded_packet, output_ifindex, NUMBER),
    SAID(discarded_packet, reason, NUMBER, say_drop_reason),
    FIELD(discarded_packet, num_records, NUMBER),
};

static const struct field SAMPLED_HEADER[] = {
    SAID(sampled_header, protocol, NUMBER, say_header_protocol),
    FIELD(sampled_header, frame_length, NUMBER),
    FIELD(sampled_header, stripped, NUMBER),
    FIELD(sampled_header, header, BYTES),
};

static const struct field SAMPLED_ETHERNET[] = {
    FIELD(sampled_ethernet, length, NUMBER),
    FIELD(sampled_ethernet, src_mac, MAC),
    FIELD(sampled_ethernet, dst_mac, MAC),
    SAID(sampled_ethernet, eth_type, NUMBER, say_hexadecimal),
};

static const struct field SAMPLED_IPV4[] = {
    FIELD(sampled_ipv4, length, NUMBER),
    SAID(sampled_ipv4, protocol, NUMBER, say_ip_protocol),
    FIELD(sampled_ipv4, src_ip, IPV4),
    FIELD(sampled_ipv4, dst_ip, IPV4),
    FIELD(sampled_ipv4, src_port, NUMBER),
    FIELD(sampled_ipv4, dst_port, NUMBER),
    SAID(sampled_ipv4, tcp_flags, NUMBER, say_tcp_flags),
    SAID(sampled_ipv4, tos, NUMBER, say_hexadecimal),
};

static const struct field SAMPLED_IPV6[] = {
    FIELD(sampled_ipv6, length, NUMBER),
    SAID(sampled_ipv6, protocol, NUMBER, say_ip_protocol),
    FIELD(sampled_ipv6, src_ip, IPV6),
    FIELD(sampled_ipv6, dst_ip, IPV6),
    FIELD(sampled_ipv6, src_port, NUMBER),
    FIELD(sampled_ipv6, dst_port, NUMBER),
    SAID(sampled_ipv6, tcp_flags, NUMBER, say_tcp_flags),
    FIELD(sampled_ipv6, priority, NUMBER),
};

static const struct field EXTENDED_SWITCH[] = {
    SAID(extended_switch, src_vlan, NUMBER, say_number_or_unknown),
    SAID(extended_switch, src_priority, NUMBER, say_number_or_unknown),
    SAID(extended_switch, dst_vlan, NUMBER, say_number_or_unknown),
    SAID(extended_switch, dst_priority, NUMBER, say_number_or_unknown),
};

static const struct field EXTENDED_ROUTER[] = {
    FIELD(extended_router, next_hop, ADDRESS),
    FIELD(extended_router, src_mask_len, NUMBER),
    FIELD(extended_router, dst_mask_len, NUMBER),
};

static const struct field EXTENDED_GATEWAY[] = {
    FIELD(extended_gateway, next_hop, ADDRESS),
    FIELD(extended_gateway, as_number, NUMBER),
    FIELD(extended_gateway, src_as, NUMBER),
    FIELD(extended_gateway, src_peer_as, NUMBER),
    FIELD(extended_gateway, dst_as_path, SEGMENTS),
    SAID(extended_gateway, communities, LIST, say_community),
    FIELD(extended_gateway, local_pref, NUMBER),
};

static const struct field EXTENDED_USER[] = {
    FIELD(extended_user, src_charset, NUMBER),
    FIELD(extended_user, src_user, STRING),
    FIELD(extended_user, dst_charset, NUMBER),
    FIELD(extended_user, dst_user, STRING),
};

static const struct field EXTENDED_URL[] = {
    SAID(extended_url, direction, NUMBER, say_direction),
    FIELD(extended_url, url, STRING),
    FIELD(extended_url, host, STRING),
};

static const struct field EXTENDED_MPLS[] = {
    FIELD(extended_mpls, next_hop, ADDRESS),
    SAID(extended_mpls, in_stack, LIST, say_label),
    SAID(extended_mpls, out_stack, LIST, say_label),
};

static const struct field EXTENDED_NAT[] = {
    FIELD(extended_nat, src_address, ADDRESS),
    FIELD(extended_nat, dst_address, ADDRESS),
};

static const struct field EXTENDED_MPLS_TUNNEL[] = {
    FIELD(extended_mpls_tunnel, tunnel_lsp_name, STRING),
    FIELD(extended_mpls_tunnel, tunnel_id, NUMBER),
    FIELD(extended_mpls_tunnel, tunnel_cos, NUMBER),
};

static const struct field EXTENDED_MPLS_VC[] = {
    FIELD(extended_mpls_vc, vc_instance_name, STRING),
    FIELD(extended_mpls_vc, vll_vc_id, NUMBER),
    FIELD(extended_mpls_vc, vc_label, NUMBER),
    FIELD(extended_mpls_vc, vc_cos, NUMBER),
};

static const struct field EXTENDED_MPLS_FEC[] = {
    FIELD(extended_mpls_fec, fec_addr_prefix, ADDRESS),
    FIELD(extended_mpls_fec, fec_prefix_len, NUMBER),
};

static const struct field EXTENDED_MPLS_LVP_FEC[] = {
    FIELD(extended_mpls_lvp_fec, mpls_fec_addr_prefix_length, NUMBER),
};

static const struct field EXTENDED_VLAN_TUNNEL[] = {
    SAID(extended_vlan_tunnel, stack, LIST, say_tag),
};

static const struct field EXTENDED_80211_PAYLOAD[] = {
    SAID(extended_80211_payload, cipher_suite, NUMBER, say_cipher_suite),
    FIELD(extended_80211_payload, data, BYTES),
};

static const struct field EXTENDED_80211_RX[] = {
    FIELD(extended_80211_rx, ssid, STRING),
    FIELD(extended_80211_rx, bssid, MAC),
    SAID(extended_80211_rx, version, NUMBER, say_80211_version),
    FIELD(extended_80211_rx, channel, NUMBER),
    SAID_LONG(extended_80211_rx, speed, LONG, say_bit_s),
    FIELD(extended_80211_rx, rsni, NUMBER),
    FIELD(extended_80211_rx, rcpi, NUMBER),
    SAID(extended_80211_rx, packet_duration, NUMBER, say_microseconds),
};

static const struct field EXTENDED_80211_TX[] = {
    FIELD(extended_80211_tx, ssid, STRING),
    FIELD(extended_80211_tx, bssid, MAC),
    SAID(extended_80211_tx, version, NUMBER, say_80211_version),
    FIELD(extended_80211_tx, transmissions, NUMBER),
    SAID(extended_80211_tx, packet_duration, NUMBER, say_microseconds),
    SAID(extended_80211_tx, retrans_duration, NUMBER, say_microseconds),
    FIELD(extended_80211_tx, channel, NUMBER),
    SAID_LONG(extended_80211_tx, speed, LONG, say_bit_s),
    SAID(extended_80211_tx, power, NUMBER, say_milliwatts),
};

static const struct field EXTENDED_80211_AGGREGATION[] = {
    FIELD(extended_80211_aggregation, pdu_count, NUMBER),
};

static const struct field GENERIC_INTERFACE_COUNTERS[] = {
    FIELD(generic_interface_counters, if_index, NUMBER),
    SAID(generic_interface_counters, if_type, NUMBER, say_iftype),
    SAID_LONG(generic_interface_counters, if_speed, LONG, say_bit_s),
    SAID(generic_interface_counters, if_direction, NUMBER, say_ifdirection),
    SAID(generic_interface_counters, if_status, NUMBER, say_ifstatus),
    SAID_LONG(generic_interface_counters, if_in_octets, LONG, say_octets),
    SAID(generic_interface_counters, if_in_ucast_pkts, NUMBER, say_packets),
    SAID(generic_interface_counters, if_in_multicast_pkts, NUMBER, say_packets),
    SAID(generic_interface_counters, if_in_broadcast_pkts, NUMBER, say_packets),
    SAID(generic_interface_counters, if_in_discards, NUMBER, say_packets),
    SAID(generic_interface_counters, if_in_errors, NUMBER, say_packets),
    SAID(generic_interface_counters, if_in_unknown_protos, NUMBER, say_packets),
    SAID_LONG(generic_interface_counters, if_out_octets, LONG, say_octets),
    SAID(generic_interface_counters, if_out_ucast_pkts, NUMBER, say_packets),
    SAID(generic_interface_counters, if_out_multicast_pkts, NUMBER, say_packets),
    SAID(generic_interface_counters, if_out_broadcast_pkts, NUMBER, say_packets),
    SAID(generic_interface_counters, if_out_discards, NUMBER, say_packets),
    SAID(generic_interface_counters, if_out_errors, NUMBER, say_packets),
    SAID(generic_interface_counters, if_promiscuous_mode, NUMBER, say_truth_value),
};

static const struct field ETHERNET_INTERFACE_COUNTERS[] = {
    SAID(ethernet_interface_counters, dot3_stats_alignment_errors, NUMBER, say_frames),
    SAID(ethernet_interface_counters, dot3_stats_fcs_errors, NUMBER, say_frames),
    SAID(ethernet_interface_counters, dot3_stats_single_collision_frames, NUMBER, say_frames),
    SAID(ethernet_interface_counters, dot3_stats_multiple_collision_frames, NUMBER, say_frames),
    SAID(ethernet_interface_counters, dot3_stats_sqe_test_errors, NUMBER, say_times),
    SAID(ethernet_interface_counters, dot3_stats_deferred_transmissions, NUMBER, say_frames),
    SAID(ethernet_interface_counters, dot3_stats_late_collisions, NUMBER, say_times),
    SAID(ethernet_interface_counters, dot3_stats_excessive_collisions, NUMBER, say_frames),
    SAID(ethernet_interface_counters, dot3_stats_internal_mac_transmit_errors, NUMBER, say_frames),
    SAID(ethernet_interface_counters, dot3_stats_carrier_sense_errors, NUMBER, say_times),
    SAID(ethernet_interface_counters, dot3_stats_frame_too_longs, NUMBER, say_frames),
    SAID(ethernet_interface_counters, dot3_stats_internal_mac_receive_errors, NUMBER, say_frames),
    SAID(ethernet_interface_counters, dot3_stats_symbol_errors, NUMBER, say_times),
};

static const struct field TOKEN_RING_COUNTERS[] = {
    SAID(token_ring_counters, dot5_stats_line_errors, NUMBER, say_times),
    SAID(token_ring_counters, dot5_stats_burst_errors, NUMBER, say_times),
    SAID(token_ring_counters, dot5_stats_ac_errors, NUMBER, say_times),
    SAID(token_ring_counters, dot5_stats_abort_trans_errors, NUMBER, say_times),
    SAID(token_ring_counters, dot5_stats_internal_errors, NUMBER, say_times),
    SAID(token_ring_counters, dot5_stats_lost_frame_errors, NUMBER, say_times),
    SAID(token_ring_counters, dot5_stats_receive_congestions, NUMBER, say_times),
    SAID(token_ring_counters, dot5_stats_frame_copied_errors, NUMBER, say_times),
    SAID(token_ring_counters, dot5_stats_token_errors, NUMBER, say_times),
    SAID(token_ring_counters, dot5_stats_soft_errors, NUMBER, say_times),
    SAID(token_ring_counters, dot5_stats_hard_errors, NUMBER, say_times),
    SAID(token_ring_counters, dot5_stats_signal_loss, NUMBER, say_times),
    SAID(token_ring_counters, dot5_stats_transmit_beacons, NUMBER, say_times),
    SAID(token_ring_counters, dot5_stats_recoverys, NUMBER, say_times),
    SAID(token_ring_counters, dot5_stats_lobe_wires, NUMBER, say_times),
    SAID(token_ring_counters, dot5_stats_removes, NUMBER, say_times),
    SAID(token_ring_counters, dot5_stats_singles, NUMBER, say_times),
    SAID(token_ring_counters, dot5_stats_freq_errors, NUMBER, say_times),
};

static const struct field VG100_INTERFACE_COUNTERS[] = {
    SAID(vg100_interface_counters, dot12_in_high_priority_frames, NUMBER, say_frames),
    SAID_LONG(vg100_interface_counters, dot12_in_high_priority_octets, LONG, say_octets),
    SAID(vg100_interface_counters, dot12_in_norm_priority_frames, NUMBER, say_frames),
    SAID_LONG(vg100_interface_counters, dot12_in_norm_priority_octets, LONG, say_octets),
    SAID(vg100_interface_counters, dot12_in_ipm_errors, NUMBER, say_frames),
    SAID(vg100_interface_counters, dot12_in_oversize_frame_errors, NUMBER, say_frames),
    SAID(vg100_interface_counters, dot12_in_data_errors, NUMBER, say_frames),
    SAID(vg100_interface_counters, dot12_in_null_addressed_frames, NUMBER, say_frames),
    SAID(vg100_interface_counters, dot12_out_high_priority_frames, NUMBER, say_frames),
    SAID_LONG(vg100_interface_counters, dot12_out_high_priority_octets, LONG, say_octets),
    SAID(vg100_interface_counters, dot12_transition_into_trainings, NUMBER, say_times),
    SAID_LONG(vg100_interface_counters, dot12_hc_in_high_priority_octets, LONG, say_octets),
    SAID_LONG(vg100_interface_counters, dot12_hc_in_norm_priority_octets, LONG, say_octets),
    SAID_LONG(vg100_interface_counters, dot12_hc_out_high_priority_octets, LONG, say_octets),
};

static const struct field VLAN_COUNTERS[] = {
    FIELD(vlan_counters, vlan_id, NUMBER),
    SAID_LONG(vlan_counters, octets, LONG, say_octets),
    SAID(vlan_counters, ucast_pkts, NUMBER, say_packets),
    SAID(vlan_counters, multicast_pkts, NUMBER, say_packets),
    SAID(vlan_counters, broadcast_pkts, NUMBER, say_packets),
    SAID(vlan_counters, discards, NUMBER, say_packets),
};

static const struct field PROCESSOR_COUNTERS[] = {
    SAID(processor_counters, cpu_5s, NUMBER, say_percentage),
    SAID(processor_counters, cpu_1m, NUMBER, say_percentage),
    SAID(processor_counters, cpu_5m, NUMBER, say_percentage),
    SAID_LONG(processor_counters, total_memory, LONG, say_memory),
    SAID_LONG(processor_counters, free_memory, LONG, say_memory),
};

const struct layout LAYOUTS[] = {
    LAYOUT(LATCHPLUME_DATAGRAM, 0, header, HEADER),
    LAYOUT(LATCHPLUME_SAMPLE, 1, flow_sample, FLOW_SAMPLE),
    LAYOUT(LATCHPLUME_SAMPLE, 2, counters_sample, COUNTERS_SAMPLE),
    LAYOUT(LATCHPLUME_SAMPLE, 3, flow_sample_expanded, FLOW_SAMPLE_EXPANDED),
    LAYOUT(LATCHPLUME_SAMPLE, 4, counters_sample_expanded, COUNTERS_SAMPLE_EXPANDED),
    LAYOUT(LATCHPLUME_SAMPLE, 5, discarded_packet, DISCARDED_PACKET),
    LAYOUT(LATCHPLUME_FLOW_RECORD, 1, sampled_header, SAMPLED_HEADER),
    LAYOUT_BASE(LATCHPLUME_FLOW_RECORD, 2, sampled_ethernet, SAMPLED_ETHERNET),
    LAYOUT(LATCHPLUME_FLOW_RECORD, 3, sampled_ipv4, SAMPLED_IPV4),
    LAYOUT(LATCHPLUME_FLOW_RECORD, 4, sampled_ipv6, SAMPLED_IPV6),
    LAYOUT(LATCHPLUME_FLOW_RECORD, 1001, extended_switch, EXTENDED_SWITCH),
    LAYOUT(LATCHPLUME_FLOW_RECORD, 1002, extended_router, EXTENDED_ROUTER),
    LAYOUT(LATCHPLUME_FLOW_RECORD, 1003, extended_gateway, EXTENDED_GATEWAY),
    LAYOUT(LATCHPLUME_FLOW_RECORD, 1004, extended_user, EXTENDED_USER),
    LAYOUT(LATCHPLUME_FLOW_RECORD, 1005, extended_url, EXTENDED_URL),
    LAYOUT(LATCHPLUME_FLOW_RECORD, 1006, extended_mpls, EXTENDED_MPLS),
    LAYOUT(LATCHPLUME_FLOW_RECORD, 1007, extended_nat, EXTENDED_NAT),
    LAYOUT(LATCHPLUME_FLOW_RECORD, 1008, extended_mpls_tunnel, EXTENDED_MPLS_TUNNEL),
    LAYOUT(LATCHPLUME_FLOW_RECORD, 1009, extended_mpls_vc, EXTENDED_MPLS_VC),
    LAYOUT(LATCHPLUME_FLOW_RECORD, 1010, extended_mpls_fec, EXTENDED_MPLS_FEC),
    LAYOUT(LATCHPLUME_FLOW_RECORD, 1011, extended_mpls_lvp_fec, EXTENDED_MPLS_LVP_FEC),
    LAYOUT(LATCHPLUME_FLOW_RECORD, 1012, extended_vlan_tunnel, EXTENDED_VLAN_TUNNEL),
    LAYOUT(LATCHPLUME_FLOW_RECORD, 1013, extended_80211_payload, EXTENDED_80211_PAYLOAD),
    LAYOUT(LATCHPLUME_FLOW_RECORD, 1014, extended_80211_rx, EXTENDED_80211_RX),
    LAYOUT(LATCHPLUME_FLOW_RECORD, 1015, extended_80211_tx, EXTENDED_80211_TX),
    LAYOUT(LATCHPLUME_FLOW_RECORD, 1016, extended_80211_aggregation, EXTENDED_80211_AGGREGATION),
    LAYOUT(LATCHPLUME_COUNTER_RECORD, 1, generic_interface_counters, GENERIC_INTERFACE_COUNTERS),
    LAYOUT(LATCHPLUME_COUNTER_RECORD, 2, ethernet_interface_counters, ETHERNET_INTERFACE_COUNTERS),
    LAYOUT(LATCHPLUME_COUNTER_RECORD, 3, token_ring_counters, TOKEN_RING_COUNTERS),
    LAYOUT(LATCHPLUME_COUNTER_RECORD, 4, vg100_interface_counters, VG100_INTERFACE_COUNTERS),
    LAYOUT(LATCHPLUME_COUNTER_RECORD, 5, vlan_counters, VLAN_COUNTERS),
    LAYOUT(LATCHPLUME_COUNTER_RECORD, 1001, processor_counters, PROCESSOR_COUNTERS),
};
/* made by layouts/make: to here */

const size_t LAYOUTS_COUNT = sizeof LAYOUTS / sizeof *LAYOUTS;

const struct layout *layout_of(uint32_t kind, uint32_t format)
{
    for (size_t i = 0; i < LAYOUTS_COUNT; i++)
        if (LAYOUTS[i].kind == kind && LAYOUTS[i].format == format)
            return &LAYOUTS[i];
    return NULL;
}
