//! The library's calls and structs as ../../../include/latchplume.h declares them. `c_checks` writes a C program that does not compile
//! where one of these declarations is not the header's.

use crate::shape::{Descriptor, Mode, DESCRIPTOR_WORDS, ETHERNET, FLOW, LAYOUTS, MAX_DEPTH, MAX_INPUT, MAX_OPAQUE, NOBODY};
use crate::value::Value;
use std::fmt::Write;
use std::mem::{offset_of, size_of};

/// A type that a struct of the library has fields of.
trait Part {
    /// Whether C initialises it with braces.
    const BRACED: bool;
    fn put(&self, into: &mut Vec<Value>);
}

impl Part for u32 {
    const BRACED: bool = false;
    fn put(&self, into: &mut Vec<Value>) {
        into.push(Value::Word(*self));
    }
}

impl Part for u64 {
    const BRACED: bool = false;
    fn put(&self, into: &mut Vec<Value>) {
        into.push(Value::Long(*self));
    }
}

/// Sizes and truth values are parts of answers and outcomes, which are compared by name.
impl Part for usize {
    const BRACED: bool = false;
    fn put(&self, _: &mut Vec<Value>) {}
}

impl Part for bool {
    const BRACED: bool = false;
    fn put(&self, _: &mut Vec<Value>) {}
}

impl<const N: usize> Part for [u8; N] {
    const BRACED: bool = true;
    fn put(&self, into: &mut Vec<Value>) {
        into.push(Value::block(self));
    }
}

/// Structs whose fields are fields of the struct that they are in.
macro_rules! flat {
    ($($name:ident: $($field:ident)*;)*) => { $(
        impl Part for $name {
            const BRACED: bool = true;
            fn put(&self, into: &mut Vec<Value>) {
                let _ = &into;
                $(self.$field.put(into);)*
            }
        }
    )* };
}

flat! {
    Answer: ;
    Outcome: ;
    DataSource: word;
    Interface: word;
    DataSourceExpanded: source_id_type source_id_index;
    InterfaceExpanded: format value;
}

impl Part for Address {
    const BRACED: bool = true;
    fn put(&self, into: &mut Vec<Value>) {
        into.push(Value::Address(self.kind, self.bytes));
    }
}

impl Part for Span {
    const BRACED: bool = true;
    fn put(&self, into: &mut Vec<Value>) {
        into.push(Value::Span(self.start, self.count));
    }
}

/// A struct with its name in C and its fields, and `values`, which are its fields in order but for answer and outcome.
macro_rules! structs {
    ($($name:ident $c:ident { $($field:ident: $kind:ty,)* })*) => {
        $(
            #[repr(C)]
            #[derive(Clone, Copy, Debug)]
            pub struct $name {
                $(pub $field: $kind,)*
            }

            impl $name {
                #[allow(dead_code)]
                pub fn values(&self) -> Vec<Value> {
                    let mut all = Vec::new();
                    $(Part::put(&self.$field, &mut all);)*
                    all
                }
            }
        )*

        fn c_structs(out: &mut String) {
            $(
                let mut zeros = Vec::new();
                $(
                    assert_field(out, stringify!($c), stringify!($field), offset_of!($name, $field), size_of::<$kind>());
                    zeros.push(if <$kind as Part>::BRACED { "{0}" } else { "0" });
                )*
                assert_struct(out, stringify!($c), size_of::<$name>(), &zeros);
            )*
        }
    };
}

fn assert_field(out: &mut String, of: &str, field: &str, offset: usize, size: usize) {
    let _ = writeln!(out, "_Static_assert(offsetof({of}, {field}) == {offset}, \"{of}.{field}: place\");");
    let _ = writeln!(out, "_Static_assert(sizeof((({of} *)0)->{field}) == {size}, \"{of}.{field}: size\");");
}

/// A field too few or too many shows in the list of zeros.
fn assert_struct(out: &mut String, of: &str, size: usize, zeros: &[&str]) {
    let _ = writeln!(out, "_Static_assert(sizeof({of}) == {size}, \"{of}: size\");");
    let _ = writeln!(out, "const {of} zero_{of} = {{{}}};", zeros.join(", "));
}

structs! {
    Answer latchplume_answer { code: u32, at: usize, steps: usize, needed: usize, }
    Address latchplume_address { kind: u32, bytes: [u8; 16], }
    Decoded latchplume_decoded {
        answer: Answer, agent_address: Address, sub_agent_id: u32, sequence_number: u32, uptime: u32, num_samples: u32,
    }
    DataSource latchplume_data_source { word: u32, }
    Interface latchplume_interface { word: u32, }
    DataSourceExpanded latchplume_data_source_expanded { source_id_type: u32, source_id_index: u32, }
    InterfaceExpanded latchplume_interface_expanded { format: u32, value: u32, }
    Outcome latchplume_outcome { code: u32, at: usize, steps: usize, }
    Span latchplume_span { start: usize, count: usize, }
    Listed latchplume_listed { present: bool, value: u32, }
    Segment latchplume_segment { outcome: Outcome, kind: u32, path: Span, }
    Header latchplume_header {
        outcome: Outcome, version: u32, agent_address: Address, sub_agent_id: u32, sequence_number: u32, uptime: u32,
        num_samples: u32,
    }
    FlowSample latchplume_flow_sample {
        outcome: Outcome, sequence_number: u32, source_id: DataSource, sampling_rate: u32, sample_pool: u32, drops: u32,
        input: Interface, output: Interface, num_records: u32,
    }
    CountersSample latchplume_counters_sample {
        outcome: Outcome, sequence_number: u32, source_id: DataSource, num_records: u32,
    }
    FlowSampleExpanded latchplume_flow_sample_expanded {
        outcome: Outcome, sequence_number: u32, source_id: DataSourceExpanded, sampling_rate: u32, sample_pool: u32, drops: u32,
        input: InterfaceExpanded, output: InterfaceExpanded, num_records: u32,
    }
    CountersSampleExpanded latchplume_counters_sample_expanded {
        outcome: Outcome, sequence_number: u32, source_id: DataSourceExpanded, num_records: u32,
    }
    DiscardedPacket latchplume_discarded_packet {
        outcome: Outcome, sequence_number: u32, source_id: DataSourceExpanded, drops: u32, input_ifindex: u32,
        output_ifindex: u32, reason: u32, num_records: u32,
    }
    SampledHeader latchplume_sampled_header { outcome: Outcome, protocol: u32, frame_length: u32, stripped: u32, header: Span, }
    SampledEthernet latchplume_sampled_ethernet {
        outcome: Outcome, length: u32, src_mac: [u8; 6], dst_mac: [u8; 6], eth_type: u32,
    }
    SampledIpv4 latchplume_sampled_ipv4 {
        outcome: Outcome, length: u32, protocol: u32, src_ip: u32, dst_ip: u32, src_port: u32, dst_port: u32, tcp_flags: u32,
        tos: u32,
    }
    SampledIpv6 latchplume_sampled_ipv6 {
        outcome: Outcome, length: u32, protocol: u32, src_ip: [u8; 16], dst_ip: [u8; 16], src_port: u32, dst_port: u32,
        tcp_flags: u32, priority: u32,
    }
    ExtendedSwitch latchplume_extended_switch {
        outcome: Outcome, src_vlan: u32, src_priority: u32, dst_vlan: u32, dst_priority: u32,
    }
    ExtendedRouter latchplume_extended_router { outcome: Outcome, next_hop: Address, src_mask_len: u32, dst_mask_len: u32, }
    ExtendedGateway latchplume_extended_gateway {
        outcome: Outcome, next_hop: Address, as_number: u32, src_as: u32, src_peer_as: u32, dst_as_path: Span,
        communities: Span, local_pref: u32,
    }
    ExtendedUser latchplume_extended_user {
        outcome: Outcome, src_charset: u32, src_user: Span, dst_charset: u32, dst_user: Span,
    }
    ExtendedUrl latchplume_extended_url { outcome: Outcome, direction: u32, url: Span, host: Span, }
    ExtendedMpls latchplume_extended_mpls { outcome: Outcome, next_hop: Address, in_stack: Span, out_stack: Span, }
    ExtendedNat latchplume_extended_nat { outcome: Outcome, src_address: Address, dst_address: Address, }
    ExtendedMplsTunnel latchplume_extended_mpls_tunnel {
        outcome: Outcome, tunnel_lsp_name: Span, tunnel_id: u32, tunnel_cos: u32,
    }
    ExtendedMplsVc latchplume_extended_mpls_vc {
        outcome: Outcome, vc_instance_name: Span, vll_vc_id: u32, vc_label: u32, vc_cos: u32,
    }
    ExtendedMplsFec latchplume_extended_mpls_fec { outcome: Outcome, fec_addr_prefix: Address, fec_prefix_len: u32, }
    ExtendedMplsLvpFec latchplume_extended_mpls_lvp_fec { outcome: Outcome, mpls_fec_addr_prefix_length: u32, }
    ExtendedVlanTunnel latchplume_extended_vlan_tunnel { outcome: Outcome, stack: Span, }
    Extended80211Payload latchplume_extended_80211_payload { outcome: Outcome, cipher_suite: u32, data: Span, }
    Extended80211Rx latchplume_extended_80211_rx {
        outcome: Outcome, ssid: Span, bssid: [u8; 6], version: u32, channel: u32, speed: u64, rsni: u32, rcpi: u32,
        packet_duration: u32,
    }
    Extended80211Tx latchplume_extended_80211_tx {
        outcome: Outcome, ssid: Span, bssid: [u8; 6], version: u32, transmissions: u32, packet_duration: u32,
        retrans_duration: u32, channel: u32, speed: u64, power: u32,
    }
    Extended80211Aggregation latchplume_extended_80211_aggregation { outcome: Outcome, pdu_count: u32, }
    GenericInterfaceCounters latchplume_generic_interface_counters {
        outcome: Outcome, if_index: u32, if_type: u32, if_speed: u64, if_direction: u32, if_status: u32, if_in_octets: u64,
        if_in_ucast_pkts: u32, if_in_multicast_pkts: u32, if_in_broadcast_pkts: u32, if_in_discards: u32, if_in_errors: u32,
        if_in_unknown_protos: u32, if_out_octets: u64, if_out_ucast_pkts: u32, if_out_multicast_pkts: u32,
        if_out_broadcast_pkts: u32, if_out_discards: u32, if_out_errors: u32, if_promiscuous_mode: u32,
    }
    EthernetInterfaceCounters latchplume_ethernet_interface_counters {
        outcome: Outcome, dot3_stats_alignment_errors: u32, dot3_stats_fcs_errors: u32,
        dot3_stats_single_collision_frames: u32, dot3_stats_multiple_collision_frames: u32, dot3_stats_sqe_test_errors: u32,
        dot3_stats_deferred_transmissions: u32, dot3_stats_late_collisions: u32, dot3_stats_excessive_collisions: u32,
        dot3_stats_internal_mac_transmit_errors: u32, dot3_stats_carrier_sense_errors: u32, dot3_stats_frame_too_longs: u32,
        dot3_stats_internal_mac_receive_errors: u32, dot3_stats_symbol_errors: u32,
    }
    TokenRingCounters latchplume_token_ring_counters {
        outcome: Outcome, dot5_stats_line_errors: u32, dot5_stats_burst_errors: u32, dot5_stats_ac_errors: u32,
        dot5_stats_abort_trans_errors: u32, dot5_stats_internal_errors: u32, dot5_stats_lost_frame_errors: u32,
        dot5_stats_receive_congestions: u32, dot5_stats_frame_copied_errors: u32, dot5_stats_token_errors: u32,
        dot5_stats_soft_errors: u32, dot5_stats_hard_errors: u32, dot5_stats_signal_loss: u32,
        dot5_stats_transmit_beacons: u32, dot5_stats_recoverys: u32, dot5_stats_lobe_wires: u32, dot5_stats_removes: u32,
        dot5_stats_singles: u32, dot5_stats_freq_errors: u32,
    }
    Vg100InterfaceCounters latchplume_vg100_interface_counters {
        outcome: Outcome, dot12_in_high_priority_frames: u32, dot12_in_high_priority_octets: u64,
        dot12_in_norm_priority_frames: u32, dot12_in_norm_priority_octets: u64, dot12_in_ipm_errors: u32,
        dot12_in_oversize_frame_errors: u32, dot12_in_data_errors: u32, dot12_in_null_addressed_frames: u32,
        dot12_out_high_priority_frames: u32, dot12_out_high_priority_octets: u64, dot12_transition_into_trainings: u32,
        dot12_hc_in_high_priority_octets: u64, dot12_hc_in_norm_priority_octets: u64, dot12_hc_out_high_priority_octets: u64,
    }
    VlanCounters latchplume_vlan_counters {
        outcome: Outcome, vlan_id: u32, octets: u64, ucast_pkts: u32, multicast_pkts: u32, broadcast_pkts: u32, discards: u32,
    }
    ProcessorCounters latchplume_processor_counters {
        outcome: Outcome, cpu_5s: u32, cpu_1m: u32, cpu_5m: u32, total_memory: u64, free_memory: u64,
    }
}

/// The field readings, by their row of `shape::LAYOUTS`.
macro_rules! readings {
    ($($row:literal $name:ident $c:ident $call:ident;)*) => {
        extern "C" {
            $(fn $call(data: *const u8, length: usize, descriptor: *const u32) -> $name;)*
        }

        /// The field reading of a row of `shape::LAYOUTS`, of row 7 the memo's: its outcome and its values.
        fn read_row(row: usize, data: &[u8], descriptor: &Descriptor) -> (Outcome, Vec<Value>) {
            match row {
                $($row => {
                    // SAFETY: the pointers are those of a slice and of a descriptor's words, as the header asks for.
                    let got = unsafe { $call(data.as_ptr(), data.len(), descriptor.as_ptr()) };
                    (got.outcome, got.values())
                })*
                _ => unreachable!("no field reading has the row {row}"),
            }
        }

        fn c_readings(out: &mut String) {
            $(
                let (c, call) = (stringify!($c), stringify!($call));
                let _ = writeln!(out, "{c} (*const call_{call})(const uint8_t *, size_t, const uint32_t *) = {call};");
            )*
        }
    };
}

readings! {
    0 Header latchplume_header latchplume_read_header;
    1 FlowSample latchplume_flow_sample latchplume_read_flow_sample;
    2 CountersSample latchplume_counters_sample latchplume_read_counters_sample;
    3 FlowSampleExpanded latchplume_flow_sample_expanded latchplume_read_flow_sample_expanded;
    4 CountersSampleExpanded latchplume_counters_sample_expanded latchplume_read_counters_sample_expanded;
    5 DiscardedPacket latchplume_discarded_packet latchplume_read_discarded_packet;
    6 SampledHeader latchplume_sampled_header latchplume_read_sampled_header;
    7 SampledEthernet latchplume_sampled_ethernet latchplume_read_sampled_ethernet;
    8 SampledIpv4 latchplume_sampled_ipv4 latchplume_read_sampled_ipv4;
    9 SampledIpv6 latchplume_sampled_ipv6 latchplume_read_sampled_ipv6;
    10 ExtendedSwitch latchplume_extended_switch latchplume_read_extended_switch;
    11 ExtendedRouter latchplume_extended_router latchplume_read_extended_router;
    12 ExtendedGateway latchplume_extended_gateway latchplume_read_extended_gateway;
    13 ExtendedUser latchplume_extended_user latchplume_read_extended_user;
    14 ExtendedUrl latchplume_extended_url latchplume_read_extended_url;
    15 ExtendedMpls latchplume_extended_mpls latchplume_read_extended_mpls;
    16 ExtendedNat latchplume_extended_nat latchplume_read_extended_nat;
    17 ExtendedMplsTunnel latchplume_extended_mpls_tunnel latchplume_read_extended_mpls_tunnel;
    18 ExtendedMplsVc latchplume_extended_mpls_vc latchplume_read_extended_mpls_vc;
    19 ExtendedMplsFec latchplume_extended_mpls_fec latchplume_read_extended_mpls_fec;
    20 ExtendedMplsLvpFec latchplume_extended_mpls_lvp_fec latchplume_read_extended_mpls_lvp_fec;
    21 ExtendedVlanTunnel latchplume_extended_vlan_tunnel latchplume_read_extended_vlan_tunnel;
    22 Extended80211Payload latchplume_extended_80211_payload latchplume_read_extended_80211_payload;
    23 Extended80211Rx latchplume_extended_80211_rx latchplume_read_extended_80211_rx;
    24 Extended80211Tx latchplume_extended_80211_tx latchplume_read_extended_80211_tx;
    25 Extended80211Aggregation latchplume_extended_80211_aggregation latchplume_read_extended_80211_aggregation;
    26 GenericInterfaceCounters latchplume_generic_interface_counters latchplume_read_generic_interface_counters;
    27 EthernetInterfaceCounters latchplume_ethernet_interface_counters latchplume_read_ethernet_interface_counters;
    28 TokenRingCounters latchplume_token_ring_counters latchplume_read_token_ring_counters;
    29 Vg100InterfaceCounters latchplume_vg100_interface_counters latchplume_read_vg100_interface_counters;
    30 VlanCounters latchplume_vlan_counters latchplume_read_vlan_counters;
    31 ProcessorCounters latchplume_processor_counters latchplume_read_processor_counters;
}

extern "C" {
    fn latchplume_decode(data: *const u8, length: usize, store: *mut u32, words: usize) -> Decoded;
    fn latchplume_decode_run(data: *const u8, length: usize, store: *mut u32, words: usize) -> Answer;
    fn latchplume_decode_base(data: *const u8, length: usize, store: *mut u32, words: usize) -> Decoded;
    fn latchplume_decode_run_base(data: *const u8, length: usize, store: *mut u32, words: usize) -> Answer;
    fn latchplume_read_sampled_ethernet_base(data: *const u8, length: usize, descriptor: *const u32) -> SampledEthernet;
    fn latchplume_payload(data: *const u8, length: usize, descriptor: *const u32) -> Span;
    fn latchplume_whole(data: *const u8, length: usize, descriptor: *const u32) -> Span;
    fn latchplume_list_word(data: *const u8, length: usize, start: usize, count: usize, n: usize) -> Listed;
    fn latchplume_next_segment(data: *const u8, length: usize, at: usize) -> Segment;
}

const OTHER_CALLS: &str = "\
latchplume_decoded (*const call_decode)(const uint8_t *, size_t, uint32_t *, size_t) = latchplume_decode;
latchplume_answer (*const call_run)(const uint8_t *, size_t, uint32_t *, size_t) = latchplume_decode_run;
latchplume_decoded (*const call_decode_base)(const uint8_t *, size_t, uint32_t *, size_t) = latchplume_decode_base;
latchplume_answer (*const call_run_base)(const uint8_t *, size_t, uint32_t *, size_t) = latchplume_decode_run_base;
latchplume_sampled_ethernet (*const call_ethernet_base)(const uint8_t *, size_t, const uint32_t *) = latchplume_read_sampled_ethernet_base;
latchplume_span (*const call_payload)(const uint8_t *, size_t, const uint32_t *) = latchplume_payload;
latchplume_span (*const call_whole)(const uint8_t *, size_t, const uint32_t *) = latchplume_whole;
latchplume_listed (*const call_word)(const uint8_t *, size_t, size_t, size_t, size_t) = latchplume_list_word;
latchplume_segment (*const call_segment)(const uint8_t *, size_t, size_t) = latchplume_next_segment;
";

/// C that compiles only where every declaration here is the header's.
pub fn c_checks() -> String {
    let mut out = String::from("#include \"latchplume.h\"\n");
    let sizes = [
        ("DESCRIPTOR_WORDS", DESCRIPTOR_WORDS),
        ("MAX_INPUT", MAX_INPUT),
        ("MAX_OPAQUE", MAX_OPAQUE),
        ("MAX_DEPTH", MAX_DEPTH as usize),
        ("NOBODY", NOBODY as usize),
    ];
    for (name, size) in sizes {
        let _ = writeln!(out, "_Static_assert(LATCHPLUME_{name} == {size}, \"{name}\");");
    }
    c_structs(&mut out);
    c_readings(&mut out);
    out + OTHER_CALLS
}

// SAFETY, of all that follow: the pointers and lengths are those of slices that live through the call and do not overlap.

pub fn decode(data: &[u8], store: &mut [u32], mode: Mode) -> Decoded {
    let call = match mode {
        Mode::Memo => latchplume_decode,
        Mode::Base => latchplume_decode_base,
    };
    unsafe { call(data.as_ptr(), data.len(), store.as_mut_ptr(), store.len()) }
}

pub fn decode_run(data: &[u8], store: &mut [u32], mode: Mode) -> Answer {
    let call = match mode {
        Mode::Memo => latchplume_decode_run,
        Mode::Base => latchplume_decode_run_base,
    };
    unsafe { call(data.as_ptr(), data.len(), store.as_mut_ptr(), store.len()) }
}

/// The field reading of a row of `shape::LAYOUTS`: its outcome and its values. Only that of a sampled Ethernet record is each mode's own.
pub fn read(row: usize, data: &[u8], descriptor: &Descriptor, mode: Mode) -> (Outcome, Vec<Value>) {
    if mode == Mode::Base && (LAYOUTS[row].kind, LAYOUTS[row].format) == (FLOW, ETHERNET) {
        let got = unsafe { latchplume_read_sampled_ethernet_base(data.as_ptr(), data.len(), descriptor.as_ptr()) };
        return (got.outcome, got.values());
    }
    read_row(row, data, descriptor)
}

pub fn payload(data: &[u8], descriptor: &Descriptor) -> Span {
    unsafe { latchplume_payload(data.as_ptr(), data.len(), descriptor.as_ptr()) }
}

pub fn whole(data: &[u8], descriptor: &Descriptor) -> Span {
    unsafe { latchplume_whole(data.as_ptr(), data.len(), descriptor.as_ptr()) }
}

pub fn list_word(data: &[u8], start: usize, count: usize, n: usize) -> Listed {
    unsafe { latchplume_list_word(data.as_ptr(), data.len(), start, count, n) }
}

pub fn next_segment(data: &[u8], at: usize) -> Segment {
    unsafe { latchplume_next_segment(data.as_ptr(), data.len(), at) }
}
