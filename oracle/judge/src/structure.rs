//! The crate's own structure, walked in reading order: what each descriptor and each field must be.

use crate::shape::*;
use crate::value::{sixteen, Value};
use sflow_parser::models::core::{Address, CounterData, CounterRecord, DropReason, FlowData, FlowRecord, SFlowDatagram};
use sflow_parser::models::core::{SampleData, SampleRecord};
use sflow_parser::models::record_counters::{GenericInterfaceCounters, TokenRingCounters, Vg100InterfaceCounters};
use sflow_parser::models::record_flows::{AsPathSegment, HeaderProtocol, UrlDirection};

/// A field as the crate holds it.
pub enum Held<'a> {
    Word(u32),
    Long(u64),
    Six([u8; 6]),
    Sixteen([u8; 16]),
    Protocol(HeaderProtocol),
    Reason(DropReason),
    Direction(UrlDirection),
    Address(&'a Address),
    Bytes(&'a [u8]),
    Words(&'a [u32]),
    Path(&'a [AsPathSegment]),
}

/// What a descriptor stands for.
pub struct Node<'a> {
    pub kind: u32,
    pub format: u32,
    pub parent: u32,
    pub depth: u32,
    /// The payload, of what the crate keeps raw.
    pub raw: Option<&'a [u8]>,
    pub held: Vec<Held<'a>>,
    /// The crate opened it and the rules keep it raw.
    pub opened: bool,
}

/// An address as a field reading answers it.
pub fn address(of: &Address) -> Value {
    match of {
        Address::Unknown => Value::Address(0, [0; 16]),
        Address::IPv4(four) => Value::Address(1, sixteen(&four.octets())),
        Address::IPv6(six) => Value::Address(2, six.octets()),
    }
}

/// The nodes of datagrams end to end.
pub fn nodes(datagrams: &[SFlowDatagram]) -> Vec<Node<'_>> {
    let mut all = Vec::new();
    for datagram in datagrams {
        add_datagram(datagram, &mut all);
    }
    all
}

fn add<'a>(all: &mut Vec<Node<'a>>, kind: u32, format: u32, parent: u32, depth: u32) -> u32 {
    all.push(Node { kind, format, parent, depth, raw: None, held: Vec::new(), opened: false });
    all.len() as u32 - 1
}

fn add_datagram<'a>(datagram: &'a SFlowDatagram, all: &mut Vec<Node<'a>>) {
    let own = add(all, DATAGRAM, 0, NOBODY, 0);
    all[own as usize].held = vec![
        Held::Word(datagram.version as u32),
        Held::Address(&datagram.agent_address),
        Held::Word(datagram.sub_agent_id),
        Held::Word(datagram.sequence_number),
        Held::Word(datagram.uptime),
        Held::Word(datagram.samples.len() as u32),
    ];
    for sample in &datagram.samples {
        add_sample(sample, own, all);
    }
}

fn add_sample<'a>(sample: &'a SampleRecord, parent: u32, all: &mut Vec<Node<'a>>) {
    let own = add(all, SAMPLE, sample.sample_type.0, parent, 0);
    let node = &mut all[own as usize];
    let (flows, counters): (&[FlowRecord], &[CounterRecord]) = match &sample.sample_data {
        SampleData::FlowSample(s) => (&s.flow_records, &[]),
        SampleData::FlowSampleExpanded(s) => (&s.flow_records, &[]),
        SampleData::DiscardedPacket(s) => (&s.flow_records, &[]),
        SampleData::CountersSample(s) => (&[], &s.counters),
        SampleData::CountersSampleExpanded(s) => (&[], &s.counters),
        SampleData::RtMetric { data, .. } | SampleData::RtFlow { data, .. } | SampleData::Unknown { data, .. } => {
            node.raw = Some(data);
            (&[], &[])
        }
    };
    if node.raw.is_none() {
        node.held = sample_fields(&sample.sample_data);
        node.held.push(Held::Word((flows.len() + counters.len()) as u32));
    }
    for record in flows {
        add_flow(record, own, 1, all);
    }
    for record in counters {
        add_counter(record, own, all);
    }
}

/// The fields before the count of records.
fn sample_fields(data: &SampleData) -> Vec<Held<'_>> {
    let words: Vec<u32> = match data {
        SampleData::FlowSample(s) => {
            vec![s.sequence_number, s.source_id.0, s.sampling_rate, s.sample_pool, s.drops, s.input.0, s.output.0]
        }
        SampleData::CountersSample(s) => vec![s.sequence_number, s.source_id.0],
        SampleData::FlowSampleExpanded(s) => {
            let (of, i, o) = (&s.source_id, &s.input, &s.output);
            let head = [s.sequence_number, of.source_id_type, of.source_id_index, s.sampling_rate, s.sample_pool, s.drops];
            [&head[..], &[i.format, i.value, o.format, o.value]].concat()
        }
        SampleData::CountersSampleExpanded(s) => vec![s.sequence_number, s.source_id.source_id_type, s.source_id.source_id_index],
        SampleData::DiscardedPacket(s) => {
            let of = &s.source_id;
            vec![s.sequence_number, of.source_id_type, of.source_id_index, s.drops, s.input_ifindex, s.output_ifindex]
        }
        _ => Vec::new(),
    };
    let mut held: Vec<Held> = words.into_iter().map(Held::Word).collect();
    if let SampleData::DiscardedPacket(s) = data {
        held.push(Held::Reason(s.reason));
    }
    held
}

fn add_counter<'a>(record: &'a CounterRecord, parent: u32, all: &mut Vec<Node<'a>>) {
    let own = add(all, COUNTER, record.counter_format.0, parent, 1);
    let node = &mut all[own as usize];
    match &record.counter_data {
        CounterData::Unknown { data, .. } => node.raw = Some(data),
        data => match counter_fields(data) {
            Some(held) => node.held = held,
            None => node.opened = true,
        },
    }
}

fn add_flow<'a>(record: &'a FlowRecord, parent: u32, depth: u32, all: &mut Vec<Node<'a>>) {
    let own = add(all, FLOW, record.flow_format.0, parent, depth);
    let node = &mut all[own as usize];
    match &record.flow_data {
        FlowData::Unknown { data, .. } => node.raw = Some(data),
        FlowData::Extended80211Aggregation(a) => {
            node.held.push(Held::Word(a.pdus.len() as u32));
            for pdu in &a.pdus {
                let inner = add(all, PDU, 0, own, depth);
                for record in &pdu.flow_records {
                    add_flow(record, inner, depth + 1, all);
                }
            }
        }
        data => match sampled_fields(data).or_else(|| extended_fields(data)).or_else(|| wireless_fields(data)) {
            Some(held) => node.held = held,
            None => node.opened = true,
        },
    }
}

fn words<'a>(of: &[u32]) -> Vec<Held<'a>> {
    of.iter().map(|word| Held::Word(*word)).collect()
}

/// Formats 1 to 4.
fn sampled_fields(data: &FlowData) -> Option<Vec<Held<'_>>> {
    use Held::*;
    Some(match data {
        FlowData::SampledHeader(r) => {
            vec![Protocol(r.protocol), Word(r.frame_length), Word(r.stripped), Bytes(&r.header)]
        }
        FlowData::SampledEthernet(r) => vec![Word(r.length), Six(r.src_mac.0), Six(r.dst_mac.0), Word(r.eth_type)],
        FlowData::SampledIpv4(r) => {
            let (source, destination) = (u32::from(r.src_ip), u32::from(r.dst_ip));
            words(&[r.length, r.protocol, source, destination, r.src_port, r.dst_port, r.tcp_flags, r.tos])
        }
        FlowData::SampledIpv6(r) => {
            let mut held = words(&[r.length, r.protocol]);
            held.extend([Sixteen(r.src_ip.octets()), Sixteen(r.dst_ip.octets())]);
            held.extend(words(&[r.src_port, r.dst_port, r.tcp_flags, r.priority]));
            held
        }
        _ => return None,
    })
}

/// Formats 1001 to 1012.
fn extended_fields(data: &FlowData) -> Option<Vec<Held<'_>>> {
    use Held::*;
    Some(match data {
        FlowData::ExtendedSwitch(r) => words(&[r.src_vlan, r.src_priority, r.dst_vlan, r.dst_priority]),
        FlowData::ExtendedRouter(r) => vec![Address(&r.next_hop), Word(r.src_mask_len), Word(r.dst_mask_len)],
        FlowData::ExtendedGateway(r) => {
            let mut held = vec![Address(&r.next_hop), Word(r.as_number), Word(r.src_as), Word(r.src_peer_as)];
            held.extend([Path(&r.dst_as_path), Words(&r.communities), Word(r.local_pref)]);
            held
        }
        FlowData::ExtendedUser(r) => {
            let (source, destination) = (r.src_user.as_bytes(), r.dst_user.as_bytes());
            vec![Word(r.src_charset), Bytes(source), Word(r.dst_charset), Bytes(destination)]
        }
        FlowData::ExtendedUrl(r) => vec![Direction(r.direction), Bytes(r.url.as_bytes()), Bytes(r.host.as_bytes())],
        FlowData::ExtendedMpls(r) => vec![Address(&r.next_hop), Words(&r.in_stack), Words(&r.out_stack)],
        FlowData::ExtendedNat(r) => vec![Address(&r.src_address), Address(&r.dst_address)],
        FlowData::ExtendedMplsTunnel(r) => vec![Bytes(r.tunnel_lsp_name.as_bytes()), Word(r.tunnel_id), Word(r.tunnel_cos)],
        FlowData::ExtendedMplsVc(r) => {
            vec![Bytes(r.vc_instance_name.as_bytes()), Word(r.vll_vc_id), Word(r.vc_label), Word(r.vc_cos)]
        }
        FlowData::ExtendedMplsFec(r) => vec![Address(&r.fec_addr_prefix), Word(r.fec_prefix_len)],
        FlowData::ExtendedMplsLvpFec(r) => vec![Word(r.mpls_fec_addr_prefix_length)],
        FlowData::ExtendedVlanTunnel(r) => vec![Words(&r.stack)],
        _ => return None,
    })
}

/// Formats 1013 to 1015.
fn wireless_fields(data: &FlowData) -> Option<Vec<Held<'_>>> {
    use Held::*;
    Some(match data {
        FlowData::Extended80211Payload(r) => vec![Word(r.cipher_suite), Bytes(&r.data)],
        FlowData::Extended80211Rx(r) => {
            let mut held = vec![Bytes(r.ssid.as_bytes()), Six(r.bssid.0), Word(r.version), Word(r.channel), Long(r.speed)];
            held.extend(words(&[r.rsni, r.rcpi, r.packet_duration]));
            held
        }
        FlowData::Extended80211Tx(r) => {
            let mut held = vec![Bytes(r.ssid.as_bytes()), Six(r.bssid.0)];
            held.extend(words(&[r.version, r.transmissions, r.packet_duration, r.retrans_duration, r.channel]));
            held.extend([Long(r.speed), Word(r.power)]);
            held
        }
        _ => return None,
    })
}

/// Counter formats 1 to 5 and 1001.
fn counter_fields(data: &CounterData) -> Option<Vec<Held<'_>>> {
    use Held::*;
    Some(match data {
        CounterData::GenericInterface(r) => generic_interface_fields(r),
        CounterData::EthernetInterface(r) => words(&[
            r.dot3_stats_alignment_errors,
            r.dot3_stats_fcs_errors,
            r.dot3_stats_single_collision_frames,
            r.dot3_stats_multiple_collision_frames,
            r.dot3_stats_sqe_test_errors,
            r.dot3_stats_deferred_transmissions,
            r.dot3_stats_late_collisions,
            r.dot3_stats_excessive_collisions,
            r.dot3_stats_internal_mac_transmit_errors,
            r.dot3_stats_carrier_sense_errors,
            r.dot3_stats_frame_too_longs,
            r.dot3_stats_internal_mac_receive_errors,
            r.dot3_stats_symbol_errors,
        ]),
        CounterData::TokenRing(r) => token_ring_fields(r),
        CounterData::Vg100Interface(r) => vg100_interface_fields(r),
        CounterData::Vlan(r) => {
            let mut held = vec![Word(r.vlan_id), Long(r.octets)];
            held.extend(words(&[r.ucast_pkts, r.multicast_pkts, r.broadcast_pkts, r.discards]));
            held
        }
        CounterData::Processor(r) => {
            let mut held = words(&[r.cpu_5s, r.cpu_1m, r.cpu_5m]);
            held.extend([Long(r.total_memory), Long(r.free_memory)]);
            held
        }
        _ => return None,
    })
}

fn generic_interface_fields(r: &GenericInterfaceCounters) -> Vec<Held<'_>> {
    use Held::*;
    let mut held = vec![Word(r.if_index), Word(r.if_type), Long(r.if_speed), Word(r.if_direction), Word(r.if_status)];
    held.extend([Long(r.if_in_octets), Word(r.if_in_ucast_pkts), Word(r.if_in_multicast_pkts), Word(r.if_in_broadcast_pkts)]);
    held.extend(words(&[r.if_in_discards, r.if_in_errors, r.if_in_unknown_protos]));
    held.extend([Long(r.if_out_octets), Word(r.if_out_ucast_pkts), Word(r.if_out_multicast_pkts), Word(r.if_out_broadcast_pkts)]);
    held.extend(words(&[r.if_out_discards, r.if_out_errors, r.if_promiscuous_mode]));
    held
}

fn token_ring_fields(r: &TokenRingCounters) -> Vec<Held<'_>> {
    words(&[
        r.dot5_stats_line_errors,
        r.dot5_stats_burst_errors,
        r.dot5_stats_ac_errors,
        r.dot5_stats_abort_trans_errors,
        r.dot5_stats_internal_errors,
        r.dot5_stats_lost_frame_errors,
        r.dot5_stats_receive_congestions,
        r.dot5_stats_frame_copied_errors,
        r.dot5_stats_token_errors,
        r.dot5_stats_soft_errors,
        r.dot5_stats_hard_errors,
        r.dot5_stats_signal_loss,
        r.dot5_stats_transmit_beacons,
        r.dot5_stats_recoverys,
        r.dot5_stats_lobe_wires,
        r.dot5_stats_removes,
        r.dot5_stats_singles,
        r.dot5_stats_freq_errors,
    ])
}

fn vg100_interface_fields(r: &Vg100InterfaceCounters) -> Vec<Held<'_>> {
    use Held::*;
    let mut held = vec![Word(r.dot12_in_high_priority_frames), Long(r.dot12_in_high_priority_octets)];
    held.extend([Word(r.dot12_in_norm_priority_frames), Long(r.dot12_in_norm_priority_octets)]);
    held.extend(words(&[r.dot12_in_ipm_errors, r.dot12_in_oversize_frame_errors, r.dot12_in_data_errors]));
    held.extend([Word(r.dot12_in_null_addressed_frames), Word(r.dot12_out_high_priority_frames)]);
    held.extend([Long(r.dot12_out_high_priority_octets), Word(r.dot12_transition_into_trainings)]);
    held.extend([Long(r.dot12_hc_in_high_priority_octets), Long(r.dot12_hc_in_norm_priority_octets)]);
    held.push(Long(r.dot12_hc_out_high_priority_octets));
    held
}
