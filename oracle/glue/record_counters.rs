//! In the place of models/record_counters.rs, which the extract lacks. Made by ./derive from parsers/parser_counters.rs: do not edit.

#[derive(Debug, Clone, PartialEq)]
pub struct GenericInterfaceCounters {
    pub if_index: u32,
    pub if_type: u32,
    pub if_speed: u64,
    pub if_direction: u32,
    pub if_status: u32,
    pub if_in_octets: u64,
    pub if_in_ucast_pkts: u32,
    pub if_in_multicast_pkts: u32,
    pub if_in_broadcast_pkts: u32,
    pub if_in_discards: u32,
    pub if_in_errors: u32,
    pub if_in_unknown_protos: u32,
    pub if_out_octets: u64,
    pub if_out_ucast_pkts: u32,
    pub if_out_multicast_pkts: u32,
    pub if_out_broadcast_pkts: u32,
    pub if_out_discards: u32,
    pub if_out_errors: u32,
    pub if_promiscuous_mode: u32,
}

#[derive(Debug, Clone, PartialEq)]
pub struct EthernetInterfaceCounters {
    pub dot3_stats_alignment_errors: u32,
    pub dot3_stats_fcs_errors: u32,
    pub dot3_stats_single_collision_frames: u32,
    pub dot3_stats_multiple_collision_frames: u32,
    pub dot3_stats_sqe_test_errors: u32,
    pub dot3_stats_deferred_transmissions: u32,
    pub dot3_stats_late_collisions: u32,
    pub dot3_stats_excessive_collisions: u32,
    pub dot3_stats_internal_mac_transmit_errors: u32,
    pub dot3_stats_carrier_sense_errors: u32,
    pub dot3_stats_frame_too_longs: u32,
    pub dot3_stats_internal_mac_receive_errors: u32,
    pub dot3_stats_symbol_errors: u32,
}

#[derive(Debug, Clone, PartialEq)]
pub struct TokenRingCounters {
    pub dot5_stats_line_errors: u32,
    pub dot5_stats_burst_errors: u32,
    pub dot5_stats_ac_errors: u32,
    pub dot5_stats_abort_trans_errors: u32,
    pub dot5_stats_internal_errors: u32,
    pub dot5_stats_lost_frame_errors: u32,
    pub dot5_stats_receive_congestions: u32,
    pub dot5_stats_frame_copied_errors: u32,
    pub dot5_stats_token_errors: u32,
    pub dot5_stats_soft_errors: u32,
    pub dot5_stats_hard_errors: u32,
    pub dot5_stats_signal_loss: u32,
    pub dot5_stats_transmit_beacons: u32,
    pub dot5_stats_recoverys: u32,
    pub dot5_stats_lobe_wires: u32,
    pub dot5_stats_removes: u32,
    pub dot5_stats_singles: u32,
    pub dot5_stats_freq_errors: u32,
}

#[derive(Debug, Clone, PartialEq)]
pub struct Vg100InterfaceCounters {
    pub dot12_in_high_priority_frames: u32,
    pub dot12_in_high_priority_octets: u64,
    pub dot12_in_norm_priority_frames: u32,
    pub dot12_in_norm_priority_octets: u64,
    pub dot12_in_ipm_errors: u32,
    pub dot12_in_oversize_frame_errors: u32,
    pub dot12_in_data_errors: u32,
    pub dot12_in_null_addressed_frames: u32,
    pub dot12_out_high_priority_frames: u32,
    pub dot12_out_high_priority_octets: u64,
    pub dot12_transition_into_trainings: u32,
    pub dot12_hc_in_high_priority_octets: u64,
    pub dot12_hc_in_norm_priority_octets: u64,
    pub dot12_hc_out_high_priority_octets: u64,
}

#[derive(Debug, Clone, PartialEq)]
pub struct VlanCounters {
    pub vlan_id: u32,
    pub octets: u64,
    pub ucast_pkts: u32,
    pub multicast_pkts: u32,
    pub broadcast_pkts: u32,
    pub discards: u32,
}

#[derive(Debug, Clone, PartialEq)]
pub struct Ieee80211Counters {
    pub dot11_transmitted_fragment_count: u32,
    pub dot11_multicast_transmitted_frame_count: u32,
    pub dot11_failed_count: u32,
    pub dot11_retry_count: u32,
    pub dot11_multiple_retry_count: u32,
    pub dot11_frame_duplicate_count: u32,
    pub dot11_rts_success_count: u32,
    pub dot11_rts_failure_count: u32,
    pub dot11_ack_failure_count: u32,
    pub dot11_received_fragment_count: u32,
    pub dot11_multicast_received_frame_count: u32,
    pub dot11_fcs_error_count: u32,
    pub dot11_transmitted_frame_count: u32,
    pub dot11_wep_undecryptable_count: u32,
    pub dot11_qos_discarded_fragment_count: u32,
    pub dot11_associated_station_count: u32,
    pub dot11_qos_cf_polls_received_count: u32,
    pub dot11_qos_cf_polls_unused_count: u32,
    pub dot11_qos_cf_polls_unusable_count: u32,
    pub dot11_qos_cf_polls_lost_count: u32,
}

#[derive(Debug, Clone, PartialEq)]
pub struct LagPortStats {
    pub dot3ad_agg_port_actor_system_id: crate::models::MacAddress,
    pub dot3ad_agg_port_partner_oper_system_id: crate::models::MacAddress,
    pub dot3ad_agg_port_attached_agg_id: u32,
    pub dot3ad_agg_port_state: [u8; 4],
    pub dot3ad_agg_port_stats_lacpd_us_rx: u32,
    pub dot3ad_agg_port_stats_marker_pdus_rx: u32,
    pub dot3ad_agg_port_stats_marker_response_pdus_rx: u32,
    pub dot3ad_agg_port_stats_unknown_rx: u32,
    pub dot3ad_agg_port_stats_illegal_rx: u32,
    pub dot3ad_agg_port_stats_lacpd_us_tx: u32,
    pub dot3ad_agg_port_stats_marker_pdus_tx: u32,
    pub dot3ad_agg_port_stats_marker_response_pdus_tx: u32,
}

#[derive(Debug, Clone, PartialEq)]
pub struct SlowPathCounts {
    pub unknown: u32,
    pub other: u32,
    pub cam_miss: u32,
    pub cam_full: u32,
    pub no_hw_support: u32,
    pub cntrl: u32,
}

#[derive(Debug, Clone, PartialEq)]
pub struct InfiniBandCounters {
    pub port_xmit_pkts: u64,
    pub port_rcv_pkts: u64,
    pub symbol_error_counter: u32,
    pub link_error_recovery_counter: u32,
    pub link_downed_counter: u32,
    pub port_rcv_errors: u32,
    pub port_rcv_remote_physical_errors: u32,
    pub port_rcv_switch_relay_errors: u32,
    pub port_xmit_discards: u32,
    pub port_xmit_constraint_errors: u32,
    pub port_rcv_constraint_errors: u32,
    pub local_link_integrity_errors: u32,
    pub excessive_buffer_overrun_errors: u32,
    pub vl15_dropped: u32,
}

#[derive(Debug, Clone, PartialEq)]
pub struct Lane {
    pub index: u32,
    pub tx_bias_current: u32,
    pub tx_power: u32,
    pub tx_power_min: u32,
    pub tx_power_max: u32,
    pub tx_wavelength: u32,
    pub rx_power: u32,
    pub rx_power_min: u32,
    pub rx_power_max: u32,
    pub rx_wavelength: u32,
}

#[derive(Debug, Clone, PartialEq)]
pub struct OpticalSfpQsfp {
    pub module_id: u32,
    pub module_num_lanes: u32,
    pub module_supply_voltage: u32,
    pub module_temperature: i32,
    pub lanes: Vec<Lane>,
}

#[derive(Debug, Clone, PartialEq)]
pub struct ProcessorCounters {
    pub cpu_5s: u32,
    pub cpu_1m: u32,
    pub cpu_5m: u32,
    pub total_memory: u64,
    pub free_memory: u64,
}

#[derive(Debug, Clone, PartialEq)]
pub struct RadioUtilization {
    pub elapsed_time: u32,
    pub on_channel_time: u32,
    pub on_channel_busy_time: u32,
}

#[derive(Debug, Clone, PartialEq)]
pub struct QueueLength {
    pub queue_index: u32,
    pub segment_size: u32,
    pub queue_segments: u32,
    pub queue_length_0: u32,
    pub queue_length_1: u32,
    pub queue_length_2: u32,
    pub queue_length_4: u32,
    pub queue_length_8: u32,
    pub queue_length_32: u32,
    pub queue_length_128: u32,
    pub queue_length_1024: u32,
    pub queue_length_more: u32,
    pub dropped: u32,
}

#[derive(Debug, Clone, PartialEq)]
pub struct OpenFlowPort {
    pub datapath_id: u64,
    pub port_no: u32,
}

#[derive(Debug, Clone, PartialEq)]
pub struct OpenFlowPortName {
    pub port_name: String,
}

#[derive(Debug, Clone, PartialEq)]
pub struct HostDescription {
    pub hostname: String,
    pub uuid: [u8; 16],
    pub machine_type: MachineType,
    pub os_name: OsName,
    pub os_release: String,
}

#[derive(Debug, Clone, PartialEq)]
pub struct HostAdapter {
    pub if_index: u32,
    pub mac_addresses: Vec<crate::models::MacAddress>,
}

#[derive(Debug, Clone, PartialEq)]
pub struct HostAdapters {
    pub adapters: Vec<HostAdapter>,
}

#[derive(Debug, Clone, PartialEq)]
pub struct HostParent {
    pub container_type: u32,
    pub container_index: u32,
}

#[derive(Debug, Clone, PartialEq)]
pub struct HostCpu {
    pub load_one: u32,
    pub load_five: u32,
    pub load_fifteen: u32,
    pub proc_run: u32,
    pub proc_total: u32,
    pub cpu_num: u32,
    pub cpu_speed: u32,
    pub uptime: u32,
    pub cpu_user: u32,
    pub cpu_nice: u32,
    pub cpu_system: u32,
    pub cpu_idle: u32,
    pub cpu_wio: u32,
    pub cpu_intr: u32,
    pub cpu_sintr: u32,
    pub interrupts: u32,
    pub contexts: u32,
}

#[derive(Debug, Clone, PartialEq)]
pub struct HostMemory {
    pub mem_total: u64,
    pub mem_free: u64,
    pub mem_shared: u64,
    pub mem_buffers: u64,
    pub mem_cached: u64,
    pub swap_total: u64,
    pub swap_free: u64,
    pub page_in: u32,
    pub page_out: u32,
    pub swap_in: u32,
    pub swap_out: u32,
}

#[derive(Debug, Clone, PartialEq)]
pub struct HostDiskIo {
    pub disk_total: u64,
    pub disk_free: u64,
    pub part_max_used: i32,
    pub reads: u32,
    pub bytes_read: u64,
    pub read_time: u32,
    pub writes: u32,
    pub bytes_written: u64,
    pub write_time: u32,
}

#[derive(Debug, Clone, PartialEq)]
pub struct HostNetIo {
    pub bytes_in: u64,
    pub pkts_in: u32,
    pub errs_in: u32,
    pub drops_in: u32,
    pub bytes_out: u64,
    pub packets_out: u32,
    pub errs_out: u32,
    pub drops_out: u32,
}

#[derive(Debug, Clone, PartialEq)]
pub struct Mib2IpGroup {
    pub ip_forwarding: u32,
    pub ip_default_ttl: u32,
    pub ip_in_receives: u32,
    pub ip_in_hdr_errors: u32,
    pub ip_in_addr_errors: u32,
    pub ip_forw_datagrams: u32,
    pub ip_in_unknown_protos: u32,
    pub ip_in_discards: u32,
    pub ip_in_delivers: u32,
    pub ip_out_requests: u32,
    pub ip_out_discards: u32,
    pub ip_out_no_routes: u32,
    pub ip_reasm_timeout: u32,
    pub ip_reasm_reqds: u32,
    pub ip_reasm_oks: u32,
    pub ip_reasm_fails: u32,
    pub ip_frag_oks: u32,
    pub ip_frag_fails: u32,
    pub ip_frag_creates: u32,
}

#[derive(Debug, Clone, PartialEq)]
pub struct Mib2IcmpGroup {
    pub icmp_in_msgs: u32,
    pub icmp_in_errors: u32,
    pub icmp_in_dest_unreachs: u32,
    pub icmp_in_time_excds: u32,
    pub icmp_in_param_probs: u32,
    pub icmp_in_src_quenchs: u32,
    pub icmp_in_redirects: u32,
    pub icmp_in_echos: u32,
    pub icmp_in_echo_reps: u32,
    pub icmp_in_timestamps: u32,
    pub icmp_in_addr_masks: u32,
    pub icmp_in_addr_mask_reps: u32,
    pub icmp_out_msgs: u32,
    pub icmp_out_errors: u32,
    pub icmp_out_dest_unreachs: u32,
    pub icmp_out_time_excds: u32,
    pub icmp_out_param_probs: u32,
    pub icmp_out_src_quenchs: u32,
    pub icmp_out_redirects: u32,
    pub icmp_out_echos: u32,
    pub icmp_out_echo_reps: u32,
    pub icmp_out_timestamps: u32,
    pub icmp_out_timestamp_reps: u32,
    pub icmp_out_addr_masks: u32,
    pub icmp_out_addr_mask_reps: u32,
}

#[derive(Debug, Clone, PartialEq)]
pub struct Mib2TcpGroup {
    pub tcp_rto_algorithm: u32,
    pub tcp_rto_min: u32,
    pub tcp_rto_max: u32,
    pub tcp_max_conn: u32,
    pub tcp_active_opens: u32,
    pub tcp_passive_opens: u32,
    pub tcp_attempt_fails: u32,
    pub tcp_estab_resets: u32,
    pub tcp_curr_estab: u32,
    pub tcp_in_segs: u32,
    pub tcp_out_segs: u32,
    pub tcp_retrans_segs: u32,
    pub tcp_in_errs: u32,
    pub tcp_out_rsts: u32,
    pub tcp_in_csum_errs: u32,
}

#[derive(Debug, Clone, PartialEq)]
pub struct Mib2UdpGroup {
    pub udp_in_datagrams: u32,
    pub udp_no_ports: u32,
    pub udp_in_errors: u32,
    pub udp_out_datagrams: u32,
    pub udp_rcvbuf_errors: u32,
    pub udp_sndbuf_errors: u32,
    pub udp_in_csum_errors: u32,
}

#[derive(Debug, Clone, PartialEq)]
pub struct Energy {
    pub voltage: u32,
    pub current: u32,
    pub real_power: u32,
    pub power_factor: i32,
    pub energy: u32,
    pub errors: u32,
}

#[derive(Debug, Clone, PartialEq)]
pub struct VirtualNode {
    pub mhz: u32,
    pub cpus: u32,
    pub memory: u64,
    pub memory_free: u64,
    pub num_domains: u32,
}

#[derive(Debug, Clone, PartialEq)]
pub struct VirtualCpu {
    pub state: u32,
    pub cpu_time: u32,
    pub nr_virt_cpu: u32,
}

#[derive(Debug, Clone, PartialEq)]
pub struct VirtualMemory {
    pub memory: u64,
    pub max_memory: u64,
}

#[derive(Debug, Clone, PartialEq)]
pub struct VirtualDiskIo {
    pub capacity: u64,
    pub allocation: u64,
    pub available: u64,
    pub rd_req: u32,
    pub rd_bytes: u64,
    pub wr_req: u32,
    pub wr_bytes: u64,
    pub errs: u32,
}

#[derive(Debug, Clone, PartialEq)]
pub struct VirtualNetIo {
    pub rx_bytes: u64,
    pub rx_packets: u32,
    pub rx_errs: u32,
    pub rx_drop: u32,
    pub tx_bytes: u64,
    pub tx_packets: u32,
    pub tx_errs: u32,
    pub tx_drop: u32,
}

#[derive(Debug, Clone, PartialEq)]
pub struct JvmRuntime {
    pub vm_name: String,
    pub vm_vendor: String,
    pub vm_version: String,
}

#[derive(Debug, Clone, PartialEq)]
pub struct JvmStatistics {
    pub heap_initial: u64,
    pub heap_used: u64,
    pub heap_committed: u64,
    pub heap_max: u64,
    pub non_heap_initial: u64,
    pub non_heap_used: u64,
    pub non_heap_committed: u64,
    pub non_heap_max: u64,
    pub gc_count: u32,
    pub gc_time: u32,
    pub classes_loaded: u32,
    pub classes_total: u32,
    pub classes_unloaded: u32,
    pub compilation_time: u32,
    pub thread_num_live: u32,
    pub thread_num_daemon: u32,
    pub thread_num_started: u32,
    pub fd_open_count: u32,
    pub fd_max_count: u32,
}

#[derive(Debug, Clone, PartialEq)]
pub struct MemcacheCountersDeprecated {
    pub uptime: u32,
    pub rusage_user: u32,
    pub rusage_system: u32,
    pub curr_connections: u32,
    pub total_connections: u32,
    pub connection_structures: u32,
    pub cmd_get: u32,
    pub cmd_set: u32,
    pub cmd_flush: u32,
    pub get_hits: u32,
    pub get_misses: u32,
    pub delete_misses: u32,
    pub delete_hits: u32,
    pub incr_misses: u32,
    pub incr_hits: u32,
    pub decr_misses: u32,
    pub decr_hits: u32,
    pub cas_misses: u32,
    pub cas_hits: u32,
    pub cas_badval: u32,
    pub auth_cmds: u32,
    pub auth_errors: u32,
    pub bytes_read: u64,
    pub bytes_written: u64,
    pub limit_maxbytes: u32,
    pub accepting_conns: u32,
    pub listen_disabled_num: u32,
    pub threads: u32,
    pub conn_yields: u32,
    pub bytes: u64,
    pub curr_items: u32,
    pub total_items: u32,
    pub evictions: u32,
}

#[derive(Debug, Clone, PartialEq)]
pub struct HttpCounters {
    pub method_option_count: u32,
    pub method_get_count: u32,
    pub method_head_count: u32,
    pub method_post_count: u32,
    pub method_put_count: u32,
    pub method_delete_count: u32,
    pub method_trace_count: u32,
    pub method_connect_count: u32,
    pub method_other_count: u32,
    pub status_1xx_count: u32,
    pub status_2xx_count: u32,
    pub status_3xx_count: u32,
    pub status_4xx_count: u32,
    pub status_5xx_count: u32,
    pub status_other_count: u32,
}

#[derive(Debug, Clone, PartialEq)]
pub struct AppOperations {
    pub application: String,
    pub success: u32,
    pub other: u32,
    pub timeout: u32,
    pub internal_error: u32,
    pub bad_request: u32,
    pub forbidden: u32,
    pub too_large: u32,
    pub not_implemented: u32,
    pub not_found: u32,
    pub unavailable: u32,
    pub unauthorized: u32,
}

#[derive(Debug, Clone, PartialEq)]
pub struct AppResources {
    pub user_time: u32,
    pub system_time: u32,
    pub mem_used: u64,
    pub mem_max: u64,
    pub fd_open: u32,
    pub fd_max: u32,
    pub conn_open: u32,
    pub conn_max: u32,
}

#[derive(Debug, Clone, PartialEq)]
pub struct MemcacheCounters {
    pub cmd_set: u32,
    pub cmd_touch: u32,
    pub cmd_flush: u32,
    pub get_hits: u32,
    pub get_misses: u32,
    pub delete_hits: u32,
    pub delete_misses: u32,
    pub incr_hits: u32,
    pub incr_misses: u32,
    pub decr_hits: u32,
    pub decr_misses: u32,
    pub cas_hits: u32,
    pub cas_misses: u32,
    pub cas_badval: u32,
    pub auth_cmds: u32,
    pub auth_errors: u32,
    pub threads: u32,
    pub conn_yields: u32,
    pub listen_disabled_num: u32,
    pub curr_connections: u32,
    pub rejected_connections: u32,
    pub total_connections: u32,
    pub connection_structures: u32,
    pub evictions: u32,
    pub reclaimed: u32,
    pub curr_items: u32,
    pub total_items: u32,
    pub bytes_read: u64,
    pub bytes_written: u64,
    pub bytes: u64,
    pub limit_maxbytes: u64,
}

#[derive(Debug, Clone, PartialEq)]
pub struct AppWorkers {
    pub workers_active: u32,
    pub workers_idle: u32,
    pub workers_max: u32,
    pub req_delayed: u32,
    pub req_dropped: u32,
}

#[derive(Debug, Clone, PartialEq)]
pub struct OvsDpStats {
    pub hits: u32,
    pub misses: u32,
    pub lost: u32,
    pub mask_hits: u32,
    pub flows: u32,
    pub masks: u32,
}

#[derive(Debug, Clone, PartialEq)]
pub struct Temperature {
    pub minimum: i32,
    pub maximum: i32,
    pub errors: u32,
}

#[derive(Debug, Clone, PartialEq)]
pub struct Humidity {
    pub relative: i32,
}

#[derive(Debug, Clone, PartialEq)]
pub struct Fans {
    pub total: u32,
    pub failed: u32,
    pub speed: u32,
}

#[derive(Debug, Clone, PartialEq)]
pub struct BroadcomDeviceBuffers {
    pub uc_pc: i32,
    pub mc_pc: i32,
}

#[derive(Debug, Clone, PartialEq)]
pub struct BroadcomPortBuffers {
    pub ingress_uc_pc: i32,
    pub ingress_mc_pc: i32,
    pub egress_uc_pc: i32,
    pub egress_mc_pc: i32,
    pub egress_queue_uc_pc: Vec<i32>,
    pub egress_queue_mc_pc: Vec<i32>,
}

#[derive(Debug, Clone, PartialEq)]
pub struct BroadcomTables {
    pub host_entries: u32,
    pub host_entries_max: u32,
    pub ipv4_entries: u32,
    pub ipv4_entries_max: u32,
    pub ipv6_entries: u32,
    pub ipv6_entries_max: u32,
    pub ipv4_ipv6_entries: u32,
    pub ipv6_ipv6_entries_max: u32,
    pub long_ipv6_entries: u32,
    pub long_ipv6_entries_max: u32,
    pub total_routes: u32,
    pub total_routes_max: u32,
    pub ecmp_nexthops: u32,
    pub ecmp_nexthops_max: u32,
    pub mac_entries: u32,
    pub mac_entries_max: u32,
    pub ipv4_neighbors: u32,
    pub ipv6_neighbors: u32,
    pub ipv4_routes: u32,
    pub ipv6_routes: u32,
    pub acl_ingress_entries: u32,
    pub acl_ingress_entries_max: u32,
    pub acl_ingress_counters: u32,
    pub acl_ingress_counters_max: u32,
    pub acl_ingress_meters: u32,
    pub acl_ingress_meters_max: u32,
    pub acl_ingress_slices: u32,
    pub acl_ingress_slices_max: u32,
    pub acl_egress_entries: u32,
    pub acl_egress_entries_max: u32,
    pub acl_egress_counters: u32,
    pub acl_egress_counters_max: u32,
    pub acl_egress_meters: u32,
    pub acl_egress_meters_max: u32,
    pub acl_egress_slices: u32,
    pub acl_egress_slices_max: u32,
}

#[derive(Debug, Clone, PartialEq)]
pub struct NvidiaGpu {
    pub device_count: u32,
    pub processes: u32,
    pub gpu_time: u32,
    pub mem_time: u32,
    pub mem_total: u64,
    pub mem_free: u64,
    pub ecc_errors: u32,
    pub energy: u32,
    pub temperature: u32,
    pub fan_speed: u32,
}

/// Made up: the parser names it in a comment only.
#[derive(Debug, Clone, PartialEq)]
pub struct MachineType(pub u32);

impl From<u32> for MachineType {
    fn from(value: u32) -> Self {
        Self(value)
    }
}

/// Made up: the parser names it in a comment only.
#[derive(Debug, Clone, PartialEq)]
pub struct OsName(pub u32);

impl From<u32> for OsName {
    fn from(value: u32) -> Self {
        Self(value)
    }
}
