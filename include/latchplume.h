/*
 * Latchplume: an sFlow version 5 decoder that uses no heap and copies nothing.
 *
 * You lend it the bytes and a store of 32-bit words. It answers every input: either it is accepted, and the store then holds a
 * descriptor for each datagram, sample, record and PDU; or it is refused, and the answer says which rule was broken and where.
 * The fields of what a descriptor stands for are read by a call of their own, one for each format. Link what ./build
 * makes: liblatchplume.a or liblatchplume.so.
 *
 *     uint8_t data[65536];                                     // what came over UDP, n bytes of it
 *     uint32_t store[LATCHPLUME_STORE_WORDS(sizeof data)];     // room for any datagram of that size
 *
 *     latchplume_decoded got = latchplume_decode(data, n, store, sizeof store / sizeof *store);
 *     if (got.answer.code != LATCHPLUME_ACCEPTED)
 *         return refuse(got.answer.code, got.answer.at);
 *     for (size_t i = 0; i < got.answer.needed; i++) {
 *         const uint32_t *one = store + LATCHPLUME_DESCRIPTOR_WORDS * i;
 *         latchplume_sampled_header head = latchplume_read_sampled_header(data, n, one);
 *         if (head.outcome.code == LATCHPLUME_ACCEPTED)       // it is NOT_ASKED for a descriptor of anything else
 *             use_packet(data + head.header.start, head.header.count);
 *     }
 *
 * Rules that hold for every call:
 *   - It answers for every value of its arguments. `data` may be NULL where `length` is 0, and `store` where `words` is 0.
 *   - It reads `length` bytes from `data` on and never writes there. `store` must be aligned for uint32_t and not overlap `data`.
 *   - It keeps nothing between calls, so threads may call it at the same time.
 *   - Positions and starts count from the first byte of `data`.
 *   - A step is one item wholly read and accepted: a word, a 64-bit word, a fixed block, an opaque or a string.
 *   - A refusal leaves every word of the store as it was. Words behind the last descriptor stay as they were in any case.
 */
#ifndef LATCHPLUME_H
#define LATCHPLUME_H

#include <stdbool.h>
#include <stddef.h>
#include <stdint.h>

#ifdef __cplusplus
extern "C" {
#endif

/* The release. Its first number changes where programs must be compiled anew. */
#define LATCHPLUME_RELEASE "0.1.0"

/*
 * The sizes. Each stands here once, and whoever needs one takes it by its name.
 */

/* The longest input that is read, in bytes. */
#define LATCHPLUME_MAX_INPUT 16777216u

/* The longest opaque or string, in bytes without its pad. */
#define LATCHPLUME_MAX_OPAQUE 104857600u

/* The deepest record: one in a PDU of a record at this depth is refused. */
#define LATCHPLUME_MAX_DEPTH 8u

/* The words of a descriptor. A store of w words holds w / LATCHPLUME_DESCRIPTOR_WORDS of them, rounded down. */
#define LATCHPLUME_DESCRIPTOR_WORDS 7u

/* The words of a store that has room for every input of this many bytes: each descriptor owns four bytes of the input. */
#define LATCHPLUME_STORE_WORDS(length) ((size_t)(length) / 4u * LATCHPLUME_DESCRIPTOR_WORDS)

/*
 * What a call answers. A code comes with a position: for 0 the first byte behind what was read, for 2 to 8 the place named here,
 * and 0 for the rest. Code 1 is looked for first, then the first fault in reading order, and 9 last.
 */
enum latchplume_code {
    LATCHPLUME_ACCEPTED = 0,        /* accepted */
    LATCHPLUME_INPUT_LENGTH = 1,    /* input longer than LATCHPLUME_MAX_INPUT */
    LATCHPLUME_PASSES_END = 2,      /* an item passes the end of what encloses it: the item's first byte */
    LATCHPLUME_VERSION = 3,         /* version is not 5: the version word */
    LATCHPLUME_ADDRESS_TYPE = 4,    /* address type above 2: the type word */
    LATCHPLUME_OPAQUE_LENGTH = 5,   /* opaque length above LATCHPLUME_MAX_OPAQUE: the length word */
    LATCHPLUME_HEADER_PROTOCOL = 6, /* header protocol unknown to `HeaderProtocol`, which knows 1 to 17: the protocol word */
    LATCHPLUME_NOT_UTF8 = 7,        /* string is not UTF-8: the first byte of the first ill-formed sequence */
    LATCHPLUME_DEPTH = 8,           /* a record would begin below LATCHPLUME_MAX_DEPTH: where it would begin */
    LATCHPLUME_NO_ROOM = 9,         /* all else accepted, but the store holds fewer than needed; `needed` is given */
    LATCHPLUME_RANGE = 10,          /* field reading: range passes the input */
    LATCHPLUME_NOT_ASKED = 11       /* field reading: kind or format not the one asked */
};

/*
 * The words of a descriptor, by their place. Descriptors stand in the order of their first byte, parents first.
 *
 *   kind      one of enum latchplume_kind
 *   format    the format word; 0 for a datagram and a PDU
 *   start     the first byte: of a datagram its own, of a sample or record its payload's, of a PDU the one behind its record count
 *   length    of a datagram all of it; of a sample or record the payload without pad; of a PDU its records with their pads
 *   parent    the parent's index in the store; LATCHPLUME_NOBODY for a datagram
 *   depth     0 for datagrams and samples, 1 for a sample's own records, d + 1 for records in a PDU of a record at depth d; a PDU has
 *             its record's. At most LATCHPLUME_MAX_DEPTH
 *   first     the first byte of all: of a datagram its start, of a sample or record its format word, of a PDU its record count. A byte of
 *             the parent's range, and at or behind the end of the sibling before
 */
enum latchplume_descriptor_word {
    LATCHPLUME_KIND = 0,
    LATCHPLUME_FORMAT = 1,
    LATCHPLUME_START = 2,
    LATCHPLUME_LENGTH = 3,
    LATCHPLUME_PARENT = 4,
    LATCHPLUME_AT_DEPTH = 5,
    LATCHPLUME_FIRST = 6
};

enum latchplume_kind {
    LATCHPLUME_DATAGRAM = 0,
    LATCHPLUME_SAMPLE = 1,
    LATCHPLUME_FLOW_RECORD = 2,
    LATCHPLUME_COUNTER_RECORD = 3,
    LATCHPLUME_PDU = 4
};

#define LATCHPLUME_NOBODY 4294967295u

/* Decoding. */

typedef struct latchplume_answer {
    uint32_t code;
    size_t at;
    size_t steps;  /* before a refusal; on 0 and 9 those of the whole reading */
    size_t needed; /* descriptors: those written on 0, those that there was no room for on 9, else 0 */
} latchplume_answer;

/* An address: kind 0 has no bytes, 1 is IPv4 in the first four, 2 is IPv6. Unused bytes are zero. */
typedef struct latchplume_address {
    uint32_t kind;
    uint8_t bytes[16];
} latchplume_address;

/* The answer to one datagram, with its header. On a refusal the header is all zero. */
typedef struct latchplume_decoded {
    latchplume_answer answer;
    latchplume_address agent_address;
    uint32_t sub_agent_id;
    uint32_t sequence_number;
    uint32_t uptime;
    uint32_t num_samples;
} latchplume_decoded;

/* One datagram. Bytes behind its last sample are left alone. */
latchplume_decoded latchplume_decode(const uint8_t *data, size_t length, uint32_t *store, size_t words);

/*
 * Datagrams end to end. Code 2 in one of them ends the run there: the answer is 0, its position is where that datagram begins, and
 * the datagrams before it have their descriptors. Any other code refuses the whole run.
 */
latchplume_answer latchplume_decode_run(const uint8_t *data, size_t length, uint32_t *store, size_t words);

/*
 * Both in the base mode, which is for comparing with collectors that read a sampled Ethernet record (flow record, format 2) in 20 bytes,
 * six for each MAC address. The calls without `_base` read it as the sFlow version 5 memo has it: six bytes and two of pad for each
 * address, 24 in all. Nothing else differs. Fields of that format are read by latchplume_read_sampled_ethernet_base then; every other
 * format has one call for both modes.
 */
latchplume_decoded latchplume_decode_base(const uint8_t *data, size_t length, uint32_t *store, size_t words);
latchplume_answer latchplume_decode_run_base(const uint8_t *data, size_t length, uint32_t *store, size_t words);

/* Numbers of two parts in one word. Each is a type of its own, so that one cannot be taken for another. */

typedef struct latchplume_data_format {
    uint32_t word;
} latchplume_data_format;

typedef struct latchplume_data_source {
    uint32_t word;
} latchplume_data_source;

typedef struct latchplume_interface {
    uint32_t word;
} latchplume_interface;

static inline latchplume_data_format latchplume_format_of(const uint32_t *descriptor)
{
    latchplume_data_format format;
    format.word = descriptor[LATCHPLUME_FORMAT];
    return format;
}

/* The enterprise, in the upper 20 bits. */
static inline uint32_t latchplume_enterprise(latchplume_data_format format)
{
    return format.word >> 12;
}

/* The enterprise's own number for the format, in the lower 12. */
static inline uint32_t latchplume_format_number(latchplume_data_format format)
{
    return format.word & 0xfffu;
}

/* The type of a source (0 an interface, 1 a VLAN, 2 a physical entity), in the upper 8 bits. */
static inline uint32_t latchplume_source_type(latchplume_data_source source)
{
    return source.word >> 24;
}

static inline uint32_t latchplume_source_index(latchplume_data_source source)
{
    return source.word & 0xffffffu;
}

/* What an interface's value is (0 an index, 1 the reason of a discard, 2 how many interfaces), in the upper 2 bits. */
static inline uint32_t latchplume_interface_format(latchplume_interface in)
{
    return in.word >> 30;
}

static inline uint32_t latchplume_interface_value(latchplume_interface in)
{
    return in.word & 0x3fffffffu;
}

typedef struct latchplume_data_source_expanded {
    uint32_t source_id_type;
    uint32_t source_id_index;
} latchplume_data_source_expanded;

typedef struct latchplume_interface_expanded {
    uint32_t format;
    uint32_t value;
} latchplume_interface_expanded;

/*
 * Field reading. Each call takes the input and one descriptor of its format. Refusals come in this order: 1, 10, 11, and then what
 * the layout itself meets, held to the descriptor's range. On a refusal the outcome has code, position and steps (0 steps on 1, 10
 * and 11), and all other fields are zero. On 0 the position is the end of the last item read.
 */

typedef struct latchplume_outcome {
    uint32_t code;
    size_t at;
    size_t steps;
} latchplume_outcome;

/*
 * A part of the input. Of an opaque or string: its first byte, and how many bytes. Of a list: where its first word begins, and how
 * many words (latchplume_list_word reads them). Of an AS path: where its first segment begins, and how many segments
 * (latchplume_next_segment reads them). A string is well-formed UTF-8 and may hold any character; it ends in no NUL.
 */
typedef struct latchplume_span {
    size_t start;
    size_t count;
} latchplume_span;

/* made by layouts/make from layouts/table: from here */
/* The header of a datagram: kind 0. */
typedef struct latchplume_header {
    latchplume_outcome outcome;
    uint32_t version;                 /* version of the datagram */
    latchplume_address agent_address; /* IP address of the sampling agent */
    uint32_t sub_agent_id;            /* distinguishes the datagram streams of a device */
    uint32_t sequence_number;         /* counts the datagrams of this sub-agent */
    uint32_t uptime;                  /* milliseconds since the device last booted */
    uint32_t num_samples;             /* how many samples follow */
} latchplume_header;

latchplume_header latchplume_read_header(const uint8_t *data, size_t length, const uint32_t descriptor[LATCHPLUME_DESCRIPTOR_WORDS]);

/* Samples: kind 1, the fields before their records. */

/* Format 1: a packet sampled from a source. */
typedef struct latchplume_flow_sample {
    latchplume_outcome outcome;
    uint32_t sequence_number;         /* counts the flow samples of this sFlow instance */
    latchplume_data_source source_id; /* the source that was sampled */
    uint32_t sampling_rate;           /* one packet in so many is sampled */
    uint32_t sample_pool;             /* packets that could have been sampled */
    uint32_t drops;                   /* samples that were lost for lack of resources */
    latchplume_interface input;       /* interface that the packet came in by */
    latchplume_interface output;      /* interface that it went out by */
    uint32_t num_records;             /* how many flow records follow */
} latchplume_flow_sample;

latchplume_flow_sample latchplume_read_flow_sample(
    const uint8_t *data, size_t length, const uint32_t descriptor[LATCHPLUME_DESCRIPTOR_WORDS]);

/* Format 2: counters of a source. */
typedef struct latchplume_counters_sample {
    latchplume_outcome outcome;
    uint32_t sequence_number;         /* counts the counter samples of this sFlow instance */
    latchplume_data_source source_id; /* the source that was polled */
    uint32_t num_records;             /* how many counter records follow */
} latchplume_counters_sample;

latchplume_counters_sample latchplume_read_counters_sample(
    const uint8_t *data, size_t length, const uint32_t descriptor[LATCHPLUME_DESCRIPTOR_WORDS]);

/* Format 3: as 1, with two words each for the source and the interfaces. */
typedef struct latchplume_flow_sample_expanded {
    latchplume_outcome outcome;
    uint32_t sequence_number;                  /* counts the flow samples of this sFlow instance */
    latchplume_data_source_expanded source_id; /* the source that was sampled */
    uint32_t sampling_rate;                    /* one packet in so many is sampled */
    uint32_t sample_pool;                      /* packets that could have been sampled */
    uint32_t drops;                            /* samples that were lost for lack of resources */
    latchplume_interface_expanded input;       /* interface that the packet came in by */
    latchplume_interface_expanded output;      /* interface that it went out by */
    uint32_t num_records;                      /* how many flow records follow */
} latchplume_flow_sample_expanded;

latchplume_flow_sample_expanded latchplume_read_flow_sample_expanded(
    const uint8_t *data, size_t length, const uint32_t descriptor[LATCHPLUME_DESCRIPTOR_WORDS]);

/* Format 4: as 2, with two words for the source. */
typedef struct latchplume_counters_sample_expanded {
    latchplume_outcome outcome;
    uint32_t sequence_number;                  /* counts the counter samples of this sFlow instance */
    latchplume_data_source_expanded source_id; /* the source that was polled */
    uint32_t num_records;                      /* how many counter records follow */
} latchplume_counters_sample_expanded;

latchplume_counters_sample_expanded latchplume_read_counters_sample_expanded(
    const uint8_t *data, size_t length, const uint32_t descriptor[LATCHPLUME_DESCRIPTOR_WORDS]);

/* Format 5: a packet that was discarded, and why. */
typedef struct latchplume_discarded_packet {
    latchplume_outcome outcome;
    uint32_t sequence_number;                  /* counts the discarded packet records of this source */
    latchplume_data_source_expanded source_id; /* the source that was watched */
    uint32_t drops;                            /* records that were lost by the rate limit or for lack of resources */
    uint32_t input_ifindex;                    /* ifIndex that the packet was received on; 0 if unknown */
    uint32_t output_ifindex;                   /* ifIndex for egress drops; 0 otherwise */
    uint32_t reason;                           /* reason for dropping the packet */
    uint32_t num_records;                      /* how many flow records follow */
} latchplume_discarded_packet;

latchplume_discarded_packet latchplume_read_discarded_packet(
    const uint8_t *data, size_t length, const uint32_t descriptor[LATCHPLUME_DESCRIPTOR_WORDS]);

/* Flow records: kind 2. */

/* Format 1: the packet's first bytes, by the protocol of its header. */
typedef struct latchplume_sampled_header {
    latchplume_outcome outcome;
    uint32_t protocol;      /* format of the sampled header */
    uint32_t frame_length;  /* bytes of the packet before sampling */
    uint32_t stripped;      /* bytes removed from the packet before sampling */
    latchplume_span header; /* bytes: the packet's first bytes */
} latchplume_sampled_header;

latchplume_sampled_header latchplume_read_sampled_header(
    const uint8_t *data, size_t length, const uint32_t descriptor[LATCHPLUME_DESCRIPTOR_WORDS]);

/* Format 2: an Ethernet frame. */
typedef struct latchplume_sampled_ethernet {
    latchplume_outcome outcome;
    uint32_t length;    /* bytes of the MAC packet, with its FCS */
    uint8_t src_mac[6]; /* source MAC address */
    uint8_t dst_mac[6]; /* destination MAC address */
    uint32_t eth_type;  /* Ethernet packet type */
} latchplume_sampled_ethernet;

latchplume_sampled_ethernet latchplume_read_sampled_ethernet(
    const uint8_t *data, size_t length, const uint32_t descriptor[LATCHPLUME_DESCRIPTOR_WORDS]);
latchplume_sampled_ethernet latchplume_read_sampled_ethernet_base(
    const uint8_t *data, size_t length, const uint32_t descriptor[LATCHPLUME_DESCRIPTOR_WORDS]);

/* Format 3: an IPv4 packet. An address is its four bytes as one number, the first of them uppermost. */
typedef struct latchplume_sampled_ipv4 {
    latchplume_outcome outcome;
    uint32_t length;    /* bytes of the IP packet */
    uint32_t protocol;  /* IP protocol type: TCP is 6, UDP is 17 */
    uint32_t src_ip;    /* source IP address */
    uint32_t dst_ip;    /* destination IP address */
    uint32_t src_port;  /* TCP/UDP source port number or equivalent */
    uint32_t dst_port;  /* TCP/UDP destination port number or equivalent */
    uint32_t tcp_flags; /* TCP flags */
    uint32_t tos;       /* IP type of service */
} latchplume_sampled_ipv4;

latchplume_sampled_ipv4 latchplume_read_sampled_ipv4(
    const uint8_t *data, size_t length, const uint32_t descriptor[LATCHPLUME_DESCRIPTOR_WORDS]);

/* Format 4: an IPv6 packet. */
typedef struct latchplume_sampled_ipv6 {
    latchplume_outcome outcome;
    uint32_t length;    /* bytes of the IP packet */
    uint32_t protocol;  /* IP next header: TCP is 6, UDP is 17 */
    uint8_t src_ip[16]; /* source IP address */
    uint8_t dst_ip[16]; /* destination IP address */
    uint32_t src_port;  /* TCP/UDP source port number or equivalent */
    uint32_t dst_port;  /* TCP/UDP destination port number or equivalent */
    uint32_t tcp_flags; /* TCP flags */
    uint32_t priority;  /* IP priority */
} latchplume_sampled_ipv6;

latchplume_sampled_ipv6 latchplume_read_sampled_ipv6(
    const uint8_t *data, size_t length, const uint32_t descriptor[LATCHPLUME_DESCRIPTOR_WORDS]);

/* Format 1001: the VLANs and priorities of a switched packet. */
typedef struct latchplume_extended_switch {
    latchplume_outcome outcome;
    uint32_t src_vlan;     /* 802.1Q VLAN of the incoming frame; 0xffffffff if unknown */
    uint32_t src_priority; /* 802.1p priority of the incoming frame; 0xffffffff if unknown */
    uint32_t dst_vlan;     /* 802.1Q VLAN of the outgoing frame; 0xffffffff if unknown */
    uint32_t dst_priority; /* 802.1p priority of the outgoing frame; 0xffffffff if unknown */
} latchplume_extended_switch;

latchplume_extended_switch latchplume_read_extended_switch(
    const uint8_t *data, size_t length, const uint32_t descriptor[LATCHPLUME_DESCRIPTOR_WORDS]);

/* Format 1002: the next hop of a routed packet, and the masks of its ends. */
typedef struct latchplume_extended_router {
    latchplume_outcome outcome;
    latchplume_address next_hop; /* IP address of the immediate next hop router */
    uint32_t src_mask_len;       /* bits of the source address prefix mask */
    uint32_t dst_mask_len;       /* bits of the destination address prefix mask */
} latchplume_extended_router;

latchplume_extended_router latchplume_read_extended_router(
    const uint8_t *data, size_t length, const uint32_t descriptor[LATCHPLUME_DESCRIPTOR_WORDS]);

/* Format 1003: the BGP route of a packet. */
typedef struct latchplume_extended_gateway {
    latchplume_outcome outcome;
    latchplume_address next_hop; /* IP address of the border router */
    uint32_t as_number;          /* autonomous system number of the router */
    uint32_t src_as;             /* autonomous system number of the source */
    uint32_t src_peer_as;        /* autonomous system number of the source peer */
    latchplume_span dst_as_path; /* segments: AS path to the destination */
    latchplume_span communities; /* a list: communities associated with this route */
    uint32_t local_pref;         /* LocalPref associated with this route */
} latchplume_extended_gateway;

latchplume_extended_gateway latchplume_read_extended_gateway(
    const uint8_t *data, size_t length, const uint32_t descriptor[LATCHPLUME_DESCRIPTOR_WORDS]);

/* Format 1004: the users at both ends of a packet. */
typedef struct latchplume_extended_user {
    latchplume_outcome outcome;
    uint32_t src_charset;     /* character set of src_user, by its MIBEnum */
    latchplume_span src_user; /* a string: user ID associated with the packet source */
    uint32_t dst_charset;     /* character set of dst_user, by its MIBEnum */
    latchplume_span dst_user; /* a string: user ID associated with the packet destination */
} latchplume_extended_user;

latchplume_extended_user latchplume_read_extended_user(
    const uint8_t *data, size_t length, const uint32_t descriptor[LATCHPLUME_DESCRIPTOR_WORDS]);

/* Format 1005: an HTTP request; direction 1 is the source's, 2 the destination's. */
typedef struct latchplume_extended_url {
    latchplume_outcome outcome;
    uint32_t direction;   /* direction of the connection */
    latchplume_span url;  /* a string: the HTTP request-line */
    latchplume_span host; /* a string: the host field from the HTTP header */
} latchplume_extended_url;

latchplume_extended_url latchplume_read_extended_url(
    const uint8_t *data, size_t length, const uint32_t descriptor[LATCHPLUME_DESCRIPTOR_WORDS]);

/* Format 1006: the MPLS label stacks of a packet. */
typedef struct latchplume_extended_mpls {
    latchplume_outcome outcome;
    latchplume_address next_hop; /* IP address of the next hop */
    latchplume_span in_stack;    /* a list: label stack of the received packet */
    latchplume_span out_stack;   /* a list: label stack for the transmitted packet */
} latchplume_extended_mpls;

latchplume_extended_mpls latchplume_read_extended_mpls(
    const uint8_t *data, size_t length, const uint32_t descriptor[LATCHPLUME_DESCRIPTOR_WORDS]);

/* Format 1007: a packet's addresses behind a translation. */
typedef struct latchplume_extended_nat {
    latchplume_outcome outcome;
    latchplume_address src_address; /* source address */
    latchplume_address dst_address; /* destination address */
} latchplume_extended_nat;

latchplume_extended_nat latchplume_read_extended_nat(
    const uint8_t *data, size_t length, const uint32_t descriptor[LATCHPLUME_DESCRIPTOR_WORDS]);

/* Format 1008: the MPLS tunnel. */
typedef struct latchplume_extended_mpls_tunnel {
    latchplume_outcome outcome;
    latchplume_span tunnel_lsp_name; /* a string: tunnel name */
    uint32_t tunnel_id;              /* tunnel ID */
    uint32_t tunnel_cos;             /* tunnel COS value */
} latchplume_extended_mpls_tunnel;

latchplume_extended_mpls_tunnel latchplume_read_extended_mpls_tunnel(
    const uint8_t *data, size_t length, const uint32_t descriptor[LATCHPLUME_DESCRIPTOR_WORDS]);

/* Format 1009: the MPLS virtual circuit. */
typedef struct latchplume_extended_mpls_vc {
    latchplume_outcome outcome;
    latchplume_span vc_instance_name; /* a string: VC instance name */
    uint32_t vll_vc_id;               /* VLL/VC instance ID */
    uint32_t vc_label;                /* VC label */
    uint32_t vc_cos;                  /* VC COS value */
} latchplume_extended_mpls_vc;

latchplume_extended_mpls_vc latchplume_read_extended_mpls_vc(
    const uint8_t *data, size_t length, const uint32_t descriptor[LATCHPLUME_DESCRIPTOR_WORDS]);

/* Format 1010: the forwarding equivalence class, as an address prefix. */
typedef struct latchplume_extended_mpls_fec {
    latchplume_outcome outcome;
    latchplume_address fec_addr_prefix; /* FEC address prefix */
    uint32_t fec_prefix_len;            /* bits of the prefix */
} latchplume_extended_mpls_fec;

latchplume_extended_mpls_fec latchplume_read_extended_mpls_fec(
    const uint8_t *data, size_t length, const uint32_t descriptor[LATCHPLUME_DESCRIPTOR_WORDS]);

/* Format 1011: the forwarding equivalence class, as a prefix length. */
typedef struct latchplume_extended_mpls_lvp_fec {
    latchplume_outcome outcome;
    uint32_t mpls_fec_addr_prefix_length; /* bits of the FEC address prefix */
} latchplume_extended_mpls_lvp_fec;

latchplume_extended_mpls_lvp_fec latchplume_read_extended_mpls_lvp_fec(
    const uint8_t *data, size_t length, const uint32_t descriptor[LATCHPLUME_DESCRIPTOR_WORDS]);

/* Format 1012: the VLAN tags that were taken off, each with its TPID above its TCI. */
typedef struct latchplume_extended_vlan_tunnel {
    latchplume_outcome outcome;
    latchplume_span stack; /* a list: stripped 802.1Q TPID/TCI layers */
} latchplume_extended_vlan_tunnel;

latchplume_extended_vlan_tunnel latchplume_read_extended_vlan_tunnel(
    const uint8_t *data, size_t length, const uint32_t descriptor[LATCHPLUME_DESCRIPTOR_WORDS]);

/* Format 1013: an 802.11 payload before it was encrypted. */
typedef struct latchplume_extended_80211_payload {
    latchplume_outcome outcome;
    uint32_t cipher_suite; /* encryption scheme: an OUI, and its suite type */
    latchplume_span data;  /* bytes: unencrypted bytes from the payload */
} latchplume_extended_80211_payload;

latchplume_extended_80211_payload latchplume_read_extended_80211_payload(
    const uint8_t *data, size_t length, const uint32_t descriptor[LATCHPLUME_DESCRIPTOR_WORDS]);

/* Format 1014: how an 802.11 packet was received. */
typedef struct latchplume_extended_80211_rx {
    latchplume_outcome outcome;
    latchplume_span ssid;     /* a string: SSID */
    uint8_t bssid[6];         /* BSSID */
    uint32_t version;         /* 802.11 version: a is 1, b 2, g 3, n 4 */
    uint32_t channel;         /* channel number */
    uint64_t speed;           /* bits a second */
    uint32_t rsni;            /* received signal to noise ratio */
    uint32_t rcpi;            /* received channel power */
    uint32_t packet_duration; /* microseconds that the packet occupied the RF medium */
} latchplume_extended_80211_rx;

latchplume_extended_80211_rx latchplume_read_extended_80211_rx(
    const uint8_t *data, size_t length, const uint32_t descriptor[LATCHPLUME_DESCRIPTOR_WORDS]);

/* Format 1015: how an 802.11 packet was sent. */
typedef struct latchplume_extended_80211_tx {
    latchplume_outcome outcome;
    latchplume_span ssid;      /* a string: SSID */
    uint8_t bssid[6];          /* BSSID */
    uint32_t version;          /* 802.11 version: a is 1, b 2, g 3, n 4 */
    uint32_t transmissions;    /* number of transmissions; 0 if unknown */
    uint32_t packet_duration;  /* microseconds that the packet occupied the RF medium */
    uint32_t retrans_duration; /* microseconds that failed attempts occupied the RF medium */
    uint32_t channel;          /* channel number */
    uint64_t speed;            /* bits a second */
    uint32_t power;            /* transmit power in mW */
} latchplume_extended_80211_tx;

latchplume_extended_80211_tx latchplume_read_extended_80211_tx(
    const uint8_t *data, size_t length, const uint32_t descriptor[LATCHPLUME_DESCRIPTOR_WORDS]);

/* Format 1016: an 802.11 aggregation: how many PDUs follow. They and their records have descriptors of their own. */
typedef struct latchplume_extended_80211_aggregation {
    latchplume_outcome outcome;
    uint32_t pdu_count; /* how many PDUs follow */
} latchplume_extended_80211_aggregation;

latchplume_extended_80211_aggregation latchplume_read_extended_80211_aggregation(
    const uint8_t *data, size_t length, const uint32_t descriptor[LATCHPLUME_DESCRIPTOR_WORDS]);

/* Counter records: kind 3. */

/* Format 1: the counters of any interface, by RFC 2233. */
typedef struct latchplume_generic_interface_counters {
    latchplume_outcome outcome;
    uint32_t if_index;              /* ifIndex of the interface */
    uint32_t if_type;               /* ifType of the interface */
    uint64_t if_speed;              /* bandwidth of the interface in bits a second */
    uint32_t if_direction;          /* derived from the MAU MIB: 0 unknown, 1 full-duplex, 2 half-duplex, 3 in, 4 out */
    uint32_t if_status;             /* bit 0 is ifAdminStatus, bit 1 is ifOperStatus: 0 is down, 1 is up */
    uint64_t if_in_octets;          /* octets received, framing characters included */
    uint32_t if_in_ucast_pkts;      /* unicast packets received */
    uint32_t if_in_multicast_pkts;  /* multicast packets received */
    uint32_t if_in_broadcast_pkts;  /* broadcast packets received */
    uint32_t if_in_discards;        /* packets received and discarded though they had no errors */
    uint32_t if_in_errors;          /* packets received with errors */
    uint32_t if_in_unknown_protos;  /* packets received and discarded for an unknown or unsupported protocol */
    uint64_t if_out_octets;         /* octets sent, framing characters included */
    uint32_t if_out_ucast_pkts;     /* unicast packets to send, discarded ones included */
    uint32_t if_out_multicast_pkts; /* multicast packets to send, discarded ones included */
    uint32_t if_out_broadcast_pkts; /* broadcast packets to send, discarded ones included */
    uint32_t if_out_discards;       /* packets to send and discarded though they had no errors */
    uint32_t if_out_errors;         /* packets not sent because of errors */
    uint32_t if_promiscuous_mode;   /* whether packets for any station are accepted: 1 is true, 2 is false */
} latchplume_generic_interface_counters;

latchplume_generic_interface_counters latchplume_read_generic_interface_counters(
    const uint8_t *data, size_t length, const uint32_t descriptor[LATCHPLUME_DESCRIPTOR_WORDS]);

/* Format 2: the counters of an Ethernet interface, by RFC 2358. */
typedef struct latchplume_ethernet_interface_counters {
    latchplume_outcome outcome;
    uint32_t dot3_stats_alignment_errors;             /* frames received that are not a whole number of octets and do not pass the FCS check */
    uint32_t dot3_stats_fcs_errors;                   /* frames received that are a whole number of octets and do not pass the FCS check */
    uint32_t dot3_stats_single_collision_frames;      /* frames sent after one collision */
    uint32_t dot3_stats_multiple_collision_frames;    /* frames sent after more than one collision */
    uint32_t dot3_stats_sqe_test_errors;              /* the SQE TEST ERROR message was generated */
    uint32_t dot3_stats_deferred_transmissions;       /* frames whose first attempt was delayed because the medium was busy */
    uint32_t dot3_stats_late_collisions;              /* a collision later than 512 bit-times into the transmission of a packet */
    uint32_t dot3_stats_excessive_collisions;         /* frames not sent because of excessive collisions */
    uint32_t dot3_stats_internal_mac_transmit_errors; /* frames not sent because of an internal MAC sublayer transmit error */
    uint32_t dot3_stats_carrier_sense_errors;         /* carrier sense was lost or never asserted when a frame was to be sent */
    uint32_t dot3_stats_frame_too_longs;              /* frames received that exceed the maximum permitted frame size */
    uint32_t dot3_stats_internal_mac_receive_errors;  /* frames not received because of an internal MAC sublayer receive error */
    uint32_t dot3_stats_symbol_errors;                /* an invalid data symbol when a valid carrier was present */
} latchplume_ethernet_interface_counters;

latchplume_ethernet_interface_counters latchplume_read_ethernet_interface_counters(
    const uint8_t *data, size_t length, const uint32_t descriptor[LATCHPLUME_DESCRIPTOR_WORDS]);

/* Format 3: the counters of a token ring interface, by RFC 1748. */
typedef struct latchplume_token_ring_counters {
    latchplume_outcome outcome;
    uint32_t dot5_stats_line_errors;         /* a frame or token with a non-data bit, or a frame with an FCS error */
    uint32_t dot5_stats_burst_errors;        /* no transitions for five half-bit timers */
    uint32_t dot5_stats_ac_errors;           /* a station that cannot set the AC bits properly */
    uint32_t dot5_stats_abort_trans_errors;  /* an abort delimiter transmitted while transmitting */
    uint32_t dot5_stats_internal_errors;     /* an internal error was recognized */
    uint32_t dot5_stats_lost_frame_errors;   /* the TRR timer expired while transmitting */
    uint32_t dot5_stats_receive_congestions; /* a frame for its own address, and no buffer space available */
    uint32_t dot5_stats_frame_copied_errors; /* a frame for its own address with the A bits set already */
    uint32_t dot5_stats_token_errors;        /* as active monitor it saw an error that needs a token transmitted */
    uint32_t dot5_stats_soft_errors;         /* soft errors, which are the report error MAC frames that it sent */
    uint32_t dot5_stats_hard_errors;         /* immediately recoverable fatal errors */
    uint32_t dot5_stats_signal_loss;         /* loss of signal from the ring */
    uint32_t dot5_stats_transmit_beacons;    /* beacon frames transmitted */
    uint32_t dot5_stats_recoverys;           /* claim token MAC frames received or transmitted after a ring purge */
    uint32_t dot5_stats_lobe_wires;          /* an open or short circuit in the lobe data path */
    uint32_t dot5_stats_removes;             /* a request to leave the ring was received */
    uint32_t dot5_stats_singles;             /* it sensed that it is the only station on the ring */
    uint32_t dot5_stats_freq_errors;         /* the incoming signal's frequency is too far from the expected one */
} latchplume_token_ring_counters;

latchplume_token_ring_counters latchplume_read_token_ring_counters(
    const uint8_t *data, size_t length, const uint32_t descriptor[LATCHPLUME_DESCRIPTOR_WORDS]);

/* Format 4: the counters of a 100BaseVG interface, by RFC 2020. */
typedef struct latchplume_vg100_interface_counters {
    latchplume_outcome outcome;
    uint32_t dot12_in_high_priority_frames;     /* high priority frames received */
    uint64_t dot12_in_high_priority_octets;     /* octets of high priority frames received */
    uint32_t dot12_in_norm_priority_frames;     /* normal priority frames received */
    uint64_t dot12_in_norm_priority_octets;     /* octets of normal priority frames received */
    uint32_t dot12_in_ipm_errors;               /* frames received with an invalid packet marker */
    uint32_t dot12_in_oversize_frame_errors;    /* frames received that exceed the maximum permitted frame size */
    uint32_t dot12_in_data_errors;              /* frames received with errors in their data */
    uint32_t dot12_in_null_addressed_frames;    /* frames received with a null destination address */
    uint32_t dot12_out_high_priority_frames;    /* high priority frames sent */
    uint64_t dot12_out_high_priority_octets;    /* octets of high priority frames sent */
    uint32_t dot12_transition_into_trainings;   /* the interface entered the training state */
    uint64_t dot12_hc_in_high_priority_octets;  /* octets of high priority frames received, as a 64-bit counter */
    uint64_t dot12_hc_in_norm_priority_octets;  /* octets of normal priority frames received, as a 64-bit counter */
    uint64_t dot12_hc_out_high_priority_octets; /* octets of high priority frames sent, as a 64-bit counter */
} latchplume_vg100_interface_counters;

latchplume_vg100_interface_counters latchplume_read_vg100_interface_counters(
    const uint8_t *data, size_t length, const uint32_t descriptor[LATCHPLUME_DESCRIPTOR_WORDS]);

/* Format 5: the counters of a VLAN. */
typedef struct latchplume_vlan_counters {
    latchplume_outcome outcome;
    uint32_t vlan_id;        /* VLAN ID */
    uint64_t octets;         /* octets */
    uint32_t ucast_pkts;     /* unicast packets */
    uint32_t multicast_pkts; /* multicast packets */
    uint32_t broadcast_pkts; /* broadcast packets */
    uint32_t discards;       /* packets discarded */
} latchplume_vlan_counters;

latchplume_vlan_counters latchplume_read_vlan_counters(
    const uint8_t *data, size_t length, const uint32_t descriptor[LATCHPLUME_DESCRIPTOR_WORDS]);

/* Format 1001: the load of the processor, and its memory. */
typedef struct latchplume_processor_counters {
    latchplume_outcome outcome;
    uint32_t cpu_5s;       /* CPU utilization, 5 second average, in hundredths of a percent; 0xffffffff (-1) if unknown */
    uint32_t cpu_1m;       /* CPU utilization, 1 minute average, in hundredths of a percent; 0xffffffff (-1) if unknown */
    uint32_t cpu_5m;       /* CPU utilization, 5 minute average, in hundredths of a percent; 0xffffffff (-1) if unknown */
    uint64_t total_memory; /* total memory in bytes */
    uint64_t free_memory;  /* free memory in bytes */
} latchplume_processor_counters;

latchplume_processor_counters latchplume_read_processor_counters(
    const uint8_t *data, size_t length, const uint32_t descriptor[LATCHPLUME_DESCRIPTOR_WORDS]);

/* made by layouts/make: to here */
/* Where a descriptor's payload lies. It refuses nothing: where code 1 or 10 would apply, start and count are 0. */
latchplume_span latchplume_payload(const uint8_t *data, size_t length, const uint32_t descriptor[LATCHPLUME_DESCRIPTOR_WORDS]);

/*
 * Where all of it lies, from its first byte to the end of its pad, as a relay would forward it: of a sample or record the format word,
 * the length word, the payload and the pad. It refuses nothing: where code 1 would apply, the input ends before that, or the
 * descriptor's first byte is behind its start, start and count are 0.
 */
latchplume_span latchplume_whole(const uint8_t *data, size_t length, const uint32_t descriptor[LATCHPLUME_DESCRIPTOR_WORDS]);

/* Going through what is answered as start and count. */

/* A word of a list; not present, and 0, where the list or the input has none there. */
typedef struct latchplume_listed {
    bool present;
    uint32_t value;
} latchplume_listed;

/* The word with the index n of a list that was answered as start and count. */
latchplume_listed latchplume_list_word(const uint8_t *data, size_t length, size_t start, size_t count, size_t n);

/* A segment of an AS path: kind 1 is a set, 2 a sequence. */
typedef struct latchplume_segment {
    latchplume_outcome outcome;
    uint32_t kind;
    latchplume_span path; /* a list */
} latchplume_segment;

/*
 * The segment that begins at `at`. On code 0, outcome.at is where the next one begins. It is refused with 1 as a field reading is,
 * with 10 where `at` lies behind the input, and with 2.
 */
latchplume_segment latchplume_next_segment(const uint8_t *data, size_t length, size_t at);

#ifdef __cplusplus
}
#endif

#endif
