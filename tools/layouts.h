/* Every layout that the library reads: its name, the calls that read it, and its fields by their names. */
#ifndef LAYOUTS_H
#define LAYOUTS_H

#include "modes.h"

enum shape {
    NUMBER,             /* uint32_t */
    LONG,               /* uint64_t */
    MAC,                /* uint8_t[6] */
    IPV4,               /* uint32_t */
    IPV6,               /* uint8_t[16] */
    ADDRESS,            /* latchplume_address */
    SOURCE,             /* latchplume_data_source */
    SOURCE_EXPANDED,    /* latchplume_data_source_expanded */
    INTERFACE,          /* latchplume_interface */
    INTERFACE_EXPANDED, /* latchplume_interface_expanded */
    BYTES,              /* latchplume_span, as are the rest */
    STRING,
    LIST,
    SEGMENTS
};

struct field {
    const char *name;
    enum shape shape;
    size_t offset;              /* in the struct that the call answers */
    void (*say)(uint32_t);      /* what a number, or a word of a list, means; may be NULL */
    void (*say_long)(uint64_t); /* the same of a LONG */
};

/* What any of the calls answers; the outcome comes first in each. */
union reading {
    latchplume_outcome outcome;
    /* made by layouts/make from layouts/table: from here */
    latchplume_header header;
    latchplume_flow_sample flow_sample;
    latchplume_counters_sample counters_sample;
    latchplume_flow_sample_expanded flow_sample_expanded;
    latchplume_counters_sample_expanded counters_sample_expanded;
    latchplume_discarded_packet discarded_packet;
    latchplume_sampled_header sampled_header;
    latchplume_sampled_ethernet sampled_ethernet;
    latchplume_sampled_ipv4 sampled_ipv4;
    latchplume_sampled_ipv6 sampled_ipv6;
    latchplume_extended_switch extended_switch;
    latchplume_extended_router extended_router;
    latchplume_extended_gateway extended_gateway;
    latchplume_extended_user extended_user;
    latchplume_extended_url extended_url;
    latchplume_extended_mpls extended_mpls;
    latchplume_extended_nat extended_nat;
    latchplume_extended_mpls_tunnel extended_mpls_tunnel;
    latchplume_extended_mpls_vc extended_mpls_vc;
    latchplume_extended_mpls_fec extended_mpls_fec;
    latchplume_extended_mpls_lvp_fec extended_mpls_lvp_fec;
    latchplume_extended_vlan_tunnel extended_vlan_tunnel;
    latchplume_extended_80211_payload extended_80211_payload;
    latchplume_extended_80211_rx extended_80211_rx;
    latchplume_extended_80211_tx extended_80211_tx;
    latchplume_extended_80211_aggregation extended_80211_aggregation;
    latchplume_generic_interface_counters generic_interface_counters;
    latchplume_ethernet_interface_counters ethernet_interface_counters;
    latchplume_token_ring_counters token_ring_counters;
    latchplume_vg100_interface_counters vg100_interface_counters;
    latchplume_vlan_counters vlan_counters;
    latchplume_processor_counters processor_counters;
    /* made by layouts/make: to here */
};

struct layout {
    uint32_t kind;
    uint32_t format;
    const char *name;
    void (*read[MODES])(union reading *into, const uint8_t *data, size_t length, const uint32_t *descriptor);
    const struct field *fields;
    size_t count;
};

extern const struct layout LAYOUTS[];
extern const size_t LAYOUTS_COUNT;

/* The layout of a kind and format word, or NULL. */
const struct layout *layout_of(uint32_t kind, uint32_t format);

#endif
