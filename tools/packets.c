#include "packets.h"

#include "input.h"

#include <pcap/pcap.h>
#include <stdio.h>
#include <string.h>

/* The captured bytes that are not yet read. */
struct rest {
    const uint8_t *at;
    size_t left;
};

/* What was found in a packet. A later piece of a fragmented one has no header to tell its port by. */
enum found { OTHER, LATER_FRAGMENT, FOR_PORT };

static bool skip(struct rest *r, size_t n)
{
    if (r->left < n)
        return false;
    r->at += n;
    r->left -= n;
    return true;
}

static unsigned two(const uint8_t *b)
{
    return (unsigned)b[0] << 8 | b[1];
}

/* UDP. `carried` is how many bytes the IP packet says that it has here. */
static enum found over_udp(struct rest *r, size_t carried, unsigned port, struct packet *one)
{
    if (r->left < 8 || carried < 8 || two(r->at + 2) != port)
        return OTHER;
    size_t announced = two(r->at + 4);
    skip(r, 8);
    one->data = r->at;
    one->announced = announced < 8 ? 0 : announced - 8;
    one->length = r->left < carried - 8 ? r->left : carried - 8;
    if (announced < 8 || one->length < one->announced)
        one->state = one->state == WHOLE ? CUT : one->state;
    else
        one->length = one->announced;
    return FOR_PORT;
}

static enum found over_ipv4(struct rest *r, unsigned port, struct packet *one)
{
    if (r->left < 20 || r->at[0] >> 4 != 4 || r->at[9] != 17)
        return OTHER;
    size_t header = 4u * (r->at[0] & 15), all = two(r->at + 2);
    unsigned piece = two(r->at + 6);
    if (header < 20 || !skip(r, header))
        return OTHER;
    if (piece & 0x1fff)
        return LATER_FRAGMENT;
    one->state = piece & 0x2000 ? FRAGMENT : WHOLE;
    /* a sender that leaves the length to its network card writes 0 */
    return over_udp(r, all == 0 ? r->left : all < header ? 0 : all - header, port, one);
}

/* Steps over one extension header of IPv6, of which `carried` bytes are left. */
static bool over_extension(struct rest *r, unsigned *next, size_t *carried)
{
    if (r->left < 8)
        return false;
    size_t size = *next == 44 ? 8 : *next == 51 ? 4u * (r->at[1] + 2u) : 8u * (r->at[1] + 1u);
    *next = r->at[0];
    if (size > *carried)
        return false;
    *carried -= size;
    return skip(r, size);
}

static enum found over_ipv6(struct rest *r, unsigned port, struct packet *one)
{
    if (r->left < 40 || r->at[0] >> 4 != 6)
        return OTHER;
    size_t carried = two(r->at + 4);
    unsigned next = r->at[6];
    skip(r, 40);
    one->state = WHOLE;
    while (next == 0 || next == 43 || next == 44 || next == 51 || next == 60) {
        unsigned piece = next == 44 && r->left >= 8 ? two(r->at + 2) : 0;
        if (piece & 0xfff8)
            return r->at[0] == 17 ? LATER_FRAGMENT : OTHER;
        if (piece & 1)
            one->state = FRAGMENT;
        if (!over_extension(r, &next, &carried))
            return OTHER;
    }
    return next == 17 ? over_udp(r, carried, port, one) : OTHER;
}

/* Steps over a header that has an Ethernet type in it, and over VLAN tags: the type. */
static unsigned over_typed(struct rest *r, size_t type_at, size_t header)
{
    if (r->left < header)
        return 0;
    unsigned type = two(r->at + type_at);
    skip(r, header);
    while ((type == 0x8100 || type == 0x88a8 || type == 0x9100) && r->left >= 4) {
        type = two(r->at + 2);
        skip(r, 4);
    }
    return type;
}

static bool is_known(int link)
{
    static const int known[] = {DLT_EN10MB, DLT_LINUX_SLL, DLT_LINUX_SLL2, DLT_NULL, DLT_LOOP, DLT_RAW, DLT_IPV4, DLT_IPV6};
    for (size_t i = 0; i < sizeof known / sizeof *known; i++)
        if (known[i] == link)
            return true;
    return false;
}

static enum found look(int link, struct rest *r, unsigned port, struct packet *one)
{
    unsigned type = 0;
    if (link == DLT_EN10MB)
        type = over_typed(r, 12, 14);
    else if (link == DLT_LINUX_SLL)
        type = over_typed(r, 14, 16);
    else if (link == DLT_LINUX_SLL2)
        type = over_typed(r, 0, 20);
    else if ((link != DLT_NULL && link != DLT_LOOP) || skip(r, 4))
        type = r->left == 0 ? 0 : r->at[0] >> 4 == 4 ? 0x0800 : 0x86dd;
    return type == 0x0800 ? over_ipv4(r, port, one) : type == 0x86dd ? over_ipv6(r, port, one) : OTHER;
}

static void count_one(struct packets *count, enum found found, const struct packet *one)
{
    if (found == OTHER)
        count->others++;
    else if (found == LATER_FRAGMENT || one->state == FRAGMENT)
        count->fragments++;
    else if (one->state == CUT)
        count->cut++;
    else
        count->datagrams++;
}

static bool each(const char *name, pcap_t *from, unsigned port, packets_take *take, void *who, struct packets *count)
{
    struct pcap_pkthdr *about;
    const u_char *bytes;
    int link = pcap_datalink(from), got;
    if (!is_known(link)) {
        const char *known = pcap_datalink_val_to_name(link);
        char said[128];
        snprintf(said, sizeof said, "packets of the link type %s (%d) are not read", known ? known : "unknown", link);
        input_trouble(name, said);
        return false;
    }
    while ((got = pcap_next_ex(from, &about, &bytes)) == 1) {
        struct rest r = {bytes, about->caplen};
        struct packet one = {.number = ++count->all};
        enum found found = look(link, &r, port, &one);
        count_one(count, found, &one);
        if (found == FOR_PORT)
            take(who, &one);
    }
    if (got != PCAP_ERROR_BREAK)
        input_trouble(name, pcap_geterr(from));
    return got == PCAP_ERROR_BREAK;
}

bool packets_each(const char *name, const uint8_t *data, size_t length, unsigned port,
                  packets_take *take, void *who, struct packets *count)
{
    char said[PCAP_ERRBUF_SIZE] = "cannot be read from memory";
    FILE *file = fmemopen((void *)(uintptr_t)data, length, "rb");
    pcap_t *from = file ? pcap_fopen_offline(file, said) : NULL;
    if (from == NULL) {
        input_trouble(name, said);
        if (file)
            fclose(file);
        return false;
    }
    memset(count, 0, sizeof *count);
    bool whole = each(name, from, port, take, who, count);
    pcap_close(from);
    return whole;
}
