/* The sFlow datagrams in a pcap or pcapng file: what UDP carried to one port. */
#ifndef PACKETS_H
#define PACKETS_H

#include <stdbool.h>
#include <stddef.h>
#include <stdint.h>

struct packet {
    unsigned long number; /* in the file, from 1 */
    enum {
        WHOLE,
        CUT,     /* with fewer bytes than its headers announce */
        FRAGMENT /* in pieces, of which this is the first */
    } state;
    const uint8_t *data; /* what UDP carried, as far as it is there */
    size_t length;
    size_t announced; /* how much it should be */
};

/* What became of the packets of a capture. */
struct packets {
    unsigned long all, datagrams, cut, fragments, others;
};

typedef void packets_take(void *who, const struct packet *one);

/*
 * Goes through a capture and hands on each packet for the port. Later pieces of a packet name no port: they are counted as fragments
 * and not handed on. Where the file itself is at fault, it says so in one line and answers false.
 */
bool packets_each(const char *name, const uint8_t *data, size_t length, unsigned port,
                  packets_take *take, void *who, struct packets *count);

#endif
