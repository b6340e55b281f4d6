/* What stands in for packets.c where libpcap is missing. */
#include "packets.h"

#include "input.h"

bool packets_each(const char *name, const uint8_t *data, size_t length, unsigned port,
                  packets_take *take, void *who, struct packets *count)
{
    (void)data, (void)length, (void)port, (void)take, (void)who, (void)count;
    input_trouble(name, "pcap files are not read here, since libpcap-dev was missing: install it and run ./latchplume again");
    return false;
}
