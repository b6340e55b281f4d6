/* Reads a datagram from standard input, and prints its sampled headers and SSIDs. */
#include "latchplume.h"
#include <ctype.h>
#include <stdio.h>

static uint8_t data[65536];
static uint32_t store[LATCHPLUME_STORE_WORDS(sizeof data)];

int main(void)
{
    size_t n = fread(data, 1, sizeof data, stdin);
    latchplume_decoded got = latchplume_decode(data, n, store, sizeof store / sizeof *store);
    if (got.answer.code != LATCHPLUME_ACCEPTED)
        return printf("refused with code %u at byte %zu\n", (unsigned)got.answer.code, got.answer.at) > 0;
    for (size_t i = 0; i < got.answer.needed; i++) {
        const uint32_t *one = store + LATCHPLUME_DESCRIPTOR_WORDS * i;
        latchplume_sampled_header head = latchplume_read_sampled_header(data, n, one);
        for (size_t k = 0; k < head.header.count; k++)
            printf("%02x%s", data[head.header.start + k], k + 1 < head.header.count ? "" : "\n");
        latchplume_extended_80211_rx rx = latchplume_read_extended_80211_rx(data, n, one);
        for (size_t k = 0; k < rx.ssid.count; k++) {
            int letter = data[rx.ssid.start + k];
            printf("%c%s", isprint(letter) ? letter : '.', k + 1 < rx.ssid.count ? "" : "\n");
        }
    }
    return 0;
}
