/* Reads a datagram from standard input, and writes the records of its flow samples to standard output, each as it came. */
#include "latchplume.h"
#include <stdio.h>

static uint8_t data[65536];
static uint32_t store[LATCHPLUME_STORE_WORDS(sizeof data)];

static void forward(const uint8_t *bytes, size_t count)
{
    fwrite(bytes, 1, count, stdout);
}

int main(void)
{
    size_t n = fread(data, 1, sizeof data, stdin);
    latchplume_decoded got = latchplume_decode(data, n, store, sizeof store / sizeof *store);
    if (got.answer.code != LATCHPLUME_ACCEPTED)
        return fprintf(stderr, "refused with code %u at byte %zu\n", (unsigned)got.answer.code, got.answer.at) > 0;
    for (size_t i = 0; i < got.answer.needed; i++) {
        const uint32_t *one = store + LATCHPLUME_DESCRIPTOR_WORDS * i;
        if (one[LATCHPLUME_KIND] == LATCHPLUME_FLOW_RECORD && one[LATCHPLUME_AT_DEPTH] == 1) {
            latchplume_span all = latchplume_whole(data, n, one);
            forward(data + all.start, all.count);
        }
    }
    return 0;
}
