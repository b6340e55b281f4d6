/* Where a string goes bad, in words. */
#ifndef FAULT_H
#define FAULT_H

#include <stddef.h>
#include <stdint.h>

struct fault {
    char where[512];    /* the sample, the records down to the one that holds the string, its name, and the field's */
    char expected[128]; /* what RFC 3629 has there, and what stands there */
};

/* Of a datagram from `from` on, which is refused with code 7 at `at`; both count from the first byte of the data. */
void fault_find(struct fault *f, const uint8_t *data, size_t length, size_t from, size_t at);

#endif
