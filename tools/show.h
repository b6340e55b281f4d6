/* A datagram as a tree that people can read. */
#ifndef SHOW_H
#define SHOW_H

#include "values.h"

/* A datagram's descriptors, whose starts and first bytes count from the input's first byte. False where a field could not be read. */
bool show_datagram(const struct shown *s, unsigned long number, const uint32_t *descriptors, size_t count);

/* Why the datagram that begins at `from` is refused, what can be read of its header, and the bytes around the fault. */
void show_refusal(const struct shown *s, unsigned long number, size_t from, const latchplume_answer *answer);

#endif
