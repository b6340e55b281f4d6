/* A walk over datagrams in plain C, for comparison: answers and descriptors as latchplume_decode and latchplume_decode_run give them, and
   the same promise about the store. */
#ifndef WALK_H
#define WALK_H

#include "latchplume.h"

latchplume_decoded walk_decode(const uint8_t *data, size_t length, uint32_t *store, size_t words);
latchplume_answer walk_decode_run(const uint8_t *data, size_t length, uint32_t *store, size_t words);

#endif
