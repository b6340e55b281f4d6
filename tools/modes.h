/* The two readings of a sampled Ethernet record, and the calls that decode by each. */
#ifndef MODES_H
#define MODES_H

#include "latchplume.h"

enum mode {
    MEMO, /* as the memo has it: the calls without `_base` */
    BASE,
    MODES
};

latchplume_decoded mode_decode(enum mode mode, const uint8_t *data, size_t length, uint32_t *store, size_t words);

latchplume_answer mode_decode_run(enum mode mode, const uint8_t *data, size_t length, uint32_t *store, size_t words);

#endif
