#include "modes.h"

latchplume_decoded mode_decode(enum mode mode, const uint8_t *data, size_t length, uint32_t *store, size_t words)
{
    return (mode == BASE ? latchplume_decode_base : latchplume_decode)(data, length, store, words);
}

latchplume_answer mode_decode_run(enum mode mode, const uint8_t *data, size_t length, uint32_t *store, size_t words)
{
    return (mode == BASE ? latchplume_decode_run_base : latchplume_decode_run)(data, length, store, words);
}
