/* One record out of a file, as a relay would forward it. */
#ifndef CUT_H
#define CUT_H

#include "input.h"
#include "modes.h"
#include "status.h"

/* Which: the descriptor with this index, and of a capture those of one packet, which came to this port; and the mode to decode by. */
struct cut {
    size_t index;
    unsigned long packet; /* from 1; 0 where none is named */
    unsigned port;
    enum mode mode;
};

/*
 * Writes all of what that descriptor stands for to standard output: of a sample or record its format word, its length word, its payload
 * and its pad. Where it is not there, or what it would be in is refused, it says so in one line and writes nothing. The store has room
 * for all descriptors.
 */
enum status cut_out(const struct cut *which, const struct input *in, uint32_t *store, size_t words);

#endif
