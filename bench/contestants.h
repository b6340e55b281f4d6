/* What is measured: each takes one input, as one datagram or as a run, and answers a number that depends on its work. */
#ifndef CONTESTANTS_H
#define CONTESTANTS_H

#include "latchplume.h"

struct input {
    const uint8_t *data;
    size_t length;
    uint32_t *store;
    size_t words;
    bool run;
};

struct contestant {
    const char *name;
    uint64_t (*once)(const struct input *in);
};

extern const struct contestant CONTESTANTS[];
extern const size_t CONTESTANTS_COUNT;

/* The contestant of this name, or NULL. */
const struct contestant *contestant_of(const char *name);

/* Whether library, walk, crate and standard library give the same of an input, as far as each tells: the first difference, or NULL. */
const char *difference(const struct input *in, uint32_t *other_store);

#endif
