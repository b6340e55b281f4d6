/* For the programs that measure: inputs from standard input, each behind its length, and a call with room in the store. */
#include <stdio.h>
#include <stdlib.h>
#include <string.h>

#include "latchplume.h"

enum { MOST = LATCHPLUME_MAX_INPUT, MIB = MOST / 16, WORDS = LATCHPLUME_STORE_WORDS(MIB) };

static inline int stop(const char *said) {
    fprintf(stderr, "%s\n", said);
    exit(2);
}

/* The next input: how many bytes it has. */
static inline size_t next_input(uint8_t *to, size_t room) {
    uint32_t length;
    if (fread(&length, sizeof length, 1, stdin) != 1 || length > room || fread(to, 1, length, stdin) != length)
        stop("an input is cut short, or too long");
    return length;
}

/* Whether the call of this name is decode_run. */
static inline int is_run(const char *name) {
    if (strcmp(name, "decode") == 0)
        return 0;
    return strcmp(name, "run") == 0 ? 1 : stop("a call is decode or run");
}

static inline latchplume_answer call(int run, const uint8_t *data, size_t length, uint32_t *store) {
    size_t words = LATCHPLUME_STORE_WORDS(length);
    return run ? latchplume_decode_run(data, length, store, words) : latchplume_decode(data, length, store, words).answer;
}
