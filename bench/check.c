/* Compares the walk with the library: every input on standard input, every truncation of it, and each of its bytes changed in three ways;
   as one datagram and as a run; with a store that has room, with one that just has not, and with none.

   An input is a word with its length, and its bytes. Prints the first difference and `N compared, M differ`; exit status 1 where M > 0.
   Each input is handed over in memory of just its size, for compilers that check every access. */
#include <stdio.h>
#include <stdlib.h>
#include <string.h>

#include "walk.h"

enum { SPARE = LATCHPLUME_DESCRIPTOR_WORDS + 2, MOST_WORDS = 1 << 22 };

typedef latchplume_decoded decoder(const uint8_t *data, size_t length, uint32_t *store, size_t words);

static unsigned long compared, differ;
static uint32_t *stores[2];

static latchplume_decoded as_run(latchplume_answer answer) {
    latchplume_decoded got;
    memset(&got, 0, sizeof got);
    got.answer = answer;
    return got;
}

static latchplume_decoded library_run(const uint8_t *data, size_t length, uint32_t *store, size_t words) {
    return as_run(latchplume_decode_run(data, length, store, words));
}

static latchplume_decoded walk_run(const uint8_t *data, size_t length, uint32_t *store, size_t words) {
    return as_run(walk_decode_run(data, length, store, words));
}

static bool same_answer(latchplume_answer a, latchplume_answer b) {
    return a.code == b.code && a.at == b.at && a.steps == b.steps && a.needed == b.needed;
}

static bool same(const latchplume_decoded *a, const latchplume_decoded *b) {
    return same_answer(a->answer, b->answer) && a->agent_address.kind == b->agent_address.kind &&
           memcmp(a->agent_address.bytes, b->agent_address.bytes, sizeof a->agent_address.bytes) == 0 &&
           a->sub_agent_id == b->sub_agent_id && a->sequence_number == b->sequence_number && a->uptime == b->uptime &&
           a->num_samples == b->num_samples;
}

static void tell(const char *call, const uint8_t *data, size_t length, size_t words, const latchplume_decoded *got) {
    if (differ++ > 0)
        return;
    printf("%s with %zu words:", call, words);
    for (int i = 0; i < 2; i++)
        printf(" %s code=%u at=%zu steps=%zu needed=%zu", i == 0 ? "library" : "walk", got[i].answer.code, got[i].answer.at,
               got[i].answer.steps, got[i].answer.needed);
    printf("\n%zu bytes: ", length);
    for (size_t i = 0; i < length && i < 4096; i++)
        printf("%02x", data[i]);
    printf("\n");
}

/* One call of each, over stores that hold the same beforehand; answers the library's. */
static latchplume_answer both(const char *call, decoder *const who[2], const uint8_t *data, size_t length, size_t words) {
    latchplume_decoded got[2];
    for (int i = 0; i < 2; i++) {
        for (size_t w = 0; w < words + SPARE; w++)
            stores[i][w] = 0xa5a50000u ^ (uint32_t)w * 0x9e3779b9u;
        got[i] = who[i](data, length, stores[i], words);
    }
    compared++;
    if (!same(&got[0], &got[1]) || memcmp(stores[0], stores[1], (words + SPARE) * sizeof *stores[0]) != 0)
        tell(call, data, length, words, got);
    return got[0].answer;
}

static void with_stores(const char *call, decoder *const who[2], const uint8_t *data, size_t length) {
    size_t room = LATCHPLUME_STORE_WORDS(length) + length % SPARE;
    latchplume_answer answer = both(call, who, data, length, room);
    if (answer.code != LATCHPLUME_ACCEPTED || answer.needed == 0)
        return;
    size_t edge = answer.needed * LATCHPLUME_DESCRIPTOR_WORDS;
    both(call, who, data, length, edge);
    both(call, who, data, length, edge - 1);
    both(call, who, data, length, 0);
}

static void check(const uint8_t *from, size_t length) {
    static decoder *const one[] = {latchplume_decode, walk_decode}, *const run[] = {library_run, walk_run};
    uint8_t *data = malloc(length > 0 ? length : 1);
    if (data == NULL)
        exit(2);
    memcpy(data, from, length);
    with_stores("decode", one, data, length);
    with_stores("decode_run", run, data, length);
    free(data);
}

static void check_changed(uint8_t *data, size_t length) {
    static const uint8_t change[] = {0x01, 0x80, 0xff};
    check(data, length);
    for (size_t end = 0; end < length; end++)
        check(data, end);
    for (size_t at = 0; at < length; at++)
        for (size_t i = 0; i < sizeof change; i++) {
            data[at] ^= change[i];
            check(data, length);
            data[at] ^= change[i];
        }
}

int main(void) {
    static uint8_t data[MOST_WORDS / LATCHPLUME_DESCRIPTOR_WORDS * 4];
    uint32_t length;
    for (int i = 0; i < 2; i++)
        if ((stores[i] = malloc((MOST_WORDS + 2 * SPARE) * sizeof *stores[i])) == NULL)
            return 2;
    while (fread(&length, sizeof length, 1, stdin) == 1) {
        if (length > sizeof data || fread(data, 1, length, stdin) != length) {
            fprintf(stderr, "check: an input is cut short, or too long\n");
            return 2;
        }
        check_changed(data, length);
    }
    printf("%lu compared, %lu differ\n", compared, differ);
    return differ > 0;
}
