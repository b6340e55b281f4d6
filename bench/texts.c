/* Compares where strings go bad, as the library, the walk and Rust's from_utf8 tell it: the library's two calls and its field reading, and
   the walk's two calls. Every text on standard input is tried at each of its lengths: as it is, and with bytes in it that are no UTF-8 or
   make what is beside them none, at each of its places. A place or length counts where it is near either end, or at the edge of a window.
   Then every string of up to four bytes at the edges of the table, by itself and in a text, across the edge of a window.

   A text is a word with its length, and its bytes. Prints the first difference and `N compared, M differ`; exit status 1 where M > 0. Each
   input is handed over in memory of just its size, its string last, for compilers that check every access. */
#include <stdio.h>
#include <stdlib.h>
#include <string.h>

#include "walk.h"

enum { MOST = 4096, NEAR = 80, WINDOW = 64 };
/* of a datagram with one record of format 1005: where the record's payload and its last string begin, the items before that string and
   with it, and the descriptors */
enum { PAYLOAD = 72, TEXT = 84, STEPS_BEFORE = 20, STEPS = 21, NEEDED = 3 };

/* bench/crate/src/lib.rs: the bytes before the first ill-formed sequence. */
size_t std_well_formed(const uint8_t *data, size_t length);

static unsigned long compared, differ;

static void put_word(uint8_t *to, size_t word) {
    for (int i = 0; i < 4; i++)
        to[i] = (uint8_t)(word >> (24 - 8 * i));
}

/* A datagram of one sample with one record of format 1005, whose last string is this one, and whose pad could go on with a character;
   answers its length. */
static size_t fill(uint8_t *to, const uint8_t *text, size_t length) {
    size_t padded = (length + 3) / 4 * 4, payload = 12 + padded;
    const size_t words[] = {5, 0, 0, 1, 0, 1, 1, 40 + payload, 0, 0, 0, 0, 0, 0, 0, 1, 1005, payload, 1, 0, length};
    memset(to, 0x80, TEXT + padded);
    for (size_t i = 0; i < sizeof words / sizeof *words; i++)
        put_word(to + 4 * i, words[i]);
    memcpy(to + TEXT, text, length);
    return TEXT + padded;
}

static bool same(latchplume_answer a, latchplume_answer b) {
    return a.code == b.code && a.at == b.at && a.steps == b.steps && a.needed == b.needed;
}

static void tell(const char *who, const uint8_t *text, size_t length, latchplume_answer expected, latchplume_answer got) {
    if (differ++ > 0)
        return;
    printf("%s: code=%u at=%zu steps=%zu needed=%zu, not", who, got.code, got.at, got.steps, got.needed);
    printf(" code=%u at=%zu steps=%zu needed=%zu\n%zu bytes: ", expected.code, expected.at, expected.steps, expected.needed, length);
    for (size_t i = 0; i < length; i++)
        printf("%02x", text[i]);
    printf("\n");
}

/* What the field reading of the record answers, as a call that decodes would: with the items before it, and all descriptors or none. */
static latchplume_answer fields(const uint8_t *data, size_t length) {
    const uint32_t record[LATCHPLUME_DESCRIPTOR_WORDS] = {LATCHPLUME_FLOW_RECORD, 1005, PAYLOAD, (uint32_t)length - PAYLOAD, 1, 1, PAYLOAD - 8};
    latchplume_outcome got = latchplume_read_extended_url(data, length, record).outcome;
    return (latchplume_answer){got.code, got.at, got.steps + PAYLOAD / 4, got.code == LATCHPLUME_ACCEPTED ? NEEDED : 0};
}

static void check(const uint8_t *text, size_t length) {
    uint32_t store[NEEDED * LATCHPLUME_DESCRIPTOR_WORDS];
    const size_t words = sizeof store / sizeof *store, good = std_well_formed(text, length);
    uint8_t *data = malloc((TEXT + length + 3) / 4 * 4);
    if (data == NULL)
        exit(2);
    size_t n = fill(data, text, length);
    latchplume_answer expected = {LATCHPLUME_NOT_UTF8, TEXT + good, STEPS_BEFORE, 0};
    if (good == length)
        expected = (latchplume_answer){LATCHPLUME_ACCEPTED, n, STEPS, NEEDED};
    const struct {
        const char *who;
        latchplume_answer got;
    } all[] = {
        {"library", latchplume_decode(data, n, store, words).answer}, {"library, as a run", latchplume_decode_run(data, n, store, words)},
        {"library, field reading", fields(data, n)},
        {"walk", walk_decode(data, n, store, words).answer}, {"walk, as a run", walk_decode_run(data, n, store, words)},
    };
    for (size_t i = 0; i < sizeof all / sizeof *all; i++, compared++)
        if (!same(expected, all[i].got))
            tell(all[i].who, text, length, expected, all[i].got);
    free(data);
}

static bool near_edge(size_t at, size_t end) {
    return at <= NEAR || end - at <= NEAR || (at + 1) % WINDOW <= 2;
}

/* With bytes in place of the text's own, as many of them as there is room for. */
static void check_changed(uint8_t *text, size_t length, size_t at) {
    static const char *const changes[] = {
        "\xff", "\x80", "\xc0\x80", "\xc3", "\xe2\x28\xa1", "\xe2\x82", "\xe0\x9f\xbf", "\xed\xa0\x80", "\xf0\x9f\xa6", "\xf0\x8f\xbf\xbf",
        "\xf4\x90\x80\x80", "\xc2\x80", "\xe0\xa0\x80", "\xf4\x8f\xbf\xbf",
    };
    for (size_t i = 0; i < sizeof changes / sizeof *changes; i++) {
        uint8_t kept[4];
        size_t n = strlen(changes[i]) < length - at ? strlen(changes[i]) : length - at;
        memcpy(kept, text + at, n);
        memcpy(text + at, changes[i], n);
        check(text, length);
        memcpy(text + at, kept, n);
    }
}

static void check_text(uint8_t *text, size_t length) {
    for (size_t end = 0; end <= length; end++) {
        if (!near_edge(end, length))
            continue;
        check(text, end);
        for (size_t at = 0; at < end; at++)
            if (near_edge(at, end))
                check_changed(text, end, at);
    }
}

/* Every string of so many of these bytes, with as many bytes of other characters before it as behind it. */
static void check_short(size_t count, size_t around) {
    static const uint8_t edges[] = {0x7f, 0x80, 0x8f, 0x90, 0x9f, 0xa0, 0xbf, 0xc1, 0xc2,
                                    0xdf, 0xe0, 0xe1, 0xed, 0xef, 0xf0, 0xf1, 0xf4, 0xf5};
    uint8_t text[2 * WINDOW];
    size_t all = 1;
    for (size_t i = 0; i < around; i++)
        text[i] = text[around + count + i] = i % 2 == 0 ? 0xc3 : 0xbc;
    for (size_t i = 0; i < count; i++)
        all *= sizeof edges;
    for (size_t number = 0; number < all; number++) {
        for (size_t i = 0, rest = number; i < count; i++, rest /= sizeof edges)
            text[around + i] = edges[rest % sizeof edges];
        check(text, around + count + around);
    }
}

int main(void) {
    static uint8_t text[MOST];
    uint32_t length;
    while (fread(&length, sizeof length, 1, stdin) == 1) {
        if (length > sizeof text || fread(text, 1, length, stdin) != length) {
            fprintf(stderr, "texts: a text is cut short, or too long\n");
            return 2;
        }
        check_text(text, length);
    }
    for (size_t count = 1; count <= 4; count++) {
        check_short(count, 0);
        check_short(count, WINDOW - 2);
    }
    printf("%lu compared, %lu differ\n", compared, differ);
    return differ > 0;
}
