/* Where bytes go bad as UTF-8, by RFC 3629's table: plain ASCII is passed by blocks; the rest by windows, in which each byte is held to the
   three before it, so that the compiler tests them at once; and what is left by the rows of the table, each by masks. */
#ifndef UTF8_H
#define UTF8_H

#include <stdbool.h>
#include <stddef.h>
#include <stdint.h>
#include <string.h>

#if __BYTE_ORDER__ != __ORDER_LITTLE_ENDIAN__
#error "the masks are for a processor that has the first byte of a word lowest"
#endif

#define UTF8_HIGH 0x8080808080808080u

static inline uint64_t utf8_load8(const uint8_t *s) {
    uint64_t bytes;
    memcpy(&bytes, s, sizeof bytes);
    return bytes;
}

static inline uint32_t utf8_load4(const uint8_t *s) {
    uint32_t bytes;
    memcpy(&bytes, s, sizeof bytes);
    return bytes;
}

/* Fewer than eight bytes, and zero behind them. The loads overlap. */
static inline uint64_t utf8_load_rest(const uint8_t *s, size_t n) {
    if (n >= 4)
        return utf8_load4(s) | (uint64_t)utf8_load4(s + n - 4) << (8 * (n - 4));
    if (n == 0)
        return 0;
    return s[0] | (uint64_t)s[n / 2] << (8 * (n / 2)) | (uint64_t)s[n - 1] << (8 * (n - 1));
}

/* Whether the 32 bytes here are ASCII. */
static inline bool utf8_ascii32(const uint8_t *s) {
    return ((utf8_load8(s) | utf8_load8(s + 8) | utf8_load8(s + 16) | utf8_load8(s + 24)) & UTF8_HIGH) == 0;
}

/* The rows of the table, for the four bytes that a character begins with, the first one lowest. */
static inline bool utf8_two(uint32_t four) {
    return (four & 0xc0e0) == 0x80c0 && (four & 0x1e) != 0;
}

static inline bool utf8_three(uint32_t four) {
    return (four & 0xc0c0f0) == 0x8080e0 && (four & 0x200f) != 0 && (four & 0x200f) != 0x200d;
}

static inline bool utf8_four(uint32_t four) {
    return (four & 0xc0c0c0f8) == 0x808080f0 && ((four & 7) << 2 | (four >> 12 & 3)) - 1 < 16;
}

/* Where the bytes from s on go bad, which are fewer than eight and in a register; NULL where they do not. No character goes on with the
   zero behind them. */
static inline const uint8_t *utf8_rest(const uint8_t *s, uint64_t rest) {
    while ((rest & UTF8_HIGH) != 0) {
        unsigned plain = (unsigned)__builtin_ctzll(rest & UTF8_HIGH) / 8;
        s += plain;
        rest >>= 8 * plain;
        uint32_t four = (uint32_t)rest;
        if (!utf8_two(four) && !utf8_three(four) && !utf8_four(four))
            return s;
        unsigned width = utf8_two(four) ? 2 : utf8_three(four) ? 3 : 4;
        s += width;
        rest >>= 8 * width;
    }
    return NULL;
}

static inline uint8_t utf8_among(uint8_t low, uint8_t high, uint8_t byte) {
    return (uint8_t)(byte - low) <= high - low;
}

/* Whether d fits the bytes a, b and c before it: it is awaited, and may follow c, or it begins a character. */
static inline uint8_t utf8_fits(uint8_t a, uint8_t b, uint8_t c, uint8_t d) {
    uint8_t awaited = utf8_among(0xc2, 0xf4, c) | utf8_among(0xe0, 0xf4, b) | utf8_among(0xf0, 0xf4, a);
    uint8_t second = ((c != 0xe0) | (d >= 0xa0)) & ((c != 0xed) | (d <= 0x9f)) & ((c != 0xf0) | (d >= 0x90)) & ((c != 0xf4) | (d <= 0x8f));
    return (utf8_among(0x80, 0xbf, d) == awaited) & second & (d != 0xc0) & (d != 0xc1) & (d <= 0xf4);
}

static inline bool utf8_is_tail(uint8_t byte) {
    return (byte & 0xc0) == 0x80;
}

enum { UTF8_WINDOW = 64 };

/* Past windows, from the first byte of a character to that of another. Three bytes are before s. */
static inline const uint8_t *utf8_past_windows(const uint8_t *s, const uint8_t *end) {
    if (utf8_is_tail(*s))
        return s;
    while (end - s >= UTF8_WINDOW) {
        uint8_t all = 1;
        for (int i = 0; i < UTF8_WINDOW; i++)
            all &= utf8_fits(s[i - 3], s[i - 2], s[i - 1], s[i]);
        if (!all)
            break;
        const uint8_t *last = s + UTF8_WINDOW - 1;
        while (last > s && utf8_is_tail(*last))
            last--;
        if (last == s)
            break;
        s = last;
    }
    return s;
}

/* The first byte of the first ill-formed sequence, which is where the longest well-formed beginning ends; NULL where there is none. */
static __attribute__((noinline)) const uint8_t *ill_formed(const uint8_t *s, size_t n) {
    const uint8_t *begin = s, *end = s + n;
    while (end - s >= 8) {
        uint64_t high = utf8_load8(s) & UTF8_HIGH;
        if (high == 0) {
            for (s += 8; end - s >= 32 && utf8_ascii32(s); s += 32)
                ;
            continue;
        }
        s += __builtin_ctzll(high) / 8;
        if (s - begin >= 3)
            s = utf8_past_windows(s, end);
        if (*s < 0x80)
            continue;
        if (end - s < 4)
            break;
        do {
            uint32_t four = utf8_load4(s);
            if (utf8_two(four))
                s += 2;
            else if (utf8_three(four))
                s += 3;
            else if (utf8_four(four))
                s += 4;
            else
                return s;
        } while (end - s >= 4 && *s >= 0x80 && (s - begin < 3 || end - s < UTF8_WINDOW));
    }
    return utf8_rest(s, utf8_load_rest(s, (size_t)(end - s)));
}

#endif
