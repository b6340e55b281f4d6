#include "text.h"

#include <langinfo.h>
#include <stdio.h>
#include <string.h>
#include <wctype.h>

#define ROW 16

void text_indent(unsigned level)
{
    printf("%*s", (int)(2 * level), "");
}

void text_mac(const uint8_t *bytes)
{
    for (int i = 0; i < 6; i++)
        printf(i ? ":%02x" : "%02x", bytes[i]);
}

void text_ipv4(const uint8_t *bytes)
{
    printf("%u.%u.%u.%u", bytes[0], bytes[1], bytes[2], bytes[3]);
}

static unsigned group(const uint8_t *bytes, int i)
{
    return (unsigned)bytes[2 * i] << 8 | bytes[2 * i + 1];
}

/* The longest row of zero groups, the first of several, and none of a single group: where it begins, and its size. */
static int zeros(const uint8_t *bytes, int *size)
{
    int best = -1, run = 0;
    *size = 1;
    for (int i = 0; i < 8; i++) {
        run = group(bytes, i) ? 0 : run + 1;
        if (run > *size) {
            *size = run;
            best = i - run + 1;
        }
    }
    return best;
}

void text_ipv6(const uint8_t *bytes)
{
    static const uint8_t mapped[12] = {0, 0, 0, 0, 0, 0, 0, 0, 0, 0, 255, 255};
    if (memcmp(bytes, mapped, sizeof mapped) == 0) {
        printf("::ffff:");
        text_ipv4(bytes + 12);
        return;
    }
    int size, first = zeros(bytes, &size);
    for (int i = 0; i < 8; i++) {
        if (i == first) {
            printf("::");
            i += size - 1;
            continue;
        }
        printf(i == 0 || (first >= 0 && i == first + size) ? "%x" : ":%x", group(bytes, i));
    }
}

void text_address(latchplume_address address)
{
    if (address.kind == 1)
        text_ipv4(address.bytes);
    else if (address.kind == 2)
        text_ipv6(address.bytes);
    else
        printf("unknown");
}

/* Characters that are invisible, that order or join others, or that mean what each font likes. In order. */
static const struct {
    uint32_t first, last;
} HIDDEN[] = {
    {0x0080, 0x00a0}, {0x00ad, 0x00ad}, {0x034f, 0x034f}, {0x0600, 0x0605}, {0x061c, 0x061c}, {0x06dd, 0x06dd},
    {0x070f, 0x070f}, {0x0890, 0x0891}, {0x08e2, 0x08e2}, {0x115f, 0x1160}, {0x1680, 0x1680}, {0x17b4, 0x17b5},
    {0x180b, 0x180f}, {0x2000, 0x200f}, {0x2028, 0x202f}, {0x205f, 0x206f}, {0x2800, 0x2800}, {0x3000, 0x3000},
    {0x3164, 0x3164}, {0xd800, 0xf8ff}, {0xfdd0, 0xfdef}, {0xfe00, 0xfe0f}, {0xfeff, 0xfeff}, {0xffa0, 0xffa0},
    {0xfff0, 0xfffb}, {0xfffe, 0xffff}, {0x110bd, 0x110bd}, {0x110cd, 0x110cd}, {0x13430, 0x1345f},
    {0x1bca0, 0x1bca3}, {0x1d173, 0x1d17a}, {0xe0000, 0x10ffff},
};

static int visible(uint32_t c)
{
    if (c < 0x80)
        return c >= ' ' && c < 0x7f;
    for (size_t i = 0; i < sizeof HIDDEN / sizeof *HIDDEN && HIDDEN[i].first <= c; i++)
        if (c <= HIDDEN[i].last)
            return 0;
    return strcmp(nl_langinfo(CODESET), "UTF-8") == 0 && iswprint((wint_t)c);
}

/* The character at the front of well-formed UTF-8, and how many bytes it has. */
static uint32_t character(const uint8_t *s, size_t *size)
{
    static const uint32_t low[] = {0, 0x7f, 0x1f, 0x0f, 0x07};
    *size = s[0] < 0x80 ? 1 : s[0] < 0xe0 ? 2 : s[0] < 0xf0 ? 3 : 4;
    uint32_t c = s[0] & low[*size];
    for (size_t i = 1; i < *size; i++)
        c = c << 6 | (s[i] & 0x3f);
    return c;
}

static void print_character(const uint8_t *s, size_t size, uint32_t c)
{
    if (c == '\n')
        printf("\\n");
    else if (c == '\t')
        printf("\\t");
    else if (c == '"' || c == '\\')
        printf("\\%c", (int)c);
    else if (visible(c))
        printf("%.*s", (int)size, (const char *)s);
    else
        printf("\\u{%x}", (unsigned)c);
}

void text_string(const uint8_t *bytes, size_t count, size_t most)
{
    size_t i = 0, size;
    putchar('"');
    while (i < count && i < most) {
        uint32_t c = character(bytes + i, &size);
        print_character(bytes + i, size, c);
        i += size;
    }
    putchar('"');
    if (i < count)
        printf(" and %zu more bytes", count - i);
}

/* A row's bytes with the one at `mark` in brackets, and beside them those that are ASCII. */
static void row(unsigned level, const uint8_t *data, size_t from, size_t to, size_t mark)
{
    text_indent(level);
    printf("%6zu: ", from);
    for (size_t i = from; i < from + ROW; i++) {
        const char *before = i == mark ? "[" : i > from && i - 1 == mark ? "]" : " ";
        if (i < to)
            printf("%s%02x", before, data[i]);
        else
            printf("%s  ", before);
    }
    printf("%s ", mark == from + ROW - 1 ? "]" : " ");
    for (size_t i = from; i < to; i++)
        putchar(data[i] >= ' ' && data[i] < 0x7f ? data[i] : '.');
    putchar('\n');
}

static size_t least(size_t a, size_t b)
{
    return a < b ? a : b;
}

void text_bytes(unsigned level, const uint8_t *data, size_t start, size_t count, size_t most)
{
    size_t end = start + least(count, most);
    for (size_t from = start; from < end; from += ROW)
        row(level, data, from, least(from + ROW, end), SIZE_MAX);
    if (count > most) {
        text_indent(level);
        printf("and %zu more bytes\n", count - most);
    }
}

void text_pad(unsigned level, const uint8_t *data, size_t end, size_t count)
{
    static const uint8_t zeros[4] = {0};
    size_t size = (4 - count % 4) % 4;
    if (memcmp(data + end, zeros, size) == 0)
        return;
    text_indent(level);
    printf("pad:");
    for (size_t i = 0; i < size; i++)
        printf(" %02x", data[end + i]);
    printf(" at %zu\n", end);
}

void text_around(unsigned level, const uint8_t *data, size_t length, size_t at)
{
    size_t middle = at - at % ROW;
    size_t end = least(middle + 2 * ROW, length);
    if (middle == end)
        end++;
    for (size_t from = middle < ROW ? 0 : middle - ROW; from < end; from += ROW)
        row(level, data, from, least(from + ROW, length), at);
    text_indent(level);
    if (at < length)
        printf("[%02x] is the byte at %zu\n", data[at], at);
    else
        printf("[  ] is the end of the input, at %zu\n", at);
}
