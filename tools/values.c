#include "values.h"

#include "names.h"
#include "text.h"

#include <inttypes.h>
#include <stdio.h>

static void number(const struct field *field, uint32_t value)
{
    printf("%" PRIu32, value);
    if (field->say)
        field->say(value);
}

static void long_number(const struct field *field, uint64_t value)
{
    printf("%" PRIu64, value);
    if (field->say_long)
        field->say_long(value);
}

static void ipv4(uint32_t value)
{
    uint8_t bytes[4] = {(uint8_t)(value >> 24), (uint8_t)(value >> 16), (uint8_t)(value >> 8), (uint8_t)value};
    text_ipv4(bytes);
}

static void source(uint32_t type, uint32_t index)
{
    printf("%s %" PRIu32, name_of_source(type), index);
    if (type > 2)
        printf(" (type %" PRIu32 ")", type);
}

/* An interface whose highest value, `itself`, is the device that sent the datagram. */
static void interface(uint32_t format, uint32_t value, uint32_t itself)
{
    if (format == 0 && value == itself) {
        printf("the device itself");
    } else if (format == 0) {
        printf("ifIndex %" PRIu32, value);
    } else if (format == 1) {
        printf("discarded, reason %" PRIu32, value);
        say_drop_reason(value);
    } else if (format == 2) {
        printf("%" PRIu32 " interface%s", value, value == 1 ? "" : "s");
    } else {
        printf("format %" PRIu32 ", value %" PRIu32, format, value);
    }
}

static void list(const struct shown *s, unsigned level, const struct field *field, latchplume_span words)
{
    printf("%zu in a list", words.count);
    for (size_t n = 0; n < words.count && n < s->most; n++) {
        latchplume_listed word = latchplume_list_word(s->data, s->length, words.start, words.count, n);
        putchar('\n');
        text_indent(level + 1);
        number(field, word.value);
    }
    if (words.count > s->most) {
        putchar('\n');
        text_indent(level + 1);
        printf("and %zu more", words.count - s->most);
    }
}

static void segment(const struct shown *s, const latchplume_segment *one)
{
    printf("%s:", name_of_segment(one->kind));
    for (size_t n = 0; n < one->path.count && n < s->most; n++)
        printf(" %" PRIu32, latchplume_list_word(s->data, s->length, one->path.start, one->path.count, n).value);
    if (one->path.count > s->most)
        printf(" and %zu more", one->path.count - s->most);
}

static void segments(const struct shown *s, unsigned level, latchplume_span path)
{
    printf("%zu segments", path.count);
    size_t at = path.start;
    for (size_t n = 0; n < path.count && n < s->most; n++) {
        latchplume_segment one = latchplume_next_segment(s->data, s->length, at);
        at = one.outcome.at;
        putchar('\n');
        text_indent(level + 1);
        segment(s, &one);
    }
    if (path.count > s->most) {
        putchar('\n');
        text_indent(level + 1);
        printf("and %zu more", path.count - s->most);
    }
}

static void bytes(const struct shown *s, unsigned level, latchplume_span part)
{
    printf("%zu bytes\n", part.count);
    text_bytes(level + 1, s->data, part.start, part.count, s->most);
    if (s->pads)
        text_pad(level + 1, s->data, part.start + part.count, part.count);
}

void value_print(const struct shown *s, unsigned level, const struct field *field, const union reading *from)
{
    const void *at = (const char *)from + field->offset;
    const uint32_t *words = at;
    const latchplume_span *part = at;
    text_indent(level);
    printf("%s: ", field->name);
    switch (field->shape) {
    case NUMBER: number(field, *words); break;
    case LONG: long_number(field, *(const uint64_t *)at); break;
    case MAC: text_mac(at); break;
    case IPV4: ipv4(*words); break;
    case IPV6: text_ipv6(at); break;
    case ADDRESS: text_address(*(const latchplume_address *)at); break;
    case SOURCE: {
        latchplume_data_source one = *(const latchplume_data_source *)at;
        source(latchplume_source_type(one), latchplume_source_index(one));
        break;
    }
    case SOURCE_EXPANDED: source(words[0], words[1]); break;
    case INTERFACE: {
        latchplume_interface one = *(const latchplume_interface *)at;
        interface(latchplume_interface_format(one), latchplume_interface_value(one), 0x3fffffff);
        break;
    }
    case INTERFACE_EXPANDED: interface(words[0], words[1], UINT32_MAX); break;
    case BYTES: bytes(s, level, *part); return;
    case STRING: text_string(s->data + part->start, part->count, s->most); break;
    case LIST: list(s, level, field, *part); break;
    case SEGMENTS: segments(s, level, *part); break;
    }
    putchar('\n');
    if (s->pads && field->shape == STRING)
        text_pad(level + 1, s->data, part->start + part->count, part->count);
}
