/* All that stands before the fault was accepted, so its lengths and counts are right: the frames lead down to the string. */
#include "fault.h"

#include "layouts.h"

#include <inttypes.h>
#include <stdarg.h>
#include <stdbool.h>
#include <stdio.h>

#define AGGREGATION 1016

struct search {
    struct fault *into;
    size_t used; /* of `where` */
    const uint8_t *data;
    size_t length, at;
    size_t next; /* behind the records that were passed */
    uint32_t record[LATCHPLUME_DESCRIPTOR_WORDS];
};

static void say(struct search *s, const char *form, ...)
{
    size_t room = sizeof s->into->where - s->used;
    va_list values;
    va_start(values, form);
    int said = vsnprintf(s->into->where + s->used, room, form, values);
    va_end(values);
    s->used += said > 0 && (size_t)said < room ? (size_t)said : 0;
}

/* The word at a place; 0 where none is. */
static uint32_t word(const struct search *s, size_t at)
{
    if (at > s->length || s->length - at < 4)
        return 0;
    const uint8_t *b = s->data + at;
    return (uint32_t)b[0] << 24 | (uint32_t)b[1] << 16 | (uint32_t)b[2] << 8 | b[3];
}

/* The place behind an opaque. */
static size_t behind(const struct search *s, size_t at)
{
    return at + 4 + ((size_t)word(s, at) + 3) / 4 * 4;
}

/* The frame at a place as a descriptor; whether the fault is in it. */
static bool holds(const struct search *s, uint32_t kind, size_t at, uint32_t *one)
{
    one[LATCHPLUME_KIND] = kind;
    one[LATCHPLUME_FORMAT] = word(s, at);
    one[LATCHPLUME_START] = (uint32_t)at + 8;
    one[LATCHPLUME_LENGTH] = word(s, at + 4);
    one[LATCHPLUME_FIRST] = (uint32_t)at;
    return s->at < behind(s, at + 4);
}

static bool in_pdus(struct search *s, size_t at);

/* So many records from a place on. */
static bool in_records(struct search *s, size_t at, uint32_t count)
{
    for (uint32_t n = 1; n <= count && at < s->length; n++) {
        if (holds(s, LATCHPLUME_FLOW_RECORD, at, s->record)) {
            say(s, ", record %" PRIu32, n);
            return s->record[LATCHPLUME_FORMAT] != AGGREGATION || in_pdus(s, at + 8);
        }
        at = behind(s, at + 4);
    }
    s->next = at;
    return false;
}

/* The PDUs of an aggregation: their count, and each a count of records and those. */
static bool in_pdus(struct search *s, size_t at)
{
    size_t used = s->used;
    uint32_t count = word(s, at);
    s->next = at + 4;
    for (uint32_t n = 1; n <= count && s->next < s->length; n++) {
        s->used = used;
        say(s, ", PDU %" PRIu32, n);
        if (in_records(s, s->next + 4, word(s, s->next)))
            return true;
    }
    return false;
}

/* The sample's fields, which both modes read alike, end in the count of its records. */
static bool in_sample(struct search *s, const uint32_t *sample)
{
    union reading reading;
    const struct layout *layout = layout_of(LATCHPLUME_SAMPLE, sample[LATCHPLUME_FORMAT]);
    if (!layout)
        return false;
    layout->read[MEMO](&reading, s->data, s->length, sample);
    return reading.outcome.code == LATCHPLUME_ACCEPTED && in_records(s, reading.outcome.at, word(s, reading.outcome.at - 4));
}

static bool in_datagram(struct search *s, size_t from)
{
    uint32_t start = (uint32_t)from, length = (uint32_t)(s->length - from);
    uint32_t all[LATCHPLUME_DESCRIPTOR_WORDS] = {[LATCHPLUME_KIND] = LATCHPLUME_DATAGRAM, [LATCHPLUME_START] = start,
        [LATCHPLUME_LENGTH] = length, [LATCHPLUME_PARENT] = LATCHPLUME_NOBODY, [LATCHPLUME_FIRST] = start};
    uint32_t sample[LATCHPLUME_DESCRIPTOR_WORDS] = {0};
    latchplume_header header = latchplume_read_header(s->data, s->length, all);
    size_t at = header.outcome.at;
    for (uint32_t n = 1; n <= header.num_samples && at < s->length; n++) {
        if (holds(s, LATCHPLUME_SAMPLE, at, sample)) {
            say(s, "sample %" PRIu32, n);
            return in_sample(s, sample);
        }
        at = behind(s, at + 4);
    }
    return false;
}

/* The end of the record's string with the fault in it, once its field is named. In every layout words and strings alone stand before one. */
static size_t in_field(struct search *s)
{
    const struct layout *layout = layout_of(LATCHPLUME_FLOW_RECORD, s->record[LATCHPLUME_FORMAT]);
    size_t at = s->record[LATCHPLUME_START];
    for (size_t i = 0; layout && i < layout->count; i++) {
        bool string = layout->fields[i].shape == STRING;
        if (string && s->at < behind(s, at)) {
            say(s, ", %s, %s", layout->name, layout->fields[i].name);
            return at + 4 + word(s, at);
        }
        at = string ? behind(s, at) : at + 4;
    }
    return s->length;
}

/* The rows of RFC 3629's table with more than one byte: the first byte, how many there are, and what the second may be. */
static const struct row {
    uint8_t from, to;
    size_t size;
    uint8_t least, most;
} ROWS[] = {
    {0xc2, 0xdf, 2, 0x80, 0xbf}, {0xe0, 0xe0, 3, 0xa0, 0xbf}, {0xe1, 0xec, 3, 0x80, 0xbf}, {0xed, 0xed, 3, 0x80, 0x9f},
    {0xee, 0xef, 3, 0x80, 0xbf}, {0xf0, 0xf0, 4, 0x90, 0xbf}, {0xf1, 0xf3, 4, 0x80, 0xbf}, {0xf4, 0xf4, 4, 0x80, 0x8f},
};

static const struct row *row_of(uint8_t first)
{
    for (size_t i = 0; i < sizeof ROWS / sizeof *ROWS; i++)
        if (ROWS[i].from <= first && first <= ROWS[i].to)
            return &ROWS[i];
    return NULL;
}

/* The sequence at the front of so many bytes, none of which is a character. */
static void expect(struct fault *f, const uint8_t *text, size_t left)
{
    const struct row *row = row_of(text[0]);
    if (!row) {
        snprintf(f->expected, sizeof f->expected, "0x00 to 0x7F or 0xC2 to 0xF4, and 0x%02X stands there", text[0]);
        return;
    }
    size_t n = 1;
    uint8_t least = row->least, most = row->most;
    for (; n < left && least <= text[n] && text[n] <= most; n++)
        least = 0x80, most = 0xbf;
    int used = snprintf(f->expected, sizeof f->expected, "0x%02X to 0x%02X after", least, most);
    for (size_t i = 0; i < n; i++)
        used += snprintf(f->expected + used, sizeof f->expected - (size_t)used, " 0x%02X", text[i]);
    if (n < left)
        snprintf(f->expected + used, sizeof f->expected - (size_t)used, ", and 0x%02X stands there", text[n]);
    else
        snprintf(f->expected + used, sizeof f->expected - (size_t)used, ", and the string ends there");
}

void fault_find(struct fault *f, const uint8_t *data, size_t length, size_t from, size_t at)
{
    struct search s = {.into = f, .data = data, .length = length, .at = at};
    f->where[0] = '\0';
    size_t end = in_datagram(&s, from) ? in_field(&s) : length;
    expect(f, data + at, end - at);
}
