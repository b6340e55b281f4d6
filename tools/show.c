#include "show.h"

#include "fault.h"
#include "names.h"
#include "text.h"

#include <inttypes.h>
#include <stdio.h>
#include <string.h>

/* A datagram, a sample, and as many records as can be, each in a PDU of the one above it. */
#define LEVELS (2 + 2 * LATCHPLUME_MAX_DEPTH)

static unsigned level_of(const uint32_t *one)
{
    switch (one[LATCHPLUME_KIND]) {
    case LATCHPLUME_DATAGRAM: return 0;
    case LATCHPLUME_SAMPLE: return 1;
    case LATCHPLUME_PDU: return 2 * one[LATCHPLUME_AT_DEPTH] + 1;
    default: return 2 * one[LATCHPLUME_AT_DEPTH];
    }
}

static void title(const uint32_t *one, unsigned long number, const struct layout *layout)
{
    static const char *const kinds[] = {"datagram", "sample", "record", "counter record", "PDU"};
    uint32_t kind = one[LATCHPLUME_KIND];
    latchplume_data_format format = latchplume_format_of(one);
    text_indent(level_of(one));
    printf("%s %lu: ", kinds[kind], number);
    if (kind != LATCHPLUME_DATAGRAM && kind != LATCHPLUME_PDU) {
        const char *name = layout ? layout->name : name_of_format(kind, format.word);
        printf("%s, ", name ? name : "unknown");
        printf("format %" PRIu32 ":%" PRIu32 ", ", latchplume_enterprise(format), latchplume_format_number(format));
    }
    const char *raw = layout || kind == LATCHPLUME_PDU ? "" : ", kept raw";
    printf("%" PRIu32 " bytes at %" PRIu32 "%s\n", one[LATCHPLUME_LENGTH], one[LATCHPLUME_START], raw);
}

static bool fields(const struct shown *s, const uint32_t *one, const struct layout *layout)
{
    union reading reading;
    layout->read[s->mode](&reading, s->data, s->length, one);
    if (reading.outcome.code != LATCHPLUME_ACCEPTED) {
        text_indent(level_of(one) + 1);
        printf("refused: %s, at %zu\n", name_of_code(reading.outcome.code), reading.outcome.at);
        return false;
    }
    for (size_t i = 0; i < layout->count; i++)
        value_print(s, level_of(one) + 1, &layout->fields[i], &reading);
    return true;
}

static bool show_one(const struct shown *s, const uint32_t *one, unsigned long number)
{
    const struct layout *layout = layout_of(one[LATCHPLUME_KIND], one[LATCHPLUME_FORMAT]);
    title(one, number, layout);
    if (s->pads && one[LATCHPLUME_KIND] != LATCHPLUME_DATAGRAM)
        text_pad(level_of(one) + 1, s->data, (size_t)one[LATCHPLUME_START] + one[LATCHPLUME_LENGTH], one[LATCHPLUME_LENGTH]);
    if (layout)
        return fields(s, one, layout);
    if (one[LATCHPLUME_KIND] != LATCHPLUME_PDU) {
        latchplume_span payload = latchplume_payload(s->data, s->length, one);
        text_bytes(level_of(one) + 1, s->data, payload.start, payload.count, s->most);
    }
    return true;
}

bool show_datagram(const struct shown *s, unsigned long number, const uint32_t *descriptors, size_t count)
{
    unsigned long seen[LEVELS] = {number - 1};
    bool all = true;
    for (size_t i = 0; i < count; i++) {
        const uint32_t *one = descriptors + LATCHPLUME_DESCRIPTOR_WORDS * i;
        unsigned level = level_of(one);
        memset(seen + level + 1, 0, sizeof *seen * (LEVELS - 1 - level));
        all = show_one(s, one, ++seen[level]) && all;
    }
    return all;
}

static void string_fault(const struct shown *s, size_t from, size_t at)
{
    struct fault fault;
    fault_find(&fault, s->data, s->length, from, at);
    text_indent(1);
    printf("in: %s\n", fault.where);
    text_indent(1);
    printf("expected: %s\n", fault.expected);
}

void show_refusal(const struct shown *s, unsigned long number, size_t from, const latchplume_answer *answer)
{
    printf("datagram %lu: refused: code %" PRIu32 ": %s\n", number, answer->code, name_of_code(answer->code));
    text_indent(1);
    printf("position: %zu, after %zu items that were read\n", from + answer->at, answer->steps);
    if (answer->code == LATCHPLUME_INPUT_LENGTH)
        return;
    if (answer->code == LATCHPLUME_NOT_UTF8)
        string_fault(s, from, from + answer->at);
    uint32_t start = (uint32_t)from, length = (uint32_t)(s->length - from);
    uint32_t all[LATCHPLUME_DESCRIPTOR_WORDS] = {[LATCHPLUME_KIND] = LATCHPLUME_DATAGRAM, [LATCHPLUME_START] = start,
        [LATCHPLUME_LENGTH] = length, [LATCHPLUME_PARENT] = LATCHPLUME_NOBODY, [LATCHPLUME_FIRST] = start};
    if (latchplume_read_header(s->data, s->length, all).outcome.code == LATCHPLUME_ACCEPTED)
        fields(s, all, layout_of(LATCHPLUME_DATAGRAM, 0));
    text_around(1, s->data, s->length, from + answer->at);
}
