#include "cut.h"

#include "latchplume.h"
#include "names.h"
#include "packets.h"

#include <inttypes.h>
#include <stdarg.h>
#include <stdio.h>

struct cutting {
    const struct cut *which;
    const char *name;
    uint32_t *store;
    size_t words;
    bool met; /* whether the packet was there */
    enum status status;
};

/* One line about the file, and the status to end with. */
static enum status trouble(const char *name, enum status status, const char *form, ...)
{
    char said[200];
    va_list values;
    va_start(values, form);
    vsnprintf(said, sizeof said, form, values);
    va_end(values);
    input_trouble(name, said);
    return status;
}

/* What list answers where its descriptors reach to the index, and else run: their indices are the same as far as both have them. */
static latchplume_answer decode(const struct cutting *c, const uint8_t *data, size_t length)
{
    latchplume_answer one = mode_decode(c->which->mode, data, length, c->store, c->words).answer;
    if (one.code != LATCHPLUME_ACCEPTED || c->which->index < one.needed || c->which->packet)
        return one;
    latchplume_answer all = mode_decode_run(c->which->mode, data, length, c->store, c->words);
    return all.code == LATCHPLUME_ACCEPTED ? all : one;
}

static enum status cut_datagrams(const struct cutting *c, const uint8_t *data, size_t length)
{
    size_t index = c->which->index;
    latchplume_answer got = decode(c, data, length);
    if (got.code != LATCHPLUME_ACCEPTED)
        return trouble(c->name, REFUSED, "is refused: code %" PRIu32 ": %s, at %zu", got.code, name_of_code(got.code), got.at);
    if (index >= got.needed)
        return trouble(c->name, TROUBLE, "has no descriptor %zu: the last one is %zu", index, got.needed - 1);
    latchplume_span all = latchplume_whole(data, length, c->store + LATCHPLUME_DESCRIPTOR_WORDS * index);
    fwrite(data + all.start, 1, all.count, stdout);
    return ACCEPTED;
}

static void take_packet(void *who, const struct packet *one)
{
    struct cutting *c = who;
    if (one->number != c->which->packet)
        return;
    c->met = true;
    if (one->state == WHOLE)
        c->status = cut_datagrams(c, one->data, one->length);
    else
        c->status = trouble(c->name, REFUSED, "packet %lu is %s, and not decoded", one->number, one->state == CUT ? "cut" : "in fragments");
}

static enum status cut_capture(struct cutting *c, const struct input *in)
{
    struct packets count;
    if (c->which->packet == 0)
        return trouble(c->name, TROUBLE, "is a capture: --packet says which of its packets");
    if (!packets_each(c->name, in->data, in->length, c->which->port, take_packet, c, &count))
        return TROUBLE;
    if (!c->met)
        return trouble(c->name, TROUBLE, "has no UDP packet %lu to port %u (--port names another)", c->which->packet, c->which->port);
    return c->status;
}

enum status cut_out(const struct cut *which, const struct input *in, uint32_t *store, size_t words)
{
    struct cutting c = {.which = which, .name = in->name, .store = store, .words = words};
    if (input_is_capture(in->data, in->length))
        return cut_capture(&c, in);
    if (which->packet)
        return trouble(in->name, TROUBLE, "is no capture, and has no packet %lu", which->packet);
    if (input_is_off(in))
        return TROUBLE;
    return cut_datagrams(&c, in->data, in->length);
}
