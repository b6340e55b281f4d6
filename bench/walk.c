/* The walk: a first pass that judges the input and counts, and, where all is accepted and the store has room, a second one that goes by
   frames alone and writes. Records are one loop; only an aggregation calls deeper. A row of items is judged by one comparison, and what
   agents send most, format 1 of samples, formats 1 and 1001 of flow records and 1 and 2 of counter records, is asked for first. */
#include "walk.h"

#include <string.h>

#include "utf8.h"

#define INLINE static inline __attribute__((always_inline))
#define APART static __attribute__((noinline))
#define RARELY(condition) __builtin_expect((condition), 0)
#define OFTEN(condition) __builtin_expect((condition), 1)

enum { MAX_OPAQUE = LATCHPLUME_MAX_OPAQUE, MAX_DEPTH = LATCHPLUME_MAX_DEPTH, WORDS_EACH = LATCHPLUME_DESCRIPTOR_WORDS };

/* Steps and descriptors are counted in one number, the steps below this one's place. An input has fewer than 2^23 of either. */
#define DESCRIPTOR ((uint64_t)1 << 23)

/* The item that is refused, or where a string goes bad, what was counted before it, and which rule it breaks. */
typedef struct refusal {
    const uint8_t *at;
    uint64_t count;
    uint32_t code;
} refusal;

/* The next byte, how many bytes what encloses it still has, what was counted, and where a refusal is told. */
typedef struct cursor {
    const uint8_t *at;
    size_t left;
    uint64_t count;
    refusal *why;
} cursor;

/* A format word and an opaque: of the payload the first byte, and its length without pad. */
typedef struct frame {
    uint32_t format, length;
    const uint8_t *start;
} frame;

INLINE uint32_t word_at(const uint8_t *at) {
    uint32_t word;
    memcpy(&word, at, sizeof word);
    return __builtin_bswap32(word);
}

INLINE size_t padded(uint32_t length) {
    return ((size_t)length + 3) & ~(size_t)3;
}

/* Items. Each is passed, or told as refused. */

__attribute__((cold)) APART void tell(refusal *why, const uint8_t *at, uint64_t count, uint32_t code) {
    *why = (refusal){at, count, code};
}

INLINE bool refuse(const cursor *c, uint32_t code) {
    tell(c->why, c->at, c->count, code);
    return false;
}

INLINE void pass(cursor *c, size_t bytes, uint64_t count) {
    c->at += bytes;
    c->left -= bytes;
    c->count += count;
}

/* So many items of so many bytes in all, none of which is refused where the bytes are there; false where they are not. */
INLINE bool row(cursor *c, size_t bytes, unsigned items) {
    if (RARELY(c->left < bytes))
        return false;
    pass(c, bytes, items);
    return true;
}

INLINE bool block(cursor *c, size_t bytes) {
    return row(c, bytes, 1) || refuse(c, LATCHPLUME_PASSES_END);
}

/* So many words: past them all, or up to the first that is missing. */
INLINE bool words(cursor *c, uint32_t n) {
    size_t there = c->left / 4;
    if (RARELY(there < n)) {
        tell(c->why, c->at + 4 * there, c->count + there, LATCHPLUME_PASSES_END);
        return false;
    }
    pass(c, 4 * (size_t)n, n);
    return true;
}

/* The word that was passed last. */
INLINE uint32_t last(const cursor *c) {
    return word_at(c->at - 4);
}

/* A word that is one of a range of numbers. */
INLINE bool among(cursor *c, uint32_t least, uint32_t most, uint32_t code) {
    if (RARELY(c->left < 4))
        return refuse(c, LATCHPLUME_PASSES_END);
    if (RARELY(word_at(c->at) - least > most - least))
        return refuse(c, code);
    pass(c, 4, 1);
    return true;
}

/* No input is as long as the longest opaque, so one comparison finds both faults of a length; this tells them apart. */
INLINE bool refuse_length(const cursor *c, uint32_t length) {
    return refuse(c, length > MAX_OPAQUE ? LATCHPLUME_OPAQUE_LENGTH : LATCHPLUME_PASSES_END);
}

INLINE bool opaque(cursor *c) {
    if (RARELY(c->left < 4))
        return refuse(c, LATCHPLUME_PASSES_END);
    uint32_t length = word_at(c->at);
    if (RARELY(c->left - 4 < padded(length)))
        return refuse_length(c, length);
    pass(c, 4 + padded(length), 1);
    return true;
}

/* An opaque that is UTF-8. One that is not is refused where it goes bad, and is not counted. */
INLINE bool string(cursor *c) {
    const uint8_t *length = c->at;
    if (!opaque(c))
        return false;
    const uint8_t *bad = ill_formed(length + 4, word_at(length));
    if (OFTEN(bad == NULL))
        return true;
    *c->why = (refusal){bad, c->count - 1, LATCHPLUME_NOT_UTF8};
    return false;
}

INLINE bool address(cursor *c) {
    if (!among(c, 0, 2, LATCHPLUME_ADDRESS_TYPE))
        return false;
    uint32_t kind = last(c);
    return kind == 0 || block(c, kind == 1 ? 4 : 16);
}

INLINE bool list(cursor *c) {
    return words(c, 1) && words(c, last(c));
}

INLINE bool segments(cursor *c) {
    if (!words(c, 1))
        return false;
    for (uint32_t n = last(c); n > 0; n--)
        if (!words(c, 1) || !list(c))
            return false;
    return true;
}

INLINE bool read_frame(cursor *c, frame *f) {
    if (RARELY(c->left < 8))
        return words(c, 1) && refuse(c, LATCHPLUME_PASSES_END);
    f->format = word_at(c->at);
    f->length = word_at(c->at + 4);
    f->start = c->at + 8;
    if (RARELY(c->left - 8 < padded(f->length))) {
        pass(c, 4, 1);
        return refuse_length(c, f->length);
    }
    pass(c, 8 + padded(f->length), DESCRIPTOR + 2);
    return true;
}

INLINE cursor inside(const cursor *c, const frame *f) {
    return (cursor){f->start, f->length, c->count, c->why};
}

/* The layouts of flow records. Where a row is too short, its items are gone through one by one. */

INLINE bool sampled_header(cursor *c) {
    if (RARELY(c->left < 16))
        return among(c, 1, 17, LATCHPLUME_HEADER_PROTOCOL) && words(c, 2) && refuse(c, LATCHPLUME_PASSES_END);
    return among(c, 1, 17, LATCHPLUME_HEADER_PROTOCOL) && words(c, 2) && opaque(c);
}

INLINE bool sampled_ethernet(cursor *c) {
    return row(c, 24, 4) || (words(c, 1) && block(c, 8) && block(c, 8) && words(c, 1));
}

INLINE bool sampled_ipv6(cursor *c) {
    return row(c, 56, 8) || (words(c, 2) && block(c, 16) && block(c, 16) && words(c, 4));
}

INLINE bool extended_gateway(cursor *c) {
    return address(c) && words(c, 3) && segments(c) && list(c) && words(c, 1);
}

INLINE bool extended_80211_rx(cursor *c) {
    return string(c) && (row(c, 36, 7) || (block(c, 8) && words(c, 2) && block(c, 8) && words(c, 3)));
}

INLINE bool extended_80211_tx(cursor *c) {
    return string(c) && (row(c, 40, 8) || (block(c, 8) && words(c, 5) && block(c, 8) && words(c, 1)));
}

/* The formats that are less common. */
INLINE bool other_flow_data(cursor *c, uint32_t format) {
    switch (format) {
    case 2: return sampled_ethernet(c);
    case 3: return words(c, 8);
    case 4: return sampled_ipv6(c);
    case 1002: return address(c) && words(c, 2);
    case 1003: return extended_gateway(c);
    case 1004: return words(c, 1) && string(c) && words(c, 1) && string(c);
    case 1005: return words(c, 1) && string(c) && string(c);
    case 1006: return address(c) && list(c) && list(c);
    case 1007: return address(c) && address(c);
    case 1008: return string(c) && words(c, 2);
    case 1009: return string(c) && words(c, 3);
    case 1010: return address(c) && words(c, 1);
    case 1011: return words(c, 1);
    case 1012: return list(c);
    case 1013: return words(c, 1) && opaque(c);
    case 1014: return extended_80211_rx(c);
    case 1015: return extended_80211_tx(c);
    default: return true;
    }
}

/* The first pass. */

/* What an aggregation at this depth holds: what is counted behind it, or 0 where it is refused. */
APART uint64_t aggregation(const uint8_t *at, size_t left, uint64_t count, unsigned depth, refusal *why);

INLINE bool flow_data(cursor *c, uint32_t format, unsigned depth) {
    if (OFTEN(format == 1))
        return sampled_header(c);
    if (OFTEN(format == 1001))
        return words(c, 4);
    if (format != 1016)
        return other_flow_data(c, format);
    c->count = aggregation(c->at, c->left, c->count, depth, c->why);
    return c->count != 0;
}

/* Flow records in a row. */
INLINE bool flow_records(cursor *c, uint32_t n, unsigned depth) {
    if (n == 0)
        return true;
    if (RARELY(depth > MAX_DEPTH))
        return refuse(c, LATCHPLUME_DEPTH);
    do {
        frame f;
        if (RARELY(!read_frame(c, &f)))
            return false;
        cursor in = inside(c, &f);
        if (RARELY(!flow_data(&in, f.format, depth)))
            return false;
        c->count = in.count;
    } while (--n > 0);
    return true;
}

/* A PDU count, and PDUs: each a record count and its records. */
uint64_t aggregation(const uint8_t *at, size_t left, uint64_t count, unsigned depth, refusal *why) {
    cursor c = {at, left, count, why};
    if (!words(&c, 1))
        return 0;
    for (uint32_t n = last(&c); n > 0; n--) {
        if (!words(&c, 1))
            return 0;
        c.count += DESCRIPTOR;
        if (!flow_records(&c, last(&c), depth + 1))
            return 0;
    }
    return c.count;
}

/* The layouts of counter records, whose items are words and blocks of eight bytes. */

INLINE bool generic_interface(cursor *c) {
    return row(c, 88, 19) || (words(c, 2) && block(c, 8) && words(c, 2) && block(c, 8) && words(c, 6) && block(c, 8) && words(c, 6));
}

INLINE bool vg100_interface(cursor *c) {
    return row(c, 80, 14) || (words(c, 1) && block(c, 8) && words(c, 1) && block(c, 8) && words(c, 5) && block(c, 8) && words(c, 1) &&
                              block(c, 8) && block(c, 8) && block(c, 8));
}

INLINE bool vlan(cursor *c) {
    return row(c, 28, 6) || (words(c, 1) && block(c, 8) && words(c, 4));
}

INLINE bool processor(cursor *c) {
    return row(c, 28, 5) || (words(c, 3) && block(c, 8) && block(c, 8));
}

INLINE bool counter_data(cursor *c, uint32_t format) {
    if (OFTEN(format == 1))
        return generic_interface(c);
    if (OFTEN(format == 2))
        return words(c, 13);
    switch (format) {
    case 3: return words(c, 18);
    case 4: return vg100_interface(c);
    case 5: return vlan(c);
    case 1001: return processor(c);
    default: return true;
    }
}

INLINE bool counter_records(cursor *c, uint32_t n) {
    for (; n > 0; n--) {
        frame f;
        if (RARELY(!read_frame(c, &f)))
            return false;
        cursor in = inside(c, &f);
        if (RARELY(!counter_data(&in, f.format)))
            return false;
        c->count = in.count;
    }
    return true;
}

/* The words before the records of a sample, the last of which counts them; 0 where it stays raw. */
INLINE uint32_t words_before_records(uint32_t format) {
    if (OFTEN(format == 1))
        return 8;
    switch (format) {
    case 2: return 3;
    case 3: return 11;
    case 4: return 4;
    case 5: return 8;
    default: return 0;
    }
}

INLINE bool holds_counters(uint32_t format) {
    return format == 2 || format == 4;
}

INLINE bool sample_data(cursor *c, uint32_t format) {
    uint32_t before = words_before_records(format);
    if (before == 0)
        return true;
    if (!words(c, before))
        return false;
    return holds_counters(format) ? counter_records(c, last(c)) : flow_records(c, last(c), 1);
}

/* Where a datagram ends, and what is counted then: 0 where it is refused. */
typedef struct judged {
    const uint8_t *end;
    uint64_t count;
} judged;

INLINE judged judge(const uint8_t *at, size_t left, uint64_t count, refusal *why) {
    static const judged none;
    cursor c = {at, left, count + DESCRIPTOR, why};
    if (!among(&c, 5, 5, LATCHPLUME_VERSION) || !address(&c) || !words(&c, 4))
        return none;
    for (uint32_t n = last(&c); n > 0; n--) {
        frame f;
        if (RARELY(!read_frame(&c, &f)))
            return none;
        cursor in = inside(&c, &f);
        if (RARELY(!sample_data(&in, f.format)))
            return none;
        c.count = in.count;
    }
    return (judged){c.at, c.count};
}

/* The second pass, over what the first has accepted. */

/* The input's first byte, the next byte, where the next descriptor goes, and its index. */
typedef struct pen {
    const uint8_t *data, *at;
    uint32_t *to;
    size_t index;
} pen;

/* What a part of the second pass answers: where the next descriptor goes, and its index. */
typedef struct next {
    uint32_t *to;
    size_t index;
} next;

/* The descriptor of what begins at the pen's byte. Its head, of so many bytes, comes before its range. */
INLINE void put(const pen *p, uint32_t kind, uint32_t format, uint32_t head, size_t length, size_t parent, uint32_t depth) {
    uint32_t first = (uint32_t)(p->at - p->data);
    p->to[LATCHPLUME_KIND] = kind;
    p->to[LATCHPLUME_FORMAT] = format;
    p->to[LATCHPLUME_START] = first + head;
    p->to[LATCHPLUME_LENGTH] = (uint32_t)length;
    p->to[LATCHPLUME_PARENT] = (uint32_t)parent;
    p->to[LATCHPLUME_AT_DEPTH] = depth;
    p->to[LATCHPLUME_FIRST] = first;
}

/* Past the place of one descriptor. */
INLINE void step(pen *p) {
    p->to += WORDS_EACH;
    p->index++;
}

/* A frame's own descriptor; past the frame. */
INLINE frame put_frame(pen *p, uint32_t kind, size_t parent, uint32_t depth) {
    frame f = {word_at(p->at), word_at(p->at + 4), p->at + 8};
    put(p, kind, f.format, 8, f.length, parent, depth);
    step(p);
    p->at = f.start + padded(f.length);
    return f;
}

APART next put_aggregation(const uint8_t *data, const uint8_t *at, next to, uint32_t depth);

INLINE void put_flow_records(pen *p, uint32_t n, size_t parent, uint32_t depth) {
    for (; n > 0; n--) {
        frame f = put_frame(p, LATCHPLUME_FLOW_RECORD, parent, depth);
        if (f.format == 1016) {
            next behind = put_aggregation(p->data, f.start, (next){p->to, p->index}, depth);
            p->to = behind.to;
            p->index = behind.index;
        }
    }
}

/* What the aggregation holds whose own descriptor was put last. */
next put_aggregation(const uint8_t *data, const uint8_t *at, next to, uint32_t depth) {
    pen p = {data, at + 4, to.to, to.index};
    size_t parent = to.index - 1;
    for (uint32_t n = word_at(at); n > 0; n--) {
        pen own = p;
        const uint8_t *start = p.at + 4;
        uint32_t records = word_at(p.at);
        p.at = start;
        step(&p);
        put_flow_records(&p, records, own.index, depth + 1);
        put(&own, LATCHPLUME_PDU, 0, 4, (size_t)(p.at - start), parent, depth);
    }
    return (next){p.to, p.index};
}

/* What the sample holds whose own descriptor was put last. */
INLINE void put_sample_data(pen *p, const frame *f) {
    uint32_t before = words_before_records(f->format);
    if (before == 0)
        return;
    p->at = f->start + 4 * before;
    uint32_t n = word_at(p->at - 4);
    size_t parent = p->index - 1;
    if (!holds_counters(f->format)) {
        put_flow_records(p, n, parent, 1);
        return;
    }
    for (; n > 0; n--)
        put_frame(p, LATCHPLUME_COUNTER_RECORD, parent, 1);
}

/* The datagram at `p.at`; past it. */
INLINE pen put_datagram(pen p) {
    static const uint8_t address_bytes[] = {0, 4, 16};
    pen own = p;
    p.at += 24 + address_bytes[word_at(p.at + 4)];
    step(&p);
    for (uint32_t n = word_at(p.at - 4); n > 0; n--) {
        frame f = put_frame(&p, LATCHPLUME_SAMPLE, own.index, 0);
        const uint8_t *behind = p.at;
        put_sample_data(&p, &f);
        p.at = behind;
    }
    put(&own, LATCHPLUME_DATAGRAM, 0, 0, (size_t)(p.at - own.at), LATCHPLUME_NOBODY, 0);
    return p;
}

/* The calls. */

INLINE size_t steps_of(uint64_t count) {
    return count % DESCRIPTOR;
}

INLINE size_t needed_of(uint64_t count) {
    return count / DESCRIPTOR;
}

INLINE latchplume_answer refused(const refusal *why, const uint8_t *data) {
    return (latchplume_answer){why->code, (size_t)(why->at - data), steps_of(why->count), 0};
}

INLINE latchplume_answer answer_one(const uint8_t *data, size_t length, uint32_t *store, size_t words) {
    if (RARELY(length > LATCHPLUME_MAX_INPUT))
        return (latchplume_answer){LATCHPLUME_INPUT_LENGTH, 0, 0, 0};
    refusal why;
    judged all = judge(data, length, 0, &why);
    if (RARELY(all.count == 0))
        return refused(&why, data);
    size_t steps = steps_of(all.count), needed = needed_of(all.count);
    if (RARELY(words / WORDS_EACH < needed))
        return (latchplume_answer){LATCHPLUME_NO_ROOM, 0, steps, needed};
    put_datagram((pen){data, data, store, 0});
    return (latchplume_answer){LATCHPLUME_ACCEPTED, (size_t)(all.end - data), steps, needed};
}

/* The header in registers, so that it goes to the caller's memory at once and by way of no other. */
latchplume_decoded walk_decode(const uint8_t *data, size_t length, uint32_t *store, size_t words) {
    latchplume_decoded got;
    uint32_t kind = 0, rest[4] = {0};
    uint64_t bytes[2] = {0};
    got.answer = answer_one(data, length, store, words);
    if (OFTEN(got.answer.code == LATCHPLUME_ACCEPTED)) {
        kind = word_at(data + 4);
        data += 8;
        if (kind == 1)
            memcpy(bytes, data, 4);
        else if (kind == 2)
            memcpy(bytes, data, 16);
        data += kind == 0 ? 0 : kind == 1 ? 4 : 16;
        for (int i = 0; i < 4; i++)
            rest[i] = word_at(data + 4 * i);
    }
    got.agent_address.kind = kind;
    memcpy(got.agent_address.bytes, bytes, 16);
    got.sub_agent_id = rest[0];
    got.sequence_number = rest[1];
    got.uptime = rest[2];
    got.num_samples = rest[3];
    return got;
}

latchplume_answer walk_decode_run(const uint8_t *data, size_t length, uint32_t *store, size_t words) {
    if (RARELY(length > LATCHPLUME_MAX_INPUT))
        return (latchplume_answer){LATCHPLUME_INPUT_LENGTH, 0, 0, 0};
    judged all = {data, 0};
    size_t left = length, steps = 0;
    while (left > 0) {
        refusal why;
        judged one = judge(all.end, left, all.count, &why);
        if (RARELY(one.count == 0)) {
            if (why.code != LATCHPLUME_PASSES_END)
                return refused(&why, data);
            steps = steps_of(why.count);
            break;
        }
        all = one;
        left = length - (size_t)(all.end - data);
        steps = steps_of(all.count);
    }
    size_t needed = needed_of(all.count);
    if (RARELY(words / WORDS_EACH < needed))
        return (latchplume_answer){LATCHPLUME_NO_ROOM, 0, steps, needed};
    for (pen p = {data, data, store, 0}; p.at < all.end;)
        p = put_datagram(p);
    return (latchplume_answer){LATCHPLUME_ACCEPTED, (size_t)(all.end - data), steps, needed};
}
