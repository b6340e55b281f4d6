#include "contestants.h"

#include <string.h>

#include "layouts.h"
#include "walk.h"

/* bench/crate/src/lib.rs: how many datagrams were read, 0 on a refusal; and the bytes before the first ill-formed sequence. */
size_t crate_datagram(const uint8_t *data, size_t length);
size_t crate_datagrams(const uint8_t *data, size_t length);
size_t std_well_formed(const uint8_t *data, size_t length);

static latchplume_answer library(const struct input *in, uint32_t *store) {
    if (in->run)
        return latchplume_decode_run(in->data, in->length, store, in->words);
    return latchplume_decode(in->data, in->length, store, in->words).answer;
}

static latchplume_answer walked(const struct input *in, uint32_t *store) {
    if (in->run)
        return walk_decode_run(in->data, in->length, store, in->words);
    return walk_decode(in->data, in->length, store, in->words).answer;
}

static uint64_t ours(const struct input *in) {
    return library(in, in->store).needed;
}

#ifdef BEFORE
/* The library of another build. */
latchplume_decoded before_latchplume_decode(const uint8_t *data, size_t length, uint32_t *store, size_t words);
latchplume_answer before_latchplume_decode_run(const uint8_t *data, size_t length, uint32_t *store, size_t words);

static uint64_t before(const struct input *in) {
    if (in->run)
        return before_latchplume_decode_run(in->data, in->length, in->store, in->words).needed;
    return before_latchplume_decode(in->data, in->length, in->store, in->words).answer.needed;
}
#endif

static uint64_t walk(const struct input *in) {
    return walked(in, in->store).needed;
}

static uint64_t crate(const struct input *in) {
    return in->run ? crate_datagrams(in->data, in->length) : crate_datagram(in->data, in->length);
}

/* The bytes, read once: sums that do not wait for one another. */
static uint64_t floor_sum(const struct input *in) {
    enum { SUMS = 8 };
    uint64_t sums[SUMS] = {0}, eight;
    size_t at = 0;
    for (; at + sizeof sums <= in->length; at += sizeof sums)
        for (size_t i = 0; i < SUMS; i++) {
            memcpy(&eight, in->data + at + sizeof eight * i, sizeof eight);
            sums[i] += eight;
        }
    for (; at < in->length; at++)
        sums[0] += in->data[at];
    for (size_t i = 1; i < SUMS; i++)
        sums[0] += sums[i];
    return sums[0];
}

/* The layouts by kind and the lower bits of the format word, in which no two of them are the same. */
enum { SLOTS = 64 };
static const struct layout *by_slot[5][SLOTS];

__attribute__((constructor)) static void fill_slots(void) {
    for (size_t i = 0; i < LAYOUTS_COUNT; i++)
        by_slot[LAYOUTS[i].kind][LAYOUTS[i].format % SLOTS] = &LAYOUTS[i];
}

/* Every descriptor's payload, and all fields of those that have a layout. */
static uint64_t fields(const struct input *in) {
    size_t count = library(in, in->store).needed;
    uint64_t sum = 0;
    for (size_t i = 0; i < count; i++) {
        const uint32_t *one = in->store + LATCHPLUME_DESCRIPTOR_WORDS * i;
        sum += latchplume_payload(in->data, in->length, one).count;
        const struct layout *layout = by_slot[one[LATCHPLUME_KIND]][one[LATCHPLUME_FORMAT] % SLOTS];
        if (layout == NULL || layout->format != one[LATCHPLUME_FORMAT])
            continue;
        union reading reading;
        layout->read[MEMO](&reading, in->data, in->length, one);
        sum += reading.outcome.steps;
    }
    return sum;
}

/* An input that holds one string has it in the one record of format 1008 of its one sample: where both are counted, where the format is,
   the string's length word, and its first byte. */
enum { AT_SAMPLES = 20, AT_RECORDS = 60, AT_FORMAT = 64, AT_LENGTH = 72, AT_TEXT = 76 };

static size_t word_at(const struct input *in, size_t at) {
    const uint8_t *word = in->data + at;
    return (size_t)word[0] << 24 | (size_t)word[1] << 16 | (size_t)word[2] << 8 | word[3];
}

static bool holds_one_string(const struct input *in) {
    return in->length >= AT_TEXT && word_at(in, AT_SAMPLES) == 1 && word_at(in, AT_RECORDS) == 1 && word_at(in, AT_FORMAT) == 1008;
}

static uint64_t standard(const struct input *in) {
    return std_well_formed(in->data + AT_TEXT, word_at(in, AT_LENGTH));
}

const struct contestant CONTESTANTS[] = {
    {"ours", ours}, {"fields", fields}, {"crate", crate}, {"walk", walk}, {"floor", floor_sum}, {"std", standard},
#ifdef BEFORE
    {"before", before},
#endif
};
const size_t CONTESTANTS_COUNT = sizeof CONTESTANTS / sizeof *CONTESTANTS;

const struct contestant *contestant_of(const char *name) {
    for (size_t i = 0; i < CONTESTANTS_COUNT; i++)
        if (strcmp(CONTESTANTS[i].name, name) == 0)
            return &CONTESTANTS[i];
    return NULL;
}

static size_t datagrams_of(const uint32_t *store, latchplume_answer answer) {
    size_t count = 0;
    for (size_t i = 0; answer.code == LATCHPLUME_ACCEPTED && i < answer.needed; i++)
        count += store[LATCHPLUME_DESCRIPTOR_WORDS * i + LATCHPLUME_KIND] == LATCHPLUME_DATAGRAM;
    return count;
}

/* Whether an input's one string is UTF-8 to the standard library where it is accepted, and else goes bad where it is refused. */
static bool same_string(const struct input *in, latchplume_answer answer) {
    size_t good = standard(in);
    if (good == word_at(in, AT_LENGTH))
        return answer.code == LATCHPLUME_ACCEPTED;
    return answer.code == LATCHPLUME_NOT_UTF8 && answer.at == AT_TEXT + good;
}

const char *difference(const struct input *in, uint32_t *other_store) {
    latchplume_answer one = library(in, in->store), other = walked(in, other_store);
    if (one.code != other.code || one.at != other.at || one.steps != other.steps || one.needed != other.needed)
        return "the walk answers another code, position, number of steps or of descriptors";
    size_t bytes = one.code == LATCHPLUME_ACCEPTED ? one.needed * LATCHPLUME_DESCRIPTOR_WORDS * sizeof *in->store : 0;
    if (memcmp(in->store, other_store, bytes) != 0)
        return "the walk writes other descriptors";
    if (holds_one_string(in) && !same_string(in, one))
        return "the standard library has the string go bad elsewhere, or not at all";
    return crate(in) == datagrams_of(in->store, one) ? NULL : "the crate accepts other datagrams";
}
