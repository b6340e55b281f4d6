/* Times contestants over the inputs of one case, which come on standard input, or lets callgrind count their instructions.

   usage: measure ROUNDS NAME ...    a line for each round: nanoseconds of this thread for one unit, contestant by contestant
          measure --count NAME       under callgrind, which is told to count one pass over the inputs, behind one that is not counted

   A NAME is a contestant's, or that and a colon and a number for the contestant over that input alone, the first being 0.

   A case is four words: 1 for runs or 0 for datagrams, 1 where each input has a store of its own, how many units a pass is divided by,
   and how many inputs follow, each behind a word with its length. */
#include <stdio.h>
#include <stdlib.h>
#include <string.h>
#include <time.h>

#include <valgrind/callgrind.h>

#include "contestants.h"

enum { ALIGN = 64, MOST_CONTESTANTS = 8 };
static const double LEAST = 5e6; /* nanoseconds that a measurement takes at least, so that the clock's own do not show */

/* A contestant, the first of its inputs and the end of them. */
struct measured {
    const struct contestant *who;
    size_t first, end, turns;
    double ns;
};

static struct input *inputs;
static size_t count, units;
static volatile uint64_t sink;

static void stop(const char *said) {
    fprintf(stderr, "measure: %s\n", said);
    exit(2);
}

static void *room(size_t bytes) {
    void *at = aligned_alloc(ALIGN, (bytes + 2 * ALIGN) / ALIGN * ALIGN);
    if (at == NULL)
        stop("no memory");
    return at;
}

static void take(void *to, size_t bytes) {
    if (fread(to, 1, bytes, stdin) != bytes)
        stop("the case is cut short");
}

/* A store with room for anything of this length, whose pages are there. */
static void lend_store(struct input *in, size_t length) {
    in->words = LATCHPLUME_STORE_WORDS(length);
    in->store = room(in->words * sizeof *in->store);
    memset(in->store, 1, in->words * sizeof *in->store);
}

static void read_case(void) {
    uint32_t head[4], length;
    size_t longest = 0;
    take(head, sizeof head);
    units = head[2];
    count = head[3];
    inputs = room(count * sizeof *inputs);
    for (size_t i = 0; i < count; i++) {
        take(&length, sizeof length);
        uint8_t *data = room(length);
        take(data, length);
        inputs[i] = (struct input){data, length, NULL, 0, head[0] != 0};
        longest = length > longest ? length : longest;
    }
    for (size_t i = 0; i < count; i++) {
        if (i == 0 || head[1] != 0)
            lend_store(&inputs[i], longest);
        inputs[i].store = head[1] != 0 ? inputs[i].store : inputs[0].store;
        inputs[i].words = inputs[0].words;
    }
}

/* That all contestants do the same work is part of what is measured. */
static void compare(void) {
    struct input other = inputs[0];
    lend_store(&other, inputs[0].words / LATCHPLUME_DESCRIPTOR_WORDS * 4);
    for (size_t i = 0; i < count; i++) {
        const char *said = difference(&inputs[i], other.store);
        if (said != NULL)
            stop(said);
    }
    free(other.store);
}

static void pass(const struct measured *one) {
    const struct contestant *who = one->who;
    uint64_t sum = 0;
    for (size_t i = one->first; i < one->end; i++)
        sum += who->once(&inputs[i]);
    sink = sum;
}

static double now(void) {
    struct timespec t;
    clock_gettime(CLOCK_THREAD_CPUTIME_ID, &t);
    return (double)t.tv_sec * 1e9 + (double)t.tv_nsec;
}

static double timed(const struct measured *one, size_t turns) {
    double start = now();
    for (size_t turn = 0; turn < turns; turn++)
        pass(one);
    return (now() - start) / (double)turns / (double)units;
}

static struct measured named(char *name) {
    struct measured one = {.end = count};
    char *number = strchr(name, ':');
    if (number != NULL) {
        *number++ = '\0';
        one.first = strtoul(number, NULL, 10);
        one.end = one.first + 1;
    }
    one.who = contestant_of(name);
    if (one.who == NULL || one.end > count)
        stop("no contestant has this name, or no input this number");
    return one;
}

/* Each contestant once a round, in an order that rotates, and turns around every other round. */
static void measure(int rounds, struct measured *all, size_t n) {
    for (size_t i = 0; i < n; i++) {
        pass(&all[i]);
        all[i].turns = 1 + (size_t)(LEAST / (timed(&all[i], 1) * (double)units));
    }
    for (size_t round = 0; round < (size_t)rounds; round++) {
        for (size_t k = 0; k < n; k++) {
            struct measured *one = &all[(round + (round % 2 ? n - k : k)) % n];
            one->ns = timed(one, one->turns);
        }
        for (size_t i = 0; i < n; i++)
            printf("%.3f%c", all[i].ns, i + 1 < n ? ' ' : '\n');
        fflush(stdout);
    }
}

int main(int argc, char **argv) {
    struct measured all[MOST_CONTESTANTS];
    if (argc < 3 || argc - 2 > MOST_CONTESTANTS)
        stop("usage: measure ROUNDS NAME ... | --count NAME");
    read_case();
    for (int i = 2; i < argc; i++)
        all[i - 2] = named(argv[i]);
    if (strcmp(argv[1], "--count") != 0) {
        compare();
        measure(atoi(argv[1]), all, (size_t)argc - 2);
        return 0;
    }
    pass(&all[0]);
    CALLGRIND_TOGGLE_COLLECT;
    pass(&all[0]);
    CALLGRIND_TOGGLE_COLLECT;
    return 0;
}
