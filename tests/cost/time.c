/* Times of one call over 1 MiB and over 16 MiB of the same shape: time CALL ROUNDS, with the two inputs on standard input.
   The first line has the two codes and positions; then a line for each round, in nanoseconds of this thread for one call: 16 MiB;
   1 MiB, sixteen of them side by side, each with a store of its own, which is as much memory as the 16 MiB have; and 1 MiB over and
   over in one place, which caches may hold. */
#include <time.h>

#include "cost.h"

enum { TIMES = 16, LEAST = 2000000 };
enum which { BIG, SIDE_BY_SIDE, IN_CACHES };

static uint8_t small[TIMES][MIB], big[MOST];
static uint32_t store[TIMES][WORDS];
static size_t small_length, big_length;
static int run;
static latchplume_answer last;

static double now(void) {
    struct timespec t;
    clock_gettime(CLOCK_THREAD_CPUTIME_ID, &t);
    return (double)t.tv_sec * 1e9 + (double)t.tv_nsec;
}

static double timed(enum which which, size_t turns) {
    double start = now();
    for (size_t turn = 0; turn < turns; turn++) {
        if (which == BIG)
            last = call(run, big, big_length, store[0]);
        for (size_t i = 0; which != BIG && i < TIMES; i++) {
            size_t at = which == SIDE_BY_SIDE ? i : 0;
            last = call(run, small[at], small_length, store[at]);
        }
    }
    return (now() - start) / (double)turns / (which == BIG ? 1 : TIMES);
}

/* How often a call is made, so that the clock's own time does not show. */
static size_t enough(double one) {
    return one > LEAST ? 1 : (size_t)(LEAST / (one + 1)) + 1;
}

int main(int argc, char **argv) {
    if (argc != 3)
        return stop("usage: time CALL ROUNDS");
    run = is_run(argv[1]);
    small_length = next_input(small[0], MIB);
    big_length = next_input(big, MOST);
    for (size_t i = 1; i < TIMES; i++)
        memcpy(small[i], small[0], small_length);
    memset(store, 1, sizeof store);
    timed(IN_CACHES, 1);
    printf("%u %zu ", last.code, last.at);
    size_t turns = enough(timed(BIG, 1));
    printf("%u %zu\n", last.code, last.at);
    for (int rounds = atoi(argv[2]); rounds > 0; rounds--) {
        double sixteen = timed(BIG, turns), side = timed(SIDE_BY_SIDE, turns), cached = timed(IN_CACHES, turns);
        printf("%f %f %f\n", sixteen, side, cached);
    }
    return 0;
}
