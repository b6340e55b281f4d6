/* One call under valgrind's callgrind, which counts its instructions: count CALL, with the input on standard input. */
#include <valgrind/callgrind.h>

#include "cost.h"

static uint8_t data[MOST];
static uint32_t store[16 * WORDS];

int main(int argc, char **argv) {
    if (argc != 2)
        return stop("usage: count CALL");
    int run = is_run(argv[1]);
    size_t length = next_input(data, MOST);
    CALLGRIND_TOGGLE_COLLECT;
    latchplume_answer answer = call(run, data, length, store);
    CALLGRIND_TOGGLE_COLLECT;
    printf("%u %zu\n", answer.code, answer.at);
    return 0;
}
