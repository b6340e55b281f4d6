/* Counts what the library asks of the allocator: heap COUNT, with an input on standard input. Linked so that each name below leads here.
   Prints the count after one malloc of this program's own, and after COUNT decodes with room, without, and as a run, in both modes. */
#include <sys/mman.h>
#include <unistd.h>

#include "cost.h"

static unsigned long calls;

#define COUNTED(result, name, parameters, arguments) \
    result __real_##name parameters;                 \
    result __wrap_##name parameters;                 \
    result __wrap_##name parameters {                \
        calls++;                                     \
        return __real_##name arguments;              \
    }

COUNTED(void *, malloc, (size_t size), (size))
COUNTED(void *, calloc, (size_t count, size_t size), (count, size))
COUNTED(void *, realloc, (void *from, size_t size), (from, size))
COUNTED(void *, aligned_alloc, (size_t align, size_t size), (align, size))
COUNTED(int, posix_memalign, (void **to, size_t align, size_t size), (to, align, size))
COUNTED(void *, mmap, (void *at, size_t size, int prot, int flags, int file, off_t from), (at, size, prot, flags, file, from))
COUNTED(void *, sbrk, (intptr_t by), (by))

static uint8_t data[MIB];
static uint32_t store[WORDS];

int main(int argc, char **argv) {
    if (argc != 2)
        return stop("usage: heap COUNT");
    size_t length = next_input(data, MIB);
    void *volatile own = malloc(1);
    free(own);
    printf("%lu ", calls);
    calls = 0;
    unsigned codes = 0;
    for (int i = atoi(argv[1]); i > 0; i--) {
        codes |= call(0, data, length, store).code;
        codes |= latchplume_decode(data, length, store, 0).answer.code;
        codes |= call(1, data, length, store).code;
        codes |= latchplume_decode_base(data, length, store, WORDS).answer.code;
        codes |= latchplume_decode_base(data, length, store, 0).answer.code;
        codes |= latchplume_decode_run_base(data, length, store, WORDS).code;
    }
    printf("%lu %u\n", calls, codes);
    return 0;
}
