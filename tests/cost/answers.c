/* Answers cases from standard input, each a call of its own: what it answers, what the store then has, and how deep the stack was written.
   Of libc only read and write, so that a compiler without libc's headers for the processor can build it.

   A case is three words, then bytes: the call's place in CALLS of cases.py, how many words the store has, how many bytes follow.
   An answer is a struct shown, then the store and SPARE words behind it. */
#include "latchplume.h"

long read(int file, void *to, size_t count);
long write(int file, const void *from, size_t count);

#if defined(__x86_64__)
#define STACK_POINTER(p) __asm__ volatile("mov %%rsp, %0" : "=r"(p))
#elif defined(__aarch64__)
#define STACK_POINTER(p) __asm__ volatile("mov %0, sp" : "=r"(p))
#else
#error "where this processor has its stack pointer is not known here"
#endif

enum { BYTES = 1 << 20, WORDS = LATCHPLUME_STORE_WORDS(BYTES), SPARE = 2 * LATCHPLUME_DESCRIPTOR_WORDS };
static const uint32_t FILL = 0xa5a5a5a5u;
static const uint64_t PAINT = 0x5a3c5a3c5a3c5a3cu;
/* in words of eight bytes: how deep is looked, and what a compiler may use below the stack pointer without moving it */
enum { DEEP = 65536 / 8, RED_ZONE = 128 / 8 };

struct shown {
    uint64_t code, at, steps, needed, stack;
    uint32_t kind;
    uint8_t address[16];
    uint32_t rest[4];
};

static uint8_t data[BYTES];
static uint32_t store[WORDS + SPARE];
static latchplume_decoded decoded;

/* The calls, in the order of cases.py: which is a run, and which is the base mode's. */
enum { DECODE, RUN, DECODE_BASE, RUN_BASE };

static int all(long (*move)(int, void *, size_t), int file, void *at, size_t count) {
    uint8_t *p = at;
    while (count > 0) {
        long n = move(file, p, count);
        if (n <= 0)
            return 0;
        p += n;
        count -= (size_t)n;
    }
    return 1;
}

static long put(int file, void *from, size_t count) {
    return write(file, from, count);
}

/* The bytes of stack below the caller's own that a call has written. */
static uint64_t call(uint32_t which, size_t bytes, size_t words) {
    static const latchplume_decoded none;
    volatile uint64_t *top, *p;
    decoded = none;
    STACK_POINTER(top);
    for (p = top - DEEP; p < top - RED_ZONE; p++)
        *p = PAINT;
    if (which == DECODE)
        decoded = latchplume_decode(data, bytes, store, words);
    else if (which == DECODE_BASE)
        decoded = latchplume_decode_base(data, bytes, store, words);
    else if (which == RUN)
        decoded.answer = latchplume_decode_run(data, bytes, store, words);
    else
        decoded.answer = latchplume_decode_run_base(data, bytes, store, words);
    for (p = top - DEEP; p < top && *p == PAINT; p++)
        ;
    return (uint64_t)(top - p) * 8;
}

static struct shown answer(uint32_t which, size_t bytes, size_t words) {
    struct shown s;
    s.stack = call(which, bytes, words);
    s.code = decoded.answer.code;
    s.at = decoded.answer.at;
    s.steps = decoded.answer.steps;
    s.needed = decoded.answer.needed;
    s.kind = decoded.agent_address.kind;
    for (int i = 0; i < 16; i++)
        s.address[i] = decoded.agent_address.bytes[i];
    s.rest[0] = decoded.sub_agent_id;
    s.rest[1] = decoded.sequence_number;
    s.rest[2] = decoded.uptime;
    s.rest[3] = decoded.num_samples;
    return s;
}

int main(void) {
    uint32_t head[3];
    while (all(read, 0, head, sizeof head)) {
        size_t words = head[1], bytes = head[2];
        if (head[0] > RUN_BASE || words > WORDS || bytes > BYTES || !all(read, 0, data, bytes))
            return 2;
        for (size_t i = 0; i < words + SPARE; i++)
            store[i] = FILL;
        struct shown s = answer(head[0], bytes, words);
        if (!all(put, 1, &s, sizeof s) || !all(put, 1, store, 4 * (words + SPARE)))
            return 2;
    }
    return 0;
}
