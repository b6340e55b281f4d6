/* Decodes what standard input brings, in one region of memory that is set aside before: a word with a length, and that many bytes,
   datagram by datagram. The length 4294967295 stands for no datagram: how many were accepted and refused so far is printed then. */
#include <stdio.h>
#include <string.h>
#include <unistd.h>

#include "latchplume.h"

enum { LONGEST = 65535, STACK = 65536 };
static const uint32_t MARK = 4294967295u;

static uint8_t data[LONGEST];
static uint32_t store[LATCHPLUME_STORE_WORDS(LONGEST)];
static char line[128];

static int take(void *to, size_t count) {
    for (uint8_t *at = to; count > 0;) {
        ssize_t n = read(0, at, count);
        if (n <= 0)
            return 0;
        at += n;
        count -= (size_t)n;
    }
    return 1;
}

/* The region's pages, the stack's too, are there from the beginning. */
static void set_aside(void) {
    volatile uint8_t stack[STACK];
    for (size_t i = 0; i < sizeof stack; i++)
        stack[i] = 1;
    memset(data, 1, sizeof data);
    memset(store, 1, sizeof store);
}

int main(void) {
    unsigned long accepted = 0, refused = 0;
    uint32_t length;
    setvbuf(stdout, line, _IOLBF, sizeof line);
    set_aside();
    while (take(&length, sizeof length)) {
        if (length == MARK) {
            printf("%lu %lu\n", accepted, refused);
            fflush(stdout);
        } else if (length > LONGEST || !take(data, length)) {
            fprintf(stderr, "a datagram is cut short, or too long\n");
            return 2;
        } else if (latchplume_decode(data, length, store, sizeof store / sizeof *store).answer.code == LATCHPLUME_ACCEPTED) {
            accepted++;
        } else {
            refused++;
        }
    }
    return 0;
}
