/* What AFL++ runs: each input goes to the comparison of ../oracle/judge, and a difference in either mode ends the process.
   An argument is the number of a deliberate fault, to see that it is found. */
#include <signal.h>
#include <stdint.h>
#include <stdio.h>
#include <stdlib.h>
#include <string.h>
#include <sys/mman.h>
#include <sys/prctl.h>
#include <unistd.h>

#define LONGEST (1 << 20)

uint32_t oracle_judge(const uint8_t *data, size_t length, uint32_t fault);

__AFL_FUZZ_INIT();

/* The end of a region behind which nothing can be read, so that a look past the input is a fault, too. */
static uint8_t *end_of_room(void)
{
    uint8_t *room = mmap(NULL, 2 * LONGEST, PROT_NONE, MAP_PRIVATE | MAP_ANONYMOUS, -1, 0);
    if (room == MAP_FAILED || mprotect(room, LONGEST, PROT_READ | PROT_WRITE) != 0) {
        perror("fuzz/harness");
        exit(2);
    }
    return room + LONGEST;
}

int main(int count, char **words)
{
    uint8_t *end = end_of_room();
    uint32_t fault = count > 1 ? (uint32_t)strtoul(words[1], NULL, 10) : 0;
    __AFL_INIT();
    /* A child that waits for its next input ends with AFL++. */
    prctl(PR_SET_PDEATHSIG, SIGKILL);
    const unsigned char *lent = __AFL_FUZZ_TESTCASE_BUF;
    while (__AFL_LOOP(100000)) {
        size_t length = __AFL_FUZZ_TESTCASE_LEN;
        if (length > LONGEST)
            continue;
        memcpy(end - length, lent, length);
        if (oracle_judge(end - length, length, fault))
            abort();
    }
    return 0;
}
