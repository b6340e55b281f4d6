/*
 * A collector: receives sFlow on a UDP socket of the loopback, decodes each datagram, and counts per agent what was accepted and
 * what was refused, by code. The counts are printed on SIGUSR1, and at the end on SIGTERM or SIGINT.
 *
 * It uses one fixed buffer, one fixed store and one fixed table, and no heap.
 *
 *     cc -Iinclude examples/collector.c "$(./build --static)" -o collector
 *     ./collector PORT      0 takes a free port; the first line says which
 */
#include "latchplume.h"

#include <arpa/inet.h>
#include <errno.h>
#include <inttypes.h>
#include <netinet/in.h>
#include <signal.h>
#include <stdio.h>
#include <stdlib.h>
#include <string.h>
#include <sys/select.h>
#include <sys/socket.h>

#define AGENTS 64
#define CODES 12

struct agent {
    latchplume_address address;
    uint64_t accepted;
    uint64_t refused[CODES];
};

static uint8_t data[65536];
static uint32_t store[LATCHPLUME_STORE_WORDS(sizeof data)];

/* The last place is for all agents that came when the others were taken; the one before it for datagrams that name no agent. */
static struct agent agents[AGENTS + 2];
static size_t known;

static volatile sig_atomic_t print_wanted, end_wanted;

static void on_signal(int number)
{
    if (number == SIGUSR1)
        print_wanted = 1;
    else
        end_wanted = 1;
}

static struct agent *agent_of(const latchplume_address *address)
{
    for (size_t i = 0; i < known; i++)
        if (agents[i].address.kind == address->kind && memcmp(agents[i].address.bytes, address->bytes, sizeof address->bytes) == 0)
            return &agents[i];
    if (known == AGENTS)
        return &agents[AGENTS + 1];
    agents[known].address = *address;
    return &agents[known++];
}

/* A refused datagram has its header read by itself: it still says which agent sent it, where that much of it can be read. */
static void count(size_t length)
{
    latchplume_decoded got = latchplume_decode(data, length, store, sizeof store / sizeof *store);
    if (got.answer.code == LATCHPLUME_ACCEPTED) {
        agent_of(&got.agent_address)->accepted++;
        return;
    }
    const uint32_t all[LATCHPLUME_DESCRIPTOR_WORDS] = {
        [LATCHPLUME_KIND] = LATCHPLUME_DATAGRAM, [LATCHPLUME_LENGTH] = (uint32_t)length, [LATCHPLUME_PARENT] = LATCHPLUME_NOBODY};
    latchplume_header head = latchplume_read_header(data, length, all);
    struct agent *from = head.outcome.code == LATCHPLUME_ACCEPTED ? agent_of(&head.agent_address) : &agents[AGENTS];
    from->refused[got.answer.code < CODES ? got.answer.code : 0]++;
}

static void print_agent(const char *name, const struct agent *one)
{
    printf("%s accepted=%" PRIu64, name, one->accepted);
    for (int code = 0; code < CODES; code++)
        if (one->refused[code])
            printf(" code%d=%" PRIu64, code, one->refused[code]);
    putchar('\n');
}

static void print_counts(void)
{
    char name[INET6_ADDRSTRLEN + 8];
    for (size_t i = 0; i < known; i++) {
        strcpy(name, "agent=");
        if (agents[i].address.kind == 0)
            strcat(name, "unknown");
        else
            inet_ntop(agents[i].address.kind == 1 ? AF_INET : AF_INET6, agents[i].address.bytes, name + 6, INET6_ADDRSTRLEN);
        print_agent(name, &agents[i]);
    }
    print_agent("no agent", &agents[AGENTS]);
    print_agent("other agents", &agents[AGENTS + 1]);
    puts("end");
    fflush(stdout);
}

static int listen_on(const char *port)
{
    struct sockaddr_in here = {.sin_family = AF_INET, .sin_port = htons((uint16_t)atoi(port)), .sin_addr.s_addr = htonl(INADDR_LOOPBACK)};
    socklen_t size = sizeof here;
    int from = socket(AF_INET, SOCK_DGRAM, 0);
    if (from < 0 || bind(from, (struct sockaddr *)&here, size) != 0 || getsockname(from, (struct sockaddr *)&here, &size) != 0) {
        perror("collector");
        exit(2);
    }
    printf("port=%u\n", ntohs(here.sin_port));
    fflush(stdout);
    return from;
}

/* Signals come only while it waits, so that none is missed between a look at the marks and the wait. */
static void block_signals(sigset_t *before)
{
    static const int wanted[] = {SIGUSR1, SIGTERM, SIGINT};
    struct sigaction act = {.sa_handler = on_signal};
    sigset_t ours;
    sigemptyset(&ours);
    for (size_t i = 0; i < sizeof wanted / sizeof *wanted; i++) {
        sigaction(wanted[i], &act, NULL);
        sigaddset(&ours, wanted[i]);
    }
    sigprocmask(SIG_BLOCK, &ours, before);
}

int main(int words, char **word)
{
    if (words != 2) {
        fprintf(stderr, "usage: collector PORT\n");
        return 2;
    }
    sigset_t open;
    block_signals(&open);
    int from = listen_on(word[1]);
    while (!end_wanted) {
        fd_set ready;
        FD_ZERO(&ready);
        FD_SET(from, &ready);
        if (pselect(from + 1, &ready, NULL, NULL, NULL, &open) > 0) {
            ssize_t got = recv(from, data, sizeof data, 0);
            if (got >= 0)
                count((size_t)got);
        }
        if (print_wanted) {
            print_wanted = 0;
            print_counts();
        }
    }
    print_counts();
    return 0;
}
