/* The command: lists the sFlow datagrams of a file, shows them as a tree, or cuts a record out. */
#include "cut.h"
#include "fault.h"
#include "input.h"
#include "names.h"
#include "packets.h"
#include "show.h"
#include "status.h"
#include "text.h"

#include <errno.h>
#include <inttypes.h>
#include <limits.h>
#include <locale.h>
#include <stdio.h>
#include <stdlib.h>
#include <string.h>

/* ./latchplume prints it from here before anything is built, with LATCHPLUME_MAX_INPUT in its one place. */
static const char HELP[] =
    "usage: latchplume list [--base] [--port N] FILE  one datagram: the answer, and a line for each descriptor\n"
    "       latchplume run  [--base] [--port N] FILE  datagrams end to end, listed likewise\n"
    "       latchplume show [--base] [--port N] [--full] [--pads] FILE\n"
    "                                                 datagrams end to end, each as a tree of its fields\n"
    "       latchplume cut  [--base] [--port N --packet N] FILE INDEX\n"
    "                                                 one record, from its format word to its pad, as a relay would forward it\n"
    "\n"
    "FILE holds sFlow version 5 datagrams, bare; or it is a pcap or pcapng file, whose UDP packets to the sFlow port are read one\n"
    "by one. - is standard input. Bare datagrams are read up to %s bytes.\n"
    "INDEX counts descriptors from 0, as list and run print them. Samples, PDUs and datagrams are cut out as well.\n"
    "\n"
    "  --base     sampled Ethernet records (flow record 2) in 20 bytes, their addresses without pads, as some collectors read them;\n"
    "             else in 24, as the sFlow version 5 memo has them\n"
    "  --port N   the port of the packets in a pcap file, instead of 6343\n"
    "  --packet N the packet of a pcap file that INDEX is in, as list counts them\n"
    "  --full     all of a field that has more than 256 bytes or words\n"
    "  --pads     the pads that are not zero, below the field, record or sample that each is behind\n"
    "  --help     this text\n"
    "  --version  the release\n"
    "\n"
    "exit status: 0 all was accepted\n"
    "             1 a datagram was refused, is cut or is in fragments, or bytes are left over that are no datagram (show)\n"
    "             2 the words of the command are off, or no descriptor has INDEX; the file is missing, empty, a folder, too long or no\n"
    "               readable capture\n";

struct work {
    void (*each)(struct work *w, const uint8_t *data, size_t length);
    const char *file;
    unsigned port;
    bool cuts; /* where `each` has no part */
    const char *index;
    struct cut cut;
    size_t most;
    bool pads;
    enum mode mode;
    uint32_t *store;
    size_t words;
    unsigned long number; /* of the datagram that is shown */
    unsigned long packet; /* of a capture, from 1 on */
    int status;
};

static void worse(struct work *w, int status)
{
    if (status > w->status)
        w->status = status;
}

/* The lines of the listing: docs/RULES.md, 12. */
static void print_listing(struct work *w, const latchplume_answer *a)
{
    printf("code=%" PRIu32 " at=%zu steps=%zu descriptors=%zu\n", a->code, a->at, a->steps, a->needed);
    if (a->code != LATCHPLUME_ACCEPTED) {
        worse(w, REFUSED);
        return;
    }
    for (size_t i = 0; i < a->needed; i++) {
        const uint32_t *d = w->store + LATCHPLUME_DESCRIPTOR_WORDS * i;
        printf("kind=%" PRIu32 " format=%" PRIu32 " start=%" PRIu32, d[LATCHPLUME_KIND], d[LATCHPLUME_FORMAT], d[LATCHPLUME_START]);
        printf(" length=%" PRIu32 " parent=%" PRIu32, d[LATCHPLUME_LENGTH], d[LATCHPLUME_PARENT]);
        printf(" depth=%" PRIu32 " first=%" PRIu32 "\n", d[LATCHPLUME_AT_DEPTH], d[LATCHPLUME_FIRST]);
    }
}

/* Where a string goes bad in the datagram from `from` on: the listing has a form of its own, so the words go to standard error. */
static void say_fault(const struct work *w, const uint8_t *data, size_t length, size_t from, size_t at)
{
    struct fault fault;
    char packet[40] = "", said[sizeof fault + 100];
    fault_find(&fault, data, length, from, at);
    if (w->packet)
        snprintf(packet, sizeof packet, "packet %lu, ", w->packet);
    snprintf(said, sizeof said, "a string is not UTF-8 at %zu, in %s%s: expected %s", at, packet, fault.where, fault.expected);
    input_trouble(w->file, said);
}

static void list(struct work *w, const uint8_t *data, size_t length)
{
    latchplume_decoded got = mode_decode(w->mode, data, length, w->store, w->words);
    print_listing(w, &got.answer);
    if (got.answer.code == LATCHPLUME_NOT_UTF8)
        say_fault(w, data, length, 0, got.answer.at);
}

/* Where the datagram begins that a run is refused in. */
static size_t refused_from(struct work *w, const uint8_t *data, size_t length)
{
    for (size_t from = 0;;) {
        latchplume_answer got = mode_decode(w->mode, data + from, length - from, w->store, w->words).answer;
        if (got.code != LATCHPLUME_ACCEPTED)
            return from;
        from += got.at;
    }
}

static void list_run(struct work *w, const uint8_t *data, size_t length)
{
    latchplume_answer got = mode_decode_run(w->mode, data, length, w->store, w->words);
    print_listing(w, &got);
    if (got.code == LATCHPLUME_NOT_UTF8)
        say_fault(w, data, length, refused_from(w, data, length), got.at);
}

/* One datagram; its length, or 0 where it is refused. */
static size_t show_next(struct work *w, const struct shown *s, size_t from)
{
    latchplume_decoded got = mode_decode(w->mode, s->data + from, s->length - from, w->store, w->words);
    if (got.answer.code != LATCHPLUME_ACCEPTED) {
        show_refusal(s, ++w->number, from, &got.answer);
        worse(w, REFUSED);
        return 0;
    }
    for (size_t i = 0; i < got.answer.needed; i++) {
        w->store[LATCHPLUME_DESCRIPTOR_WORDS * i + LATCHPLUME_START] += (uint32_t)from;
        w->store[LATCHPLUME_DESCRIPTOR_WORDS * i + LATCHPLUME_FIRST] += (uint32_t)from;
    }
    if (!show_datagram(s, ++w->number, w->store, got.answer.needed))
        worse(w, REFUSED);
    return got.answer.at;
}

static void show_all(struct work *w, const uint8_t *data, size_t length)
{
    struct shown s = {data, length, w->mode, w->most, w->pads};
    size_t from = 0, got = 1;
    while (from < length && got > 0) {
        got = show_next(w, &s, from);
        from += got;
    }
}

/* The one datagram of a packet; bytes behind it are no fault. */
static void show_packet(struct work *w, const uint8_t *data, size_t length)
{
    struct shown s = {data, length, w->mode, w->most, w->pads};
    show_next(w, &s, 0);
}

static bool make_store(struct work *w, size_t length)
{
    w->words = LATCHPLUME_STORE_WORDS(length < LATCHPLUME_MAX_INPUT ? length : LATCHPLUME_MAX_INPUT);
    w->store = calloc(w->words + 1, sizeof *w->store);
    if (w->store == NULL)
        input_trouble(w->file, strerror(errno));
    return w->store != NULL;
}

static void take_packet(void *who, const struct packet *one)
{
    struct work *w = who;
    printf("packet %lu", one->number);
    if (one->state == WHOLE) {
        putchar('\n');
        w->packet = one->number;
        w->each(w, one->data, one->length);
        return;
    }
    if (one->state == CUT)
        printf(" is cut, and not decoded: %zu bytes of %zu are there\n", one->length, one->announced);
    else
        printf(" is in fragments, and not decoded: %zu bytes of %zu are in the first\n", one->length, one->announced);
    worse(w, REFUSED);
}

static void work_on_capture(struct work *w, const struct input *in)
{
    struct packets count;
    if (w->each == show_all)
        w->each = show_packet;
    if (!packets_each(in->name, in->data, in->length, w->port, take_packet, w, &count)) {
        worse(w, TROUBLE);
        return;
    }
    printf("%lu packets: %lu datagrams, ", count.all, count.datagrams);
    printf("%lu cut, %lu fragments, %lu others\n", count.cut, count.fragments, count.others);
    if (count.fragments)
        worse(w, REFUSED);
    if (count.all == count.others) {
        char said[96];
        snprintf(said, sizeof said, "has no UDP packet to port %u (--port names another)", w->port);
        input_trouble(in->name, said);
        worse(w, TROUBLE);
    }
}

static void work_on_datagrams(struct work *w, const struct input *in)
{
    w->each(w, in->data, in->length);
    if (input_is_off(in))
        worse(w, TROUBLE);
}

static int work(struct work *w)
{
    struct input in;
    if (!input_open(&in, w->file))
        return TROUBLE;
    bool capture = input_is_capture(in.data, in.length);
    if (!make_store(w, capture ? 65535 : in.length))
        worse(w, TROUBLE);
    else if (w->cuts)
        worse(w, cut_out(&w->cut, &in, w->store, w->words));
    else if (capture)
        work_on_capture(w, &in);
    else
        work_on_datagrams(w, &in);
    free(w->store);
    input_close(&in);
    if (fflush(stdout) != 0 || ferror(stdout)) {
        input_trouble("standard output", strerror(errno));
        worse(w, TROUBLE);
    }
    return w->status;
}

static int usage(const char *said, const char *about)
{
    fprintf(stderr, "latchplume: %s%s; latchplume --help tells how it is used\n", said, about);
    return TROUBLE;
}

/* A number in digits, from `least` to `most`. */
static bool read_number(const char *text, unsigned long least, unsigned long most, unsigned long *number)
{
    char *end;
    errno = 0;
    *number = text ? strtoul(text, &end, 10) : 0;
    return text && *text >= '0' && *text <= '9' && *end == '\0' && errno == 0 && *number >= least && *number <= most;
}

/* Once all words are read. */
static int go(struct work *w)
{
    unsigned long index;
    if (!w->file)
        return usage("a file is missing", "");
    if (w->cuts && !w->index)
        return usage("the index of a descriptor is missing", "");
    if (w->cuts && !read_number(w->index, 0, ULONG_MAX, &index))
        return usage("an index is a number from 0 on, and not ", w->index);
    if (w->cuts)
        w->cut = (struct cut){index, w->cut.packet, w->port, w->mode};
    return work(w);
}

/* The words behind the command's name. */
static int with(struct work *w, char **words)
{
    bool options = true;
    for (; *words; words++) {
        unsigned long number;
        bool option = options && words[0][0] == '-' && words[0][1] != '\0';
        if (option && strcmp(*words, "--") == 0) {
            options = false;
        } else if (option && strcmp(*words, "--base") == 0) {
            w->mode = BASE;
        } else if (option && strcmp(*words, "--full") == 0) {
            w->most = SIZE_MAX;
        } else if (option && w->each == show_all && strcmp(*words, "--pads") == 0) {
            w->pads = true;
        } else if (option && strcmp(*words, "--port") == 0) {
            if (!read_number(*++words, 1, 65535, &number))
                return usage("--port takes a number from 1 to 65535", "");
            w->port = (unsigned)number;
        } else if (option && w->cuts && strcmp(*words, "--packet") == 0) {
            if (!read_number(*++words, 1, ULONG_MAX, &w->cut.packet))
                return usage("--packet takes a number from 1 on", "");
        } else if (option) {
            return usage("there is no option ", *words);
        } else if (!w->file) {
            w->file = *words;
        } else if (w->cuts && !w->index) {
            w->index = *words;
        } else {
            return usage("one file at a time, and here is another: ", *words);
        }
    }
    return go(w);
}

int main(int count, char **words)
{
    static const struct {
        const char *name;
        void (*each)(struct work *w, const uint8_t *data, size_t length);
    } commands[] = {{"list", list}, {"run", list_run}, {"show", show_all}, {"cut", NULL}};
    setlocale(LC_CTYPE, "");
    for (int i = 1; i < count; i++) {
        bool help = strcmp(words[i], "--help") == 0;
        if (help || strcmp(words[i], "--version") == 0) {
            printf(help ? HELP : "latchplume " LATCHPLUME_RELEASE "\n", name_of_number(LATCHPLUME_MAX_INPUT));
            return fflush(stdout) == 0 ? ACCEPTED : TROUBLE;
        }
    }
    if (count < 2)
        return usage("list, run, show or cut is missing", "");
    for (size_t i = 0; i < sizeof commands / sizeof *commands; i++)
        if (strcmp(words[1], commands[i].name) == 0) {
            struct work w = {.each = commands[i].each, .cuts = commands[i].each == NULL, .port = 6343, .most = TEXT_SHORT};
            return with(&w, words + 2);
        }
    return usage("there is no command ", words[1]);
}
