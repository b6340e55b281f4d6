/*
 * Calls every function of the library, as the lines of standard input ask, and prints a line for each answer.
 *
 *     data HEX[*N]           the input from here on, filled up with zeros to N bytes; - is NULL and 0
 *     decode WORDS           latchplume_decode with a store of so many words
 *     run WORDS              latchplume_decode_run
 *     read NAME D..          latchplume_read_NAME with this descriptor, word for word
 *     decode_base, run_base, read_base
 *                            the same in the base mode; of read_base, latchplume_read_NAME_base where the header has it
 *     payload D..            latchplume_payload
 *     whole D..              latchplume_whole
 *     word START COUNT N     latchplume_list_word
 *     segment AT             latchplume_next_segment
 *     split WORD             the inline functions of the header
 *
 * The input lies read-only right before a page that cannot be read, and so does the end of the store: whatever reads or writes past
 * them ends the program.
 */
#include "layouts.h"

#include <inttypes.h>
#include <stdio.h>
#include <stdlib.h>
#include <string.h>
#include <sys/mman.h>
#include <unistd.h>

static const uint8_t *data;
static size_t length;
static void *data_area;
static size_t data_area_size;

static _Noreturn void bad(const char *line)
{
    fprintf(stderr, "calls: not understood: %.80s\n", line);
    exit(2);
}

/* So many bytes that end where a page begins that must not be touched. */
static uint8_t *before_a_wall(size_t size, void **area, size_t *area_size)
{
    size_t page = (size_t)sysconf(_SC_PAGESIZE);
    size_t open = (size + page) / page * page;
    *area_size = open + page;
    *area = mmap(NULL, *area_size, PROT_READ | PROT_WRITE, MAP_PRIVATE | MAP_ANONYMOUS, -1, 0);
    if (*area == MAP_FAILED || mprotect((uint8_t *)*area + open, page, PROT_NONE) != 0) {
        perror("calls");
        exit(2);
    }
    return (uint8_t *)*area + open - size;
}

static unsigned digit(char c)
{
    return (unsigned)(c <= '9' ? c - '0' : c - 'a' + 10);
}

static void set_data(const char *text)
{
    if (data_area)
        munmap(data_area, data_area_size);
    data_area = NULL;
    data = NULL;
    length = 0;
    if (strcmp(text, "-") == 0)
        return;
    size_t digits = strspn(text, "0123456789abcdef");
    length = text[digits] == '*' ? (size_t)strtoull(text + digits + 1, NULL, 10) : digits / 2;
    uint8_t *at = before_a_wall(length, &data_area, &data_area_size);
    for (size_t i = 0; i < digits / 2; i++)
        at[i] = (uint8_t)(digit(text[2 * i]) << 4 | digit(text[2 * i + 1]));
    mprotect(data_area, data_area_size, PROT_READ);
    mprotect((uint8_t *)data_area + data_area_size - (size_t)sysconf(_SC_PAGESIZE), (size_t)sysconf(_SC_PAGESIZE), PROT_NONE);
    data = at;
}

/* What the store holds before a call. */
static uint32_t mark(size_t i)
{
    return 0xa5a5a5a5u ^ (uint32_t)i * 2654435761u;
}

struct store {
    uint32_t *words;
    size_t count;
    void *area;
    size_t area_size;
};

static struct store new_store(const char *words)
{
    struct store s = {.count = (size_t)strtoull(words, NULL, 10)};
    s.words = (uint32_t *)(void *)before_a_wall(4 * s.count, &s.area, &s.area_size);
    for (size_t i = 0; i < s.count; i++)
        s.words[i] = mark(i);
    if (s.count == 0)
        s.words = NULL;
    return s;
}

static void print_bytes(const uint8_t *bytes, size_t count)
{
    for (size_t i = 0; i < count; i++)
        printf("%02x", bytes[i]);
}

static void print_address(const latchplume_address *address)
{
    printf("%" PRIu32 "/", address->kind);
    print_bytes(address->bytes, sizeof address->bytes);
}

/* The descriptors, and whether every other word of the store is as it was. */
static void end_store(struct store *s, const latchplume_answer *a)
{
    size_t used = a->code == LATCHPLUME_ACCEPTED ? LATCHPLUME_DESCRIPTOR_WORDS * a->needed : 0;
    size_t changed = 0;
    for (size_t i = 0; i < used && i < s->count; i++)
        printf("%s%" PRIu32, i % LATCHPLUME_DESCRIPTOR_WORDS ? "," : " ", s->words[i]);
    for (size_t i = used; i < s->count; i++)
        changed += s->words[i] != mark(i);
    printf(" changed=%zu\n", changed);
    munmap(s->area, s->area_size);
}

static void print_answer(const char *name, const latchplume_answer *a)
{
    printf("%s code=%" PRIu32 " at=%zu steps=%zu needed=%zu", name, a->code, a->at, a->steps, a->needed);
}

typedef latchplume_decoded decoder(const uint8_t *data, size_t length, uint32_t *store, size_t words);
typedef latchplume_answer runner(const uint8_t *data, size_t length, uint32_t *store, size_t words);

static void decode_by(decoder *call, const char *name, char **words)
{
    struct store s = new_store(words[0]);
    latchplume_decoded got = call(data, length, s.words, s.count);
    print_answer(name, &got.answer);
    printf(" agent_address=");
    print_address(&got.agent_address);
    printf(" sub_agent_id=%" PRIu32 " sequence_number=%" PRIu32, got.sub_agent_id, got.sequence_number);
    printf(" uptime=%" PRIu32 " num_samples=%" PRIu32, got.uptime, got.num_samples);
    end_store(&s, &got.answer);
}

static void do_decode(char **words)
{
    decode_by(latchplume_decode, "decode", words);
}

static void do_decode_base(char **words)
{
    decode_by(latchplume_decode_base, "decode_base", words);
}

static void run_by(runner *call, const char *name, char **words)
{
    struct store s = new_store(words[0]);
    latchplume_answer got = call(data, length, s.words, s.count);
    print_answer(name, &got);
    end_store(&s, &got);
}

static void do_run(char **words)
{
    run_by(latchplume_decode_run, "run", words);
}

static void do_run_base(char **words)
{
    run_by(latchplume_decode_run_base, "run_base", words);
}

static void print_outcome(const char *name, const latchplume_outcome *o)
{
    printf("%s code=%" PRIu32 " at=%zu steps=%zu", name, o->code, o->at, o->steps);
}

static void print_field(const struct field *field, const union reading *from)
{
    const void *at = (const char *)from + field->offset;
    const uint32_t *number = at;
    printf(" %s=", field->name);
    switch (field->shape) {
    case NUMBER:
    case IPV4: printf("%" PRIu32, *number); break;
    case SOURCE: printf("%" PRIu32, ((const latchplume_data_source *)at)->word); break;
    case INTERFACE: printf("%" PRIu32, ((const latchplume_interface *)at)->word); break;
    case LONG: printf("%" PRIu64, *(const uint64_t *)at); break;
    case MAC: print_bytes(at, 6); break;
    case IPV6: print_bytes(at, 16); break;
    case ADDRESS: print_address(at); break;
    case SOURCE_EXPANDED: {
        const latchplume_data_source_expanded *source = at;
        printf("%" PRIu32 "/%" PRIu32, source->source_id_type, source->source_id_index);
        break;
    }
    case INTERFACE_EXPANDED: {
        const latchplume_interface_expanded *interface = at;
        printf("%" PRIu32 "/%" PRIu32, interface->format, interface->value);
        break;
    }
    default: printf("%zu+%zu", ((const latchplume_span *)at)->start, ((const latchplume_span *)at)->count);
    }
}

static const uint32_t *descriptor(char **words)
{
    static uint32_t one[LATCHPLUME_DESCRIPTOR_WORDS];
    for (size_t i = 0; i < LATCHPLUME_DESCRIPTOR_WORDS; i++)
        one[i] = (uint32_t)strtoul(words[i], NULL, 10);
    return one;
}

static void read_by(enum mode mode, char **words)
{
    for (size_t i = 0; i < LAYOUTS_COUNT; i++) {
        const struct layout *layout = &LAYOUTS[i];
        if (strcmp(layout->name, words[0]) != 0)
            continue;
        union reading got;
        memset(&got, 0xee, sizeof got);
        layout->read[mode](&got, data, length, descriptor(words + 1));
        print_outcome(layout->name, &got.outcome);
        for (size_t f = 0; f < layout->count; f++)
            print_field(&layout->fields[f], &got);
        putchar('\n');
        return;
    }
    bad(words[0]);
}

static void do_read(char **words)
{
    read_by(MEMO, words);
}

static void do_read_base(char **words)
{
    read_by(BASE, words);
}

static void do_payload(char **words)
{
    latchplume_span got = latchplume_payload(data, length, descriptor(words));
    printf("payload %zu+%zu\n", got.start, got.count);
}

static void do_whole(char **words)
{
    latchplume_span got = latchplume_whole(data, length, descriptor(words));
    printf("whole %zu+%zu\n", got.start, got.count);
}

static size_t size(const char *word)
{
    return (size_t)strtoull(word, NULL, 10);
}

static void do_word(char **words)
{
    latchplume_listed got = latchplume_list_word(data, length, size(words[0]), size(words[1]), size(words[2]));
    printf("word present=%d value=%" PRIu32 "\n", got.present, got.value);
}

static void do_segment(char **words)
{
    latchplume_segment got = latchplume_next_segment(data, length, size(words[0]));
    print_outcome("segment", &got.outcome);
    printf(" kind=%" PRIu32 " path=%zu+%zu\n", got.kind, got.path.start, got.path.count);
}

static void do_split(char **words)
{
    uint32_t word = (uint32_t)size(words[0]), whole[LATCHPLUME_DESCRIPTOR_WORDS] = {0, word};
    latchplume_data_format format = latchplume_format_of(whole);
    latchplume_data_source source = {word};
    latchplume_interface in = {word};
    printf("split %" PRIu32 ":%" PRIu32, latchplume_enterprise(format), latchplume_format_number(format));
    printf(" %" PRIu32 ":%" PRIu32, latchplume_source_type(source), latchplume_source_index(source));
    printf(" %" PRIu32 ":%" PRIu32 "\n", latchplume_interface_format(in), latchplume_interface_value(in));
}

static void do_line(char *line)
{
    enum { DESCRIPTOR = LATCHPLUME_DESCRIPTOR_WORDS, MOST = DESCRIPTOR + 3 };
    static const struct {
        const char *name;
        size_t words;
        void (*call)(char **words);
    } calls[] = {{"decode", 1, do_decode}, {"decode_base", 1, do_decode_base}, {"run", 1, do_run}, {"run_base", 1, do_run_base},
                 {"read", 1 + DESCRIPTOR, do_read}, {"read_base", 1 + DESCRIPTOR, do_read_base}, {"payload", DESCRIPTOR, do_payload},
                 {"whole", DESCRIPTOR, do_whole}, {"word", 3, do_word}, {"segment", 1, do_segment}, {"split", 1, do_split}};
    char *words[MOST] = {0};
    size_t count = 0;
    for (char *w = strtok(line, " \n"); w && count < MOST; w = strtok(NULL, " \n"))
        words[count++] = w;
    if (count == 2 && strcmp(words[0], "data") == 0) {
        set_data(words[1]);
        return;
    }
    for (size_t i = 0; i < sizeof calls / sizeof *calls; i++)
        if (count == calls[i].words + 1 && strcmp(words[0], calls[i].name) == 0) {
            calls[i].call(words + 1);
            return;
        }
    bad(line);
}

int main(void)
{
    char *line = NULL;
    size_t room = 0;
    while (getline(&line, &room, stdin) > 0)
        do_line(line);
    free(line);
    return 0;
}
