#include "input.h"

#include "latchplume.h"
#include "names.h"

#include <errno.h>
#include <fcntl.h>
#include <stdio.h>
#include <stdlib.h>
#include <string.h>
#include <sys/mman.h>
#include <sys/stat.h>
#include <unistd.h>

void input_trouble(const char *name, const char *said)
{
    fflush(stdout);
    fprintf(stderr, "latchplume: %s: %s\n", strcmp(name, "-") ? name : "standard input", said);
}

bool input_is_off(const struct input *in)
{
    char said[60] = "is empty";
    if (in->length > LATCHPLUME_MAX_INPUT)
        snprintf(said, sizeof said, "is longer than %s bytes", name_of_number(LATCHPLUME_MAX_INPUT));
    else if (in->length > 0)
        return false;
    input_trouble(in->name, said);
    return true;
}

bool input_is_capture(const uint8_t *data, size_t length)
{
    static const uint8_t first[][4] = {
        {0xa1, 0xb2, 0xc3, 0xd4}, {0xd4, 0xc3, 0xb2, 0xa1}, /* microseconds, in either byte order */
        {0xa1, 0xb2, 0x3c, 0x4d}, {0x4d, 0x3c, 0xb2, 0xa1}, /* nanoseconds */
        {0x0a, 0x0d, 0x0d, 0x0a},                           /* pcapng */
    };
    for (size_t i = 0; i < sizeof first / sizeof *first; i++)
        if (length >= 4 && memcmp(data, first[i], 4) == 0)
            return true;
    return false;
}

/* What comes through a pipe. Of bare datagrams one byte more than is decoded is enough to know that there are too many. */
static bool read_all(struct input *in, int from)
{
    size_t room = 0;
    uint8_t *all = NULL;
    for (;;) {
        if (in->length == room) {
            room = room ? 2 * room : 65536;
            uint8_t *more = realloc(all, room);
            if (more == NULL)
                break;
            in->data = all = more;
        }
        ssize_t got = read(from, all + in->length, room - in->length);
        if (got == 0)
            return true;
        if (got < 0 && errno == EINTR)
            continue;
        if (got < 0)
            break;
        in->length += (size_t)got;
        if (in->length > LATCHPLUME_MAX_INPUT && !input_is_capture(all, in->length))
            return true;
    }
    input_trouble(in->name, strerror(errno));
    free(all);
    return false;
}

static bool map(struct input *in, int from, size_t length)
{
    void *at = mmap(NULL, length, PROT_READ, MAP_PRIVATE, from, 0);
    if (at == MAP_FAILED) {
        input_trouble(in->name, strerror(errno));
        return false;
    }
    in->data = at;
    in->length = length;
    in->mapped = true;
    return true;
}

static bool take(struct input *in, int from)
{
    struct stat about;
    if (fstat(from, &about) != 0) {
        input_trouble(in->name, strerror(errno));
        return false;
    }
    if (S_ISDIR(about.st_mode)) {
        input_trouble(in->name, "is a folder, not a file");
        return false;
    }
    if (S_ISREG(about.st_mode) && about.st_size > 0 && from != STDIN_FILENO)
        return map(in, from, (size_t)about.st_size);
    return read_all(in, from);
}

bool input_open(struct input *in, const char *name)
{
    *in = (struct input){.name = name};
    if (strcmp(name, "-") == 0)
        return take(in, STDIN_FILENO);
    int from = open(name, O_RDONLY | O_CLOEXEC);
    if (from < 0) {
        input_trouble(name, errno == ENOENT ? "there is no such file" : strerror(errno));
        return false;
    }
    bool taken = take(in, from);
    close(from);
    return taken;
}

void input_close(struct input *in)
{
    if (in->mapped)
        munmap((void *)(uintptr_t)in->data, in->length);
    else
        free((void *)(uintptr_t)in->data);
}
