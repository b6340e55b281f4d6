/* The bytes of a file or of standard input. */
#ifndef INPUT_H
#define INPUT_H

#include <stdbool.h>
#include <stddef.h>
#include <stdint.h>

struct input {
    const char *name;
    const uint8_t *data;
    size_t length;
    bool mapped;
};

/* Opens a file, or standard input for "-". Where that fails it says so in one line and answers false. */
bool input_open(struct input *in, const char *name);

void input_close(struct input *in);

/* Whether the bytes begin as a pcap or pcapng file does. */
bool input_is_capture(const uint8_t *data, size_t length);

/* Whether bare datagrams are too many or none; a line says so then. */
bool input_is_off(const struct input *in);

/* One line about a file, on standard error. */
void input_trouble(const char *name, const char *said);

#endif
