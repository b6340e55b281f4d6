/* The value of one field, as people write it. */
#ifndef VALUES_H
#define VALUES_H

#include "layouts.h"

/* What is shown: the input, by which mode, how many bytes or words of one field at the most, and whether pads that are not zero are told. */
struct shown {
    const uint8_t *data;
    size_t length;
    enum mode mode;
    size_t most;
    bool pads;
};

/* A line for the field, and lines below it where its value has parts. */
void value_print(const struct shown *s, unsigned level, const struct field *field, const union reading *from);

#endif
