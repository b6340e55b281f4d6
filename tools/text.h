/* What comes from the wire, written so that people can read it and a terminal takes no order from it. */
#ifndef TEXT_H
#define TEXT_H

#include "latchplume.h"

/* How many bytes or words of one field are printed before the rest is only counted. */
#define TEXT_SHORT 256

void text_indent(unsigned level);

/* Groups of two hexadecimal digits with colons. */
void text_mac(const uint8_t *bytes);

void text_ipv4(const uint8_t *bytes);

/* As RFC 5952 has it. */
void text_ipv6(const uint8_t *bytes);

void text_address(latchplume_address address);

/* A string in quotes, of which at most `most` bytes are printed. Whatever is not a visible character of this locale is escaped. */
void text_string(const uint8_t *bytes, size_t count, size_t most);

/* Rows of sixteen bytes, with the position of each row; at most `most` bytes. */
void text_bytes(unsigned level, const uint8_t *data, size_t start, size_t count, size_t most);

/* The pad behind so many bytes that end at `end`, where a byte of it is not zero. */
void text_pad(unsigned level, const uint8_t *data, size_t end, size_t count);

/* The rows around a position, with that byte marked; the end of the data may be marked too. */
void text_around(unsigned level, const uint8_t *data, size_t length, size_t at);

#endif
