/* The names of the numbers in a datagram. */
#ifndef NAMES_H
#define NAMES_H

#include <stdint.h>

/* A number in digits, with a comma before each three of them; until the next call. */
const char *name_of_number(uint32_t number);

/* The words of docs/RULES.md for a code; until the next call. */
const char *name_of_code(uint32_t code);

/* The name of a format by its kind and format word, or NULL. */
const char *name_of_format(uint32_t kind, uint32_t format);

/* What a number means is printed behind it, in brackets, where there is more to say than the number. */
void say_header_protocol(uint32_t value);
void say_ip_protocol(uint32_t value);
void say_hexadecimal(uint32_t value);
void say_tcp_flags(uint32_t value);
void say_drop_reason(uint32_t value);
void say_direction(uint32_t value);
void say_number_or_unknown(uint32_t value);
void say_uptime(uint32_t value);
void say_microseconds(uint32_t value);
void say_milliwatts(uint32_t value);
void say_80211_version(uint32_t value);
void say_cipher_suite(uint32_t value);
void say_label(uint32_t value);
void say_tag(uint32_t value);
void say_community(uint32_t value);
void say_packets(uint32_t value);
void say_frames(uint32_t value);
void say_times(uint32_t value);
void say_percentage(uint32_t value);
void say_truth_value(uint32_t value);
void say_iftype(uint32_t value);
void say_ifdirection(uint32_t value);
void say_ifstatus(uint32_t value);

/* The same behind a u64. */
void say_bit_s(uint64_t value);
void say_octets(uint64_t value);
void say_memory(uint64_t value);

const char *name_of_source(uint32_t type);
const char *name_of_segment(uint32_t kind);

#endif
