/* Random inputs, most of them valid or nearly so. All come from one stream of numbers that a seed starts. */
#ifndef INPUTS_H
#define INPUTS_H

#include <stdbool.h>
#include <stddef.h>
#include <stdint.h>

enum { STANDARD, PZF, GPS, ELV, MINUTE, TRIMBLE, ANY, FORMATS };

void inputs_seed(uint64_t seed, uint64_t number);
uint64_t any_number(void);
size_t below(size_t bound);
bool one_in(size_t bound);

/* How many fields the readings of a format have, and how many bytes or marks its strings; of a minute the most. */
size_t fields_of(int format);
size_t length_of(int format);

/* The fields of a reading that the format has; ANY is a valid reading that perhaps none has. */
void make_fields(int format, int32_t *fields);

/* Changes some of the fields: neighbours, numbers that agree in their low bits, limits, noise. */
void spoil_fields(int32_t *fields, size_t count);

/* A string or the marks of a minute that is accepted; returns the length. */
size_t make_string(int format, uint8_t *s);
size_t make_minute(uint8_t *marks);

/* The Trimble string with a clock time and milliseconds, with 0 in oo, d, nn and rrrrr; and the sum that the 37 bytes
 * of a Trimble string have, put in its place. */
void put_trimble(const int32_t *fields, uint8_t *s);
void mend_sum(uint8_t *s);

/* Changes as many places as said, to bytes that are likely to matter. Most Trimble strings then have the sum of their
 * new bytes, so that what is checked after the sum is reached. */
void damage_string(int format, uint8_t *s, size_t n, size_t places);
void damage_minute(uint8_t *marks, size_t n, size_t places);

/* Marks with random bits, whose start, zone and parities are right. */
size_t make_bits(uint8_t *marks);

/* A recording of n marks: minutes between gaps, some of them spoilt. */
void make_recording(uint8_t *marks, size_t n);

/* Bytes of a serial line: strings, noise, strings cut short and overlong ones. */
void make_line(uint8_t *s, size_t n);

/* A state of the feed: the start, one that a feed gives, or any bytes. */
void make_state(uint8_t *state);

#endif
