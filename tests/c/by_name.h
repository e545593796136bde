/* The inline functions of the header, compared with the reference's arrays of fields. Each function returns what
 * differs, or NULL. */
#ifndef BY_NAME_H
#define BY_NAME_H

#include <stddef.h>
#include <stdint.h>

/* A string told and read by name, whatever its length. */
const char *by_name_string(const uint8_t *s, size_t n);

/* A Trimble string, whatever its length. */
const char *by_name_trimble(const uint8_t *s, size_t n);

/* The n marks of a minute. */
const char *by_name_minute(const uint8_t *marks, size_t n);

/* An outcome at a gap of a recording; marks are the n marks of the run before that gap. */
const char *by_name_outcome(uint32_t outcome, const uint8_t *marks, size_t n);

/* The first 14 of any fields. */
const char *by_name_fields(const int32_t *fields);

/* The n bytes at s, from a state of the feed. */
const char *by_name_feed(const uint8_t *state, const uint8_t *s, size_t n);

#endif
