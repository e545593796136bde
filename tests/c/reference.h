/* Document 01 and, for the Trimble's string, document 02 in plain C, written from the documents alone: what the library
 * is compared with. The functions are those of radio_clock.h under another name, with three numbers more: whether the
 * receiver sends U, the first of the hundred years that there are, and the place of a refusal: for 2, 3 and 4 that of
 * the first such byte, else 0. */
#ifndef REFERENCE_H
#define REFERENCE_H

#include <stdbool.h>
#include <stddef.h>
#include <stdint.h>

/* What document 01 takes for granted. */
enum { REFERENCE_SENDS_U = true, REFERENCE_FIRST_YEAR = 1970 };

uint8_t reference_kind(const uint8_t *s, size_t n, uint8_t *kind);
uint8_t reference_read(uint8_t kind, bool sends_u, int32_t first_year, const uint8_t *s, size_t n, int32_t *fields,
                       size_t room, size_t *place);
uint8_t reference_read_trimble(int32_t first_year, const uint8_t *s, size_t n, int32_t *fields, size_t room,
                               size_t *place);
uint8_t reference_write(uint8_t kind, bool sends_u, int32_t first_year, const int32_t *fields, size_t count,
                        uint8_t *out, size_t room, size_t *written);
uint8_t reference_read_minute(int32_t first_year, const uint8_t *marks, size_t n, int32_t *fields, size_t room);
uint8_t reference_write_minute(int32_t first_year, const int32_t *fields, size_t count, uint8_t *out, size_t room,
                               size_t *written);
uint8_t reference_unix_time(const int32_t *fields, size_t count, int64_t *time);
uint8_t reference_outcome_at(int32_t first_year, const uint8_t *marks, size_t n, size_t place, uint32_t *number);
uint8_t reference_fill_outcomes(int32_t first_year, const uint8_t *marks, size_t n, uint32_t *outcomes, size_t count);
uint8_t reference_correct_mark(int32_t first_year, uint8_t *marks, size_t n, uint32_t *outcomes, size_t count,
                               size_t place, uint8_t mark, size_t *changed);
uint8_t reference_outcome_unix_time(uint32_t outcome, int64_t *time);
uint8_t reference_feed(uint8_t *state, size_t size, const uint8_t *s, size_t n, size_t limit, size_t *taken,
                       uint8_t *event);

#endif
