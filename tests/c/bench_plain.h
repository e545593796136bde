/* Document 01 and, for the Trimble's string, document 02 in plain C, written for speed: what the library's speed is
 * measured against. The functions are those of radio_clock.h under another name. */
#ifndef BENCH_PLAIN_H
#define BENCH_PLAIN_H

#include <stddef.h>
#include <stdint.h>

uint8_t plain_kind(const uint8_t *s, size_t n, uint8_t *kind);
uint8_t plain_read(uint8_t kind, const uint8_t *s, size_t n, int32_t *fields, size_t room);
uint8_t plain_read_trimble(const uint8_t *s, size_t n, int32_t *fields, size_t room);
uint8_t plain_write(uint8_t kind, const int32_t *fields, size_t count, uint8_t *out, size_t room, size_t *written);
uint8_t plain_read_minute(const uint8_t *marks, size_t n, int32_t *fields, size_t room);
uint8_t plain_write_minute(const int32_t *fields, size_t count, uint8_t *out, size_t room, size_t *written);
uint8_t plain_unix_time(const int32_t *fields, size_t count, int64_t *time);
uint8_t plain_outcome_at(const uint8_t *marks, size_t n, size_t place, uint32_t *number);
uint8_t plain_fill_outcomes(const uint8_t *marks, size_t n, uint32_t *outcomes, size_t count);
uint8_t plain_correct_mark(uint8_t *marks, size_t n, uint32_t *outcomes, size_t count, size_t place, uint8_t mark,
                           size_t *changed);
uint8_t plain_outcome_unix_time(uint32_t outcome, int64_t *time);
uint8_t plain_feed(uint8_t *state, size_t size, const uint8_t *s, size_t n, size_t limit, size_t *taken,
                   uint8_t *event);

#endif
