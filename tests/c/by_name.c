/* The fields' places are written as numbers here: the constants of the header are what is tested. */
#include "by_name.h"

#include <string.h>

#include "radio_clock.h"
#include "reference.h"

static bool same_time(const struct radio_clock_time *t, const int32_t *fields)
{
    return t->year == fields[0] && t->month == fields[1] && t->day == fields[2] && t->weekday == fields[3] &&
           t->hour == fields[4] && t->minute == fields[5] && t->second == fields[6] && t->utc_offset == fields[7] &&
           t->unsynchronised == (fields[8] != 0) && t->unverified == (fields[9] != 0) &&
           t->summer_time == (fields[10] != 0) && t->dst_change_announced == (fields[11] != 0) &&
           t->leap_second_announced == (fields[12] != 0) && t->alternate_antenna == (fields[13] != 0);
}

/* What a caller lent is still so. */
static bool same_bytes(const void *now, const void *before, size_t size) { return memcmp(now, before, size) == 0; }

const char *by_name_string(const uint8_t *s, size_t n)
{
    struct radio_clock_time t, t_before;
    struct radio_clock_position p = { -1, -2, -3 }, p_before = p;
    int32_t fields[17];
    int64_t time = -4, said = 0;
    uint8_t kind = 77, told = 0, error = reference_kind(s, n, &told);
    size_t place = 0;
    memset(&t, 1, sizeof t);
    memcpy(&t_before, &t, sizeof t);
    if (error == 0)
        error = reference_read(told, REFERENCE_SENDS_U, REFERENCE_FIRST_YEAR, s, n, fields, 17, &place);
    if (radio_clock_read_string(s, n, &kind, &t, &p, &time) != error)
        return "a string by name has another answer";
    if (error != 0)
        return kind == 77 && time == -4 && same_bytes(&t, &t_before, sizeof t) && same_bytes(&p, &p_before, sizeof p)
                   ? NULL
                   : "a refused string by name changes something";
    if (kind != told)
        return "a string by name is of another kind";
    if (reference_unix_time(fields, 14, &said) != 0 || time != said)
        return "a string by name has another Unix time";
    if (told != 2 ? !same_bytes(&p, &p_before, sizeof p)
                  : p.latitude != fields[14] || p.longitude != fields[15] || p.height != fields[16])
        return "a string by name has another position";
    return same_time(&t, fields) ? NULL : "a string by name has other fields";
}

const char *by_name_trimble(const uint8_t *s, size_t n)
{
    struct radio_clock_time t, t_before;
    int32_t fields[15], milliseconds = -5;
    int64_t time = -4, said = 0;
    size_t place = 0;
    uint8_t error = reference_read_trimble(REFERENCE_FIRST_YEAR, s, n, fields, 15, &place);
    memset(&t, 1, sizeof t);
    memcpy(&t_before, &t, sizeof t);
    if (radio_clock_read_trimble_string(s, n, &t, &milliseconds, &time) != error)
        return "a Trimble string by name has another answer";
    if (error != 0)
        return time == -4 && milliseconds == -5 && same_bytes(&t, &t_before, sizeof t)
                   ? NULL
                   : "a refused Trimble string by name changes something";
    if (reference_unix_time(fields, 14, &said) != 0 || time != said)
        return "a Trimble string by name has another Unix time";
    if (milliseconds != fields[14])
        return "a Trimble string by name has other milliseconds";
    return same_time(&t, fields) ? NULL : "a Trimble string by name has other fields";
}

const char *by_name_minute(const uint8_t *marks, size_t n)
{
    struct radio_clock_time t, t_before;
    struct radio_clock_minute_detail d, d_before;
    int32_t fields[16];
    int64_t time = -4, said = 0;
    uint8_t error = reference_read_minute(REFERENCE_FIRST_YEAR, marks, n, fields, 16);
    memset(&t, 1, sizeof t);
    memset(&d, 1, sizeof d);
    memcpy(&t_before, &t, sizeof t);
    memcpy(&d_before, &d, sizeof d);
    if (radio_clock_read_marks(marks, n, &t, &d, &time) != error)
        return "a minute by name has another answer";
    if (error != 0)
        return time == -4 && same_bytes(&t, &t_before, sizeof t) && same_bytes(&d, &d_before, sizeof d)
                   ? NULL
                   : "a refused minute by name changes something";
    if (reference_unix_time(fields, 14, &said) != 0 || time != said)
        return "a minute by name has another Unix time";
    if (d.first_marks != fields[14] || d.sixty_marks != (fields[15] != 0))
        return "a minute by name adds something else";
    return same_time(&t, fields) ? NULL : "a minute by name has other fields";
}

const char *by_name_outcome(uint32_t outcome, const uint8_t *marks, size_t n)
{
    int32_t fields[16];
    int64_t time = 0;
    uint8_t error = reference_read_minute(REFERENCE_FIRST_YEAR, marks, n, fields, 16);
    if (radio_clock_outcome_accepted(outcome) != (error == 0))
        return "an outcome is not accepted, or is, as its minute";
    if (error != 0)
        return NULL;
    if (reference_unix_time(fields, 14, &time) != 0 ||
        60 * ((int64_t)radio_clock_outcome_minutes(outcome) - fields[7]) != time)
        return "an outcome has other minutes than its minute";
    return radio_clock_outcome_utc_offset(outcome) == fields[7] &&
                   radio_clock_outcome_dst_change(outcome) == (fields[11] != 0) &&
                   radio_clock_outcome_leap_second(outcome) == (fields[12] != 0) &&
                   radio_clock_outcome_antenna(outcome) == (fields[13] != 0) &&
                   radio_clock_outcome_sixty_marks(outcome) == (fields[15] != 0)
               ? NULL
               : "an outcome has another flag than its minute";
}

const char *by_name_fields(const int32_t *fields)
{
    struct radio_clock_time t = radio_clock_time_of(fields);
    int32_t again[15];
    if (!same_time(&t, fields))
        return "fields by name differ";
    for (int i = 0; i < 15; i++)
        again[i] = 1234;
    radio_clock_fields_of(t, again);
    for (int i = 0; i < 14; i++)
        if (again[i] != (i < 8 ? fields[i] : fields[i] != 0))
            return "fields from names differ";
    return again[14] == 1234 ? NULL : "fields from names are too many";
}

const char *by_name_feed(const uint8_t *state, const uint8_t *s, size_t n)
{
    struct radio_clock_framer framer;
    uint8_t said_state[68], said_event = 0;
    size_t said_taken = 0, taken = 1;
    memcpy(framer.state, state, 68);
    memcpy(said_state, state, 68);
    if (reference_feed(said_state, 68, s, n, n, &said_taken, &said_event) != 0)
        return "the reference refuses a state";
    if (radio_clock_framer_next(&framer, s, n, &taken) != said_event || taken != said_taken)
        return "the feed by name has another answer";
    if (said_event >= 1 && said_event <= 66 && memcmp(framer.state, said_state, said_event) != 0)
        return "the feed by name has another string";
    return NULL;
}
