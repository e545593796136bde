/* A library for testing the comparison: the reference under the library's names, with one mistake, whose number the
 * environment has in FAULT; 0 is none. The comparison must find each of them. */
#include <stdlib.h>
#include <string.h>

#include "radio_clock.h"
#include "reference.h"

static int fault(void)
{
    static int number = -1;
    if (number < 0) {
        const char *text = getenv("FAULT");
        number = text == NULL ? 0 : atoi(text);
    }
    return number;
}

uint8_t radio_clock_kind(const uint8_t *s, size_t n, uint8_t *kind)
{
    uint8_t error = reference_kind(s, n, kind);
    if (fault() == 1 && error == 0 && n == 32 && s[1] == 'd') /* another letter taken for D */
        *kind = RADIO_CLOCK_STANDARD;
    if (fault() == 2 && n == 0) /* a byte before the length is known */
        *kind = s[1];
    return error;
}

uint8_t radio_clock_read(uint8_t kind, const uint8_t *s, size_t n, int32_t *fields, size_t room)
{
    size_t place = 0;
    if (fault() == 3 && room > 0) /* a field changed before the string is accepted */
        fields[0] = 0;
    if (fault() == 4 && kind > 3) /* an unknown kind taken for a known one */
        kind &= 3;
    if (fault() == 5 && kind == RADIO_CLOCK_GPS && n == 66 && s[48] == 'S') { /* a second zero */
        uint8_t copy[66];
        memcpy(copy, s, 66);
        if (memcmp(s + 41, " 0.0000", 7) == 0)
            copy[48] = 'N';
        return reference_read(kind, REFERENCE_SENDS_U, REFERENCE_FIRST_YEAR, copy, n, fields, room, &place);
    }
    uint8_t error = reference_read(kind, REFERENCE_SENDS_U, REFERENCE_FIRST_YEAR, s, n, fields, room, &place);
    if (fault() == 6 && error == 0 && kind == RADIO_CLOCK_STANDARD && s[29] == ' ') /* a blank taken as UTC */
        fields[7] = 0;
    if (fault() == 7 && error == 5 && n == 32 && kind == 0 && memcmp(s + 3, "31.06", 5) == 0) /* 31 June */
        return 0;
    if (fault() == 8 && error == 3) /* 3 and 4 in the wrong order */
        return n == 32 && s[30] != ' ' && s[30] != '!' && s[30] != 'A' && s[30] != 'R' ? 4 : 3;
    if (fault() == 9 && error == 0 && room > 17) /* a field after the last */
        fields[17] = 0;
    if (fault() == 10 && error == 0) /* a field past the room */
        fields[room] = 0;
    if (fault() == 11 && n == 32) /* a byte past the string */
        (void)*(const volatile uint8_t *)(s + n);
    if (fault() == 12 && error == 6 && kind == RADIO_CLOCK_PZF && memcmp(s + 20, "60", 2) == 0) /* second 60 */
        return 0;
    return error;
}

/* The sum that the bytes before a place have, in two digits. */
static void put_sum(const uint8_t *s, size_t place, const char *digits, uint8_t *sum)
{
    unsigned all = 0;
    for (size_t i = 0; i < place; i++)
        all ^= s[i];
    sum[0] = (uint8_t)digits[all / 16];
    sum[1] = (uint8_t)digits[all % 16];
}

/* The string that the reference reads as a wrong reader reads this one: with the sum that is right if the wrong reader
 * takes the one that stands there, and with none if it does not. */
static void change_sum(uint8_t *s, bool taken)
{
    memcpy(s + 34, "??", 2);
    if (taken)
        put_sum(s, 34, "0123456789ABCDEF", s + 34);
}

static bool has_sum(const uint8_t *s, size_t place, const char *digits)
{
    uint8_t sum[2];
    put_sum(s, place, digits, sum);
    return memcmp(s + 34, sum, 2) == 0;
}

static bool is_one_of(uint8_t byte, const char *bytes) { return byte != 0 && strchr(bytes, byte) != NULL; }

/* Mistakes that are made before the string is read. */
static void mistake_trimble(uint8_t *s)
{
    if (fault() == 46) /* the sum without `;*` */
        change_sum(s, has_sum(s, 32, "0123456789ABCDEF"));
    if (fault() == 47 && has_sum(s, 34, "0123456789abcdef")) /* small letters taken */
        change_sum(s, true);
    if (fault() == 48) /* the sum with its own first digit */
        change_sum(s, has_sum(s, 35, "0123456789ABCDEF"));
    for (size_t i = 27; i < 32; i++)
        if ((fault() == 49 && s[i] == 127) || (fault() == 50 && s[i] == 31) || (fault() == 51 && s[i] > 127)) {
            bool right = has_sum(s, 34, "0123456789ABCDEF"); /* a byte of rrrrr that is not printable */
            s[i] = ' ';
            change_sum(s, right);
        }
}

uint8_t radio_clock_read_trimble(const uint8_t *s, size_t n, int32_t *fields, size_t room)
{
    uint8_t copy[37];
    size_t place = 0;
    if (fault() == 52 && n > 37) /* what stands after 37 bytes passed over */
        n = 37;
    if (fault() == 53 && n == 37) /* a byte past the string */
        (void)*(const volatile uint8_t *)(s + n);
    if (n == sizeof copy) {
        memcpy(copy, s, n);
        mistake_trimble(copy);
        s = copy;
    }
    uint8_t error = reference_read_trimble(REFERENCE_FIRST_YEAR, s, n, fields, room, &place);
    if (fault() == 54 && error == 24 && s[26] != '1') /* v before the sum */
        return 25;
    if (fault() == 55 && error == 2 && place >= 27 && place < 32) { /* rrrrr's 2 after 3 */
        for (size_t i = 4; i < 26; i++)
            if (s[i] < '0' || s[i] > '9')
                return 3;
    }
    if (fault() == 56 && error == 0) /* milliseconds dropped */
        fields[14] = 0;
    if (fault() == 57 && error == 5) { /* the year by its last two digits */
        memcpy(copy + 17, s[19] < '7' ? "20" : "19", 2);
        change_sum(copy, true);
        return reference_read_trimble(REFERENCE_FIRST_YEAR, copy, n, fields, room, &place);
    }
    if (fault() == 58 && error == 25 && is_one_of(s[26], "23456789")) /* any digit above 0 taken for v */
        return 0;
    if (fault() == 59 && error == 3 && place >= 21) /* no digits asked of oo, d and nn */
        return 0;
    if (fault() == 60 && error == 0 && memcmp(s + 21, "99", 2) == 0) /* oo taken for something */
        return 8;
    if (fault() == 61 && error == 0) /* the weekday of the day before */
        fields[3] = fields[3] == 1 ? 7 : fields[3] - 1;
    if (fault() == 62 && error == 6 && memcmp(s + 6, "5960", 4) == 0) /* second 60 in any hour's last minute */
        return 0;
    if (fault() == 63 && error == 5 && memcmp(s + 17, "2070", 4) == 0) /* one year too many */
        return 0;
    if (fault() == 64 && error == 5 && memcmp(s + 17, "1969", 4) == 0) /* one year too early */
        return 0;
    if (fault() == 65 && error == 25) /* 5 before 25 */
        return memcmp(s + 13, "00", 2) == 0 ? 5 : 25;
    if (fault() == 66 && error == 20 && room == 14) /* room for a clock time alone */
        return 0;
    if (fault() == 67 && error == 0 && room > 15) /* a field after the last */
        fields[15] = 0;
    if (fault() == 68 && error == 0) /* the digits of the milliseconds from the last to the first */
        fields[14] = (s[12] - '0') * 100 + (s[11] - '0') * 10 + s[10] - '0';
    return error;
}

uint8_t radio_clock_write(uint8_t kind, const int32_t *fields, size_t count, uint8_t *out, size_t room, size_t *written)
{
    int32_t copy[40];
    memcpy(copy, fields, 4 * (count < 40 ? count : 40));
    if (fault() == 13) /* the month's low byte alone */
        copy[1] &= 255;
    if (fault() == 14 && count == 17 && kind < 2) /* more fields than the kind has */
        count = 14;
    uint8_t error = reference_write(kind, REFERENCE_SENDS_U, REFERENCE_FIRST_YEAR, copy, count, out, room, written);
    if (fault() == 15 && error == 20) /* a count although refused */
        *written = 0;
    if (fault() == 16 && error == 0 && room > *written) /* a byte after the string */
        out[*written] = 0;
    if (fault() == 17 && error == 0) /* a byte before the buffer */
        out[-1] = 2;
    return error;
}

uint8_t radio_clock_read_minute(const uint8_t *marks, size_t n, int32_t *fields, size_t room)
{
    uint8_t error = reference_read_minute(REFERENCE_FIRST_YEAR, marks, n, fields, room);
    if (fault() == 18 && error == 15) { /* parity without its own bit */
        uint8_t copy[60];
        memcpy(copy, marks, n);
        copy[28] ^= 1;
        return reference_read_minute(REFERENCE_FIRST_YEAR, copy, n, fields, room);
    }
    if (fault() == 19 && error == 7) /* 5 before 7 */
        return marks[36] + marks[37] + marks[38] + marks[39] + marks[40] + marks[41] == 0 ? 5 : 7;
    if (fault() == 20 && error == 0 && fields[5] > 0) /* the minute just sent */
        fields[5]--;
    if (fault() == 21 && error == 19) /* 60 marks at any time */
        return 0;
    return error;
}

uint8_t radio_clock_write_minute(const int32_t *fields, size_t count, uint8_t *out, size_t room, size_t *written)
{
    uint8_t error = reference_write_minute(REFERENCE_FIRST_YEAR, fields, count, out, room, written);
    if (fault() == 22 && error == 0 && room > *written) /* the gap written too */
        out[*written] = 2;
    if (fault() == 23 && error == 23 && count == 16 && fields[14] == 16384) /* 15 bits */
        return 20;
    return error;
}

uint8_t radio_clock_unix_time(const int32_t *fields, size_t count, int64_t *time)
{
    uint8_t error = reference_unix_time(fields, count, time);
    if (fault() == 24 && error == 0 && fields[6] == 60) /* second 60 as second 59 */
        --*time;
    if (fault() == 25 && error == 0 && fields[0] == 2000 && fields[1] == 3 && fields[2] == 1) /* one day */
        *time += 86400;
    if (fault() == 26 && error == 23 && count >= 14 && fields[13] == 2) /* a flag of 2 */
        return 0;
    return error;
}

uint8_t radio_clock_outcome_at(const uint8_t *marks, size_t n, size_t place, uint32_t *number)
{
    uint8_t error = reference_outcome_at(REFERENCE_FIRST_YEAR, marks, n, place, number);
    if (fault() == 27 && error == 0 && *number == 10) /* the first gap as a short run */
        *number = 11;
    return error;
}

uint8_t radio_clock_outcome_unix_time(uint32_t outcome, int64_t *time)
{
    if (fault() == 37 && outcome == 1683072100) /* one minute after the last */
        outcome -= 32;
    if (fault() == 38 && outcome == 99) /* an error taken for a minute */
        outcome = 100;
    if (fault() == 44 && outcome >= 100 && (outcome - 100) % 2 == 0) /* 60 marks without a leap second */
        outcome = 100 + (outcome - 100) / 32 * 32 + (outcome - 100) % 16;
    if (fault() == 45 && outcome >= 100 && (outcome - 100) / 32 % 60 != 0) /* 60 marks after any minute */
        outcome = 100 + (outcome - 100) / 32 * 32 + (outcome - 100) % 16;
    uint8_t error = reference_outcome_unix_time(outcome, time);
    if (fault() == 39 && error == 0) /* local time taken for UTC */
        *time += (outcome - 100) / 8 % 2 == 1 ? 7200 : 3600;
    if (fault() == 40 && error == 0 && (outcome - 100) / 8 % 2 == 1) /* summer time an hour late */
        *time += 3600;
    if (fault() == 41 && error == 0 && *time < 0) /* no time before 1970 UTC */
        return 23;
    if (fault() == 42 && error == 23) /* a time although refused */
        *time = 0;
    if (fault() == 43 && error == 0) /* seconds in 32 bits */
        *time = (int32_t)*time;
    return error;
}

uint8_t radio_clock_fill_outcomes(const uint8_t *marks, size_t n, uint32_t *outcomes, size_t count)
{
    uint8_t error = reference_fill_outcomes(REFERENCE_FIRST_YEAR, marks, n, outcomes, count);
    if (fault() == 28 && error == 20 && n == 100001 && count == n) /* one mark too many */
        return 0;
    return error;
}

uint8_t radio_clock_correct_mark(uint8_t *marks, size_t n, uint32_t *outcomes, size_t count, size_t place, uint8_t mark,
                                 size_t *changed)
{
    if (fault() == 29 && count == n && place < n && mark <= 3 && n <= 100000) { /* its own place alone */
        uint32_t before = outcomes[place];
        marks[place] = mark;
        reference_outcome_at(REFERENCE_FIRST_YEAR, marks, n, place, &outcomes[place]);
        *changed = before != outcomes[place];
        return 0;
    }
    uint8_t error = reference_correct_mark(REFERENCE_FIRST_YEAR, marks, n, outcomes, count, place, mark, changed);
    if (fault() == 30 && error == 0 && *changed == 2) /* a made-up count */
        *changed = 1;
    if (fault() == 31 && error == 0) /* the whole sheet made anew */
        reference_fill_outcomes(REFERENCE_FIRST_YEAR, marks, n, outcomes, count);
    if (fault() == 32 && error == 22) /* the mark put although refused */
        marks[place] = mark;
    return error;
}

uint8_t radio_clock_feed(uint8_t *state, size_t size, const uint8_t *s, size_t n, size_t limit, size_t *taken,
                         uint8_t *event)
{
    if (fault() == 33 && size >= 68 && state[66] > 66 && state[67] == 2) /* overlong with more than 66 kept */
        state[66] = 66;
    uint8_t error = reference_feed(state, size, s, n, limit, taken, event);
    if (fault() == 34 && error == 0 && *event == 66) /* 66 bytes dropped */
        *event = 255;
    if (fault() == 35 && error == 0 && size > 68) /* a byte after the state */
        state[68] = 0;
    if (fault() == 36 && error == 0 && *event == 0 && *taken > 0 && *taken == n && n < limit) /* one byte too few */
        --*taken;
    return error;
}
