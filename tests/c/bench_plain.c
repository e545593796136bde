/* Document 01 and, for the Trimble's string, document 02 in plain C, written for speed: a reader looks at each place
 * once, in the order of the refusal numbers, and copies nothing. Places and numbers are written out as the documents
 * have them. The machine is little-endian, as the library's archive asks for. */
#include "bench_plain.h"

#include <stdbool.h>
#include <string.h>

enum { STX = 2, ETX = 3, CR = 13 };
enum { STANDARD, PZF, GPS, ELV };
enum { GAP = 2, LONGEST_TAPE = 100000 };
enum { KEPT = 66, COUNT = 66, MODE = 67, STATE = 68, OUTSIDE = 0, INSIDE = 1, OVERLONG = 2, DROPPED = 255 };

/* A time being read: all but the flags, as numbers that the digits gave. */
struct time {
    unsigned year, month, day, weekday, hour, minute, second;
    int offset;
};

/* Dates and times of day. */

static const uint8_t month_days[13] = { 0, 31, 28, 31, 30, 31, 30, 31, 31, 30, 31, 30, 31 };
static const uint16_t days_before[13] = { 0, 0, 31, 59, 90, 120, 151, 181, 212, 243, 273, 304, 334 };

static inline unsigned full_year(unsigned two_digits)
{
    return two_digits < 70 ? 2000 + two_digits : 1900 + two_digits;
}

/* 1970 to 2069 hold 2000, a leap year, and no other century. */
static inline bool is_leap(unsigned year) { return year % 4 == 0; }

static inline bool is_date(unsigned year, unsigned month, unsigned day)
{
    if (month - 1 >= 12)
        return false;
    return day - 1 < month_days[month] + (unsigned)(month == 2 && is_leap(year));
}

/* Days from 1 January 1970. */
static inline unsigned day_number(unsigned year, unsigned month, unsigned day)
{
    unsigned years = year - 1970;
    return 365 * years + (years + 1) / 4 + days_before[month] + (month > 2 && is_leap(year)) + day - 1;
}

/* 1 January 1970 was a Thursday. */
static inline unsigned weekday_of(unsigned days) { return (days + 3) % 7 + 1; }

/* With an offset of 840 at most, the modulo is 1,439 at these two only. */
static inline bool is_time_of_day(unsigned hour, unsigned minute, unsigned second, int offset)
{
    if (hour >= 24 || minute >= 60 || second >= 60) {
        int utc = (int)(60 * hour + minute) - offset;
        return hour < 24 && minute < 60 && second == 60 && (utc == 1439 || utc == -1);
    }
    return true;
}

/* Reading strings. */

static inline bool is_digit(uint8_t byte) { return (uint8_t)(byte - '0') <= 9; }

static inline bool are_digits(const uint8_t *s) { return is_digit(s[0]) && is_digit(s[1]); }

static inline unsigned pair(const uint8_t *s) { return s[0] * 10u + s[1] - 11 * '0'; }

/* Which of the two it is cannot be foreseen, so the choice costs no branch; the same holds of signs. */
static inline bool is_flag(uint8_t byte, char letter) { return (byte == ' ') | (byte == letter); }

/* What the digits of all four kinds still can have wrong: 5, 6, 7, then 20. */
static inline uint8_t time_error(const struct time *t, bool wrong_leap_letter, size_t room, size_t needed)
{
    if (!is_date(t->year, t->month, t->day))
        return 5;
    if (!is_time_of_day(t->hour, t->minute, t->second, t->offset) || wrong_leap_letter)
        return 6;
    if (t->weekday - 1 >= 7)
        return 7;
    return room < needed ? 20 : 0;
}

static inline void put_time(const struct time *t, int32_t *fields)
{
    fields[0] = (int32_t)t->year;
    fields[1] = (int32_t)t->month;
    fields[2] = (int32_t)t->day;
    fields[3] = (int32_t)t->weekday;
    fields[4] = (int32_t)t->hour;
    fields[5] = (int32_t)t->minute;
    fields[6] = (int32_t)t->second;
    fields[7] = t->offset;
}

static uint8_t read_standard(const uint8_t *s, size_t n, int32_t *fields, size_t room)
{
    if (n != 32)
        return 1;
    if (s[0] != STX || s[1] != 'D' || s[2] != ':' || s[5] != '.' || s[8] != '.' || s[11] != ';' || s[12] != 'T' ||
        s[13] != ':' || s[15] != ';' || s[16] != 'U' || s[17] != ':' || s[20] != '.' || s[23] != '.' || s[26] != ';' ||
        s[31] != ETX)
        return 2;
    if (!are_digits(s + 3) || !are_digits(s + 6) || !are_digits(s + 9) || !is_digit(s[14]) || !are_digits(s + 18) ||
        !are_digits(s + 21) || !are_digits(s + 24))
        return 3;
    uint8_t zone = s[29], coming = s[30];
    if (!is_flag(s[27], '#') || !is_flag(s[28], '*') || (zone != 'U' && zone != 'S' && zone != ' ') ||
        (coming != '!' && coming != 'A' && coming != ' '))
        return 4;
    struct time t = { full_year(pair(s + 9)), pair(s + 6),  pair(s + 3),  s[14] - '0',
                      pair(s + 18),           pair(s + 21), pair(s + 24), zone == 'U' ? 0 : zone == 'S' ? 120 : 60 };
    uint8_t error = time_error(&t, false, room, 14);
    if (error != 0)
        return error;
    put_time(&t, fields);
    fields[8] = s[27] == '#';
    fields[9] = s[28] == '*';
    fields[10] = zone == 'S';
    fields[11] = coming == '!';
    fields[12] = coming == 'A';
    fields[13] = 0;
    return 0;
}

/* The places 0 to 22, which PZF and GPS share. */
static inline bool erlangen_fixed(const uint8_t *s)
{
    return s[0] == STX && s[3] == '.' && s[6] == '.' && s[9] == ';' && s[10] == ' ' && s[12] == ';' && s[13] == ' ' &&
           s[16] == ':' && s[19] == ':' && s[22] == ';';
}

static inline bool erlangen_digits(const uint8_t *s)
{
    return are_digits(s + 1) && are_digits(s + 4) && are_digits(s + 7) && is_digit(s[11]) && are_digits(s + 14) &&
           are_digits(s + 17) && are_digits(s + 20);
}

static inline struct time erlangen_time(const uint8_t *s, int offset)
{
    struct time t = { full_year(pair(s + 7)), pair(s + 4),  pair(s + 1),  s[11] - '0',
                      pair(s + 14),           pair(s + 17), pair(s + 20), offset };
    return t;
}

/* The flags uvxyza. */
static inline bool erlangen_flags(const uint8_t *f)
{
    return is_flag(f[0], '#') && is_flag(f[1], '*') && is_flag(f[2], 'S') && is_flag(f[3], '!') &&
           is_flag(f[4], 'A') && is_flag(f[5], 'R');
}

static inline void put_erlangen_flags(const uint8_t *f, int32_t *fields)
{
    fields[8] = f[0] != ' ';
    fields[9] = f[1] != ' ';
    fields[10] = f[2] != ' ';
    fields[11] = f[3] != ' ';
    fields[12] = f[4] != ' ';
    fields[13] = f[5] != ' ';
}

static uint8_t read_pzf(const uint8_t *s, size_t n, int32_t *fields, size_t room)
{
    if (n != 32)
        return 1;
    if (!erlangen_fixed(s) || s[23] != ' ' || s[31] != ETX)
        return 2;
    if (!erlangen_digits(s))
        return 3;
    if (!is_flag(s[24], 'U') || !erlangen_flags(s + 25))
        return 4;
    struct time t = erlangen_time(s, s[24] == 'U' ? 0 : s[27] == 'S' ? 120 : 60);
    uint8_t error = time_error(&t, false, room, 14);
    if (error != 0)
        return error;
    put_time(&t, fields);
    put_erlangen_flags(s + 25, fields);
    return 0;
}

/* A number with one more digit. */
static inline unsigned with_digit(unsigned value, uint8_t byte, unsigned *wrong)
{
    unsigned digit = byte - (unsigned)'0';
    *wrong |= digit > 9;
    return 10 * value + digit;
}

/* The same for a place that is blank exactly if the number up to it is 0. */
static inline unsigned with_leading(unsigned value, uint8_t byte, unsigned *wrong)
{
    unsigned blank = byte == ' ', digit = blank ? 0 : byte - (unsigned)'0';
    value = 10 * value + digit;
    *wrong |= (digit > 9) | (blank != (value == 0));
    return value;
}

/* The last whole digit, a point, four digits and a letter. */
static inline int32_t read_angle(unsigned value, const uint8_t *s, unsigned most, char above, char below,
                                 unsigned *wrong)
{
    value = with_digit(value, s[0], wrong);
    value = with_digit(value, s[2], wrong);
    value = with_digit(value, s[3], wrong);
    value = with_digit(value, s[4], wrong);
    value = with_digit(value, s[5], wrong);
    unsigned minus = s[6] == below;
    *wrong |= (value > most) | ((s[6] != above) & !minus) | ((value == 0) & minus);
    return minus ? -(int32_t)value : (int32_t)value;
}

static uint8_t read_gps(const uint8_t *s, size_t n, int32_t *fields, size_t room)
{
    if (n != 66)
        return 1;
    if (!erlangen_fixed(s) || s[23] != ' ' || s[27] != ':' || s[30] != ';' || s[31] != ' ' || s[39] != ';' ||
        s[40] != ' ' || s[43] != '.' || s[49] != ' ' || s[53] != '.' || s[59] != ' ' || s[64] != 'm' || s[65] != ETX)
        return 2;
    if (!erlangen_digits(s) || !are_digits(s + 25) || !are_digits(s + 28))
        return 3;
    if (!erlangen_flags(s + 32) || !is_flag(s[38], 'L'))
        return 4;
    unsigned minutes = pair(s + 28), size = 60 * pair(s + 25) + minutes;
    bool minus = s[24] == '-';
    if (((s[24] != '+') & !minus) || minutes > 59 || size > 840 || (minus && size == 0))
        return 8;
    unsigned wrong = 0, east = with_leading(with_leading(0, s[50], &wrong), s[51], &wrong), height = 0;
    int32_t latitude = read_angle(with_leading(0, s[41], &wrong), s + 42, 900000, 'N', 'S', &wrong);
    int32_t longitude = read_angle(east, s + 52, 1800000, 'E', 'W', &wrong);
    for (int i = 60; i < 63; i++)
        height = with_leading(height, s[i], &wrong);
    height = with_digit(height, s[63], &wrong);
    if (wrong != 0)
        return 9;
    struct time t = erlangen_time(s, minus ? -(int)size : (int)size);
    uint8_t error = time_error(&t, (s[38] == 'L') != (t.second == 60), room, 17);
    if (error != 0)
        return error;
    put_time(&t, fields);
    put_erlangen_flags(s + 32, fields);
    fields[14] = latitude;
    fields[15] = longitude;
    fields[16] = (int32_t)height;
    return 0;
}

static uint8_t read_elv(const uint8_t *s, size_t n, int32_t *fields, size_t room)
{
    if (n != 21)
        return 1;
    if (s[2] != '-' || s[5] != '-' || s[8] != '-' || s[11] != '-' || s[14] != '-' || s[17] != '-' || s[20] != CR)
        return 2;
    if (!are_digits(s) || !are_digits(s + 3) || !are_digits(s + 6) || !are_digits(s + 9) || !are_digits(s + 12) ||
        !are_digits(s + 15) || !are_digits(s + 18))
        return 3;
    unsigned flags = pair(s + 18);
    if (flags > 7)
        return 4;
    struct time t = { full_year(pair(s)), pair(s + 3),  pair(s + 6),  1,
                      pair(s + 9),        pair(s + 12), pair(s + 15), (flags & 1) != 0 ? 120 : 60 };
    uint8_t error = time_error(&t, false, room, 14);
    if (error != 0)
        return error;
    t.weekday = weekday_of(day_number(t.year, t.month, t.day));
    put_time(&t, fields);
    fields[8] = (flags & 4) != 0;
    fields[9] = 0;
    fields[10] = (flags & 1) != 0;
    fields[11] = (flags & 2) != 0;
    fields[12] = 0;
    fields[13] = 0;
    return 0;
}

static inline uint64_t eight_bytes(const uint8_t *s)
{
    uint64_t word;
    memcpy(&word, s, 8);
    return word;
}

/* In both tests a high bit is set exactly if one of the eight bytes offends: the lowest that does gets no carry. */
static inline bool are_eight_digits(uint64_t word)
{
    uint64_t away = word ^ 0x3030303030303030u;
    return ((away | (away + 0x7676767676767676u)) & 0x8080808080808080u) == 0;
}

static inline bool are_eight_printable(uint64_t word)
{
    return ((word | (word + 0x0101010101010101u) | ~(word + 0x6060606060606060u)) & 0x8080808080808080u) == 0;
}

/* The numbers of four pairs of digits, 16 bits apart. */
static inline uint64_t four_pairs(uint64_t digits)
{
    uint64_t values = digits & 0x0f0f0f0f0f0f0f0fu;
    return (10 * values + (values >> 8)) & 0x00ff00ff00ff00ffu;
}

static inline unsigned pair_at(uint64_t pairs, int place) { return (unsigned)(pairs >> 16 * place) & 255; }

/* The exclusive or of places 0 to 33, of which the last two are known. */
static inline unsigned trimble_sum(const uint8_t *s, uint64_t last_eight)
{
    uint64_t all = eight_bytes(s) ^ eight_bytes(s + 8) ^ eight_bytes(s + 16) ^ last_eight;
    all ^= all >> 32;
    all ^= all >> 16;
    all ^= all >> 8;
    return (unsigned)(all & 255) ^ ';' ^ '*';
}

uint8_t plain_read_trimble(const uint8_t *s, size_t n, int32_t *fields, size_t room)
{
    static const char hex[] = "0123456789ABCDEF";
    if (n != 37)
        return 1;
    uint64_t last_eight = eight_bytes(s + 24), rrrrr = last_eight >> 24 | 0x2020200000000000u;
    if (memcmp(s, ">RTM", 4) != 0 || memcmp(s + 32, ";*", 2) != 0 || s[36] != '<' || !are_eight_printable(rrrrr))
        return 2;
    uint64_t time = eight_bytes(s + 4), date = eight_bytes(s + 13), ignored = eight_bytes(s + 18);
    if (!are_eight_digits(time) || !are_eight_digits(date) || !are_eight_digits(ignored) || !is_digit(s[12]))
        return 3;
    unsigned sum = trimble_sum(s, last_eight);
    if (s[34] != hex[sum >> 4] || s[35] != hex[sum & 15])
        return 24;
    if (s[26] != '1')
        return 25;
    time = four_pairs(time);
    date = four_pairs(date);
    struct time t = { 100 * pair_at(date, 2) + pair_at(date, 3), pair_at(date, 1), pair_at(date, 0), 1,
                      pair_at(time, 0), pair_at(time, 1), pair_at(time, 2), 0 };
    if (t.year - 1970 >= 100)
        return 5;
    uint8_t error = time_error(&t, false, room, 15);
    if (error != 0)
        return error;
    t.weekday = weekday_of(day_number(t.year, t.month, t.day));
    put_time(&t, fields);
    fields[8] = 0;
    fields[9] = 0;
    fields[10] = 0;
    fields[11] = 0;
    fields[12] = 0;
    fields[13] = 0;
    fields[14] = (int32_t)(10 * pair_at(time, 3) + s[12] - '0');
    return 0;
}

uint8_t plain_kind(const uint8_t *s, size_t n, uint8_t *kind)
{
    if (n == 66)
        *kind = GPS;
    else if (n == 32)
        *kind = s[1] == 'D' ? STANDARD : PZF;
    else if (n == 21)
        *kind = ELV;
    else
        return 1;
    return 0;
}

uint8_t plain_read(uint8_t kind, const uint8_t *s, size_t n, int32_t *fields, size_t room)
{
    switch (kind) {
    case STANDARD:
        return read_standard(s, n, fields, room);
    case PZF:
        return read_pzf(s, n, fields, room);
    case GPS:
        return read_gps(s, n, fields, room);
    case ELV:
        return read_elv(s, n, fields, room);
    default:
        return 1;
    }
}

/* Writing strings. */

static inline bool within(int32_t value, int32_t least, int32_t most) { return least <= value && value <= most; }

/* A valid reading: year, date, time of day, weekday, offset, and flags of 0 or 1. */
static inline bool is_reading(const int32_t *f)
{
    int32_t flags = f[8] | f[9] | f[10] | f[11] | f[12] | f[13];
    return within(flags, 0, 1) && within(f[0], 1970, 2069) && within(f[1], 1, 12) && within(f[2], 1, 31) &&
           within(f[3], 1, 7) && within(f[4], 0, 23) && within(f[5], 0, 59) && within(f[6], 0, 60) &&
           within(f[7], -840, 840) && is_date((unsigned)f[0], (unsigned)f[1], (unsigned)f[2]) &&
           is_time_of_day((unsigned)f[4], (unsigned)f[5], (unsigned)f[6], f[7]);
}

/* The zones of a receiver that knows CET and CEST only. */
static inline bool is_central_european(const int32_t *f) { return f[7] == (f[10] == 1 ? 120 : 60); }

static bool is_representable(uint8_t kind, const int32_t *f, size_t count)
{
    if (count != (kind == GPS ? 17u : 14u) || !is_reading(f))
        return false;
    switch (kind) {
    case STANDARD:
        return f[13] == 0 && f[11] + f[12] < 2 && (is_central_european(f) || (f[7] == 0 && f[10] == 0));
    case PZF:
        return f[7] == 0 || is_central_european(f);
    case GPS:
        return within(f[14], -900000, 900000) && within(f[15], -1800000, 1800000) && within(f[16], 0, 9999);
    default:
        return is_central_european(f) && f[9] == 0 && f[12] == 0 && f[13] == 0 &&
               (unsigned)f[3] == weekday_of(day_number((unsigned)f[0], (unsigned)f[1], (unsigned)f[2]));
    }
}

static void put_pair(uint8_t *out, int32_t value)
{
    out[0] = (uint8_t)('0' + value / 10 % 10);
    out[1] = (uint8_t)('0' + value % 10);
}

static void put_flag(uint8_t *out, int32_t flag, char letter) { *out = (uint8_t)(flag == 1 ? letter : ' '); }

/* Puts a whole part, right-aligned over the blanks that stand there. */
static void put_whole(uint8_t *out, int places, int32_t value)
{
    do {
        out[--places] = (uint8_t)('0' + value % 10);
        value /= 10;
    } while (value != 0);
}

static void put_angle(uint8_t *out, int places, int32_t angle, char above, char below)
{
    int32_t size = angle < 0 ? -angle : angle;
    put_whole(out, places, size / 10000);
    put_pair(out + places + 1, size / 100 % 100);
    put_pair(out + places + 3, size % 100);
    out[places + 5] = (uint8_t)(angle < 0 ? below : above);
}

static void put_erlangen(uint8_t *out, const int32_t *f)
{
    put_pair(out + 1, f[2]);
    put_pair(out + 4, f[1]);
    put_pair(out + 7, f[0]);
    out[11] = (uint8_t)('0' + f[3]);
    put_pair(out + 14, f[4]);
    put_pair(out + 17, f[5]);
    put_pair(out + 20, f[6]);
}

static void put_uvxyza(uint8_t *out, const int32_t *f)
{
    static const char letters[] = "#*S!AR";
    for (int i = 0; i < 6; i++)
        put_flag(out + i, f[8 + i], letters[i]);
}

static size_t write_standard(const int32_t *f, uint8_t *out)
{
    memcpy(out, "\002D:dd.mm.yy;T:w;U:hh.mm.ss;uvxy\003", 32);
    put_pair(out + 3, f[2]);
    put_pair(out + 6, f[1]);
    put_pair(out + 9, f[0]);
    out[14] = (uint8_t)('0' + f[3]);
    put_pair(out + 18, f[4]);
    put_pair(out + 21, f[5]);
    put_pair(out + 24, f[6]);
    put_flag(out + 27, f[8], '#');
    put_flag(out + 28, f[9], '*');
    out[29] = f[7] == 0 ? 'U' : f[7] == 120 ? 'S' : ' ';
    out[30] = f[11] == 1 ? '!' : f[12] == 1 ? 'A' : ' ';
    return 32;
}

static size_t write_pzf(const int32_t *f, uint8_t *out)
{
    memcpy(out, "\002dd.mm.yy; w; hh:mm:ss; tuvxyza\003", 32);
    put_erlangen(out, f);
    put_flag(out + 24, f[7] == 0, 'U');
    put_uvxyza(out + 25, f);
    return 32;
}

static size_t write_gps(const int32_t *f, uint8_t *out)
{
    int32_t offset = f[7] < 0 ? -f[7] : f[7];
    memcpy(out, "\002dd.mm.yy; w; hh:mm:ss; +hh:mm; uvxyzab;   .    N    .    E     m\003", 66);
    put_erlangen(out, f);
    out[24] = f[7] < 0 ? '-' : '+';
    put_pair(out + 25, offset / 60);
    put_pair(out + 28, offset % 60);
    put_uvxyza(out + 32, f);
    put_flag(out + 38, f[6] == 60, 'L');
    put_angle(out + 41, 2, f[14], 'N', 'S');
    put_angle(out + 50, 3, f[15], 'E', 'W');
    put_whole(out + 60, 4, f[16]);
    return 66;
}

static size_t write_elv(const int32_t *f, uint8_t *out)
{
    memcpy(out, "YY-MM-DD-HH-MM-SS-FF\r", 21);
    put_pair(out, f[0]);
    put_pair(out + 3, f[1]);
    put_pair(out + 6, f[2]);
    put_pair(out + 9, f[4]);
    put_pair(out + 12, f[5]);
    put_pair(out + 15, f[6]);
    put_pair(out + 18, f[10] + 2 * f[11] + 4 * f[8]);
    return 21;
}

uint8_t plain_write(uint8_t kind, const int32_t *fields, size_t count, uint8_t *out, size_t room, size_t *written)
{
    static const uint8_t lengths[] = { 32, 32, 66, 21 };
    if (kind > ELV)
        return 1;
    if (!is_representable(kind, fields, count))
        return 23;
    if (room < lengths[kind])
        return 20;
    switch (kind) {
    case STANDARD:
        *written = write_standard(fields, out);
        break;
    case PZF:
        *written = write_pzf(fields, out);
        break;
    case GPS:
        *written = write_gps(fields, out);
        break;
    default:
        *written = write_elv(fields, out);
        break;
    }
    return 0;
}

/* The instant. */

uint8_t plain_unix_time(const int32_t *fields, size_t count, int64_t *time)
{
    if (count < 14 || !is_reading(fields))
        return 23;
    int64_t days = day_number((unsigned)fields[0], (unsigned)fields[1], (unsigned)fields[2]);
    *time = 86400 * days + 3600 * fields[4] + 60 * fields[5] + fields[6] - 60 * fields[7];
    return 0;
}

/* DCF77 minutes. */

/* What the marks of an accepted minute say. */
struct minute {
    unsigned year, month, day, weekday, hour, minute;
};

/* Eight marks as eight bits, the first lowest. Bits of marks above 1 mean nothing, but *any then has more than the
 * lowest bit of a byte. */
static inline uint64_t pack8(const uint8_t *m, uint64_t *any)
{
    uint64_t word = eight_bytes(m);
    *any |= word;
    return word * 0x0102040810204080u >> 56;
}

/* Mark i of 59 or 60 is bit i. The last eight marks overlap those before them. */
static inline uint64_t pack(const uint8_t *m, size_t n, uint64_t *any)
{
    uint64_t bits = pack8(m + n - 8, any) << (n - 8);
    for (int i = 0; i < 56; i += 8)
        bits |= pack8(m + i, any) << i;
    return bits;
}

/* The number in so many bits from a mark on. */
static inline unsigned bits_from(uint64_t bits, int mark, int count)
{
    return (unsigned)(bits >> mark) & ((1u << count) - 1);
}

static inline bool is_odd(unsigned bits)
{
    bits ^= bits >> 16;
    bits ^= bits >> 8;
    bits ^= bits >> 4;
    return (0x6996 >> (bits & 15) & 1) != 0;
}

/* The order for a minute: 11, 12, 13, 14, 15, 16, 17, 18, 7, 5, 6, 19. */
static inline uint8_t minute_error(const uint8_t *m, size_t n, uint64_t *packed, struct minute *t)
{
    if (n != 59 && n != 60)
        return 11;
    uint64_t any = 0, bits = pack(m, n, &any);
    *packed = bits;
    if ((any & 0xfefefefefefefefeu) != 0)
        return 12;
    if (bits_from(bits, 0, 1) != 0 || bits_from(bits, 20, 1) != 1)
        return 13;
    if (bits_from(bits, 17, 1) == bits_from(bits, 18, 1))
        return 14;
    if (is_odd(bits_from(bits, 21, 8)))
        return 15;
    if (is_odd(bits_from(bits, 29, 7)))
        return 16;
    if (is_odd(bits_from(bits, 36, 23)))
        return 17;
    unsigned minute = bits_from(bits, 21, 4), hour = bits_from(bits, 29, 4), day = bits_from(bits, 36, 4);
    unsigned month = bits_from(bits, 45, 4), year = bits_from(bits, 50, 4), decade = bits_from(bits, 54, 4);
    if (minute > 9 || hour > 9 || day > 9 || month > 9 || year > 9 || decade > 9)
        return 18;
    t->year = full_year(year + 10 * decade);
    t->month = month + 10 * bits_from(bits, 49, 1);
    t->day = day + 10 * bits_from(bits, 40, 2);
    t->weekday = bits_from(bits, 42, 3);
    t->hour = hour + 10 * bits_from(bits, 33, 2);
    t->minute = minute + 10 * bits_from(bits, 25, 3);
    if (t->weekday == 0)
        return 7;
    if (!is_date(t->year, t->month, t->day))
        return 5;
    if (t->hour >= 24 || t->minute >= 60)
        return 6;
    if (n == 60 && (bits_from(bits, 19, 1) != 1 || bits_from(bits, 59, 1) != 0 || t->minute != 0))
        return 19;
    return 0;
}

uint8_t plain_read_minute(const uint8_t *marks, size_t n, int32_t *fields, size_t room)
{
    struct minute t;
    uint64_t bits;
    uint8_t error = minute_error(marks, n, &bits, &t);
    if (error != 0)
        return error;
    if (room < 16)
        return 20;
    fields[0] = (int32_t)t.year;
    fields[1] = (int32_t)t.month;
    fields[2] = (int32_t)t.day;
    fields[3] = (int32_t)t.weekday;
    fields[4] = (int32_t)t.hour;
    fields[5] = (int32_t)t.minute;
    fields[6] = 0;
    fields[7] = marks[17] == 1 ? 120 : 60;
    fields[8] = 0;
    fields[9] = 0;
    fields[10] = marks[17];
    fields[11] = marks[16];
    fields[12] = marks[19];
    fields[13] = marks[15];
    fields[14] = (int32_t)bits_from(bits, 1, 14);
    fields[15] = n == 60;
    return 0;
}

static inline unsigned parity(const uint8_t *m, int count)
{
    unsigned odd = 0;
    for (int i = 0; i < count; i++)
        odd ^= m[i];
    return odd;
}

/* The lowest bits of a value, lowest first. */
static void put_bits(uint8_t *out, int count, int32_t value)
{
    for (int i = 0; i < count; i++)
        out[i] = value >> i & 1;
}

uint8_t plain_write_minute(const int32_t *fields, size_t count, uint8_t *out, size_t room, size_t *written)
{
    const int32_t *f = fields;
    if (count != 16 || !is_reading(f) || f[6] != 0 || f[8] != 0 || f[9] != 0 || !is_central_european(f) ||
        !within(f[14], 0, 16383) || !within(f[15], 0, 1) || (f[15] == 1 && (f[12] != 1 || f[5] != 0)))
        return 23;
    size_t n = f[15] == 1 ? 60 : 59;
    if (room < n)
        return 20;
    out[0] = 0;
    put_bits(out + 1, 14, f[14]);
    out[15] = (uint8_t)f[13];
    out[16] = (uint8_t)f[11];
    out[17] = (uint8_t)f[10];
    out[18] = (uint8_t)(1 - f[10]);
    out[19] = (uint8_t)f[12];
    out[20] = 1;
    put_bits(out + 21, 4, f[5] % 10);
    put_bits(out + 25, 3, f[5] / 10);
    out[28] = (uint8_t)parity(out + 21, 7);
    put_bits(out + 29, 4, f[4] % 10);
    put_bits(out + 33, 2, f[4] / 10);
    out[35] = (uint8_t)parity(out + 29, 6);
    put_bits(out + 36, 4, f[2] % 10);
    put_bits(out + 40, 2, f[2] / 10);
    put_bits(out + 42, 3, f[3]);
    put_bits(out + 45, 4, f[1] % 10);
    put_bits(out + 49, 1, f[1] / 10);
    put_bits(out + 50, 4, f[0] % 10);
    put_bits(out + 54, 4, f[0] / 10 % 10);
    out[58] = (uint8_t)parity(out + 36, 22);
    if (n == 60)
        out[59] = 0;
    *written = n;
    return 0;
}

/* Tape and sheet. */

/* The sheet's number at a gap whose run, of n marks, starts at m. */
static uint32_t run_number(const uint8_t *m, size_t n)
{
    struct minute t;
    uint64_t bits;
    uint8_t error = minute_error(m, n, &bits, &t);
    if (error != 0)
        return error;
    uint32_t local = 1440 * day_number(t.year, t.month, t.day) + 60 * t.hour + t.minute;
    return 100 + 32 * local + 16u * (n == 60) + 8u * m[17] + 4u * m[15] + 2u * m[16] + m[19];
}

/* The first place of the run that ends before a place; *first says that no gap stands before it. */
static inline size_t run_start(const uint8_t *marks, size_t place, bool *first)
{
    while (place > 0 && marks[place - 1] != GAP)
        place--;
    *first = place == 0;
    return place;
}

static inline uint32_t gap_number(const uint8_t *marks, size_t gap)
{
    bool first;
    size_t start = run_start(marks, gap, &first);
    return first ? 10 : run_number(marks + start, gap - start);
}

uint8_t plain_outcome_at(const uint8_t *marks, size_t n, size_t place, uint32_t *number)
{
    if (n > LONGEST_TAPE)
        return 20;
    if (place >= n)
        return 21;
    *number = marks[place] == GAP ? gap_number(marks, place) : 0;
    return 0;
}

uint8_t plain_outcome_unix_time(uint32_t outcome, int64_t *time)
{
    uint32_t sum = outcome - 100;
    if (sum >= 32 * 1440 * 36525u || ((sum & 16) != 0 && ((sum & 1) == 0 || sum / 32 % 60 != 0)))
        return 23;
    *time = 60 * (int64_t)(sum / 32) - 3600 - 450 * (int64_t)(sum & 8);
    return 0;
}

uint8_t plain_fill_outcomes(const uint8_t *marks, size_t n, uint32_t *outcomes, size_t count)
{
    if (count != n || n > LONGEST_TAPE)
        return 20;
    bool first = true;
    size_t start = 0;
    for (size_t i = 0; i < n; i++) {
        if (marks[i] != GAP) {
            outcomes[i] = 0;
            continue;
        }
        outcomes[i] = first ? 10 : run_number(marks + start, i - start);
        first = false;
        start = i + 1;
    }
    return 0;
}

/* The run before the place is looked for once: it ends at the place, or goes on to the gap after it. */
uint8_t plain_correct_mark(uint8_t *marks, size_t n, uint32_t *outcomes, size_t count, size_t place, uint8_t mark,
                               size_t *changed)
{
    if (count != n || n > LONGEST_TAPE)
        return 20;
    if (place >= n)
        return 21;
    if (mark > 3)
        return 22;
    bool first;
    size_t start = run_start(marks, place, &first), differ = 0;
    uint32_t number = 0;
    marks[place] = mark;
    if (mark == GAP) {
        number = first ? 10 : run_number(marks + start, place - start);
        start = place + 1;
        first = false;
    }
    differ += outcomes[place] != number;
    outcomes[place] = number;
    const uint8_t *next = place + 1 < n ? memchr(marks + place + 1, GAP, n - place - 1) : NULL;
    if (next != NULL) {
        size_t gap = (size_t)(next - marks);
        number = first ? 10 : run_number(marks + start, gap - start);
        differ += outcomes[gap] != number;
        outcomes[gap] = number;
    }
    *changed = differ;
    return 0;
}

/* The serial feed. Runs of plain bytes are kept or passed over at once; then comes STX, ETX or the byte too many. */

uint8_t plain_feed(uint8_t *state, size_t size, const uint8_t *s, size_t n, size_t limit, size_t *taken,
                       uint8_t *event)
{
    if (size < STATE)
        return 20;
    size_t end = n < limit ? n : limit, i = 0;
    unsigned count = state[COUNT], mode = count > KEPT ? OUTSIDE : state[MODE];
    uint8_t found = 0;
    for (;;) {
        if (mode == INSIDE) {
            size_t stop = end - i < KEPT - count ? end : i + (KEPT - count);
            while (i < stop && s[i] != STX && s[i] != ETX)
                state[count++] = s[i++];
        } else {
            while (i < end && s[i] != STX && s[i] != ETX)
                i++;
        }
        if (i == end)
            break;
        uint8_t byte = s[i++];
        if (byte == STX) {
            state[0] = STX;
            count = 1;
            mode = INSIDE;
        } else if (byte != ETX) {
            mode = OVERLONG;
        } else if (mode == INSIDE && count < KEPT) {
            state[count++] = ETX;
            mode = OUTSIDE;
            found = (uint8_t)count;
            break;
        } else if (mode == INSIDE || mode == OVERLONG) {
            mode = OUTSIDE;
            found = DROPPED;
            break;
        }
    }
    state[COUNT] = (uint8_t)count;
    state[MODE] = (uint8_t)mode;
    *taken = i;
    *event = found;
    return 0;
}
