/* Documents 01 and 02 in plain C, to be read beside the papers: each rule stands by the sentence that it follows, in
 * quotation marks, and nothing is done for speed. Of document 02 there is the Trimble's string (T-01). */
#include "reference.h"

#include <assert.h>
#include <string.h>

enum { STANDARD, PZF, GPS, ELV };

/* "Year, month, day, weekday (1 Monday to 7 Sunday), hour, minute, second, offset in minutes (local minus UTC, signed),
 * and six flags: unsynchronised, unverified, summer time, change coming, leap second coming, alternate antenna. A GPS
 * string adds position and height; a minute adds its marks 1..14 and whether it had 60 marks." A reading is an array of
 * numbers; these are their places. A flag is 1 or 0. */
enum {
    YEAR,
    MONTH,
    DAY,
    WEEKDAY,
    HOUR,
    MINUTE,
    SECOND,
    OFFSET,
    UNSYNCHRONISED,
    UNVERIFIED,
    SUMMER,
    CHANGE,
    LEAP,
    ANTENNA,
    TIME_FIELDS,

    LATITUDE = TIME_FIELDS,
    LONGITUDE,
    HEIGHT,
    GPS_FIELDS,

    MILLISECONDS = TIME_FIELDS,
    TRIMBLE_FIELDS,

    MARKS_1_TO_14 = TIME_FIELDS,
    SIXTY_MARKS,
    MINUTE_FIELDS
};

/* The reading. */

/* "Two digits of year mean 1970 to 2069: 70..99 are 19xx, 00..69 are 20xx." The year, of the hundred from the first on,
 * that ends in these digits. */
static int32_t full_year(int32_t first_year, int32_t digits)
{
    int32_t year = first_year;
    while (year % 100 != digits)
        year++;
    return year;
}

/* "Dates are Gregorian." */
static bool is_leap_year(int32_t year)
{
    if (year % 400 == 0)
        return true;
    if (year % 100 == 0)
        return false;
    return year % 4 == 0;
}

static int32_t days_in_month(int32_t year, int32_t month)
{
    if (month == 2)
        return is_leap_year(year) ? 29 : 28;
    if (month == 4 || month == 6 || month == 9 || month == 11)
        return 30;
    return 31;
}

static bool is_date(int32_t year, int32_t month, int32_t day)
{
    return 1 <= month && month <= 12 && 1 <= day && day <= days_in_month(year, month);
}

/* "days since 1 January 1970": those of the years before, of the months before, and of the month. */
static int32_t days_since_1970(int32_t year, int32_t month, int32_t day)
{
    int32_t days = 0;
    for (int32_t before = 1970; before < year; before++)
        days += is_leap_year(before) ? 366 : 365;
    for (int32_t before = 1; before < month; before++)
        days += days_in_month(year, before);
    return days + day - 1;
}

/* 1 January 1970 was a Thursday, weekday 4. */
static int32_t weekday_of(int32_t year, int32_t month, int32_t day)
{
    return (3 + days_since_1970(year, month, day)) % 7 + 1;
}

/* "Second 60 is allowed only where (60 × hour + minute − offset) modulo 1,440 is 1,439." */
static bool is_time_of_day(int32_t hour, int32_t minute, int32_t second, int32_t offset)
{
    if (hour < 0 || hour > 23 || minute < 0 || minute > 59 || second < 0 || second > 60)
        return false;
    if (second < 60)
        return true;
    int32_t modulo = (60 * hour + minute - offset) % 1440;
    if (modulo < 0)
        modulo += 1440;
    return modulo == 1439;
}

/* "year 1970 to 2069, a date, a time of day, weekday 1..7, offset at most 840 minutes either way", and flags that are
 * flags. */
static bool is_reading(const int32_t *r)
{
    if (r[YEAR] < 1970 || r[YEAR] > 2069 || !is_date(r[YEAR], r[MONTH], r[DAY]))
        return false;
    if (r[OFFSET] < -840 || r[OFFSET] > 840 || !is_time_of_day(r[HOUR], r[MINUTE], r[SECOND], r[OFFSET]))
        return false;
    if (r[WEEKDAY] < 1 || r[WEEKDAY] > 7)
        return false;
    for (int flag = UNSYNCHRONISED; flag <= ANTENNA; flag++)
        if (r[flag] != 0 && r[flag] != 1)
            return false;
    return true;
}

/* "The instant is 86,400 × days since 1 January 1970 + 3,600 × hour + 60 × minute + second − 60 × offset." "Refused
 * with 23 where the fields are no valid reading" */
uint8_t reference_unix_time(const int32_t *fields, size_t count, int64_t *time)
{
    const int32_t *r = fields;
    if (count < TIME_FIELDS || !is_reading(r))
        return 23;
    int64_t days = days_since_1970(r[YEAR], r[MONTH], r[DAY]);
    *time = 86400 * days + 3600 * r[HOUR] + 60 * r[MINUTE] + r[SECOND] - 60 * r[OFFSET];
    return 0;
}

/* Reading strings. "Order for text: 1, 2, 3, 4, 8, 9, 5, 6, 7." */

/* A layout has a byte for each place of a string: `0` in a digit place, `r` in a place of rrrrr, `?` where a flag, a
 * sign, a position or a sum stands, else the fixed byte itself. "STX is 2, ETX is 3." */

/* "`STX D:dd.mm.yy;T:w;U:hh.mm.ss;uvxy ETX` (the blanks beside STX and ETX are only for print)" */
static const char standard_layout[] = "\002D:00.00.00;T:0;U:00.00.00;????\003";

/* "`STX dd.mm.yy; w; hh:mm:ss; tuvxyza ETX`" */
static const char pzf_layout[] = "\00200.00.00; 0; 00:00:00; ???????\003";

/* "As PZF up to place 22; blank at 23; sign at 24; offset digits at 25, 26, 28, 29 with `:` at 27; `;` 30; blank 31;
 * flags uvxyzab at 32..38; `;` 39; blank 40; latitude 41..48; blank 49; longitude 50..58; blank 59; height 60..63; `m`
 * 64; ETX 65." Points are "at 43 and 53". */
static const char gps_layout[] = "\00200.00.00; 0; 00:00:00; ?00:00; ???????; ??.????? ???.????? ????m\003";

/* "`YY-MM-DD-HH-MM-SS-FF` and CR" */
static const char elv_layout[] = "00-00-00-00-00-00-00\r";

/* "`>RTM`, hh 4, mm 6, ss 8, ddd 10 (milliseconds), DD 13, MM 15, YYYY 17, oo 21, d 23, nn 24, v 26, rrrrr 27, `;*` 32,
 * xx 34, `<` 36. All digits but v, xx and rrrrr" (02, T-01) */
static const char trimble_layout[] = ">RTM" "00" "00" "00" "000" "00" "00" "0000" "00" "0" "00" "?" "rrrrr" ";*" "??"
                                     "<";

/* A refusal number, 0 for none, and a place in the string. */
struct refusal {
    uint8_t number;
    size_t place;
};

static struct refusal refused_at(uint8_t number, size_t place) { return (struct refusal){ number, place }; }
static struct refusal refused(uint8_t number) { return refused_at(number, 0); }
static struct refusal accepted(void) { return refused_at(0, 0); }

static bool is_digit(uint8_t byte) { return '0' <= byte && byte <= '9'; }

/* "rrrrr is any bytes from 32 to 126 (others give 2)" (02, T-01) */
static bool may_be_r(uint8_t byte) { return 32 <= byte && byte <= 126; }

/* Whether a byte is the fixed one, or one that rrrrr may have. Other places have their own numbers. */
static bool fits_fixed(char place, uint8_t byte)
{
    if (place == '0' || place == '?')
        return true;
    if (place == 'r')
        return may_be_r(byte);
    return byte == (uint8_t)place;
}

static struct refusal check_layout(const char *layout, const uint8_t *s, size_t n)
{
    /* 1: "string length wrong for its kind" */
    if (n != strlen(layout))
        return refused(1);
    /* 2: "a fixed byte differs" */
    for (size_t i = 0; i < n; i++)
        if (!fits_fixed(layout[i], s[i]))
            return refused_at(2, i);
    /* 3: "no digit in a digit place" */
    for (size_t i = 0; i < n; i++)
        if (layout[i] == '0' && !is_digit(s[i]))
            return refused_at(3, i);
    return accepted();
}

/* The number that so many digits spell. */
static int32_t number(const uint8_t *s, size_t digits)
{
    int32_t value = 0;
    for (size_t i = 0; i < digits; i++)
        value = 10 * value + (s[i] - '0');
    return value;
}

static bool is_one_of(uint8_t byte, const char *letters)
{
    for (size_t i = 0; letters[i] != '\0'; i++)
        if (byte == (uint8_t)letters[i])
            return true;
    return false;
}

/* 4: "a flag place holds another character" than one of those allowed there. */
static struct refusal check_flags(const uint8_t *s, size_t first, size_t count, const char *const *allowed)
{
    for (size_t i = 0; i < count; i++)
        if (!is_one_of(s[first + i], allowed[i]))
            return refused_at(4, first + i);
    return accepted();
}

/* Day, month and year, the weekday, and hour, minute and second of a Meinberg string, from these places on. */
static void read_clock(int32_t first_year, const uint8_t *s, size_t date, size_t weekday, size_t time, int32_t *r)
{
    r[DAY] = number(s + date, 2);
    r[MONTH] = number(s + date + 3, 2);
    r[YEAR] = full_year(first_year, number(s + date + 6, 2));
    r[WEEKDAY] = number(s + weekday, 1);
    r[HOUR] = number(s + time, 2);
    r[MINUTE] = number(s + time + 3, 2);
    r[SECOND] = number(s + time + 6, 2);
}

static struct refusal check_clock(const int32_t *r, bool mismatch)
{
    /* 5: "no such date" */
    if (!is_date(r[YEAR], r[MONTH], r[DAY]))
        return refused(5);
    /* 6: "no such time of day, second 60 rule included"; for GPS "mismatch 6" */
    if (!is_time_of_day(r[HOUR], r[MINUTE], r[SECOND], r[OFFSET]) || mismatch)
        return refused(6);
    /* 7: "weekday outside 1..7" */
    if (r[WEEKDAY] < 1 || r[WEEKDAY] > 7)
        return refused(7);
    return accepted();
}

static struct refusal read_standard(bool sends_u, int32_t first_year, const uint8_t *s, size_t n, int32_t *r)
{
    /* "Flags at 27..30. u is `#` or blank (unsynchronised); v `*` or blank (unverified); x `U` (offset 0), `S` (offset
     * 120, summer time) or blank (offset 60); y `!` (change coming), `A` (leap second coming) or blank." That is the
     * blank of a receiver that sends U; the document knows no other. */
    static const char *const allowed[] = { "# ", "* ", "US ", "!A " };
    assert(sends_u);
    struct refusal refusal = check_layout(standard_layout, s, n);
    if (refusal.number == 0)
        refusal = check_flags(s, 27, 4, allowed);
    if (refusal.number != 0)
        return refusal;

    uint8_t u = s[27], v = s[28], x = s[29], y = s[30];
    r[UNSYNCHRONISED] = u == '#';
    r[UNVERIFIED] = v == '*';
    r[SUMMER] = x == 'S';
    r[CHANGE] = y == '!';
    r[LEAP] = y == 'A';
    r[ANTENNA] = 0;
    if (x == 'U')
        r[OFFSET] = 0;
    else if (x == 'S')
        r[OFFSET] = 120;
    else
        r[OFFSET] = 60;

    read_clock(first_year, s, 3, 14, 18, r);
    return check_clock(r, false);
}

/* The flags uvxyza of PZF and GPS are the reading's six, in its order, each blank if it is not set. */
static void read_flags(const uint8_t *s, int32_t *r)
{
    for (int i = 0; i < 6; i++)
        r[UNSYNCHRONISED + i] = s[i] != ' ';
}

static struct refusal read_pzf(int32_t first_year, const uint8_t *s, size_t n, int32_t *r)
{
    /* "Flags at 24..30: t `U`, u `#`, v `*`, x `S`, y `!`, z `A`, a `R`, or blank." */
    static const char *const allowed[] = { "U ", "# ", "* ", "S ", "! ", "A ", "R " };
    struct refusal refusal = check_layout(pzf_layout, s, n);
    if (refusal.number == 0)
        refusal = check_flags(s, 24, 7, allowed);
    if (refusal.number != 0)
        return refusal;

    /* "t `U` gives offset 0 whatever x is; otherwise x `S` gives 120 and blank 60. x is the summer flag in each
     * case." */
    read_flags(s + 25, r);
    if (s[24] == 'U')
        r[OFFSET] = 0;
    else if (r[SUMMER] == 1)
        r[OFFSET] = 120;
    else
        r[OFFSET] = 60;

    read_clock(first_year, s, 1, 11, 14, r);
    return check_clock(r, false);
}

/* "whole parts, height among them, are right-aligned with blanks for leading zeros, the last whole digit always
 * present, a needless zero refused" */
static bool read_whole_part(const uint8_t *s, size_t places, int32_t *value)
{
    size_t blanks = 0;
    while (blanks < places && s[blanks] == ' ')
        blanks++;
    size_t digits = places - blanks;
    if (digits == 0)
        return false;
    for (size_t i = blanks; i < places; i++)
        if (!is_digit(s[i]))
            return false;
    if (s[blanks] == '0' && digits > 1)
        return false;
    *value = number(s + blanks, digits);
    return true;
}

/* "four digits after each point", and a letter. "Kept as signed ten-thousandths of a degree, S and W below zero, at
 * most 900,000 and 1,800,000; a zero with S or W is refused." */
static bool read_degrees(const uint8_t *s, size_t places, uint8_t above, uint8_t below, int32_t most, int32_t *degrees)
{
    int32_t whole = 0;
    const uint8_t *fraction = s + places + 1;
    uint8_t letter = s[places + 5];
    if (!read_whole_part(s, places, &whole))
        return false;
    for (int i = 0; i < 4; i++)
        if (!is_digit(fraction[i]))
            return false;
    if (letter != above && letter != below)
        return false;
    int32_t magnitude = 10000 * whole + number(fraction, 4);
    if (magnitude > most || (magnitude == 0 && letter == below))
        return false;
    *degrees = letter == below ? -magnitude : magnitude;
    return true;
}

static struct refusal read_gps(int32_t first_year, const uint8_t *s, size_t n, int32_t *r)
{
    /* "flags uvxyzab at 32..38". "b must be `L` exactly if the second is 60 (wrong letter 4, mismatch 6)." */
    static const char *const allowed[] = { "# ", "* ", "S ", "! ", "A ", "R ", "L " };
    struct refusal refusal = check_layout(gps_layout, s, n);
    if (refusal.number == 0)
        refusal = check_flags(s, 32, 7, allowed);
    if (refusal.number != 0)
        return refusal;
    read_flags(s + 32, r);

    /* 8: "offset sign or size". "Offset at most 14:00 either way, its minutes at most 59; `-00:00` is refused with
     * 8." */
    uint8_t sign = s[24];
    int32_t minutes = number(s + 28, 2), magnitude = 60 * number(s + 25, 2) + minutes;
    if (!is_one_of(sign, "+-") || magnitude > 14 * 60 || minutes > 59 || (sign == '-' && magnitude == 0))
        return refused(8);
    r[OFFSET] = sign == '-' ? -magnitude : magnitude;

    /* "All faults in 41..63 but the fixed bytes at 43, 49, 53 and 59 are 9." "N or S at 48, E or W at 58" */
    if (!read_degrees(s + 41, 2, 'N', 'S', 900000, &r[LATITUDE]))
        return refused(9);
    if (!read_degrees(s + 50, 3, 'E', 'W', 1800000, &r[LONGITUDE]))
        return refused(9);
    if (!read_whole_part(s + 60, 4, &r[HEIGHT]))
        return refused(9);

    read_clock(first_year, s, 1, 11, 14, r);
    return check_clock(r, (s[38] == 'L') != (r[SECOND] == 60));
}

static struct refusal read_elv(int32_t first_year, const uint8_t *s, size_t n, int32_t *r)
{
    struct refusal refusal = check_layout(elv_layout, s, n);
    if (refusal.number != 0)
        return refusal;

    /* "FF is 00..07, else 4: 1 summer (offset 120, else 60), 2 change coming, 4 unsynchronised." */
    int32_t ff = number(s + 18, 2);
    if (ff > 7)
        return refused_at(4, s[18] == '0' ? 19 : 18);
    r[SUMMER] = ff % 2;
    r[CHANGE] = ff / 2 % 2;
    r[UNSYNCHRONISED] = ff / 4;
    r[UNVERIFIED] = 0;
    r[LEAP] = 0;
    r[ANTENNA] = 0;
    r[OFFSET] = r[SUMMER] == 1 ? 120 : 60;

    r[YEAR] = full_year(first_year, number(s, 2));
    r[MONTH] = number(s + 3, 2);
    r[DAY] = number(s + 6, 2);
    r[HOUR] = number(s + 9, 2);
    r[MINUTE] = number(s + 12, 2);
    r[SECOND] = number(s + 15, 2);
    /* "No weekday is sent; it is worked out from the date." */
    r[WEEKDAY] = weekday_of(r[YEAR], r[MONTH], r[DAY]);
    return check_clock(r, false);
}

/* "xx is two capital hex digits of the exclusive or of places 0 to 33." (02, T-01) */
static bool has_its_sum(const uint8_t *s)
{
    static const char digits[] = "0123456789ABCDEF";
    uint8_t sum = 0;
    for (size_t i = 0; i <= 33; i++)
        sum ^= s[i];
    return s[34] == digits[sum / 16] && s[35] == digits[sum % 16];
}

/* "Refusals: 24, the sum is wrong or no hex, after 3; 25, v is not `1`, after 24." (02, T-01) */
static struct refusal read_trimble(int32_t first_year, const uint8_t *s, size_t n, int32_t *r)
{
    struct refusal refusal = check_layout(trimble_layout, s, n);
    if (refusal.number != 0)
        return refusal;
    if (!has_its_sum(s))
        return refused(24);
    if (s[26] != '1')
        return refused(25);

    /* "it, oo, d and nn are ignored. Offset is 0, no flags; weekday is worked out" */
    r[HOUR] = number(s + 4, 2);
    r[MINUTE] = number(s + 6, 2);
    r[SECOND] = number(s + 8, 2);
    r[DAY] = number(s + 13, 2);
    r[MONTH] = number(s + 15, 2);
    r[YEAR] = number(s + 17, 4);
    r[OFFSET] = 0;
    for (int flag = UNSYNCHRONISED; flag <= ANTENNA; flag++)
        r[flag] = 0;
    r[WEEKDAY] = weekday_of(r[YEAR], r[MONTH], r[DAY]);

    /* "The milliseconds are handed over beside the reading." */
    r[MILLISECONDS] = number(s + 10, 3);

    /* "years 1970 to 2069, else 5" */
    if (r[YEAR] < first_year || r[YEAR] > first_year + 99)
        return refused(5);
    return check_clock(r, false);
}

/* "66 long is GPS; 32 long is standard if place 1 holds `D`, else PZF; 21 long is ELV; any other length is refused with
 * 1." */
uint8_t reference_kind(const uint8_t *s, size_t n, uint8_t *kind)
{
    if (n == 66)
        *kind = GPS;
    else if (n == 32 && s[1] == 'D')
        *kind = STANDARD;
    else if (n == 32)
        *kind = PZF;
    else if (n == 21)
        *kind = ELV;
    else
        return 1;
    return 0;
}

/* "The caller names the kind; an unknown kind number from C gives 1." */
static struct refusal read_kind(uint8_t kind, bool sends_u, int32_t first_year, const uint8_t *s, size_t n, int32_t *r)
{
    switch (kind) {
    case STANDARD:
        return read_standard(sends_u, first_year, s, n, r);
    case PZF:
        return read_pzf(first_year, s, n, r);
    case GPS:
        return read_gps(first_year, s, n, r);
    case ELV:
        return read_elv(first_year, s, n, r);
    default:
        return refused(1);
    }
}

/* How many numbers the reading of a string has. */
static size_t fields_of(uint8_t kind) { return kind == GPS ? GPS_FIELDS : TIME_FIELDS; }

/* Fills the first places of lent memory. 20: "a buffer too short to write to" */
static uint8_t fill_fields(const int32_t *r, size_t count, int32_t *fields, size_t room)
{
    if (room < count)
        return 20;
    for (size_t i = 0; i < count; i++)
        fields[i] = r[i];
    return 0;
}

uint8_t reference_read(uint8_t kind, bool sends_u, int32_t first_year, const uint8_t *s, size_t n, int32_t *fields,
                       size_t room, size_t *place)
{
    int32_t r[GPS_FIELDS];
    struct refusal refusal = read_kind(kind, sends_u, first_year, s, n, r);
    if (refusal.number == 0)
        refusal.number = fill_fields(r, fields_of(kind), fields, room);
    if (refusal.number != 0)
        *place = refusal.place;
    return refusal.number;
}

uint8_t reference_read_trimble(int32_t first_year, const uint8_t *s, size_t n, int32_t *fields, size_t room,
                               size_t *place)
{
    int32_t r[TRIMBLE_FIELDS];
    struct refusal refusal = read_trimble(first_year, s, n, r);
    if (refusal.number == 0)
        refusal.number = fill_fields(r, TRIMBLE_FIELDS, fields, room);
    if (refusal.number != 0)
        *place = refusal.place;
    return refusal.number;
}

/* Writing strings. "For a writer: 23, 20; it fills the first places it needs and changes nothing after them." */

/* 23: "reading that no accepted string or minute of this format gives". The functions below make the only string that
 * could give a reading. It is read, and what it gives is compared with the reading. */

/* The last digits of a value. If it has more they read as another, and if it is below zero they are no digits. */
static void write_number(uint8_t *s, size_t digits, int64_t value)
{
    for (size_t i = digits; i > 0; i--) {
        s[i - 1] = (uint8_t)('0' + value % 10);
        value /= 10;
    }
}

static uint8_t flag(int32_t holds, char letter) { return (uint8_t)(holds == 1 ? letter : ' '); }

static int64_t size_of(int64_t value) { return value < 0 ? -value : value; }

static void write_clock(const int32_t *r, uint8_t *s, size_t date, size_t weekday, size_t time)
{
    write_number(s + date, 2, r[DAY]);
    write_number(s + date + 3, 2, r[MONTH]);
    write_number(s + date + 6, 2, r[YEAR]);
    write_number(s + weekday, 1, r[WEEKDAY]);
    write_number(s + time, 2, r[HOUR]);
    write_number(s + time + 3, 2, r[MINUTE]);
    write_number(s + time + 6, 2, r[SECOND]);
}

static void write_standard(const int32_t *r, uint8_t *s)
{
    write_clock(r, s, 3, 14, 18);
    s[27] = flag(r[UNSYNCHRONISED], '#');
    s[28] = flag(r[UNVERIFIED], '*');
    s[29] = r[OFFSET] == 0 ? 'U' : flag(r[SUMMER], 'S');
    s[30] = r[CHANGE] == 1 ? '!' : flag(r[LEAP], 'A');
}

static void write_flags(const int32_t *r, uint8_t *s)
{
    for (int i = 0; i < 6; i++)
        s[i] = flag(r[UNSYNCHRONISED + i], "#*S!AR"[i]);
}

static void write_pzf(const int32_t *r, uint8_t *s)
{
    write_clock(r, s, 1, 11, 14);
    s[24] = flag(r[OFFSET] == 0, 'U');
    write_flags(r, s + 25);
}

static void write_whole_part(uint8_t *s, size_t places, int64_t value)
{
    write_number(s, places, value);
    for (size_t i = 0; i + 1 < places && s[i] == '0'; i++)
        s[i] = ' ';
}

static void write_degrees(uint8_t *s, size_t places, int32_t degrees, uint8_t above, uint8_t below)
{
    write_whole_part(s, places, size_of(degrees) / 10000);
    write_number(s + places + 1, 4, size_of(degrees) % 10000);
    s[places + 5] = degrees < 0 ? below : above;
}

static void write_gps(const int32_t *r, uint8_t *s)
{
    write_clock(r, s, 1, 11, 14);
    s[24] = r[OFFSET] < 0 ? '-' : '+';
    write_number(s + 25, 2, size_of(r[OFFSET]) / 60);
    write_number(s + 28, 2, size_of(r[OFFSET]) % 60);
    write_flags(r, s + 32);
    s[38] = flag(r[SECOND] == 60, 'L');
    write_degrees(s + 41, 2, r[LATITUDE], 'N', 'S');
    write_degrees(s + 50, 3, r[LONGITUDE], 'E', 'W');
    write_whole_part(s + 60, 4, r[HEIGHT]);
}

static void write_elv(const int32_t *r, uint8_t *s)
{
    write_number(s, 2, r[YEAR]);
    write_number(s + 3, 2, r[MONTH]);
    write_number(s + 6, 2, r[DAY]);
    write_number(s + 9, 2, r[HOUR]);
    write_number(s + 12, 2, r[MINUTE]);
    write_number(s + 15, 2, r[SECOND]);
    write_number(s + 18, 2, (r[SUMMER] == 1) + 2 * (r[CHANGE] == 1) + 4 * (r[UNSYNCHRONISED] == 1));
}

static bool are_same(const int32_t *a, const int32_t *b, size_t count)
{
    for (size_t i = 0; i < count; i++)
        if (a[i] != b[i])
            return false;
    return true;
}

/* Fills the first places of lent memory. 20: "a buffer too short to write to" */
static uint8_t fill_bytes(const uint8_t *s, size_t n, uint8_t *out, size_t room, size_t *written)
{
    if (room < n)
        return 20;
    for (size_t i = 0; i < n; i++)
        out[i] = s[i];
    *written = n;
    return 0;
}

uint8_t reference_write(uint8_t kind, bool sends_u, int32_t first_year, const int32_t *fields, size_t count,
                        uint8_t *out, size_t room, size_t *written)
{
    static const char *const layouts[] = { standard_layout, pzf_layout, gps_layout, elv_layout };
    static void (*const writers[])(const int32_t *, uint8_t *) = { write_standard, write_pzf, write_gps, write_elv };
    uint8_t s[sizeof gps_layout];
    int32_t back[GPS_FIELDS];
    if (kind > ELV)
        return 1;
    if (count != fields_of(kind))
        return 23;
    size_t n = strlen(layouts[kind]);
    memcpy(s, layouts[kind], n);
    writers[kind](fields, s);
    if (read_kind(kind, sends_u, first_year, s, n, back).number != 0 || !are_same(back, fields, count))
        return 23;
    return fill_bytes(s, n, out, room, written);
}

/* DCF77 minutes. "Mark 0 short (100 ms), 1 long (200 ms), 2 gap, 3 and any larger byte on a tape unsure." */
enum { SHORT, LONG, GAP };

/* The number in the marks from the first to the last. "Lowest bit first" */
static int32_t binary(const uint8_t *m, size_t first, size_t last)
{
    int32_t value = 0, weight = 1;
    for (size_t i = first; i <= last; i++) {
        if (m[i] == LONG)
            value += weight;
        weight *= 2;
    }
    return value;
}

/* "Parity is even over 21..28, 29..35 and 36..58." */
static bool is_even(const uint8_t *m, size_t first, size_t last)
{
    int ones = 0;
    for (size_t i = first; i <= last; i++)
        if (m[i] == LONG)
            ones++;
    return ones % 2 == 0;
}

/* "For a minute: 11, 12, 13, 14, 15, 16, 17, 18, 7, 5, 6, 19" */
static uint8_t read_marks(int32_t first_year, const uint8_t *m, size_t n, int32_t *r)
{
    /* 11: "run is not 59 or 60 marks" */
    if (n != 59 && n != 60)
        return 11;
    /* 12: "a mark in the run that is neither short nor long" */
    for (size_t i = 0; i < n; i++)
        if (m[i] != SHORT && m[i] != LONG)
            return 12;
    /* 13: "mark 0 is not short, or mark 20 is not long" */
    if (m[0] != SHORT || m[20] != LONG)
        return 13;
    /* 14: "marks 17 and 18 equal" */
    if (m[17] == m[18])
        return 14;
    /* 15, 16, 17: "minute, hour, date parity" */
    if (!is_even(m, 21, 28))
        return 15;
    if (!is_even(m, 29, 35))
        return 16;
    if (!is_even(m, 36, 58))
        return 17;

    /* "minute 21..24 and tens 25..27, parity 28; hour 29..32, tens 33..34, parity 35; day 36..39, tens 40..41; weekday
     * 42..44; month 45..48, ten 49; year 50..53, tens 54..57; parity 58." 18: "a decimal digit above 9" */
    if (binary(m, 21, 24) > 9 || binary(m, 29, 32) > 9 || binary(m, 36, 39) > 9 || binary(m, 45, 48) > 9 ||
        binary(m, 50, 53) > 9 || binary(m, 54, 57) > 9)
        return 18;
    r[MINUTE] = binary(m, 21, 24) + 10 * binary(m, 25, 27);
    r[HOUR] = binary(m, 29, 32) + 10 * binary(m, 33, 34);
    r[DAY] = binary(m, 36, 39) + 10 * binary(m, 40, 41);
    r[WEEKDAY] = binary(m, 42, 44);
    r[MONTH] = binary(m, 45, 48) + 10 * binary(m, 49, 49);
    r[YEAR] = full_year(first_year, binary(m, 50, 53) + 10 * binary(m, 54, 57));
    /* "A minute announces the time at which the next minute starts, second 0" */
    r[SECOND] = 0;

    /* "1..14 kept as sent; 15 antenna"; "16 change coming; 17, 18 zone: 0 1 offset 60, 1 0 offset 120 and summer time;
     * 19 leap second coming; 20 start." */
    r[MARKS_1_TO_14] = binary(m, 1, 14);
    r[ANTENNA] = m[15] == LONG;
    r[CHANGE] = m[16] == LONG;
    r[SUMMER] = m[17] == LONG;
    r[OFFSET] = m[17] == LONG ? 120 : 60;
    r[LEAP] = m[19] == LONG;
    r[UNSYNCHRONISED] = 0;
    r[UNVERIFIED] = 0;
    r[SIXTY_MARKS] = n == 60;

    /* 7: "weekday outside 1..7" */
    if (r[WEEKDAY] < 1 || r[WEEKDAY] > 7)
        return 7;
    /* 5: "no such date" */
    if (!is_date(r[YEAR], r[MONTH], r[DAY]))
        return 5;
    /* 6: "no such time of day, second 60 rule included" */
    if (!is_time_of_day(r[HOUR], r[MINUTE], r[SECOND], r[OFFSET]))
        return 6;
    /* 19: "60 marks without all of: mark 19 long, mark 59 short, minute 0 announced" */
    if (n == 60 && !(m[19] == LONG && m[59] == SHORT && r[MINUTE] == 0))
        return 19;
    return 0;
}

uint8_t reference_read_minute(int32_t first_year, const uint8_t *marks, size_t n, int32_t *fields, size_t room)
{
    int32_t r[MINUTE_FIELDS];
    uint8_t refusal = read_marks(first_year, marks, n, r);
    if (refusal != 0)
        return refusal;
    return fill_fields(r, MINUTE_FIELDS, fields, room);
}

/* The lowest bits of a value. If it has more, or is below zero, they read as another. */
static void write_binary(uint8_t *m, size_t first, size_t last, int32_t value)
{
    for (size_t i = first; i <= last; i++) {
        m[i] = value % 2 == 1 ? LONG : SHORT;
        value /= 2;
    }
}

/* Makes the last mark of a group the one with which its parity is even. */
static void write_parity(uint8_t *m, size_t first, size_t last)
{
    m[last] = SHORT;
    if (!is_even(m, first, last))
        m[last] = LONG;
}

/* The only marks that could give a reading; returns how many they are. */
static size_t write_marks(const int32_t *r, uint8_t *m)
{
    m[0] = SHORT;
    write_binary(m, 1, 14, r[MARKS_1_TO_14]);
    m[15] = r[ANTENNA] == 1 ? LONG : SHORT;
    m[16] = r[CHANGE] == 1 ? LONG : SHORT;
    m[17] = r[SUMMER] == 1 ? LONG : SHORT;
    m[18] = r[SUMMER] == 1 ? SHORT : LONG;
    m[19] = r[LEAP] == 1 ? LONG : SHORT;
    m[20] = LONG;
    write_binary(m, 21, 24, r[MINUTE] % 10);
    write_binary(m, 25, 27, r[MINUTE] / 10);
    write_parity(m, 21, 28);
    write_binary(m, 29, 32, r[HOUR] % 10);
    write_binary(m, 33, 34, r[HOUR] / 10);
    write_parity(m, 29, 35);
    write_binary(m, 36, 39, r[DAY] % 10);
    write_binary(m, 40, 41, r[DAY] / 10);
    write_binary(m, 42, 44, r[WEEKDAY]);
    write_binary(m, 45, 48, r[MONTH] % 10);
    write_binary(m, 49, 49, r[MONTH] / 10);
    write_binary(m, 50, 53, r[YEAR] % 10);
    write_binary(m, 54, 57, r[YEAR] / 10 % 10);
    write_parity(m, 36, 58);
    m[59] = SHORT;
    return r[SIXTY_MARKS] == 1 ? 60 : 59;
}

uint8_t reference_write_minute(int32_t first_year, const int32_t *fields, size_t count, uint8_t *out, size_t room,
                               size_t *written)
{
    uint8_t m[60];
    int32_t back[MINUTE_FIELDS];
    if (count != MINUTE_FIELDS)
        return 23;
    size_t n = write_marks(fields, m);
    if (read_marks(first_year, m, n, back) != 0 || !are_same(back, fields, count))
        return 23;
    return fill_bytes(m, n, out, room, written);
}

/* Tape and sheet. */

enum { LONGEST_TAPE = 100000 };

/* "Sheet number: 0 where there is no gap; at a gap the refusal number; or, accepted, 100 + 32 L + 16 (run of 60) + 8
 * (offset 120) + 4 antenna + 2 change + 1 leap, where L is local minutes from 1970-01-01 00:00." */
static uint32_t sheet_number(int32_t first_year, const uint8_t *marks, size_t place)
{
    int32_t r[MINUTE_FIELDS];
    if (marks[place] != GAP)
        return 0;

    /* "The run at a gap is what lies between it and the nearest earlier gap." */
    size_t start = place;
    while (start > 0 && marks[start - 1] != GAP)
        start--;
    /* 10: "gap with no earlier gap on the tape"; "on a tape 10 comes before these" */
    if (start == 0)
        return 10;
    uint8_t refusal = read_marks(first_year, marks + start, place - start, r);
    if (refusal != 0)
        return refusal;

    int32_t local = 1440 * days_since_1970(r[YEAR], r[MONTH], r[DAY]) + 60 * r[HOUR] + r[MINUTE];
    int32_t flags = 16 * r[SIXTY_MARKS] + 8 * (r[OFFSET] == 120) + 4 * r[ANTENNA] + 2 * r[CHANGE] + r[LEAP];
    return 100 + 32 * (uint32_t)local + (uint32_t)flags;
}

uint8_t reference_outcome_at(int32_t first_year, const uint8_t *marks, size_t n, size_t place, uint32_t *number)
{
    /* 20: "tape over 100,000" */
    if (n > LONGEST_TAPE)
        return 20;
    /* 21: "place at or past the tape's end" */
    if (place >= n)
        return 21;
    *number = sheet_number(first_year, marks, place);
    return 0;
}

/* The instant that an accepted minute announces, from its number on the sheet: "100 + 32 L + 16 (run of 60) + 8 (offset
 * 120) + 4 antenna + 2 change + 1 leap, where L is local minutes from 1970-01-01 00:00". A number below 100 is no
 * accepted minute's, and a minute after the last of 2069 is none either: 23. */
uint8_t reference_outcome_unix_time(uint32_t outcome, int64_t *time)
{
    if (outcome < 100)
        return 23;
    uint32_t sum = outcome - 100;
    int64_t minutes = sum / 32, offset = 60;
    if (sum / 8 % 2 == 1)
        offset = 120;
    if (minutes >= 24 * 60 * (int64_t)days_since_1970(2070, 1, 1))
        return 23;
    if (sum / 16 % 2 == 1 && (sum % 2 == 0 || minutes % 60 != 0)) /* a run of 60 that is refused with 19 */
        return 23;
    *time = 60 * (minutes - offset);
    return 0;
}

uint8_t reference_fill_outcomes(int32_t first_year, const uint8_t *marks, size_t n, uint32_t *outcomes, size_t count)
{
    /* 20: "sheet and tape lengths differ, tape over 100,000" */
    if (count != n || n > LONGEST_TAPE)
        return 20;
    for (size_t i = 0; i < n; i++)
        outcomes[i] = sheet_number(first_year, marks, i);
    return 0;
}

/* Puts the tape's number at a place of the sheet. Returns 1 if another stood there, else 0. */
static size_t put_right(int32_t first_year, const uint8_t *marks, uint32_t *outcomes, size_t place)
{
    uint32_t before = outcomes[place];
    outcomes[place] = sheet_number(first_year, marks, place);
    return outcomes[place] == before ? 0 : 1;
}

/* "For a correction: 20, 21, 22." */
uint8_t reference_correct_mark(int32_t first_year, uint8_t *marks, size_t n, uint32_t *outcomes, size_t count,
                               size_t place, uint8_t mark, size_t *changed)
{
    /* 20: "sheet and tape lengths differ, tape over 100,000" */
    if (count != n || n > LONGEST_TAPE)
        return 20;
    /* 21: "place at or past the tape's end" */
    if (place >= n)
        return 21;
    /* 22: "new mark above 3" */
    if (mark > 3)
        return 22;

    /* "The corrected tape is the old one with the new mark at the place named." */
    marks[place] = mark;

    /* "The first gap after a place is the nearest later place whose mark is 2" */
    size_t gap = place + 1;
    while (gap < n && marks[gap] != GAP)
        gap++;

    /* The numbers at the place and at the first gap after it are put right, all others stay. "Its count is the
     * number of places at which the sheet after it differs from the sheet before it." */
    *changed = put_right(first_year, marks, outcomes, place);
    if (gap < n)
        *changed += put_right(first_year, marks, outcomes, gap);
    return 0;
}

/* The serial feed. The state: the bytes kept, how many they are, and the mode. An event: 0 "nothing yet", n "a complete
 * string of n bytes", 255 "an overlong string dropped". */
enum { STX = 2, ETX = 3 };
enum { MOST_KEPT = 66, KEPT = 66, MODE = 67, STATE_SIZE = 68 };
enum { OUTSIDE, INSIDE, OVERLONG };
enum { NOTHING_YET = 0, DROPPED = 255 };

/* A single step: "The feed's state goes in and is handed back with each byte." */
static uint8_t feed_byte(uint8_t *state, uint8_t byte)
{
    /* "A state that says more than 66 kept counts as outside a string." */
    if (state[KEPT] > MOST_KEPT)
        state[MODE] = OUTSIDE;

    /* "STX always starts afresh and answers nothing yet, whatever came before." */
    if (byte == STX) {
        state[0] = STX;
        state[KEPT] = 1;
        state[MODE] = INSIDE;
        return NOTHING_YET;
    }

    /* "Inside, bytes are kept up to 66, STX among them; a further byte that is not STX makes the string overlong until
     * the next STX or ETX." "If 66 are kept and ETX comes, the string is dropped." */
    if (state[MODE] == INSIDE && state[KEPT] == MOST_KEPT) {
        state[MODE] = OVERLONG;
    } else if (state[MODE] == INSIDE) {
        state[state[KEPT]] = byte;
        state[KEPT]++;
    }

    /* "ETX ends a kept string (n counts STX and ETX; the state's first n bytes are then the string) or drops an
     * overlong one, and the state is then outside; outside it does nothing." */
    uint8_t event = NOTHING_YET;
    if (byte == ETX && state[MODE] == INSIDE)
        event = state[KEPT];
    if (byte == ETX && state[MODE] == OVERLONG)
        event = DROPPED;
    if (byte == ETX)
        state[MODE] = OUTSIDE;
    return event;
}

/* "Over a lent slice the feed stops after an allowance of bytes that the caller names, at the slice's end, or just
 * after the first string, complete or dropped. It returns the number of bytes taken, which is the number of single
 * steps." */
uint8_t reference_feed(uint8_t *state, size_t size, const uint8_t *s, size_t n, size_t limit, size_t *taken,
                       uint8_t *event)
{
    if (size < STATE_SIZE)
        return 20;
    *taken = 0;
    *event = NOTHING_YET;
    while (*taken < limit && *taken < n && *event == NOTHING_YET) {
        *event = feed_byte(state, s[*taken]);
        ++*taken;
    }
    return 0;
}
