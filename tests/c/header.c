/* The header as a user's compiler sees it, in C and in C++ with every warning an error: each constant against its
 * number, each type, each error text, and each inline function against the arrays of fields that the library gives.
 * Prints what is wrong. header_lines.py shows that a change to any line of the header is found here. */
#include "radio_clock.h"
#include "radio_clock.h" /* included twice, it does no harm */

#include <stdio.h>
#include <string.h>

static int wrong;

static void check(bool holds, const char *what, long which)
{
    if (!holds) {
        printf("header: %s %ld\n", what, which);
        wrong = 1;
    }
}

/* The constants, in the order of the header. */

#define IS(name, number) { #name, RADIO_CLOCK_##name, number }
static const struct {
    const char *name;
    long is, said;
} constants[] = {
    IS(STANDARD, 0),
    IS(PZF, 1),
    IS(GPS, 2),
    IS(ELV, 3),
    IS(SHORT, 0),
    IS(LONG, 1),
    IS(GAP, 2),
    IS(UNSURE, 3),
    IS(ERROR_LENGTH, 1),
    IS(ERROR_FIXED_BYTE, 2),
    IS(ERROR_NOT_DIGIT, 3),
    IS(ERROR_FLAG_LETTER, 4),
    IS(ERROR_NO_SUCH_DATE, 5),
    IS(ERROR_NO_SUCH_TIME, 6),
    IS(ERROR_WEEKDAY, 7),
    IS(ERROR_UTC_OFFSET, 8),
    IS(ERROR_POSITION, 9),
    IS(ERROR_NO_EARLIER_GAP, 10),
    IS(ERROR_RUN_LENGTH, 11),
    IS(ERROR_UNSURE_MARK, 12),
    IS(ERROR_START_MARK, 13),
    IS(ERROR_ZONE_MARKS, 14),
    IS(ERROR_MINUTE_PARITY, 15),
    IS(ERROR_HOUR_PARITY, 16),
    IS(ERROR_DATE_PARITY, 17),
    IS(ERROR_DECIMAL_DIGIT, 18),
    IS(ERROR_LEAP_MINUTE, 19),
    IS(ERROR_LENT_MEMORY, 20),
    IS(ERROR_PLACE, 21),
    IS(ERROR_NEW_MARK, 22),
    IS(ERROR_UNREPRESENTABLE, 23),
    IS(ERROR_CHECKSUM, 24),
    IS(ERROR_VALIDITY_FLAG, 25),
    IS(YEAR, 0),
    IS(MONTH, 1),
    IS(DAY, 2),
    IS(WEEKDAY, 3),
    IS(HOUR, 4),
    IS(MINUTE, 5),
    IS(SECOND, 6),
    IS(UTC_OFFSET, 7),
    IS(UNSYNCHRONISED, 8),
    IS(UNVERIFIED, 9),
    IS(SUMMER_TIME, 10),
    IS(DST_CHANGE_ANNOUNCED, 11),
    IS(LEAP_SECOND_ANNOUNCED, 12),
    IS(ALTERNATE_ANTENNA, 13),
    IS(TIME_FIELDS, 14),
    IS(LATITUDE, 14),
    IS(LONGITUDE, 15),
    IS(HEIGHT, 16),
    IS(GPS_FIELDS, 17),
    IS(MILLISECONDS, 14),
    IS(TRIMBLE_FIELDS, 15),
    IS(FIRST_MARKS, 14),
    IS(SIXTY_MARKS, 15),
    IS(MINUTE_FIELDS, 16),
    IS(STRING_MAX, 66),
    IS(MINUTE_MAX, 60),
    IS(RECORDING_MAX, 100000),
    IS(FRAMER_SIZE, 68),
    IS(DROPPED, 255),
};

static void check_constants(void)
{
    for (size_t i = 0; i < sizeof constants / sizeof constants[0]; i++)
        check(constants[i].is == constants[i].said, constants[i].name, constants[i].is);
}

/* A version is three numbers with points between them. */
static void check_version(void)
{
    const char *v = RADIO_CLOCK_VERSION;
    for (int part = 0; part < 3; part++) {
        check(*v >= '0' && *v <= '9', "no number in part of the version:", part);
        while (*v >= '0' && *v <= '9')
            v++;
        check(*v == (part < 2 ? '.' : '\0'), "the version does not go on as it should after part", part);
        v += *v == '.';
    }
}

/* The types: a conditional of pointers to two types does not compile. */

#define TYPE_IS(type, value) (void)sizeof(1 ? (type)0 : (value))

static void check_types(void)
{
    struct radio_clock_time t;
    struct radio_clock_position p;
    struct radio_clock_minute_detail d;
    struct radio_clock_framer framer;
    typedef const uint8_t *bytes;
    typedef const int32_t *numbers;
    typedef uint8_t (*kind)(bytes, size_t, uint8_t *);
    typedef uint8_t (*read)(uint8_t, bytes, size_t, int32_t *, size_t);
    typedef uint8_t (*read_trimble)(bytes, size_t, int32_t *, size_t);
    typedef uint8_t (*write)(uint8_t, numbers, size_t, uint8_t *, size_t, size_t *);
    typedef uint8_t (*read_minute)(bytes, size_t, int32_t *, size_t);
    typedef uint8_t (*write_minute)(numbers, size_t, uint8_t *, size_t, size_t *);
    typedef uint8_t (*unix_time)(numbers, size_t, int64_t *);
    typedef uint8_t (*outcome_at)(bytes, size_t, size_t, uint32_t *);
    typedef uint8_t (*fill_outcomes)(bytes, size_t, uint32_t *, size_t);
    typedef uint8_t (*correct_mark)(uint8_t *, size_t, uint32_t *, size_t, size_t, uint8_t, size_t *);
    typedef uint8_t (*outcome_unix_time)(uint32_t, int64_t *);
    typedef uint8_t (*feed)(uint8_t *, size_t, bytes, size_t, size_t, size_t *, uint8_t *);
    typedef struct radio_clock_time (*time_of)(numbers);
    typedef void (*fields_of)(struct radio_clock_time, int32_t *);
    typedef uint8_t (*read_string)(bytes, size_t, uint8_t *, struct radio_clock_time *, struct radio_clock_position *,
                                   int64_t *);
    typedef uint8_t (*read_trimble_string)(bytes, size_t, struct radio_clock_time *, int32_t *, int64_t *);
    typedef uint8_t (*read_marks)(bytes, size_t, struct radio_clock_time *, struct radio_clock_minute_detail *,
                                  int64_t *);
    typedef bool (*flag_of)(uint32_t);
    typedef uint32_t (*minutes_of)(uint32_t);
    typedef int32_t (*offset_of)(uint32_t);
    typedef uint8_t (*framer_next)(struct radio_clock_framer *, bytes, size_t, size_t *);
    typedef const char *(*error_text)(uint8_t);
    TYPE_IS(kind, radio_clock_kind);
    TYPE_IS(read, radio_clock_read);
    TYPE_IS(read_trimble, radio_clock_read_trimble);
    TYPE_IS(write, radio_clock_write);
    TYPE_IS(read_minute, radio_clock_read_minute);
    TYPE_IS(write_minute, radio_clock_write_minute);
    TYPE_IS(unix_time, radio_clock_unix_time);
    TYPE_IS(outcome_at, radio_clock_outcome_at);
    TYPE_IS(fill_outcomes, radio_clock_fill_outcomes);
    TYPE_IS(correct_mark, radio_clock_correct_mark);
    TYPE_IS(outcome_unix_time, radio_clock_outcome_unix_time);
    TYPE_IS(feed, radio_clock_feed);
    TYPE_IS(time_of, radio_clock_time_of);
    TYPE_IS(fields_of, radio_clock_fields_of);
    TYPE_IS(read_string, radio_clock_read_string);
    TYPE_IS(read_trimble_string, radio_clock_read_trimble_string);
    TYPE_IS(read_marks, radio_clock_read_marks);
    TYPE_IS(flag_of, radio_clock_outcome_accepted);
    TYPE_IS(minutes_of, radio_clock_outcome_minutes);
    TYPE_IS(flag_of, radio_clock_outcome_sixty_marks);
    TYPE_IS(offset_of, radio_clock_outcome_utc_offset);
    TYPE_IS(flag_of, radio_clock_outcome_antenna);
    TYPE_IS(flag_of, radio_clock_outcome_dst_change);
    TYPE_IS(flag_of, radio_clock_outcome_leap_second);
    TYPE_IS(framer_next, radio_clock_framer_next);
    TYPE_IS(error_text, radio_clock_error_text);
    TYPE_IS(int32_t *, &t.year);
    TYPE_IS(int32_t *, &t.month);
    TYPE_IS(int32_t *, &t.day);
    TYPE_IS(int32_t *, &t.weekday);
    TYPE_IS(int32_t *, &t.hour);
    TYPE_IS(int32_t *, &t.minute);
    TYPE_IS(int32_t *, &t.second);
    TYPE_IS(int32_t *, &t.utc_offset);
    TYPE_IS(bool *, &t.unsynchronised);
    TYPE_IS(bool *, &t.unverified);
    TYPE_IS(bool *, &t.summer_time);
    TYPE_IS(bool *, &t.dst_change_announced);
    TYPE_IS(bool *, &t.leap_second_announced);
    TYPE_IS(bool *, &t.alternate_antenna);
    TYPE_IS(int32_t *, &p.latitude);
    TYPE_IS(int32_t *, &p.longitude);
    TYPE_IS(int32_t *, &p.height);
    TYPE_IS(int32_t *, &d.first_marks);
    TYPE_IS(bool *, &d.sixty_marks);
    TYPE_IS(uint8_t *, framer.state);
}

/* A clock time by names against fields, whose places are written here as numbers. */
static void check_time(const struct radio_clock_time *t, const int32_t *fields, long which)
{
    check(t->year == fields[0] && t->month == fields[1] && t->day == fields[2] && t->weekday == fields[3] &&
              t->hour == fields[4] && t->minute == fields[5] && t->second == fields[6] && t->utc_offset == fields[7],
          "names and fields differ in a number of clock time", which);
    check(t->unsynchronised == (fields[8] != 0) && t->unverified == (fields[9] != 0) &&
              t->summer_time == (fields[10] != 0) && t->dst_change_announced == (fields[11] != 0) &&
              t->leap_second_announced == (fields[12] != 0) && t->alternate_antenna == (fields[13] != 0),
          "names and fields differ in a flag of clock time", which);
}

/* The fields by names and back, with each flag alone and all of them; 2 is no flag, but not 0 either. */
static void check_names(void)
{
    for (int32_t flags = 0; flags < 192; flags++) {
        int32_t fields[15], again[15];
        for (int32_t i = 0; i < 15; i++) {
            fields[i] = i < 8 ? 100 * flags + 7 * i - 300 : (flags & 63) >> (i - 8) & 1;
            again[i] = -1;
        }
        struct radio_clock_time t = radio_clock_time_of(fields);
        check_time(&t, fields, flags);
        radio_clock_fields_of(t, again);
        check(memcmp(again, fields, 14 * sizeof fields[0]) == 0, "fields after names differ, flags", flags);
        check(again[14] == -1, "a field after the 14 is set, flags", flags);
        for (int32_t i = 8; i < 14; i++)
            fields[i] = 2 * fields[i];
        t = radio_clock_time_of(fields);
        check_time(&t, fields, flags);
    }
    struct radio_clock_time t = { 1, 2, 3, 4, 5, 6, 7, 8, true, false, true, false, true, false };
    const int32_t in_order[14] = { 1, 2, 3, 4, 5, 6, 7, 8, 1, 0, 1, 0, 1, 0 };
    struct radio_clock_position p = { 1, 2, 3 };
    struct radio_clock_minute_detail d = { 5, true };
    check_time(&t, in_order, -1);
    check(p.latitude == 1 && p.longitude == 2 && p.height == 3, "the order of a position's names", 0);
    check(d.first_marks == 5 && d.sixty_marks, "the order of the names that a minute adds", 0);
}

/* Strings: one of each kind, twice, with other numbers in each place, and some that are refused. */

#define STRING(kind, error, text) { kind, error, text, sizeof text - 1 }
static const struct {
    uint8_t kind, error;
    const char *text;
    size_t length;
} strings[] = {
    STRING(0, 0, "\002D:08.11.06;T:3;U:14.39.37;    \003"),
    STRING(0, 0, "\002D:27.10.24;T:7;U:01.59.58;#*S!\003"),
    STRING(1, 0, "\00202.03.98; 1; 23:45:56;  # S A \003"),
    STRING(1, 0, "\00201.01.17; 7; 00:59:60;   * ! R\003"),
    STRING(2, 0, "\00209.07.93; 5; 08:48:26; -03:30; #*S!AR ; 49.5736N  11.0280E  373m\003"),
    STRING(2, 0, "\00231.12.16; 6; 23:59:60; +00:00;       L; 12.0001S 179.9999W    7m\003"),
    STRING(3, 0, "06-11-08-14-39-39-00\r"),
    STRING(3, 0, "69-12-31-23-58-01-07\r"),
    STRING(0, 1, ""),
    STRING(0, 1, "\002D:08.11.06;T:3;U:14.39.37;   \003"),
    STRING(0, 2, "\002D:08.11.06:T:3;U:14.39.37;    \003"),
    STRING(0, 3, "\002D:08.11.06;T:3;U:14.39.3x;    \003"),
    STRING(1, 4, "\00202.03.98; 1; 23:45:56;  # S Ax\003"),
    STRING(0, 5, "\002D:31.06.06;T:3;U:14.39.37;    \003"),
    STRING(3, 6, "06-11-08-24-39-39-00\r"),
    STRING(0, 7, "\002D:08.11.06;T:0;U:14.39.37;    \003"),
    STRING(2, 8, "\00209.07.93; 5; 08:48:26; -00:00; #*S!AR ; 49.5736N  11.0280E  373m\003"),
    STRING(2, 9, "\00209.07.93; 5; 08:48:26; -03:30; #*S!AR ; 90.0001N  11.0280E  373m\003"),
};

static void check_strings(void)
{
    for (size_t i = 0; i < sizeof strings / sizeof strings[0]; i++) {
        const uint8_t *s = (const uint8_t *)strings[i].text;
        size_t n = strings[i].length;
        int32_t fields[17];
        int64_t said = 0, time = -77;
        uint8_t kind = 99;
        struct radio_clock_time t, noise;
        struct radio_clock_position p = { -5, -6, -7 };
        memset(&noise, 1, sizeof noise);
        t = noise;
        uint8_t error = radio_clock_read(strings[i].kind, s, n, fields, 17);
        check(error == strings[i].error, "the library gives another error for string", (long)i);
        check(radio_clock_read_string(s, n, &kind, &t, &p, &time) == error, "by name another error for string",
              (long)i);
        if (error != 0) {
            check(kind == 99 && memcmp(&t, &noise, sizeof t) == 0 && p.latitude == -5 && p.longitude == -6 &&
                      p.height == -7 && time == -77,
                  "something changed for refused string", (long)i);
            continue;
        }
        check(radio_clock_unix_time(fields, 14, &said) == 0 && time == said, "the Unix time of string", (long)i);
        check(kind == strings[i].kind, "the kind of string", (long)i);
        check_time(&t, fields, (long)i);
        check(kind == 2 ? p.latitude == fields[14] && p.longitude == fields[15] && p.height == fields[16]
                        : p.latitude == -5 && p.longitude == -6 && p.height == -7,
              "the position of string", (long)i);
    }
}

/* Trimble strings with other numbers in each place, and one for each refusal. */

#define TRIMBLE(error, milliseconds, text) { error, milliseconds, text, sizeof text - 1 }
static const struct {
    uint8_t error;
    int32_t milliseconds;
    const char *text;
    size_t length;
} trimble_strings[] = {
    TRIMBLE(0, 123, ">RTM1439391230811200614007100000;*6E<"),
    TRIMBLE(0, 987, ">RTM235960987311220691805612 <>~;*30<"),
    TRIMBLE(1, 0, ">RTM143939123081120061400710000;*5E<"),
    TRIMBLE(2, 0, ">RTM1439391230811200614007100000;+6F<"),
    TRIMBLE(3, 0, ">RTM14393912x0811200614007100000;*25<"),
    TRIMBLE(24, 0, ">RTM1439391230811200614007100000;*6e<"),
    TRIMBLE(25, 0, ">RTM1439391230811200614007000000;*6F<"),
    TRIMBLE(5, 0, ">RTM1439391230811207014007100000;*6F<"),
    TRIMBLE(6, 0, ">RTM2439391230811200614007100000;*6D<"),
};

static void check_trimble(void)
{
    for (size_t i = 0; i < sizeof trimble_strings / sizeof trimble_strings[0]; i++) {
        const uint8_t *s = (const uint8_t *)trimble_strings[i].text;
        size_t n = trimble_strings[i].length;
        int32_t fields[15], milliseconds = -5;
        int64_t said = 0, time = -77;
        struct radio_clock_time t, noise;
        memset(&noise, 1, sizeof noise);
        t = noise;
        uint8_t error = radio_clock_read_trimble(s, n, fields, 15);
        check(error == trimble_strings[i].error, "the library gives another error for Trimble string", (long)i);
        check(radio_clock_read_trimble_string(s, n, &t, &milliseconds, &time) == error,
              "by name another error for Trimble string", (long)i);
        if (error != 0) {
            check(memcmp(&t, &noise, sizeof t) == 0 && milliseconds == -5 && time == -77,
                  "something changed for refused Trimble string", (long)i);
            continue;
        }
        check(radio_clock_unix_time(fields, 15, &said) == 0 && time == said, "the Unix time of Trimble string",
              (long)i);
        check(milliseconds == fields[14] && milliseconds == trimble_strings[i].milliseconds,
              "the milliseconds of Trimble string", (long)i);
        check_time(&t, fields, (long)i);
    }
}

/* Minutes of 59 and of 60 marks, and one that is refused. */
static void check_minutes(void)
{
    const int32_t minutes[][16] = {
        { 2006, 11, 8, 3, 14, 39, 0, 60, 0, 0, 0, 0, 0, 0, 5, 0 },
        { 2016, 10, 30, 7, 2, 58, 0, 120, 0, 0, 1, 1, 0, 1, 16381, 0 },
        { 2017, 1, 1, 7, 1, 0, 0, 60, 0, 0, 0, 0, 1, 0, 1365, 1 },
    };
    for (long i = 0; i < 3; i++) {
        uint8_t marks[60];
        int32_t fields[16];
        size_t n = 0;
        int64_t said = 0, time = -77;
        struct radio_clock_time t, noise;
        struct radio_clock_minute_detail d = { -5, minutes[i][15] == 0 };
        memset(&noise, 1, sizeof noise);
        t = noise;
        check(radio_clock_write_minute(minutes[i], 16, marks, 60, &n) == 0, "the library does not write minute", i);
        check(radio_clock_read_minute(marks, n, fields, 16) == 0, "the library does not read minute", i);
        check(memcmp(fields, minutes[i], sizeof fields) == 0, "the library reads other fields of minute", i);
        check(radio_clock_unix_time(fields, 14, &said) == 0, "the library has no Unix time of minute", i);
        marks[28] ^= 1;
        check(radio_clock_read_marks(marks, n, &t, &d, &time) == 15, "by name another error for minute", i);
        check(memcmp(&t, &noise, sizeof t) == 0 && d.first_marks == -5 && d.sixty_marks == (minutes[i][15] == 0) &&
                  time == -77,
              "something changed for a refused minute", i);
        marks[28] ^= 1;
        check(radio_clock_read_marks(marks, n, &t, &d, &time) == 0 && time == said, "the Unix time of minute", i);
        check_time(&t, fields, i);
        check(d.first_marks == fields[14] && d.sixty_marks == (fields[15] != 0), "what is added in minute", i);
    }
}

/* Outcomes: 100 + 32 L + 16 (run of 60) + 8 (offset 120) + 4 antenna + 2 change + 1 leap, for every set of the five. */
static void check_outcomes(void)
{
    check(!radio_clock_outcome_accepted(0) && !radio_clock_outcome_accepted(99), "an error is accepted", 99);
    check(radio_clock_outcome_accepted(100) && radio_clock_outcome_accepted(101), "the first outcome is an error", 100);
    check(radio_clock_outcome_accepted(1683072083), "the last outcome is an error", 1683072083);
    for (uint32_t minutes = 0; minutes < 52596000; minutes += 4045841) {
        for (uint32_t five = 0; five < 32; five++) {
            uint32_t outcome = 100 + 32 * minutes + five;
            int64_t time = 0;
            if (five >= 16 && (five % 2 == 0 || minutes % 60 != 0))
                check(radio_clock_outcome_unix_time(outcome, &time) == 23 && time == 0, "the error of outcome",
                      (long)outcome);
            else
                check(radio_clock_outcome_unix_time(outcome, &time) == 0 &&
                          time == 60 * ((int64_t)minutes - radio_clock_outcome_utc_offset(outcome)),
                      "the Unix time of outcome", (long)outcome);
            check(radio_clock_outcome_minutes(outcome) == minutes, "the minutes of outcome", (long)outcome);
            check(radio_clock_outcome_sixty_marks(outcome) == (five >= 16), "60 marks of outcome", (long)outcome);
            check(radio_clock_outcome_utc_offset(outcome) == (five % 16 >= 8 ? 120 : 60), "the UTC offset of outcome",
                  (long)outcome);
            check(radio_clock_outcome_antenna(outcome) == (five % 8 >= 4), "the antenna of outcome", (long)outcome);
            check(radio_clock_outcome_dst_change(outcome) == (five % 4 >= 2), "the change of outcome", (long)outcome);
            check(radio_clock_outcome_leap_second(outcome) == (five % 2 == 1), "the leap second of outcome",
                  (long)outcome);
        }
    }
}

/* The feed's state by name: a string over two calls, and an overlong one. */
static void check_framer(void)
{
    struct radio_clock_framer framer = RADIO_CLOCK_FRAMER_START;
    const uint8_t zeros[68] = { 0 };
    uint8_t overlong[70];
    size_t taken = 99;
    check(sizeof framer == 68 && memcmp(framer.state, zeros, 68) == 0, "the feed's first state, of bytes:",
          (long)sizeof framer);
    check(radio_clock_framer_next(&framer, (const uint8_t *)"x\002a", 3, &taken) == 0 && taken == 3, "the feed", 1);
    check(radio_clock_framer_next(&framer, (const uint8_t *)"\003b", 2, &taken) == 3 && taken == 1, "the feed", 2);
    check(memcmp(framer.state, "\002a\003", 3) == 0, "the feed's string", 2);
    memset(overlong, 'a', sizeof overlong);
    overlong[0] = 2;
    overlong[69] = 3;
    check(radio_clock_framer_next(&framer, overlong, 70, &taken) == 255 && taken == 70, "the feed", 3);
}

static const char *const texts[] = {
    "no error",
    "string length wrong for its kind",
    "a fixed byte differs, or a byte is not printable",
    "no digit in a digit place",
    "a flag place holds another character",
    "no such date",
    "no such time of day",
    "weekday outside 1 to 7",
    "sign or size of the UTC offset",
    "position",
    "gap with no earlier gap on the recording",
    "the run is not 59 or 60 marks",
    "a mark in the run is neither short nor long",
    "mark 0 is not short, or mark 20 is not long",
    "marks 17 and 18 are equal",
    "parity of the minute",
    "parity of the hour",
    "parity of the date",
    "a decimal digit above 9",
    "60 marks without all of: mark 19 long, mark 59 short, minute 0",
    "lent memory: lengths differ, too long a recording, or too short a buffer",
    "place at or past the end of the recording",
    "new mark above 3",
    "nothing accepted in this format reads so",
    "the check sum is wrong, or not two capital hexadecimal digits",
    "the validity flag is not 1",
};

static void check_texts(void)
{
    for (int error = 0; error < 256; error++) {
        const char *text = error < 26 ? texts[error] : "no such error number";
        check(strcmp(radio_clock_error_text((uint8_t)error), text) == 0, "the text of error", error);
    }
}

int main(void)
{
    check_constants();
    check_version();
    check_types();
    check_names();
    check_strings();
    check_trimble();
    check_minutes();
    check_outcomes();
    check_framer();
    check_texts();
    return wrong;
}
