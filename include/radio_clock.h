/* Radio clocks: time strings of Meinberg, ELV and Trimble receivers, and DCF77 second marks.
 *
 * This header has two parts. The first declares the functions of libradio_clock.a, each of which is proved to meet its
 * contract. The second, from struct radio_clock_time on, is inline C over them, for calls by name: it is tested, not
 * proved.
 *
 * Local time. Year, month, day, weekday, hour, minute and second are LOCAL time; the UTC offset says how far that is
 * from UTC. Order and compare times only by their Unix time: in October, when summer time ends, two instants an hour
 * apart have the same local time.
 *
 * Answers. Every function of the first part, radio_clock_read_string, radio_clock_read_trimble_string and
 * radio_clock_read_marks return 0 if they did what they say, else the number of an error, and then nothing lent has
 * changed. The comments name an error without its RADIO_CLOCK_ERROR_, and its number after it: LENGTH (1).
 *
 * Trust. 0 means that a string or a minute is well-formed, not that its time is right: a receiver that hears no
 * transmitter goes on sending strings. Look at the fields unsynchronised and unverified before you use a time. In a
 * Trimble string both are always 0: one whose validity flag is not set is refused. In a minute of second marks both are
 * always 0, and parity misses two wrong marks: compare a minute with those around it.
 *
 * Memory. Results go into memory that the caller lends. No pointer may be NULL, even if its length is 0: lend the
 * address of any object of its type then. What a call may change overlaps nothing else lent to it. No function keeps a
 * pointer or allocates.
 *
 * Threads. The library has no state: calls from several threads are safe, as long as none changes what another is lent.
 *
 * Stack. A call takes less than 1,024 bytes of stack; the most that was measured on x86-64 is about 300. */
#ifndef RADIO_CLOCK_H
#define RADIO_CLOCK_H

#include <stdbool.h>
#include <stddef.h>
#include <stdint.h>

#define RADIO_CLOCK_VERSION "0.2.1"

#ifdef __cplusplus
extern "C" {
#endif

/* The kinds of time strings. STX is the byte 2, ETX 3, CR 13; the blanks beside STX and ETX are only for print. */
enum radio_clock_kind_number {
    RADIO_CLOCK_STANDARD = 0, /* Meinberg standard, 32 bytes: STX D:dd.mm.yy;T:w;U:hh.mm.ss;uvxy ETX */
    RADIO_CLOCK_PZF = 1,      /* Uni Erlangen for PZF, 32 bytes: STX dd.mm.yy; w; hh:mm:ss; tuvxyza ETX */
    RADIO_CLOCK_GPS = 2,      /* Uni Erlangen for GPS, 66 bytes: PZF's date and time, UTC offset, flags, position */
    RADIO_CLOCK_ELV = 3       /* ELV DCF7000, 21 bytes: YY-MM-DD-HH-MM-SS-FF and CR, with no STX and no ETX */
};

/* The second marks of a recording, one byte a second. Any larger byte on a recording is unsure too. */
enum radio_clock_mark {
    RADIO_CLOCK_SHORT = 0, /* the carrier is lowered for 100 ms */
    RADIO_CLOCK_LONG = 1,  /* the carrier is lowered for 200 ms */
    RADIO_CLOCK_GAP = 2,   /* the carrier is not lowered: the last second of a minute */
    RADIO_CLOCK_UNSURE = 3
};

/* The errors, in the order of their numbers. radio_clock_error_text says what each means. */
enum radio_clock_error {
    RADIO_CLOCK_ERROR_LENGTH = 1,
    RADIO_CLOCK_ERROR_FIXED_BYTE = 2,
    RADIO_CLOCK_ERROR_NOT_DIGIT = 3,
    RADIO_CLOCK_ERROR_FLAG_LETTER = 4,
    RADIO_CLOCK_ERROR_NO_SUCH_DATE = 5,
    RADIO_CLOCK_ERROR_NO_SUCH_TIME = 6,
    RADIO_CLOCK_ERROR_WEEKDAY = 7,
    RADIO_CLOCK_ERROR_UTC_OFFSET = 8,
    RADIO_CLOCK_ERROR_POSITION = 9,
    RADIO_CLOCK_ERROR_NO_EARLIER_GAP = 10,
    RADIO_CLOCK_ERROR_RUN_LENGTH = 11,
    RADIO_CLOCK_ERROR_UNSURE_MARK = 12,
    RADIO_CLOCK_ERROR_START_MARK = 13,
    RADIO_CLOCK_ERROR_ZONE_MARKS = 14,
    RADIO_CLOCK_ERROR_MINUTE_PARITY = 15,
    RADIO_CLOCK_ERROR_HOUR_PARITY = 16,
    RADIO_CLOCK_ERROR_DATE_PARITY = 17,
    RADIO_CLOCK_ERROR_DECIMAL_DIGIT = 18,
    RADIO_CLOCK_ERROR_LEAP_MINUTE = 19,
    RADIO_CLOCK_ERROR_LENT_MEMORY = 20,
    RADIO_CLOCK_ERROR_PLACE = 21,
    RADIO_CLOCK_ERROR_NEW_MARK = 22,
    RADIO_CLOCK_ERROR_UNREPRESENTABLE = 23,
    RADIO_CLOCK_ERROR_CHECKSUM = 24,
    RADIO_CLOCK_ERROR_VALIDITY_FLAG = 25
};

/* The fields of a clock time, by their place in an array. Year to second are local time. Flags are 0 or 1. */
enum radio_clock_field {
    RADIO_CLOCK_YEAR = 0, /* 1970 to 2069 */
    RADIO_CLOCK_MONTH = 1,
    RADIO_CLOCK_DAY = 2,
    RADIO_CLOCK_WEEKDAY = 3, /* 1 Monday to 7 Sunday */
    RADIO_CLOCK_HOUR = 4,
    RADIO_CLOCK_MINUTE = 5,
    RADIO_CLOCK_SECOND = 6,     /* 60 in a leap second */
    RADIO_CLOCK_UTC_OFFSET = 7, /* minutes, local minus UTC */
    RADIO_CLOCK_UNSYNCHRONISED = 8,
    RADIO_CLOCK_UNVERIFIED = 9,
    RADIO_CLOCK_SUMMER_TIME = 10,
    RADIO_CLOCK_DST_CHANGE_ANNOUNCED = 11,
    RADIO_CLOCK_LEAP_SECOND_ANNOUNCED = 12,
    RADIO_CLOCK_ALTERNATE_ANTENNA = 13,
    RADIO_CLOCK_TIME_FIELDS = 14, /* how many a clock time has */

    RADIO_CLOCK_LATITUDE = 14,  /* ten-thousandths of a degree, south below zero */
    RADIO_CLOCK_LONGITUDE = 15, /* ten-thousandths of a degree, west below zero */
    RADIO_CLOCK_HEIGHT = 16,    /* metres */
    RADIO_CLOCK_GPS_FIELDS = 17, /* how many a GPS string has */

    RADIO_CLOCK_MILLISECONDS = 14,   /* 0 to 999, in a Trimble string */
    RADIO_CLOCK_TRIMBLE_FIELDS = 15, /* how many a Trimble string has */

    RADIO_CLOCK_FIRST_MARKS = 14, /* marks 1 to 14 of a minute, mark 1 the lowest bit */
    RADIO_CLOCK_SIXTY_MARKS = 15, /* whether the minute had 60 marks */
    RADIO_CLOCK_MINUTE_FIELDS = 16 /* how many a minute has */
};

enum radio_clock_size {
    RADIO_CLOCK_STRING_MAX = 66,        /* bytes of the longest string */
    RADIO_CLOCK_MINUTE_MAX = 60,        /* marks of the longest minute */
    RADIO_CLOCK_RECORDING_MAX = 100000, /* marks of the longest recording */
    RADIO_CLOCK_FRAMER_SIZE = 68,       /* bytes of the feed's state */
    RADIO_CLOCK_DROPPED = 255           /* the feed's event for an overlong string */
};

/* Tells the kind of the string of n bytes at s by its length and by place 1.
 * LENGTH (1) if no kind has this length. Else *kind is its kind. It does not look whether the string is valid. */
uint8_t radio_clock_kind(const uint8_t *s, size_t n, uint8_t *kind);

/* Reads a string of the kind named.
 * LENGTH (1) if there is no such kind or the string has not its length. Then the first of these that holds: FIXED_BYTE
 * (2), NOT_DIGIT (3), FLAG_LETTER (4), UTC_OFFSET (8), POSITION (9), NO_SUCH_DATE (5), NO_SUCH_TIME (6), WEEKDAY (7).
 * Then LENT_MEMORY (20) if room is below 14, for GPS below 17. Else the first 14 or 17 fields are set, and nothing
 * after them. */
uint8_t radio_clock_read(uint8_t kind, const uint8_t *s, size_t n, int32_t *fields, size_t room);

/* Reads a string of a Trimble SV6, 37 bytes: >RTMhhmmssdddDDMMYYYYoodnnvrrrrr;*xx<. Its time is UTC. It is of none of
 * the kinds above: radio_clock_kind and radio_clock_read refuse it with LENGTH (1), and no function writes it.
 * The first of these that holds: LENGTH (1), FIXED_BYTE (2), also for a byte of rrrrr outside 32 to 126, NOT_DIGIT (3),
 * also in oo, d and nn, CHECKSUM (24) if xx is not the exclusive or of the bytes at places 0 to 33 in two capital
 * hexadecimal digits, VALIDITY_FLAG (25) if v is not '1', NO_SUCH_DATE (5), also if the year is not 1970 to 2069,
 * NO_SUCH_TIME (6). Then LENT_MEMORY (20) if room is below 15. Else the first 15 fields are set, and nothing after
 * them. The 15th field is the milliseconds; the weekday is worked out. */
uint8_t radio_clock_read_trimble(const uint8_t *s, size_t n, int32_t *fields, size_t room);

/* Writes the string of the kind named that reads as these fields.
 * LENGTH (1) if there is no such kind. UNREPRESENTABLE (23) if count is not 14, for GPS 17, or if no string of the kind
 * reads as these fields. Then LENT_MEMORY (20) if room is below the string's length. Else the first *written bytes of
 * out are the string, and nothing after them is changed. */
uint8_t radio_clock_write(uint8_t kind, const int32_t *fields, size_t count, uint8_t *out, size_t room,
                          size_t *written);

/* Reads the n marks of a minute, without the gaps around them. The time is that at which the next minute starts.
 * The first of these that holds: RUN_LENGTH (11), UNSURE_MARK (12), START_MARK (13), ZONE_MARKS (14), MINUTE_PARITY
 * (15), HOUR_PARITY (16), DATE_PARITY (17), DECIMAL_DIGIT (18), WEEKDAY (7), NO_SUCH_DATE (5), NO_SUCH_TIME (6),
 * LEAP_MINUTE (19). Then LENT_MEMORY (20) if room is below 16. Else the first 16 fields are set, and nothing after
 * them. */
uint8_t radio_clock_read_minute(const uint8_t *marks, size_t n, int32_t *fields, size_t room);

/* Writes the 59 or 60 marks of the minute that reads as these fields, and no gap.
 * UNREPRESENTABLE (23) if count is not 16 or no minute reads as these fields. Then LENT_MEMORY (20) if room is too
 * small. Else the first *written bytes of out are the marks, and nothing after them is changed. */
uint8_t radio_clock_write_minute(const int32_t *fields, size_t count, uint8_t *out, size_t room, size_t *written);

/* The seconds from 1 January 1970 00:00:00 UTC to a clock time. Second 60 has the number of the second after it.
 * UNREPRESENTABLE (23) if count is below 14 or the first 14 fields are no valid clock time: also if a flag is neither 0
 * nor 1. Later fields play no part, so that what any reader gave can be handed on. Else *time is the number. */
uint8_t radio_clock_unix_time(const int32_t *fields, size_t count, int64_t *time);

/* The outcome at one place of a recording of n marks: 0 if there is no gap at the place. At a gap it is the error of
 * the minute before it (NO_EARLIER_GAP (10) if there is no earlier gap), or 100 and more if that minute is accepted:
 * see radio_clock_outcome_unix_time, and radio_clock_outcome_accepted and the functions after it.
 * LENT_MEMORY (20) if n is above 100,000, then PLACE (21) if place is not below n. Else *number is the outcome. */
uint8_t radio_clock_outcome_at(const uint8_t *marks, size_t n, size_t place, uint32_t *number);

/* Works out the outcomes at all places of a recording. An empty recording has no outcomes; marks and outcomes may not
 * be NULL then either.
 * LENT_MEMORY (20) if count is not n or n is above 100,000. Else every place of outcomes is set. */
uint8_t radio_clock_fill_outcomes(const uint8_t *marks, size_t n, uint32_t *outcomes, size_t count);

/* Puts a mark at one place of a recording, and mends the outcomes at that place and at the first gap after it. In an
 * empty recording there is no such place; marks and outcomes may not be NULL then either.
 * LENT_MEMORY (20) if count is not n or n is above 100,000, then PLACE (21) if place is not below n, then NEW_MARK (22)
 * if mark is above 3. Else *changed is the number of outcomes that are others than before. */
uint8_t radio_clock_correct_mark(uint8_t *marks, size_t n, uint32_t *outcomes, size_t count, size_t place,
                                 uint8_t mark, size_t *changed);

/* The Unix time that the outcome of an accepted minute announces.
 * UNREPRESENTABLE (23) if no accepted minute has this outcome: it is below 100 or above 1683072083, or it has 60 marks
 * without a leap second announced, or after another minute than 0. Else *time is the number. */
uint8_t radio_clock_outcome_unix_time(uint32_t outcome, int64_t *time);

/* Cuts Meinberg strings out of bytes as they come: takes bytes of s up to its end, up to limit bytes, or up to just
 * after the first string. If n is 0, nothing is taken; s may not be NULL then either. The state starts as 68 zero
 * bytes: 0 to 65 are those kept, 66 their number, 67 the mode (0 outside a string, 1 inside, 2 overlong; any other
 * counts as outside).
 * LENT_MEMORY (20) if size is below 68. Else *taken is the number of bytes taken, and *event is 0 for nothing yet, 1 to
 * 66 for a complete string of so many bytes, which are the first of the state, or 255 for an overlong string
 * dropped. */
uint8_t radio_clock_feed(uint8_t *state, size_t size, const uint8_t *s, size_t n, size_t limit, size_t *taken,
                         uint8_t *event);

/* A clock time by names, in place of an array of fields. Year to second are local time. */
struct radio_clock_time {
    int32_t year;
    int32_t month;
    int32_t day;
    int32_t weekday;
    int32_t hour;
    int32_t minute;
    int32_t second;
    int32_t utc_offset;
    bool unsynchronised;
    bool unverified;
    bool summer_time;
    bool dst_change_announced;
    bool leap_second_announced;
    bool alternate_antenna;
};

/* What a GPS string adds. */
struct radio_clock_position {
    int32_t latitude;
    int32_t longitude;
    int32_t height;
};

/* What a minute adds. */
struct radio_clock_minute_detail {
    int32_t first_marks;
    bool sixty_marks;
};

/* The clock time in the first 14 fields. */
static inline struct radio_clock_time radio_clock_time_of(const int32_t *fields)
{
    struct radio_clock_time t;
    t.year = fields[RADIO_CLOCK_YEAR];
    t.month = fields[RADIO_CLOCK_MONTH];
    t.day = fields[RADIO_CLOCK_DAY];
    t.weekday = fields[RADIO_CLOCK_WEEKDAY];
    t.hour = fields[RADIO_CLOCK_HOUR];
    t.minute = fields[RADIO_CLOCK_MINUTE];
    t.second = fields[RADIO_CLOCK_SECOND];
    t.utc_offset = fields[RADIO_CLOCK_UTC_OFFSET];
    t.unsynchronised = fields[RADIO_CLOCK_UNSYNCHRONISED] != 0;
    t.unverified = fields[RADIO_CLOCK_UNVERIFIED] != 0;
    t.summer_time = fields[RADIO_CLOCK_SUMMER_TIME] != 0;
    t.dst_change_announced = fields[RADIO_CLOCK_DST_CHANGE_ANNOUNCED] != 0;
    t.leap_second_announced = fields[RADIO_CLOCK_LEAP_SECOND_ANNOUNCED] != 0;
    t.alternate_antenna = fields[RADIO_CLOCK_ALTERNATE_ANTENNA] != 0;
    return t;
}

/* Sets the first 14 fields from a clock time. */
static inline void radio_clock_fields_of(struct radio_clock_time t, int32_t *fields)
{
    fields[RADIO_CLOCK_YEAR] = t.year;
    fields[RADIO_CLOCK_MONTH] = t.month;
    fields[RADIO_CLOCK_DAY] = t.day;
    fields[RADIO_CLOCK_WEEKDAY] = t.weekday;
    fields[RADIO_CLOCK_HOUR] = t.hour;
    fields[RADIO_CLOCK_MINUTE] = t.minute;
    fields[RADIO_CLOCK_SECOND] = t.second;
    fields[RADIO_CLOCK_UTC_OFFSET] = t.utc_offset;
    fields[RADIO_CLOCK_UNSYNCHRONISED] = t.unsynchronised;
    fields[RADIO_CLOCK_UNVERIFIED] = t.unverified;
    fields[RADIO_CLOCK_SUMMER_TIME] = t.summer_time;
    fields[RADIO_CLOCK_DST_CHANGE_ANNOUNCED] = t.dst_change_announced;
    fields[RADIO_CLOCK_LEAP_SECOND_ANNOUNCED] = t.leap_second_announced;
    fields[RADIO_CLOCK_ALTERNATE_ANTENNA] = t.alternate_antenna;
}

/* Tells the kind of a string, reads it, and works out its Unix time: the errors of radio_clock_kind and
 * radio_clock_read. Else *kind is its kind, *t its local time and *time its Unix time; *position is set for a GPS
 * string only. */
static inline uint8_t radio_clock_read_string(const uint8_t *s, size_t n, uint8_t *kind, struct radio_clock_time *t,
                                              struct radio_clock_position *position, int64_t *time)
{
    int32_t fields[RADIO_CLOCK_GPS_FIELDS];
    uint8_t told = 0;
    uint8_t error = radio_clock_kind(s, n, &told);
    if (error == 0)
        error = radio_clock_read(told, s, n, fields, RADIO_CLOCK_GPS_FIELDS);
    if (error == 0)
        error = radio_clock_unix_time(fields, RADIO_CLOCK_TIME_FIELDS, time);
    if (error != 0)
        return error;
    *kind = told;
    *t = radio_clock_time_of(fields);
    if (told == RADIO_CLOCK_GPS) {
        position->latitude = fields[RADIO_CLOCK_LATITUDE];
        position->longitude = fields[RADIO_CLOCK_LONGITUDE];
        position->height = fields[RADIO_CLOCK_HEIGHT];
    }
    return 0;
}

/* Reads a Trimble string and works out its Unix time: the errors of radio_clock_read_trimble. Else *t is its time,
 * which is UTC, *time its Unix time, and *milliseconds those of its second, 0 to 999; second 60 has the Unix time of
 * the second after it. */
static inline uint8_t radio_clock_read_trimble_string(const uint8_t *s, size_t n, struct radio_clock_time *t,
                                                      int32_t *milliseconds, int64_t *time)
{
    int32_t fields[RADIO_CLOCK_TRIMBLE_FIELDS];
    uint8_t error = radio_clock_read_trimble(s, n, fields, RADIO_CLOCK_TRIMBLE_FIELDS);
    if (error == 0)
        error = radio_clock_unix_time(fields, RADIO_CLOCK_TIME_FIELDS, time);
    if (error != 0)
        return error;
    *t = radio_clock_time_of(fields);
    *milliseconds = fields[RADIO_CLOCK_MILLISECONDS];
    return 0;
}

/* Reads a minute and works out the Unix time that it announces: the errors of radio_clock_read_minute. */
static inline uint8_t radio_clock_read_marks(const uint8_t *marks, size_t n, struct radio_clock_time *t,
                                             struct radio_clock_minute_detail *detail, int64_t *time)
{
    int32_t fields[RADIO_CLOCK_MINUTE_FIELDS];
    uint8_t error = radio_clock_read_minute(marks, n, fields, RADIO_CLOCK_MINUTE_FIELDS);
    if (error == 0)
        error = radio_clock_unix_time(fields, RADIO_CLOCK_TIME_FIELDS, time);
    if (error != 0)
        return error;
    *t = radio_clock_time_of(fields);
    detail->first_marks = fields[RADIO_CLOCK_FIRST_MARKS];
    detail->sixty_marks = fields[RADIO_CLOCK_SIXTY_MARKS] != 0;
    return 0;
}

/* An outcome of 100 and more stands for an accepted minute. */
static inline bool radio_clock_outcome_accepted(uint32_t outcome) { return outcome >= 100; }

/* These take an outcome of 100 and more apart. The minutes are those of LOCAL time from 1970-01-01 00:00: order and
 * compare by radio_clock_outcome_unix_time. */
static inline uint32_t radio_clock_outcome_minutes(uint32_t outcome) { return (outcome - 100) / 32; }
static inline bool radio_clock_outcome_sixty_marks(uint32_t outcome) { return ((outcome - 100) & 16) != 0; }
static inline int32_t radio_clock_outcome_utc_offset(uint32_t outcome) { return ((outcome - 100) & 8) != 0 ? 120 : 60; }
static inline bool radio_clock_outcome_antenna(uint32_t outcome) { return ((outcome - 100) & 4) != 0; }
static inline bool radio_clock_outcome_dst_change(uint32_t outcome) { return ((outcome - 100) & 2) != 0; }
static inline bool radio_clock_outcome_leap_second(uint32_t outcome) { return ((outcome - 100) & 1) != 0; }

/* The feed's state, one for each line. It starts as RADIO_CLOCK_FRAMER_START. */
struct radio_clock_framer {
    uint8_t state[RADIO_CLOCK_FRAMER_SIZE];
};
#define RADIO_CLOCK_FRAMER_START { { 0 } }

/* Feeds the n bytes at s up to just after the first string: returns the event of radio_clock_feed, and sets *taken. */
static inline uint8_t radio_clock_framer_next(struct radio_clock_framer *framer, const uint8_t *s, size_t n,
                                              size_t *taken)
{
    uint8_t event = 0;
    (void)radio_clock_feed(framer->state, RADIO_CLOCK_FRAMER_SIZE, s, n, n, taken, &event);
    return event;
}

/* What an error's number means, in English. */
static inline const char *radio_clock_error_text(uint8_t error)
{
    static const char *const texts[] = {
        "no error",
        "string length wrong for its kind",
        "a fixed byte differs, or a byte is not printable",
        "no digit in a digit place",
        "a flag place holds another character",
        "no such date",
        "no such time of day",
        "weekday outside 1 to 7",
        "sign or size of the UTC offset",
        "position",
        "gap with no earlier gap on the recording",
        "the run is not 59 or 60 marks",
        "a mark in the run is neither short nor long",
        "mark 0 is not short, or mark 20 is not long",
        "marks 17 and 18 are equal",
        "parity of the minute",
        "parity of the hour",
        "parity of the date",
        "a decimal digit above 9",
        "60 marks without all of: mark 19 long, mark 59 short, minute 0",
        "lent memory: lengths differ, too long a recording, or too short a buffer",
        "place at or past the end of the recording",
        "new mark above 3",
        "nothing accepted in this format reads so",
        "the check sum is wrong, or not two capital hexadecimal digits",
        "the validity flag is not 1",
    };
    return error < sizeof texts / sizeof texts[0] ? texts[error] : "no such error number";
}

#ifdef __cplusplus
}
#endif

#endif
