/* collector: reads captures of serial lines, ELV and Trimble receivers and DCF77 recordings, and prints all clock times
 * in them as one column in UTC, with the local time, its zone, the flags and the file beside it. */
#include <errno.h>
#include <inttypes.h>
#include <stdbool.h>
#include <stdio.h>
#include <stdlib.h>
#include <string.h>
#include <time.h>

#include "radio_clock.h"

static const char usage[] =
    "usage: collector [-s FILE | -e FILE | -t FILE | -m FILE]...\n"
    "  -s FILE   a serial line: Meinberg strings from STX to ETX, whatever stands between them\n"
    "  -e FILE   ELV strings, each ended by CR; LF after CR is passed over\n"
    "  -t FILE   Trimble strings from > to <, whatever stands between them\n"
    "  -m FILE   a DCF77 recording, one mark a byte: 0 short, 1 long, 2 gap, 3 unsure; bytes, not digits as text\n"
    "FILE may be - for standard input. The times of all files are sorted by UTC; those of -t have milliseconds. What\n"
    "is refused goes to standard error with its place, counted from 0, and for 24 with the check sum found in the\n"
    "bytes and the one sent. The flags are #*S!ARL: unsynchronised, unverified, summer time, change of summer time\n"
    "announced, leap second announced, alternate antenna, second 60.\n"
    "The exit status is 0, also if something is refused; 1 if a file can't be read or the output not written; 2 for\n"
    "a wrong call.\n";

enum { STX = 2, TRIMBLE = 37, SUMMED = 34, NO_MILLISECONDS = -1 };

/* A clock time, and where it came from. */
struct entry {
    int64_t unix_time;
    struct radio_clock_time time;
    int32_t milliseconds;
    const char *file;
    size_t order;
};

static struct entry *entries;
static size_t entry_count, entry_room, refused;

/* How wide a time is: with milliseconds, 4 more. */
static int time_width = 19;

static void stop(const char *file, const char *what)
{
    fprintf(stderr, "collector: %s: %s\n", file, what);
    exit(1);
}

/* What more there is to say of a refusal follows its text. */
static void refuse_with(const char *file, size_t place, uint8_t error, const char *more)
{
    fprintf(stderr, "collector: %s: place %zu: refused %d: %s%s\n", file, place, error, radio_clock_error_text(error),
            more);
    refused++;
}

static void refuse(const char *file, size_t place, uint8_t error) { refuse_with(file, place, error, ""); }

static void add_entry(const char *file, const struct radio_clock_time *time, int32_t milliseconds, int64_t unix_time)
{
    if (entry_count == entry_room) {
        entry_room = entry_room == 0 ? 1024 : 2 * entry_room;
        entries = realloc(entries, entry_room * sizeof *entries);
        if (entries == NULL)
            stop(file, "no memory for so many times");
    }
    entries[entry_count].unix_time = unix_time;
    entries[entry_count].time = *time;
    entries[entry_count].milliseconds = milliseconds;
    entries[entry_count].file = file;
    entries[entry_count].order = entry_count;
    entry_count++;
}

/* All bytes of a file. */
static uint8_t *read_file(const char *name, size_t *length)
{
    FILE *file = strcmp(name, "-") == 0 ? stdin : fopen(name, "rb");
    uint8_t *bytes = NULL;
    size_t room = 0, n = 0;
    if (file == NULL)
        stop(name, strerror(errno));
    do {
        if (n == room) {
            room = room == 0 ? 65536 : 2 * room;
            bytes = realloc(bytes, room);
            if (bytes == NULL)
                stop(name, "no memory for the whole file");
        }
        n += fread(bytes + n, 1, room - n, file);
        if (ferror(file))
            stop(name, strerror(errno));
    } while (!feof(file));
    if (file != stdin)
        fclose(file);
    *length = n;
    return bytes;
}

/* Reads one Meinberg string of any kind, which stands at a place of the file. */
static void collect_meinberg(const char *file, size_t place, const uint8_t *s, size_t n)
{
    struct radio_clock_time time;
    struct radio_clock_position position;
    int64_t unix_time;
    uint8_t kind, error = radio_clock_read_string(s, n, &kind, &time, &position, &unix_time);
    if (error == 0)
        add_entry(file, &time, NO_MILLISECONDS, unix_time);
    else
        refuse(file, place, error);
}

static void collect_serial(const char *file, const uint8_t *s, size_t n)
{
    struct radio_clock_framer framer = RADIO_CLOCK_FRAMER_START;
    size_t place = 0;
    if (n > 0 && memchr(s, STX, n) == NULL)
        fprintf(stderr,
                "collector: %s: has no STX in it, so no Meinberg string; -e reads ELV strings, -t Trimble strings\n",
                file);
    while (place < n) {
        size_t taken = 0;
        uint8_t event = radio_clock_framer_next(&framer, s + place, n - place, &taken);
        place += taken;
        if (event == RADIO_CLOCK_DROPPED) {
            fprintf(stderr, "collector: %s: place %zu: overlong string dropped\n", file, place);
            refused++;
        } else if (event != 0) {
            collect_meinberg(file, place - event, framer.state, event);
        }
    }
}

/* The option names the kind, so a string of another kind is refused. */
static void collect_elv(const char *file, const uint8_t *s, size_t n)
{
    size_t place = 0;
    bool meinberg = false, trimble = false;
    while (place < n) {
        const uint8_t *cr = memchr(s + place, '\r', n - place);
        size_t end = cr == NULL ? n : (size_t)(cr - s) + 1;
        int32_t fields[RADIO_CLOCK_TIME_FIELDS];
        int64_t unix_time;
        uint8_t error = radio_clock_read(RADIO_CLOCK_ELV, s + place, end - place, fields, RADIO_CLOCK_TIME_FIELDS);
        if (error == 0)
            error = radio_clock_unix_time(fields, RADIO_CLOCK_TIME_FIELDS, &unix_time);
        if (error == 0) {
            struct radio_clock_time time = radio_clock_time_of(fields);
            add_entry(file, &time, NO_MILLISECONDS, unix_time);
        } else {
            refuse(file, place, error);
            meinberg = meinberg || s[place] == STX;
            trimble = trimble || s[place] == '>';
        }
        place = end < n && s[end] == '\n' ? end + 1 : end;
    }
    if (meinberg)
        fprintf(stderr, "collector: %s: has Meinberg strings in it, which -s reads; -e reads ELV strings\n", file);
    if (trimble)
        fprintf(stderr, "collector: %s: has Trimble strings in it, which -t reads; -e reads ELV strings\n", file);
}

/* Whether the n bytes at s begin with a whole string, right or wrong, in which rrrrr may hold < and > too. One with a >
 * among its digits was cut off by the next, whose rrrrr may look like its end. */
static bool is_whole(const uint8_t *s, size_t n)
{
    return n >= TRIMBLE && memcmp(s, ">RTM", 4) == 0 && memchr(s + 4, '>', 22) == NULL &&
           memcmp(s + 32, ";*", 2) == 0 && s[TRIMBLE - 1] == '<';
}

/* How long the string is that starts at s, of which n bytes are left: 37 bytes if it is whole, else up to the next <,
 * to the byte before the next >, or to the end, and then it is refused. */
static size_t trimble_length(const uint8_t *s, size_t n)
{
    size_t length = 1;
    if (is_whole(s, n))
        return TRIMBLE;
    while (length < n && s[length] != '>' && s[length - 1] != '<')
        length++;
    return length;
}

/* A byte as it is, or as \xhh if it can't be printed. */
static int put_byte(char *text, size_t room, uint8_t byte)
{
    return snprintf(text, room, byte >= 32 && byte <= 126 ? "%c" : "\\x%02X", byte);
}

/* The check sum in the string's bytes, and the one that was sent. */
static void refuse_sum(const char *file, size_t place, const uint8_t *s)
{
    char sent[16], more[64];
    unsigned sum = 0;
    for (size_t i = 0; i < SUMMED; i++)
        sum ^= s[i];
    int first = put_byte(sent, sizeof sent, s[SUMMED]);
    put_byte(sent + first, sizeof sent - (size_t)first, s[SUMMED + 1]);
    snprintf(more, sizeof more, ": found %02X, sent %s", sum, sent);
    refuse_with(file, place, RADIO_CLOCK_ERROR_CHECKSUM, more);
}

static void collect_trimble(const char *file, const uint8_t *s, size_t n)
{
    const uint8_t *start = n == 0 ? NULL : memchr(s, '>', n);
    if (n > 0 && start == NULL && memchr(s, STX, n) != NULL)
        fprintf(stderr, "collector: %s: has Meinberg strings in it, which -s reads; -t reads Trimble strings\n", file);
    else if (n > 0 && start == NULL)
        fprintf(stderr,
                "collector: %s: has no > in it, so no Trimble string; -s reads Meinberg strings, -e ELV strings\n",
                file);
    while (start != NULL) {
        struct radio_clock_time time;
        int32_t milliseconds;
        int64_t unix_time;
        size_t place = (size_t)(start - s), length = trimble_length(start, n - place), end = place + length;
        uint8_t error = radio_clock_read_trimble_string(start, length, &time, &milliseconds, &unix_time);
        if (error == 0)
            add_entry(file, &time, milliseconds, unix_time);
        else if (error == RADIO_CLOCK_ERROR_CHECKSUM)
            refuse_sum(file, place, start);
        else
            refuse(file, place, error);
        start = end == n ? NULL : memchr(s + end, '>', n - end);
    }
}

/* Whether a file has marks as text: nothing but the digits 0 to 3 and white space. */
static bool is_text(const uint8_t *marks, size_t n)
{
    for (size_t i = 0; i < n; i++)
        if (marks[i] == '\0' || strchr("0123 \t\r\n", marks[i]) == NULL)
            return false;
    return n > 0;
}

/* Each minute between two gaps. What stands before the first gap is no whole minute. */
static void collect_marks(const char *file, const uint8_t *marks, size_t n)
{
    const uint8_t *gap = n == 0 ? NULL : memchr(marks, RADIO_CLOCK_GAP, n);
    if (is_text(marks, n))
        stop(file, "these are digits as text; a recording has the bytes 0, 1, 2 and 3 themselves");
    while (gap != NULL) {
        struct radio_clock_time time;
        struct radio_clock_minute_detail detail;
        int64_t unix_time;
        const uint8_t *run = gap + 1;
        size_t left = n - (size_t)(run - marks);
        gap = left == 0 ? NULL : memchr(run, RADIO_CLOCK_GAP, left);
        if (gap == NULL)
            break;
        uint8_t error = radio_clock_read_marks(run, (size_t)(gap - run), &time, &detail, &unix_time);
        if (error == 0)
            add_entry(file, &time, NO_MILLISECONDS, unix_time);
        else
            refuse(file, (size_t)(gap - marks), error);
    }
}

static int32_t milliseconds_of(const struct entry *entry)
{
    return entry->milliseconds == NO_MILLISECONDS ? 0 : entry->milliseconds;
}

/* By Unix time, a leap second before the second after it, then by milliseconds, else as read. */
static int by_time(const void *a, const void *b)
{
    const struct entry *x = a, *y = b;
    if (x->unix_time != y->unix_time)
        return x->unix_time < y->unix_time ? -1 : 1;
    if (x->time.second != y->time.second)
        return x->time.second > y->time.second ? -1 : 1;
    if (milliseconds_of(x) != milliseconds_of(y))
        return milliseconds_of(x) < milliseconds_of(y) ? -1 : 1;
    return x->order < y->order ? -1 : 1;
}

/* The seconds of a time, with milliseconds if it has them, filled up with blanks to the width of a time. */
static void print_seconds(const struct entry *entry, int second)
{
    char text[16] = "";
    if (entry->milliseconds != NO_MILLISECONDS)
        snprintf(text, sizeof text, ".%03" PRId32, entry->milliseconds);
    printf(":%02d%-*s", second, time_width - 19, text);
}

static void print_entry(const struct entry *entry)
{
    const struct radio_clock_time *t = &entry->time;
    bool leap = t->second == 60;
    time_t seconds = (time_t)(entry->unix_time - leap);
    struct tm *utc = gmtime(&seconds);
    char minute[32];
    int offset = abs(t->utc_offset);
    if (utc == NULL || strftime(minute, sizeof minute, "%Y-%m-%d %H:%M", utc) == 0)
        stop(entry->file, "a time that this machine's C library cannot print");
    printf("%s", minute);
    print_seconds(entry, leap ? 60 : utc->tm_sec);
    printf("  %04" PRId32 "-%02" PRId32 "-%02" PRId32 " %02" PRId32 ":%02" PRId32, t->year, t->month, t->day, t->hour,
           t->minute);
    print_seconds(entry, t->second);
    printf(" %c%02d:%02d ", t->utc_offset < 0 ? '-' : '+', offset / 60, offset % 60);
    printf("%c%c%c%c%c%c%c  %s\n", t->unsynchronised ? '#' : '-', t->unverified ? '*' : '-', t->summer_time ? 'S' : '-',
           t->dst_change_announced ? '!' : '-', t->leap_second_announced ? 'A' : '-', t->alternate_antenna ? 'R' : '-',
           leap ? 'L' : '-', entry->file);
}

static void collect(const char *option, const char *file)
{
    size_t n = 0;
    uint8_t *bytes = read_file(file, &n);
    if (strcmp(option, "-s") == 0)
        collect_serial(file, bytes, n);
    else if (strcmp(option, "-e") == 0)
        collect_elv(file, bytes, n);
    else if (strcmp(option, "-t") == 0)
        collect_trimble(file, bytes, n);
    else
        collect_marks(file, bytes, n);
    free(bytes);
}

int main(int argc, char **argv)
{
    if (argc < 3 || argc % 2 == 0) {
        fputs(usage, stderr);
        return 2;
    }
    for (int i = 1; i < argc; i += 2) {
        if (strlen(argv[i]) != 2 || argv[i][0] != '-' || strchr("setm", argv[i][1]) == NULL) {
            fprintf(stderr, "collector: no such option: %s\n%s", argv[i], usage);
            return 2;
        }
        if (argv[i][1] == 't')
            time_width = 23;
    }
    for (int i = 1; i < argc; i += 2)
        collect(argv[i], argv[i + 1]);
    if (entry_count > 0)
        qsort(entries, entry_count, sizeof *entries, by_time);
    printf("%-*s  %-*s %-6s %-7s  file\n", time_width, "UTC", time_width, "local", "zone", "flags");
    for (size_t i = 0; i < entry_count; i++)
        print_entry(&entries[i]);
    fflush(stdout);
    fprintf(stderr, "collector: %zu times, %zu refused\n", entry_count, refused);
    free(entries);
    if (ferror(stdout))
        stop("standard output", "cannot be written");
    return 0;
}
