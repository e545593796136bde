/* logger: reads Meinberg receivers, ELV receivers and DCF77 mark detectors as their bytes come, and prints each clock
 * time at once as one column in UTC, with the local time, its zone, the flags and the line beside it. */
#define _POSIX_C_SOURCE 200809L
#include <errno.h>
#include <fcntl.h>
#include <inttypes.h>
#include <poll.h>
#include <signal.h>
#include <stdbool.h>
#include <stdio.h>
#include <stdlib.h>
#include <string.h>
#include <termios.h>
#include <time.h>
#include <unistd.h>

#include "radio_clock.h"

static const char usage[] =
    "usage: logger [-b BAUD] [-p] [-s LINE | -e LINE | -m LINE]...\n"
    "  -s LINE   a Meinberg receiver: strings from STX to ETX, whatever stands between them\n"
    "  -e LINE   an ELV receiver: strings ended by CR; LF after CR is passed over\n"
    "  -m LINE   a mark detector, one byte a second: 0 short, 1 long, 2 gap, 3 and more unsure; a minute is printed\n"
    "            at the gap that ends it, with the time that it announces\n"
    "  -b BAUD   lines named after it have this speed: 600, 1200, 2400, 4800, 9600, 19200 or 38400; else 9600\n"
    "  -p        lines named after it have 7 data bits, even parity and 2 stop bits, not 8, none and 1\n"
    "LINE is a terminal line such as /dev/ttyS0, which is set to its speed and raw, and set back at the end; a pipe\n"
    "or a file, read to its end; or - for standard input; at most 16 of them. Times are printed in the order in which\n"
    "they come. What is refused goes to standard error. The flags are #*S!ARL: unsynchronised, unverified, summer\n"
    "time, change of summer time announced, leap second announced, alternate antenna, second 60.\n"
    "SIGINT and SIGTERM end it. The exit status is 0; 1 if a line could not be opened, set or read, or hung up, or\n"
    "standard output could not be written; 2 for a wrong call.\n";

enum { LINES = 16, LF = '\n', CR = '\r' };

/* A line, and what has come on it. */
struct line {
    char option;
    speed_t speed;
    bool parity;
    const char *name;
    int fd; /* below 0 once it has ended */
    bool is_terminal;
    struct termios before;

    struct radio_clock_framer framer;         /* -s: the feed's state */
    uint8_t kept[RADIO_CLOCK_MINUTE_MAX + 1]; /* -e: the string, -m: the marks since the last gap; no more than fit */
    size_t count;
    bool gap_seen, text_told;
    unsigned long times, refused;
};

static struct line lines[LINES];
static size_t line_count;
static bool failed;
static int wake[2]; /* a signal's handler writes to it, so that poll returns */

static void end(int signal)
{
    int kept = errno;
    (void)signal;
    (void)!write(wake[1], "", 1);
    errno = kept;
}

static void say(const struct line *line, const char *what) { fprintf(stderr, "logger: %s: %s\n", line->name, what); }

static void fail(const struct line *line, const char *what)
{
    say(line, what);
    failed = true;
}

/* Opening and closing. */

/* A terminal line hands on every byte as it comes. What came before in another mode is thrown away. A byte whose parity
 * is wrong comes as 0, so that its string is refused. */
static bool set_raw(struct line *line)
{
    struct termios raw;
    if (tcgetattr(line->fd, &line->before) != 0)
        return false;
    raw = line->before;
    raw.c_iflag = line->parity ? INPCK : 0;
    raw.c_oflag &= ~(tcflag_t)OPOST;
    raw.c_lflag &= ~(tcflag_t)(ECHO | ECHONL | ICANON | ISIG | IEXTEN);
    raw.c_cflag &= ~(tcflag_t)(CSIZE | PARENB | PARODD | CSTOPB);
    raw.c_cflag |= CREAD | CLOCAL | (line->parity ? CS7 | PARENB | CSTOPB : CS8);
    raw.c_cc[VMIN] = 1;
    raw.c_cc[VTIME] = 0;
    return cfsetispeed(&raw, line->speed) == 0 && cfsetospeed(&raw, line->speed) == 0 &&
           tcsetattr(line->fd, TCSAFLUSH, &raw) == 0;
}

static bool open_line(struct line *line)
{
    line->fd = strcmp(line->name, "-") == 0 ? STDIN_FILENO : open(line->name, O_RDONLY | O_NOCTTY | O_NONBLOCK);
    if (line->fd < 0)
        return false;
    line->is_terminal = isatty(line->fd) == 1;
    return !line->is_terminal || set_raw(line);
}

static void close_line(struct line *line)
{
    if (line->fd < 0)
        return;
    if (line->is_terminal)
        (void)tcsetattr(line->fd, TCSANOW, &line->before);
    close(line->fd);
    line->fd = -1;
}

/* What is told. */

static void print_time(struct line *line, const struct radio_clock_time *t, int64_t unix_time)
{
    bool leap = t->second == 60;
    time_t seconds = (time_t)(unix_time - leap);
    struct tm *utc = gmtime(&seconds);
    char minute[32];
    int offset = abs(t->utc_offset);
    line->times++;
    if (utc == NULL || strftime(minute, sizeof minute, "%Y-%m-%d %H:%M", utc) == 0) {
        fail(line, "a time that this machine's C library cannot print");
        return;
    }
    printf("%s:%02d  %04" PRId32 "-%02" PRId32 "-%02" PRId32 " %02" PRId32 ":%02" PRId32 ":%02" PRId32 " %c%02d:%02d ",
           minute, leap ? 60 : utc->tm_sec, t->year, t->month, t->day, t->hour, t->minute, t->second,
           t->utc_offset < 0 ? '-' : '+', offset / 60, offset % 60);
    printf("%c%c%c%c%c%c%c  %s\n", t->unsynchronised ? '#' : '-', t->unverified ? '*' : '-', t->summer_time ? 'S' : '-',
           t->dst_change_announced ? '!' : '-', t->leap_second_announced ? 'A' : '-', t->alternate_antenna ? 'R' : '-',
           leap ? 'L' : '-', line->name);
}

static void tell(struct line *line, uint8_t error, const struct radio_clock_time *t, int64_t unix_time)
{
    if (error == 0) {
        print_time(line, t, unix_time);
    } else {
        fprintf(stderr, "logger: %s: refused %d: %s\n", line->name, error, radio_clock_error_text(error));
        line->refused++;
    }
}

/* What comes. */

static void take_meinberg(struct line *line, const uint8_t *s, size_t n)
{
    while (n > 0) {
        struct radio_clock_time t;
        struct radio_clock_position position;
        int64_t unix_time = 0;
        size_t taken = 0;
        uint8_t kind, event = radio_clock_framer_next(&line->framer, s, n, &taken);
        if (event == RADIO_CLOCK_DROPPED) {
            say(line, "overlong string dropped");
            line->refused++;
        } else if (event != 0) {
            uint8_t error = radio_clock_read_string(line->framer.state, event, &kind, &t, &position, &unix_time);
            tell(line, error, &t, unix_time);
        }
        s += taken;
        n -= taken;
    }
}

static void keep(struct line *line, uint8_t byte)
{
    if (line->count < sizeof line->kept)
        line->kept[line->count++] = byte;
}

static void take_elv(struct line *line, uint8_t byte)
{
    int32_t fields[RADIO_CLOCK_TIME_FIELDS];
    struct radio_clock_time t;
    int64_t unix_time = 0;
    if (byte == LF && line->count == 0)
        return;
    keep(line, byte);
    if (byte != CR)
        return;
    uint8_t error = radio_clock_read(RADIO_CLOCK_ELV, line->kept, line->count, fields, RADIO_CLOCK_TIME_FIELDS);
    if (error == 0)
        error = radio_clock_unix_time(fields, RADIO_CLOCK_TIME_FIELDS, &unix_time);
    if (error == 0)
        t = radio_clock_time_of(fields);
    tell(line, error, &t, unix_time);
    line->count = 0;
}

/* What comes before the first gap is no whole minute. */
static void take_mark(struct line *line, uint8_t mark)
{
    struct radio_clock_time t;
    struct radio_clock_minute_detail detail;
    int64_t unix_time = 0;
    if (mark >= '0' && mark <= '3' && !line->text_told) {
        say(line, "sends digits as text; a mark is the byte 0, 1, 2 or 3 itself");
        line->text_told = true;
    }
    if (mark != RADIO_CLOCK_GAP) {
        keep(line, mark);
        return;
    }
    if (line->gap_seen) {
        uint8_t error = radio_clock_read_marks(line->kept, line->count, &t, &detail, &unix_time);
        tell(line, error, &t, unix_time);
    }
    line->gap_seen = true;
    line->count = 0;
}

/* Reads what has come, which poll has seen, and no more, so that it does not wait. */
static void read_line(struct line *line)
{
    uint8_t bytes[4096];
    ssize_t n = read(line->fd, bytes, sizeof bytes);
    if (n < 0 && (errno == EINTR || errno == EAGAIN))
        return;
    if (n <= 0) {
        if (n < 0)
            fail(line, strerror(errno));
        else if (line->is_terminal)
            fail(line, "hung up");
        close_line(line);
        return;
    }
    if (line->option == 's')
        take_meinberg(line, bytes, (size_t)n);
    for (ssize_t i = 0; i < n && line->option != 's'; i++) {
        if (line->option == 'e')
            take_elv(line, bytes[i]);
        else
            take_mark(line, bytes[i]);
    }
}

/* Waits for the lines and reads them, until all have ended, a signal comes or the output fails. */
static void run(void)
{
    struct pollfd polled[LINES + 1];
    size_t open = line_count;
    while (open > 0 && !ferror(stdout)) {
        for (size_t i = 0; i < line_count; i++)
            polled[i] = (struct pollfd){ .fd = lines[i].fd, .events = POLLIN };
        polled[line_count] = (struct pollfd){ .fd = wake[0], .events = POLLIN };
        if (poll(polled, (nfds_t)(line_count + 1), -1) < 0) {
            if (errno == EINTR)
                continue;
            perror("logger: poll");
            failed = true;
            return;
        }
        if (polled[line_count].revents != 0)
            return;
        open = 0;
        for (size_t i = 0; i < line_count; i++) {
            if (polled[i].revents != 0)
                read_line(&lines[i]);
            open += lines[i].fd >= 0;
        }
        fflush(stdout);
    }
}

/* The speed that a text names, B0 if it names none. */
static speed_t speed_of(const char *text)
{
    static const struct {
        const char *text;
        speed_t speed;
    } speeds[] = { { "600", B600 },   { "1200", B1200 },   { "2400", B2400 },  { "4800", B4800 },
                   { "9600", B9600 }, { "19200", B19200 }, { "38400", B38400 } };
    for (size_t i = 0; i < sizeof speeds / sizeof speeds[0]; i++)
        if (strcmp(text, speeds[i].text) == 0)
            return speeds[i].speed;
    return B0;
}

/* The lines that the call names. */
static bool parse(int argc, char **argv)
{
    bool parity = false;
    speed_t speed = B9600;
    int option;
    while ((option = getopt(argc, argv, "b:ps:e:m:")) != -1) {
        if (option == 'p')
            parity = true;
        else if (option == 'b')
            speed = speed_of(optarg);
        else if (option == '?' || line_count == LINES)
            return false;
        else
            lines[line_count++] = (struct line){
                .option = (char)option, .speed = speed, .parity = parity, .name = optarg, .fd = -1
            };
        if (speed == B0)
            return false;
    }
    return line_count > 0 && optind == argc;
}

int main(int argc, char **argv)
{
    struct sigaction action = { .sa_handler = end };
    if (!parse(argc, argv)) {
        fputs(usage, stderr);
        return 2;
    }
    if (pipe(wake) != 0 || sigaction(SIGINT, &action, NULL) != 0 || sigaction(SIGTERM, &action, NULL) != 0) {
        perror("logger");
        return 1;
    }
    for (size_t i = 0; i < line_count && !failed; i++)
        if (!open_line(&lines[i]))
            fail(&lines[i], strerror(errno));
    if (!failed) {
        printf("%-19s  %-19s %-6s %-7s  line\n", "UTC", "local", "zone", "flags");
        fflush(stdout);
        run();
        for (size_t i = 0; i < line_count; i++)
            fprintf(stderr, "logger: %s: %lu times, %lu refused\n", lines[i].name, lines[i].times, lines[i].refused);
    }
    for (size_t i = 0; i < line_count; i++)
        close_line(&lines[i]);
    if (ferror(stdout)) {
        fputs("logger: standard output: cannot be written\n", stderr);
        failed = true;
    }
    return failed ? 1 : 0;
}
