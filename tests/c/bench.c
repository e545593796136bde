/* bench: times the library and bench_plain.c in one process on the same valid inputs. Prints a line for each row: its
 * name, and nanoseconds of both, each the best of many rounds in which they take turns. 'bench -c ROW SIDE ROUNDS' runs
 * a row by one side alone, for counting instructions; it prints the function called and for how many units that
 * counts. 'bench -g BYTES' writes so many bytes of valid Meinberg strings. */
#define _POSIX_C_SOURCE 200809L
#include <stdbool.h>
#include <stdio.h>
#include <stdlib.h>
#include <string.h>
#include <time.h>

#include "bench_plain.h"
#include "inputs.h"
#include "radio_clock.h"
#include "reference.h"

enum { INPUTS = 1024, LINE = 65536, DAY = 86400, HOUR = 3600, ROUNDS = 400 };

struct side {
    const char *name;
    uint8_t (*read)(uint8_t, const uint8_t *, size_t, int32_t *, size_t);
    uint8_t (*read_trimble)(const uint8_t *, size_t, int32_t *, size_t);
    uint8_t (*write)(uint8_t, const int32_t *, size_t, uint8_t *, size_t, size_t *);
    uint8_t (*read_minute)(const uint8_t *, size_t, int32_t *, size_t);
    uint8_t (*write_minute)(const int32_t *, size_t, uint8_t *, size_t, size_t *);
    uint8_t (*unix_time)(const int32_t *, size_t, int64_t *);
    uint8_t (*fill_outcomes)(const uint8_t *, size_t, uint32_t *, size_t);
    uint8_t (*correct_mark)(uint8_t *, size_t, uint32_t *, size_t, size_t, uint8_t, size_t *);
    uint8_t (*feed)(uint8_t *, size_t, const uint8_t *, size_t, size_t, size_t *, uint8_t *);
};

static const struct side sides[2] = {
    { "library", radio_clock_read, radio_clock_read_trimble, radio_clock_write, radio_clock_read_minute,
      radio_clock_write_minute, radio_clock_unix_time, radio_clock_fill_outcomes, radio_clock_correct_mark,
      radio_clock_feed },
    { "plain", plain_read, plain_read_trimble, plain_write, plain_read_minute, plain_write_minute, plain_unix_time,
      plain_fill_outcomes, plain_correct_mark, plain_feed },
};

static uint8_t strings[FORMATS][INPUTS][66], minutes[INPUTS][60], line[LINE], tape[DAY];
static size_t minute_lengths[INPUTS];
static int32_t fields[FORMATS][INPUTS][17];
static uint32_t sheet[DAY];
static unsigned long refused, sum;

/* Each row runs once over its inputs, and returns for how many units that counts. */

static double run_read(const struct side *side, int format)
{
    int32_t out[17];
    for (size_t i = 0; i < INPUTS; i++) {
        refused += side->read((uint8_t)format, strings[format][i], length_of(format), out, 17) != 0;
        sum += (unsigned long)out[6];
    }
    return INPUTS;
}

static double run_read_trimble(const struct side *side, int unused)
{
    int32_t out[15];
    (void)unused;
    for (size_t i = 0; i < INPUTS; i++) {
        refused += side->read_trimble(strings[TRIMBLE][i], length_of(TRIMBLE), out, 15) != 0;
        sum += (unsigned long)out[14];
    }
    return INPUTS;
}

static double run_write(const struct side *side, int format)
{
    uint8_t out[66];
    size_t written = 0;
    for (size_t i = 0; i < INPUTS; i++) {
        refused += side->write((uint8_t)format, fields[format][i], fields_of(format), out, 66, &written) != 0;
        sum += out[3];
    }
    return INPUTS;
}

static double run_read_minute(const struct side *side, int unused)
{
    int32_t out[16];
    (void)unused;
    for (size_t i = 0; i < INPUTS; i++) {
        refused += side->read_minute(minutes[i], minute_lengths[i], out, 16) != 0;
        sum += (unsigned long)out[5];
    }
    return INPUTS;
}

static double run_write_minute(const struct side *side, int unused)
{
    uint8_t out[60];
    size_t written = 0;
    (void)unused;
    for (size_t i = 0; i < INPUTS; i++) {
        refused += side->write_minute(fields[MINUTE][i], 16, out, 60, &written) != 0;
        sum += out[21];
    }
    return INPUTS;
}

static double run_unix_time(const struct side *side, int unused)
{
    int64_t time = 0;
    (void)unused;
    for (size_t i = 0; i < INPUTS; i++) {
        refused += side->unix_time(fields[ANY][i], 14, &time) != 0;
        sum += (unsigned long)time;
    }
    return INPUTS;
}

static double run_sheet(const struct side *side, int unused)
{
    (void)unused;
    refused += side->fill_outcomes(tape, DAY, sheet, DAY) != 0;
    return 1;
}

/* Turns marks in the middle of the recording over and back again. */
static double run_correction(const struct side *side, int n)
{
    size_t changed = 0, length = (size_t)n;
    for (size_t i = 0; i < INPUTS; i++) {
        size_t place = length / 2 + i / 2 % 60;
        uint8_t mark = tape[place];
        mark = mark == RADIO_CLOCK_GAP ? mark : mark ^ 1;
        refused += side->correct_mark(tape, length, sheet, length, place, mark, &changed) != 0;
        sum += changed;
    }
    return INPUTS;
}

static double run_feed(const struct side *side, int unused)
{
    uint8_t state[68] = { 0 }, event = 0;
    size_t taken = 0;
    (void)unused;
    for (size_t i = 0; i < LINE; i += taken) {
        refused += side->feed(state, 68, line + i, LINE - i, LINE, &taken, &event) != 0;
        sum += event;
    }
    return LINE;
}

static const struct row {
    const char *name, *function;
    double (*run)(const struct side *, int);
    int argument;
} rows[] = {
    { "read a standard string", "read", run_read, STANDARD },
    { "read a PZF string", "read", run_read, PZF },
    { "read a GPS string", "read", run_read, GPS },
    { "read an ELV string", "read", run_read, ELV },
    { "read a Trimble string", "read_trimble", run_read_trimble, 0 },
    { "read a minute", "read_minute", run_read_minute, 0 },
    { "Unix time", "unix_time", run_unix_time, 0 },
    { "write a standard string", "write", run_write, STANDARD },
    { "write a PZF string", "write", run_write, PZF },
    { "write a GPS string", "write", run_write, GPS },
    { "write an ELV string", "write", run_write, ELV },
    { "write a minute", "write_minute", run_write_minute, 0 },
    { "outcomes of a day (86,400 marks)", "fill_outcomes", run_sheet, 0 },
    { "correction amid 3,600 marks", "correct_mark", run_correction, HOUR },
    { "correction amid 86,400 marks", "correct_mark", run_correction, DAY },
    { "feed, a byte", "feed", run_feed, 0 },
};
enum { ROWS = sizeof rows / sizeof rows[0] };

static size_t put_line(uint8_t *s, size_t room)
{
    uint8_t string[68];
    size_t n = make_string((int)below(3), string);
    string[n++] = '\r';
    string[n++] = '\n';
    n = n < room ? n : room;
    memcpy(s, string, n);
    return n;
}

static void make_inputs(void)
{
    inputs_seed(2026, 1);
    for (size_t i = 0; i < INPUTS; i++) {
        for (int format = STANDARD; format <= ANY; format++)
            make_fields(format, fields[format][i]);
        for (int format = STANDARD; format <= ELV; format++)
            make_string(format, strings[format][i]);
        make_string(TRIMBLE, strings[TRIMBLE][i]);
        minute_lengths[i] = make_minute(minutes[i]);
    }
    for (size_t i = 0; i < LINE;)
        i += put_line(line + i, LINE - i);
    tape[0] = RADIO_CLOCK_GAP;
    for (size_t i = 1; i < DAY;) {
        uint8_t marks[61];
        size_t n = make_minute(marks);
        marks[n++] = RADIO_CLOCK_GAP;
        n = n < DAY - i ? n : DAY - i;
        memcpy(tape + i, marks, n);
        i += n;
    }
    reference_fill_outcomes(REFERENCE_FIRST_YEAR, tape, DAY, sheet, DAY);
}

static double seconds(void)
{
    struct timespec now;
    clock_gettime(CLOCK_MONOTONIC, &now);
    return (double)now.tv_sec + 1e-9 * (double)now.tv_nsec;
}

static void time_row(const struct row *row)
{
    double best[2] = { 1e9, 1e9 };
    for (int round = 0; round < ROUNDS; round++) {
        for (int i = 0; i < 2; i++) {
            double start = seconds();
            double units = row->run(&sides[i], row->argument);
            double each = 1e9 * (seconds() - start) / units;
            best[i] = each < best[i] ? each : best[i];
        }
    }
    printf("%s\t%.2f\t%.2f\n", row->name, best[0], best[1]);
    fflush(stdout);
}

static int run_alone(const char *name, const char *side_name, int rounds)
{
    for (int r = 0; r < ROWS; r++) {
        if (strcmp(name, rows[r].name) != 0)
            continue;
        const struct side *side = &sides[strcmp(side_name, "plain") == 0];
        double units = 0;
        for (int i = 0; i < rounds; i++)
            units += rows[r].run(side, rows[r].argument);
        printf("%s_%s %.0f\n", side == &sides[1] ? "plain" : "radio_clock", rows[r].function, units);
        return refused != 0;
    }
    fprintf(stderr, "no such row: %s\n", name);
    return 2;
}

static int write_line(size_t bytes)
{
    inputs_seed(2026, 2);
    while (bytes > 0) {
        size_t n = 0;
        while (n < LINE && n < bytes)
            n += put_line(line + n, (bytes < LINE ? bytes : LINE) - n);
        if (fwrite(line, 1, n, stdout) != n)
            return 1;
        bytes -= n;
    }
    return fflush(stdout) != 0;
}

int main(int argc, char **argv)
{
    if (argc == 3 && strcmp(argv[1], "-g") == 0)
        return write_line((size_t)strtoull(argv[2], NULL, 10));
    make_inputs();
    if (argc == 5 && strcmp(argv[1], "-c") == 0)
        return run_alone(argv[2], argv[3], atoi(argv[4]));
    for (int r = 0; r < ROWS; r++)
        time_row(&rows[r]);
    if (refused != 0) {
        fprintf(stderr, "bench: %lu inputs refused, sum %lu\n", refused, sum);
        return 1;
    }
    return 0;
}
