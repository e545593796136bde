/* stack: measures how much stack each function of the library takes, on random inputs. Each call runs on a stack of its
 * own that was filled with one byte before; what the call changed of it is counted, its caller's frame included. Fails
 * if that is as much as the header says it stays below, or no more than without a call. */
#define _XOPEN_SOURCE 700
#include <stdio.h>
#include <stdlib.h>
#include <string.h>
#include <ucontext.h>

#include "inputs.h"
#include "radio_clock.h"

enum { SAID = 1024, STACK = 8192, PAINT = 0xA5, MARKS = 2000, CASES = 20000 };
enum function {
    NOTHING,
    KIND,
    READ,
    READ_TRIMBLE,
    WRITE,
    READ_MINUTE,
    WRITE_MINUTE,
    UNIX_TIME,
    OUTCOME_AT,
    OUTCOME_TIME,
    FILL,
    CORRECT,
    FEED,
    FUNCTIONS
};

static const char *const names[FUNCTIONS] = { "nothing",
                                              "kind",
                                              "read",
                                              "read_trimble",
                                              "write",
                                              "read_minute",
                                              "write_minute",
                                              "unix_time",
                                              "outcome_at",
                                              "outcome_unix_time",
                                              "fill_outcomes",
                                              "correct_mark",
                                              "feed" };

static uint8_t stack[STACK];
static ucontext_t here, there;

/* What the next call is lent. */
static enum function function;
static uint8_t kind, bytes[MARKS], out[RADIO_CLOCK_STRING_MAX], state[RADIO_CLOCK_FRAMER_SIZE];
static int32_t fields[40];
static uint32_t outcomes[MARKS];
static size_t length, count, place;

static uint8_t call(void)
{
    uint8_t byte = 0;
    uint32_t outcome = 0;
    int64_t time = 0;
    size_t size = 0;
    switch (function) {
    case KIND:
        return radio_clock_kind(bytes, length, &byte);
    case READ:
        return radio_clock_read(kind, bytes, length, fields, 40);
    case READ_TRIMBLE:
        return radio_clock_read_trimble(bytes, length, fields, 40);
    case WRITE:
        return radio_clock_write(kind, fields, count, out, sizeof out, &size);
    case READ_MINUTE:
        return radio_clock_read_minute(bytes, length, fields, 40);
    case WRITE_MINUTE:
        return radio_clock_write_minute(fields, count, out, sizeof out, &size);
    case UNIX_TIME:
        return radio_clock_unix_time(fields, count, &time);
    case OUTCOME_AT:
        return radio_clock_outcome_at(bytes, length, place, &outcome);
    case OUTCOME_TIME:
        return radio_clock_outcome_unix_time(outcomes[0], &time);
    case FILL:
        return radio_clock_fill_outcomes(bytes, length, outcomes, length);
    case CORRECT:
        return radio_clock_correct_mark(bytes, length, outcomes, length, place, kind, &size);
    case FEED:
        return radio_clock_feed(state, sizeof state, bytes, length, length, &size, &byte);
    default:
        return 0;
    }
}

static void run(void) { (void)call(); }

/* The bytes of the stack that one call changed. */
static size_t measure(void)
{
    size_t kept = 0;
    memset(stack, PAINT, sizeof stack);
    if (getcontext(&there) != 0)
        exit(2);
    there.uc_stack.ss_sp = stack;
    there.uc_stack.ss_size = sizeof stack;
    there.uc_link = &here;
    makecontext(&there, run, 0);
    if (swapcontext(&here, &there) != 0)
        exit(2);
    while (kept < sizeof stack && stack[kept] == PAINT)
        kept++;
    return sizeof stack - kept;
}

/* Inputs for a call, accepted or not. */
static void make_inputs(void)
{
    int format = (int)below(4);
    kind = (uint8_t)format;
    place = 0;
    outcomes[0] = (uint32_t)any_number() >> below(32);
    count = fields_of(format);
    memset(fields, 0, sizeof fields);
    if (function == KIND || function == READ) {
        length = make_string(format, bytes);
        damage_string(format, bytes, length, below(3));
    } else if (function == READ_TRIMBLE) {
        length = make_string(TRIMBLE, bytes);
        damage_string(TRIMBLE, bytes, length, below(3));
    } else if (function == WRITE || function == UNIX_TIME) {
        make_fields(format, fields);
        if (one_in(3))
            spoil_fields(fields, count);
    } else if (function == READ_MINUTE) {
        length = one_in(2) ? make_bits(bytes) : make_minute(bytes);
        damage_minute(bytes, length, below(2));
    } else if (function == WRITE_MINUTE) {
        count = RADIO_CLOCK_MINUTE_FIELDS;
        make_fields(MINUTE, fields);
    } else if (function == FEED) {
        length = below(MARKS);
        make_line(bytes, length);
        make_state(state);
    } else {
        length = below(MARKS);
        place = below(length + 1);
        make_recording(bytes, length);
    }
}

int main(void)
{
    size_t most[FUNCTIONS] = { 0 };
    bool right = true;
    for (int f = NOTHING; f < FUNCTIONS; f++) {
        function = (enum function)f;
        for (uint64_t i = 0; i < CASES; i++) {
            inputs_seed(1, i);
            make_inputs();
            size_t taken = measure();
            if (taken > most[f])
                most[f] = taken;
        }
        printf("%-17s %4zu bytes of stack\n", names[f], most[f]);
        right = right && most[f] < SAID && (f == NOTHING || most[f] > most[NOTHING]);
    }
    puts(right ? "each call takes less stack than the header says" : "the header says another stack");
    return !right;
}
