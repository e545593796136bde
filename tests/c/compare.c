/* compare [-n CASES] [-s SEED] [-c CASE]: compares the library with the reference, in answers, in all lent memory and
 * in the memory around it, and the inline functions of the header with both. Prints the seed and how often each answer
 * came. Fails at the first difference, whose case -c runs alone, and if one of the refusal numbers 1 to 25 never
 * came. */
#define _POSIX_C_SOURCE 200809L
#include <inttypes.h>
#include <signal.h>
#include <stdbool.h>
#include <stdio.h>
#include <stdlib.h>
#include <string.h>
#include <time.h>
#include <unistd.h>

#include "by_name.h"
#include "examples.h"
#include "inputs.h"
#include "lend.h"
#include "radio_clock.h"
#include "reference.h"

enum { LENT = 4, SMALL = 4000, ANSWERS = 26 };
enum function {
    KIND,
    READ,
    READ_TRIMBLE,
    WRITE,
    READ_MINUTE,
    WRITE_MINUTE,
    UNIX_TIME,
    OUTCOME_AT,
    OUTCOME_TIME,
    FILL,
    CORRECT,
    FEED,
    FUNCTIONS
};

static const char *const names[FUNCTIONS] = { "kind",
                                              "read",
                                              "read_trimble",
                                              "write",
                                              "read_minute",
                                              "write_minute",
                                              "unix_time",
                                              "outcome_at",
                                              "outcome_unix_time",
                                              "fill_outcomes",
                                              "correct_mark",
                                              "feed" };

static struct lent small[LENT], large_marks, large_outcomes;
static uint64_t seed, number;
static unsigned long answers[FUNCTIONS][ANSWERS], outcomes_seen[ANSWERS], events_seen[3], inputs;

/* Failing. */

static void say_case(void)
{
    char line[160];
    int length = snprintf(line, sizeof line, "case %" PRIu64 " (again: compare -s %" PRIu64 " -c %" PRIu64 ")\n",
                          number, seed, number);
    (void)!write(1, line, (size_t)length);
}

static void touched(int signal)
{
    static const char line[] = "memory that was not lent was touched: ";
    (void)signal;
    (void)!write(1, line, sizeof line - 1);
    say_case();
    _exit(1);
}

static void print_bytes(const char *what, const uint8_t *bytes, size_t n)
{
    printf("  %s, %zu bytes:", what, n);
    for (size_t i = 0; i < n && i < 300; i++)
        printf(" %02x", bytes[i]);
    printf("\n");
}

static void fail(enum function f, const char *what)
{
    printf("%s: %s: ", names[f], what);
    fflush(stdout);
    say_case();
    exit(1);
}

/* Both copies of these must be the same after a call. */
static void compare_lent(enum function f, const struct lent *const *lent, size_t count)
{
    for (size_t i = 0; i < count; i++) {
        ptrdiff_t place;
        if (lend_same(lent[i], &place))
            continue;
        printf("%s: the memory lent as number %zu differs at byte %td of %zu\n", names[f], i, place, lent[i]->length);
        print_bytes("library", lent[i]->library, lent[i]->length);
        print_bytes("reference", lent[i]->reference, lent[i]->length);
        fail(f, "lent memory differs");
    }
}

static void compare_answers(enum function f, uint8_t library, uint8_t reference)
{
    inputs++;
    if (library != reference) {
        printf("%s: the library answers %d, the reference %d\n", names[f], library, reference);
        for (int i = 0; i < LENT; i++)
            if (small[i].length > 0)
                print_bytes("lent to the reference", small[i].reference, small[i].length);
        fail(f, "answers differ");
    }
    answers[f][reference]++;
}

static void compare_by_name(enum function f, const char *difference)
{
    if (difference != NULL)
        fail(f, difference);
}

/* Lends memory that holds a random start. */
static void lend_any(struct lent *l, size_t length)
{
    lend(l, length, !one_in(4));
    for (size_t i = 0; i < length && i < 80; i++)
        l->library[i] = (uint8_t)any_number();
    lend_copy(l);
}

static void lend_bytes(struct lent *l, const void *bytes, size_t length)
{
    lend(l, length, !one_in(4));
    lend_copy(l);
    lend_fill(l, bytes, length);
}

/* A number near the one needed: just that, some more or some fewer. */
static size_t room_for(size_t needed)
{
    return one_in(8) ? below(needed) : one_in(3) ? needed + below(9) : needed;
}

/* One call of each function. */

static void compare_kind(const uint8_t *s, size_t n)
{
    lend_bytes(&small[0], s, n);
    lend_any(&small[1], 1);
    compare_answers(KIND, radio_clock_kind(small[0].library, n, small[1].library),
                    reference_kind(small[0].reference, n, small[1].reference));
    compare_lent(KIND, (const struct lent *[]){ &small[0], &small[1] }, 2);
    compare_by_name(KIND, by_name_string(small[0].library, n));
}

static void compare_read(uint8_t kind, const uint8_t *s, size_t n, size_t room)
{
    size_t place = 0;
    lend_bytes(&small[0], s, n);
    lend_any(&small[1], 4 * room);
    compare_answers(READ, radio_clock_read(kind, small[0].library, n, (int32_t *)small[1].library, room),
                    reference_read(kind, REFERENCE_SENDS_U, REFERENCE_FIRST_YEAR, small[0].reference, n,
                                   (int32_t *)small[1].reference, room, &place));
    compare_lent(READ, (const struct lent *[]){ &small[0], &small[1] }, 2);
    compare_by_name(READ, by_name_string(small[0].library, n));
}

static void compare_read_trimble(const uint8_t *s, size_t n, size_t room)
{
    size_t place = 0;
    lend_bytes(&small[0], s, n);
    lend_any(&small[1], 4 * room);
    compare_answers(READ_TRIMBLE, radio_clock_read_trimble(small[0].library, n, (int32_t *)small[1].library, room),
                    reference_read_trimble(REFERENCE_FIRST_YEAR, small[0].reference, n, (int32_t *)small[1].reference,
                                           room, &place));
    compare_lent(READ_TRIMBLE, (const struct lent *[]){ &small[0], &small[1] }, 2);
    compare_by_name(READ_TRIMBLE, by_name_trimble(small[0].library, n));
}

static void compare_write(uint8_t kind, const int32_t *fields, size_t count, size_t room)
{
    lend_bytes(&small[0], fields, 4 * count);
    lend_any(&small[1], room);
    lend_any(&small[2], sizeof(size_t));
    compare_answers(WRITE,
                    radio_clock_write(kind, (int32_t *)small[0].library, count, small[1].library, room,
                                      (size_t *)small[2].library),
                    reference_write(kind, REFERENCE_SENDS_U, REFERENCE_FIRST_YEAR, (int32_t *)small[0].reference, count,
                                    small[1].reference, room, (size_t *)small[2].reference));
    compare_lent(WRITE, (const struct lent *[]){ &small[0], &small[1], &small[2] }, 3);
}

static void compare_outcome_time(uint32_t outcome)
{
    lend_any(&small[3], sizeof(int64_t));
    compare_answers(OUTCOME_TIME, radio_clock_outcome_unix_time(outcome, (int64_t *)small[3].library),
                    reference_outcome_unix_time(outcome, (int64_t *)small[3].reference));
    compare_lent(OUTCOME_TIME, (const struct lent *[]){ &small[3] }, 1);
}

/* The time of the outcome at the gap after an accepted minute is the Unix time of what is read from the minute. */
static void compare_announced(const uint8_t *marks, size_t n)
{
    uint8_t recording[62];
    uint32_t outcome = 0;
    int32_t fields[16];
    int64_t announced = 0, time = 1;
    if (n > 60 || radio_clock_read_minute(marks, n, fields, 16) != 0)
        return;
    recording[0] = recording[n + 1] = 2;
    memcpy(recording + 1, marks, n);
    if (radio_clock_outcome_at(recording, n + 2, n + 1, &outcome) != 0 ||
        radio_clock_unix_time(fields, 16, &time) != 0 || radio_clock_outcome_unix_time(outcome, &announced) != 0 ||
        announced != time)
        fail(OUTCOME_TIME, "the outcome of a minute has another time than the minute");
    compare_outcome_time(outcome);
}

static void compare_read_minute(const uint8_t *marks, size_t n, size_t room)
{
    lend_bytes(&small[0], marks, n);
    lend_any(&small[1], 4 * room);
    compare_answers(READ_MINUTE, radio_clock_read_minute(small[0].library, n, (int32_t *)small[1].library, room),
                    reference_read_minute(REFERENCE_FIRST_YEAR, small[0].reference, n, (int32_t *)small[1].reference,
                                          room));
    compare_lent(READ_MINUTE, (const struct lent *[]){ &small[0], &small[1] }, 2);
    compare_by_name(READ_MINUTE, by_name_minute(small[0].library, n));
    compare_announced(small[0].library, n);
}

static void compare_write_minute(const int32_t *fields, size_t count, size_t room)
{
    lend_bytes(&small[0], fields, 4 * count);
    lend_any(&small[1], room);
    lend_any(&small[2], sizeof(size_t));
    compare_answers(WRITE_MINUTE,
                    radio_clock_write_minute((int32_t *)small[0].library, count, small[1].library, room,
                                             (size_t *)small[2].library),
                    reference_write_minute(REFERENCE_FIRST_YEAR, (int32_t *)small[0].reference, count,
                                           small[1].reference, room, (size_t *)small[2].reference));
    compare_lent(WRITE_MINUTE, (const struct lent *[]){ &small[0], &small[1], &small[2] }, 3);
}

static void compare_unix_time(const int32_t *fields, size_t count)
{
    lend_bytes(&small[0], fields, 4 * count);
    lend_any(&small[1], sizeof(int64_t));
    compare_answers(UNIX_TIME, radio_clock_unix_time((int32_t *)small[0].library, count, (int64_t *)small[1].library),
                    reference_unix_time((int32_t *)small[0].reference, count, (int64_t *)small[1].reference));
    compare_lent(UNIX_TIME, (const struct lent *[]){ &small[0], &small[1] }, 2);
    if (count >= 14)
        compare_by_name(UNIX_TIME, by_name_fields((int32_t *)small[0].library));
}

static void compare_outcome_at(struct lent *marks, size_t place)
{
    lend_any(&small[2], sizeof(uint32_t));
    uint8_t answer = reference_outcome_at(REFERENCE_FIRST_YEAR, marks->reference, marks->length, place,
                                          (uint32_t *)small[2].reference);
    compare_answers(OUTCOME_AT,
                    radio_clock_outcome_at(marks->library, marks->length, place, (uint32_t *)small[2].library), answer);
    compare_lent(OUTCOME_AT, (const struct lent *[]){ marks, &small[2] }, 2);
    if (answer == 0) {
        uint32_t outcome;
        memcpy(&outcome, small[2].reference, sizeof outcome);
        outcomes_seen[outcome < 20 ? outcome : 20]++;
        size_t start = place;
        while (start > 0 && marks->library[start - 1] != 2)
            start--;
        if (start > 0 && marks->library[place] == 2) {
            compare_by_name(OUTCOME_AT, by_name_outcome(outcome, marks->library + start, place - start));
            compare_announced(marks->library + start, place - start);
        }
        compare_outcome_time(outcome);
    }
}

static void compare_fill(struct lent *marks, struct lent *outcomes)
{
    size_t n = marks->length, count = outcomes->length / 4;
    compare_answers(FILL, radio_clock_fill_outcomes(marks->library, n, (uint32_t *)outcomes->library, count),
                    reference_fill_outcomes(REFERENCE_FIRST_YEAR, marks->reference, n,
                                            (uint32_t *)outcomes->reference, count));
    compare_lent(FILL, (const struct lent *[]){ marks, outcomes }, 2);
}

/* The count is compared with the number of differences found here, too. */
static void compare_correct(struct lent *marks, struct lent *outcomes, size_t place, uint8_t mark)
{
    size_t n = marks->length, count = outcomes->length / 4, changed, differ = 0;
    uint8_t *before = malloc(outcomes->length + 1);
    if (before == NULL)
        exit(2);
    memcpy(before, outcomes->library, outcomes->length);
    lend_any(&small[2], sizeof(size_t));
    uint8_t answer = reference_correct_mark(REFERENCE_FIRST_YEAR, marks->reference, n, (uint32_t *)outcomes->reference,
                                            count, place, mark, (size_t *)small[2].reference);
    compare_answers(CORRECT,
                    radio_clock_correct_mark(marks->library, n, (uint32_t *)outcomes->library, count, place, mark,
                                             (size_t *)small[2].library),
                    answer);
    compare_lent(CORRECT, (const struct lent *[]){ marks, outcomes, &small[2] }, 3);
    for (size_t i = 0; i < count; i++)
        differ += memcmp(before + 4 * i, outcomes->library + 4 * i, 4) != 0;
    memcpy(&changed, small[2].library, sizeof changed);
    if (answer == 0 ? changed != differ : differ != 0)
        fail(CORRECT, "the count is not the number of differences");
    free(before);
}

/* What of a state a caller can see: the mode, what is kept inside a string, and a complete string. */
static void simplify_state(uint8_t *state, uint8_t event)
{
    size_t kept = 0;
    uint8_t mode = state[66] > 66 || state[67] > 2 ? 0 : state[67];
    if (mode == 1)
        kept = state[66];
    if (event >= 1 && event <= 66)
        kept = event;
    memset(state + kept, 0, 66 - kept);
    state[66] = (uint8_t)kept;
    state[67] = mode;
}

static uint8_t compare_feed(struct lent *state, const uint8_t *s, size_t n, size_t limit, size_t *taken)
{
    uint8_t library[68], reference[68], kept[68];
    if (state->length >= 68)
        compare_by_name(FEED, by_name_feed(state->library, s, n));
    lend_bytes(&small[1], s, n);
    lend_any(&small[2], sizeof(size_t));
    lend_any(&small[3], 1);
    uint8_t answer = reference_feed(state->reference, state->length, small[1].reference, n, limit,
                                    (size_t *)small[2].reference, small[3].reference);
    compare_answers(FEED,
                    radio_clock_feed(state->library, state->length, small[1].library, n, limit,
                                     (size_t *)small[2].library, small[3].library),
                    answer);
    compare_lent(FEED, (const struct lent *[]){ &small[1], &small[2], &small[3] }, 3);
    if (answer != 0) {
        compare_lent(FEED, (const struct lent *[]){ state }, 1);
        *taken = n;
        return 0;
    }
    uint8_t event = small[3].reference[0];
    events_seen[event == 0 ? 0 : event == 255 ? 2 : 1]++;
    memcpy(library, state->library, 68);
    memcpy(reference, state->reference, 68);
    memcpy(kept, library, 68);
    simplify_state(library, event);
    simplify_state(reference, event);
    if (memcmp(library, reference, 68) != 0) {
        print_bytes("library's state", library, 68);
        print_bytes("reference's state", reference, 68);
        fail(FEED, "states differ");
    }
    memcpy(state->library, state->reference, 68);
    compare_lent(FEED, (const struct lent *[]){ state }, 1);
    memcpy(state->library, kept, 68);
    memcpy(taken, small[2].reference, sizeof *taken);
    return event;
}

/* Random cases, each from its own place in the stream of numbers. */

static void try_string(void)
{
    uint8_t s[400];
    int format = (int)below(4);
    uint8_t kind = (uint8_t)format;
    size_t n = make_string(format, s);
    switch (below(16)) {
    case 0: /* a wrong length */
        memcpy(s + n, s, n);
        n = one_in(2) ? below(n) : n + 1 + below(n);
        break;
    case 1: /* random bytes */
        n = one_in(4) ? below(100) : n;
        for (size_t i = 0; i < n; i++)
            s[i] = (uint8_t)any_number();
        break;
    case 2: /* the string of another kind */
        kind = (uint8_t)below(one_in(2) ? 4 : 256);
        break;
    default:
        damage_string(format, s, n, below(4));
        break;
    }
    if (one_in(8))
        compare_kind(s, n);
    else
        compare_read(kind, s, n, room_for(fields_of(format)));
}

/* The sum of a Trimble string in small letters. */
static void make_sum_small(uint8_t *s)
{
    for (size_t i = 34; i < 36; i++)
        s[i] |= s[i] >= 'A' && s[i] <= 'F' ? 32 : 0;
}

static void try_trimble(void)
{
    uint8_t s[100];
    size_t n = make_string(TRIMBLE, s);
    switch (below(12)) {
    case 0: /* a wrong length */
        memcpy(s + n, s, n);
        n = one_in(2) ? below(n) : n + 1 + below(n);
        break;
    case 1: /* random bytes */
        for (size_t i = 0; i < n; i++)
            s[i] = (uint8_t)any_number();
        break;
    case 2: /* random digits */
        for (size_t i = 4; i < 26; i++)
            s[i] = (uint8_t)('0' + below(10));
        mend_sum(s);
        break;
    case 3:
        damage_string(TRIMBLE, s, n, below(2));
        make_sum_small(s);
        break;
    case 4: /* the string of a kind, as long as it is or cut to the Trimble's length */
        n = make_string((int)below(4), s);
        n = n > length_of(TRIMBLE) && one_in(2) ? length_of(TRIMBLE) : n;
        break;
    default:
        damage_string(TRIMBLE, s, n, below(4));
        break;
    }
    compare_read_trimble(s, n, room_for(fields_of(TRIMBLE)));
}

static void try_fields(void)
{
    int32_t fields[40];
    int format = (int)below(FORMATS);
    uint8_t kind = (uint8_t)below(4);
    memset(fields, 0, sizeof fields);
    make_fields(format, fields);
    if (format < MINUTE && !one_in(12))
        kind = (uint8_t)format;
    if (one_in(30))
        kind = (uint8_t)any_number();
    size_t count = fields_of(kind > ELV ? STANDARD : kind);
    if (one_in(2))
        spoil_fields(fields, 17);
    if (one_in(10))
        count = below(40);
    compare_write(kind, fields, count, room_for(length_of(kind > ELV ? STANDARD : kind)));
}

static void try_time(void)
{
    int32_t fields[40];
    int format = (int)below(FORMATS);
    memset(fields, 0, sizeof fields);
    make_fields(format, fields);
    if (!one_in(3))
        spoil_fields(fields, 14);
    compare_unix_time(fields, one_in(6) ? below(40) : fields_of(format));
}

static void try_minute(void)
{
    uint8_t marks[200];
    size_t n = one_in(3) ? make_bits(marks) : make_minute(marks);
    switch (below(12)) {
    case 0:
        memcpy(marks + n, marks, n);
        n = one_in(2) ? below(n) : n + 1 + below(n);
        break;
    case 1:
        n = one_in(4) ? below(130) : n;
        for (size_t i = 0; i < n; i++)
            marks[i] = (uint8_t)(one_in(200) ? any_number() : below(2));
        break;
    case 2:
        n = n == 59 ? 60 : 59;
        marks[59] = (uint8_t)below(2);
        break;
    default:
        damage_minute(marks, n, one_in(2) ? 0 : below(4));
        break;
    }
    compare_read_minute(marks, n, room_for(16));
}

static void try_minute_fields(void)
{
    int32_t fields[40];
    memset(fields, 0, sizeof fields);
    make_fields(one_in(12) ? (int)below(FORMATS) : MINUTE, fields);
    if (one_in(2))
        spoil_fields(fields, 16);
    compare_write_minute(fields, one_in(10) ? below(40) : 16, room_for(fields[15] == 1 ? 60 : 59));
}

/* A place of the recording that is likely to matter: near a gap, at its ends or past them. */
static size_t place_on(const uint8_t *marks, size_t n)
{
    if (n == 0 || one_in(16))
        return one_in(4) ? (size_t)any_number() : n + below(3);
    if (one_in(10))
        return one_in(2) ? 0 : n - 1;
    size_t place = below(n);
    if (one_in(2))
        return place;
    while (place > 0 && marks[place] != 2)
        place--;
    place += below(3);
    return place >= 1 && one_in(2) ? place - 1 : place;
}

/* A chain of corrections. The outcomes start right, or not quite; while right they must be those made anew. */
static void try_recording_of(size_t n, size_t count)
{
    bool large = n >= 1000;
    struct lent *marks = large ? &large_marks : &small[0], *outcomes = large ? &large_outcomes : &small[1];
    lend(marks, n, !one_in(4));
    make_recording(marks->library, n);
    lend_copy(marks);
    lend(outcomes, 4 * count, !one_in(4));
    lend_copy(outcomes);
    for (int i = 0; i < 3; i++)
        compare_outcome_at(marks, place_on(marks->library, n));
    compare_fill(marks, outcomes);
    bool right = count == n && n <= 100000;
    if (one_in(4)) {
        right = right && n == 0;
        for (size_t i = 0; i < count && i < 8; i++) {
            uint32_t noise = (uint32_t)any_number() >> below(32);
            memcpy(outcomes->library + 4 * below(count), &noise, 4);
        }
        lend_copy(outcomes);
    }
    for (size_t corrections = 1 + below(6); corrections > 0; corrections--) {
        size_t place = place_on(marks->library, n);
        uint8_t mark = one_in(12) ? (uint8_t)any_number() : (uint8_t)below(4);
        if (one_in(4) && place < n)
            mark = marks->library[place];
        compare_correct(marks, outcomes, place, mark);
        if (!right)
            continue;
        uint32_t *anew = malloc(4 * n + 4);
        if (anew == NULL)
            exit(2);
        if (radio_clock_fill_outcomes(marks->library, n, anew, n) != 0 || memcmp(anew, outcomes->library, 4 * n) != 0)
            fail(CORRECT, "the outcomes are not those made anew");
        free(anew);
    }
}

static void try_recording(void)
{
    size_t n = one_in(4000) ? 1000 + below(99001) : one_in(8) ? below(3) : below(900);
    try_recording_of(n, one_in(20) ? (one_in(2) ? n + 1 : n - (n > 0)) : n);
}

/* A line fed in random cuts with random limits, each side from the state that it gave before. */
static void try_feed(void)
{
    uint8_t s[1000], state[80];
    size_t n = one_in(4) ? below(1000) : below(200), i = 0;
    size_t size = one_in(12) ? below(80) : 68 + (one_in(2) ? below(9) : 0);
    for (size_t j = 68; j < sizeof state; j++)
        state[j] = (uint8_t)any_number();
    make_state(state);
    make_line(s, n);
    lend_bytes(&small[0], state, size);
    do {
        size_t cut = one_in(3) ? n - i : below(n - i + 1), taken = 0;
        size_t limit = one_in(3) ? (size_t)any_number() : one_in(2) ? cut : below(n + 2);
        compare_feed(&small[0], s + i, cut, limit, &taken);
        i += taken;
        if (cut == 0 || limit == 0)
            i += i < n;
    } while (i < n);
}

enum { LAST_OUTCOME = 1683072083 }; /* the last that a minute of 2069 has */

/* A number that is an outcome, near the first or the last, of few bits, or any. */
static void try_outcome(void)
{
    uint32_t any = (uint32_t)any_number(), near = (uint32_t)below(300);
    switch (below(4)) {
    case 0:
        compare_outcome_time(near);
        break;
    case 1:
        compare_outcome_time(LAST_OUTCOME - 150 + near);
        break;
    case 2:
        compare_outcome_time(any >> below(32));
        break;
    default:
        compare_outcome_time(one_in(2) ? any : 100 + any % (LAST_OUTCOME - 99));
        break;
    }
}

static void try_case(uint64_t case_number)
{
    number = case_number;
    inputs_seed(seed, number);
    for (int i = 0; i < LENT; i++)
        lend(&small[i], 0, true);
    size_t choice = below(100);
    if (choice < 32)
        try_string();
    else if (choice < 42)
        try_trimble();
    else if (choice < 60)
        try_fields();
    else if (choice < 68)
        try_time();
    else if (choice < 82)
        try_minute();
    else if (choice < 91)
        try_minute_fields();
    else if (choice < 95)
        try_recording();
    else if (choice < 97)
        try_outcome();
    else
        try_feed();
}

/* Cases that no chance decides. */

/* Every byte at every place of a string, and at two places of which one is wrong already. */
static void sweep_strings(void)
{
    for (int format = STANDARD; format <= ELV; format++) {
        uint8_t s[66];
        size_t n = make_string(format, s);
        if (one_in(4))
            damage_string(format, s, n, 1);
        for (size_t i = 0; i < n; i++) {
            uint8_t kept = s[i];
            for (int byte = 0; byte < 256; byte++) {
                s[i] = (uint8_t)byte;
                compare_read((uint8_t)format, s, n, fields_of(format));
            }
            s[i] = kept;
        }
    }
}

/* Every byte at every place of a Trimble string, with the sum as it was and with the sum of the new bytes. The sum as
 * it was has a letter, so that the small one is among the bytes. */
static void sweep_trimble(void)
{
    uint8_t s[37], mended[37];
    do
        make_string(TRIMBLE, s);
    while (s[35] < 'A');
    for (size_t i = 0; i < sizeof s; i++) {
        uint8_t kept = s[i];
        for (int byte = 0; byte < 256; byte++) {
            s[i] = (uint8_t)byte;
            compare_read_trimble(s, sizeof s, 15);
            memcpy(mended, s, sizeof s);
            mend_sum(mended);
            compare_read_trimble(mended, sizeof mended, 15);
        }
        s[i] = kept;
    }
}

/* Every four digits of year, on 28 and 29 February. */
static void sweep_years(void)
{
    for (int32_t year = 0; year <= 9999; year++) {
        for (int32_t day = 28; day <= 29; day++) {
            int32_t fields[15] = { year, 2, day };
            uint8_t s[37];
            put_trimble(fields, s);
            compare_read_trimble(s, sizeof s, 15);
        }
    }
}

/* Every pair of marks turned over, and every mark made a gap or unsure. */
static void sweep_minutes(void)
{
    uint8_t marks[60];
    size_t n = make_minute(marks);
    for (size_t i = 0; i < n; i++) {
        uint8_t kept = marks[i];
        for (uint8_t mark = 2; mark < 5; mark++) {
            marks[i] = mark;
            compare_read_minute(marks, n, 16);
        }
        marks[i] = kept ^ 1;
        for (size_t j = 0; j <= i; j++) {
            marks[j] ^= (uint8_t)(j < i);
            compare_read_minute(marks, n, 16);
            marks[j] ^= (uint8_t)(j < i);
        }
        marks[i] = kept;
    }
}

static int32_t last_day(int32_t year, int32_t month)
{
    bool leap = year % 4 == 0 && (year % 100 != 0 || year % 400 == 0);
    if (month == 2)
        return leap ? 29 : 28;
    return month == 4 || month == 6 || month == 9 || month == 11 ? 30 : 31;
}

/* All days that there are, and those that there are not, by counting; the reference is held to the count, too. */
static void sweep_days(void)
{
    int64_t midnight = 0;
    for (int32_t year = 1969; year <= 2070; year++) {
        for (int32_t month = 0; month <= 13; month++) {
            for (int32_t day = 0; day <= 32; day++) {
                int32_t fields[14] = { year, month, day, 1 };
                int64_t time = -1;
                bool exists = year >= 1970 && year <= 2069 && month >= 1 && month <= 12 && day >= 1 &&
                              day <= last_day(year, month);
                compare_unix_time(fields, 14);
                uint8_t answer = reference_unix_time(fields, 14, &time);
                if (answer != (exists ? 0 : 23) || (exists && time != midnight))
                    fail(UNIX_TIME, "the reference does not count days");
                if (exists)
                    midnight += 86400;
            }
        }
    }
}

/* The longest recording, and one mark more. */
static void sweep_lengths(void)
{
    for (size_t n = 99999; n <= 100001; n++)
        for (size_t count = n - 1; count <= n + 1; count++)
            try_recording_of(n, count);
}

/* The first and the last outcomes, those of two hours, one of each day's first minute, and the largest numbers. */
static void sweep_outcomes(void)
{
    for (uint32_t i = 0; i < 1000; i++) {
        compare_outcome_time(i);
        compare_outcome_time(LAST_OUTCOME - 500 + i);
        compare_outcome_time(UINT32_MAX - i);
    }
    for (uint32_t i = 0; i < 32 * 121; i++)
        compare_outcome_time(100 + 32 * 60 * 324000 + i);
    for (uint32_t day = 0; day < 36525; day++)
        compare_outcome_time(100 + 32 * 1440 * day + day % 32);
}

static void sweep(void)
{
    inputs_seed(seed, number);
    sweep_outcomes();
    sweep_strings();
    sweep_trimble();
    sweep_years();
    sweep_minutes();
    sweep_days();
    sweep_lengths();
}

/* What was seen. */

static void print_answers(void)
{
    unsigned long of_numbers[ANSWERS] = { 0 };
    printf("%lu calls compared\n", inputs);
    for (int f = 0; f < FUNCTIONS; f++) {
        printf("%-17s accepted %lu", names[f], answers[f][0]);
        for (int i = 1; i < ANSWERS; i++) {
            of_numbers[i] += answers[f][i];
            if (answers[f][i] > 0)
                printf(", %d: %lu", i, answers[f][i]);
        }
        printf("\n");
    }
    printf("%-17s accepted %lu", "outcomes", outcomes_seen[20]);
    for (int i = 0; i < 20; i++) {
        of_numbers[i] += outcomes_seen[i];
        if (outcomes_seen[i] > 0)
            printf(", %d: %lu", i, outcomes_seen[i]);
    }
    printf("\n%-17s nothing yet %lu, complete %lu, dropped %lu\n", "events", events_seen[0], events_seen[1],
           events_seen[2]);
    for (int i = 1; i < ANSWERS; i++) {
        if (of_numbers[i] == 0) {
            printf("refusal number %d never came\n", i);
            exit(1);
        }
    }
    for (int f = 0; f < FUNCTIONS; f++) {
        if (answers[f][0] == 0) {
            printf("%s never accepted\n", names[f]);
            exit(1);
        }
    }
}

int main(int argc, char **argv)
{
    uint64_t cases = 2000000, only = 0;
    bool alone = false;
    seed = (uint64_t)time(NULL);
    for (int i = 1; i + 1 < argc; i += 2) {
        uint64_t value = strtoull(argv[i + 1], NULL, 10);
        if (strcmp(argv[i], "-n") == 0)
            cases = value;
        else if (strcmp(argv[i], "-s") == 0)
            seed = value;
        else if (strcmp(argv[i], "-c") == 0) {
            only = value;
            alone = true;
        }
    }
    struct sigaction action = { .sa_handler = touched };
    sigaction(SIGSEGV, &action, NULL);
    sigaction(SIGBUS, &action, NULL);
    for (int i = 0; i < LENT; i++)
        lend_open(&small[i], SMALL);
    lend_open(&large_marks, 100002);
    lend_open(&large_outcomes, 4 * 100002);
    printf("seed %" PRIu64 "\n", seed);
    fflush(stdout);
    if (alone) {
        if (only == 0)
            sweep();
        else
            try_case(only);
        printf("case %" PRIu64 ": no difference\n", only);
        return 0;
    }
    if (!run_examples())
        return 1;
    sweep();
    for (uint64_t i = 1; i <= cases; i++)
        try_case(i);
    print_answers();
    printf("no difference\n");
    return 0;
}
