/* Random inputs. Strings and minutes that are valid are made from random fields by the reference's writer; Trimble
 * strings, which it does not write, are made here and read by it. */
#include "inputs.h"

#include <inttypes.h>
#include <stdio.h>
#include <stdlib.h>
#include <string.h>

#include "reference.h"

static uint64_t stream;

void inputs_seed(uint64_t seed, uint64_t number)
{
    stream = seed * 0x9e3779b97f4a7c15u + number * 0xd1342543de82ef95u;
    (void)any_number();
}

/* SplitMix64. */
uint64_t any_number(void)
{
    stream += 0x9e3779b97f4a7c15u;
    uint64_t z = stream;
    z = (z ^ z >> 30) * 0xbf58476d1ce4e5b9u;
    z = (z ^ z >> 27) * 0x94d049bb133111ebu;
    return z ^ z >> 31;
}

size_t below(size_t bound) { return (size_t)(any_number() >> 11) % bound; }
bool one_in(size_t bound) { return below(bound) == 0; }

static int32_t between(int32_t least, int32_t most)
{
    if (one_in(8))
        return one_in(2) ? least : most;
    return least + (int32_t)below((size_t)(most - least) + 1);
}

static uint8_t any_byte(void) { return (uint8_t)any_number(); }

static char one_of(const char *letters) { return letters[below(strlen(letters))]; }

size_t fields_of(int format)
{
    static const uint8_t counts[FORMATS] = { [GPS] = 17, [MINUTE] = 16, [TRIMBLE] = 15 };
    return counts[format] != 0 ? counts[format] : 14;
}

size_t length_of(int format)
{
    static const uint8_t lengths[FORMATS] = { [GPS] = 66, [ELV] = 21, [MINUTE] = 60, [TRIMBLE] = 37 };
    return lengths[format] != 0 ? lengths[format] : 32;
}

static int32_t days_in(int32_t year, int32_t month)
{
    if (month == 2)
        return year % 400 == 0 || (year % 4 == 0 && year % 100 != 0) ? 29 : 28;
    return month == 4 || month == 6 || month == 9 || month == 11 ? 30 : 31;
}

/* By Zeller's congruence. */
static int32_t weekday_of(int32_t year, int32_t month, int32_t day)
{
    int32_t m = month < 3 ? month + 12 : month, y = month < 3 ? year - 1 : year;
    int32_t h = (day + 13 * (m + 1) / 5 + y + y / 4 - y / 100 + y / 400) % 7;
    return (h + 5) % 7 + 1;
}

/* Offset and summer flag as the format ties them. */
static void make_zone(int format, int32_t *f)
{
    f[10] = (int32_t)below(2);
    f[7] = f[10] == 1 ? 120 : 60;
    if (format == STANDARD && one_in(3)) {
        f[7] = 0;
        f[10] = 0;
    } else if (format == PZF && one_in(3)) {
        f[7] = 0;
    } else if (format == GPS || format == ANY) {
        f[7] = one_in(4) ? 0 : one_in(4) ? between(-14, 14) * 60 : between(-840, 840);
    } else if (format == TRIMBLE) {
        f[7] = 0;
        f[10] = 0;
    }
}

void make_fields(int format, int32_t *f)
{
    f[0] = one_in(4) ? between(1996, 2004) : between(1970, 2069);
    f[1] = one_in(6) ? 2 : between(1, 12);
    f[2] = between(1, days_in(f[0], f[1]));
    f[3] = format == ELV || format == TRIMBLE ? weekday_of(f[0], f[1], f[2]) : between(1, 7);
    f[4] = between(0, 23);
    f[5] = between(0, 59);
    f[6] = between(0, 59);
    for (int i = 8; i < 14; i++)
        f[i] = format != TRIMBLE && one_in(3);
    make_zone(format, f);
    if (format == STANDARD || format == ELV)
        f[13] = 0;
    if (format == STANDARD && f[11] == 1)
        f[12] = 0;
    if (format == ELV) {
        f[9] = 0;
        f[12] = 0;
    }
    if (format == MINUTE) {
        f[6] = 0;
        f[8] = 0;
        f[9] = 0;
        f[14] = between(0, 16383);
        f[15] = one_in(4);
        if (f[15] == 1) {
            f[12] = 1;
            f[5] = 0;
        }
    } else if (one_in(8)) {
        int32_t local = (1439 + f[7] + 1440) % 1440;
        f[4] = local / 60;
        f[5] = local % 60;
        f[6] = 60;
    }
    if (format == GPS) {
        f[14] = one_in(6) ? between(-9, 9) * 100000 : between(-900000, 900000);
        f[15] = one_in(6) ? between(-18, 18) * 100000 : between(-1800000, 1800000);
        f[16] = one_in(3) ? between(0, 12) : between(0, 9999);
    } else if (format == TRIMBLE) {
        f[14] = between(0, 999);
    }
}

void spoil_fields(int32_t *f, size_t count)
{
    static const int32_t limits[] = { INT32_MIN, INT32_MAX, -1, 0, 1, 2, 60, 120, 24, 59, 61, -60, 99, 100,
                                      255, 256, 65535, 65536, -840, 840, 841, -841, 9999, 10000, 16383, 16384,
                                      900000, 900001, -900001, 1800000, 1800001, -1800001, 1969, 1970, 2069, 2070 };
    for (size_t changes = 1 + below(2); changes > 0 && count > 0; changes--) {
        size_t i = below(count);
        uint32_t value = (uint32_t)f[i];
        switch (below(6)) {
        case 0:
            value += one_in(2) ? 1 : UINT32_MAX;
            break;
        case 1:
            value += (uint32_t)(1 + below(255)) << (one_in(2) ? 8 : one_in(2) ? 16 : 24);
            break;
        case 2:
            value = (uint32_t)limits[below(sizeof limits / sizeof limits[0])];
            break;
        case 3:
            value = 0 - value;
            break;
        case 4:
            value = (uint32_t)any_number() >> below(32);
            break;
        default:
            value = (uint32_t)below(i == 7 ? 900 : 64);
            break;
        }
        f[i] = (int32_t)value;
    }
}

static void insist(uint8_t error, const char *what)
{
    if (error != 0) {
        printf("the reference refuses a %s of valid fields with %d\n", what, error);
        exit(1);
    }
}

void mend_sum(uint8_t *s)
{
    static const char digits[] = "0123456789ABCDEF";
    unsigned sum = 0;
    for (size_t i = 0; i < 34; i++)
        sum ^= s[i];
    s[34] = (uint8_t)digits[sum / 16];
    s[35] = (uint8_t)digits[sum % 16];
}

void put_trimble(const int32_t *f, uint8_t *s)
{
    char text[160];
    snprintf(text, sizeof text,
             ">RTM%02" PRId32 "%02" PRId32 "%02" PRId32 "%03" PRId32 "%02" PRId32 "%02" PRId32 "%04" PRId32
             "00000100000;*xx<",
             f[4], f[5], f[6], f[14], f[2], f[1], f[0]);
    memcpy(s, text, 37);
    mend_sum(s);
}

/* Digits that are ignored, and bytes of rrrrr among which are those that other places have. */
static size_t make_trimble(const int32_t *f, uint8_t *s)
{
    int32_t fields[15];
    size_t place = 0;
    put_trimble(f, s);
    for (size_t i = 21; i < 26; i++)
        s[i] = (uint8_t)('0' + below(10));
    for (size_t i = 27; i < 32; i++)
        s[i] = one_in(4) ? (uint8_t)one_of("<>;*1 ~") : (uint8_t)between(32, 126);
    mend_sum(s);
    insist(reference_read_trimble(REFERENCE_FIRST_YEAR, s, 37, fields, 15, &place), "Trimble string");
    return 37;
}

size_t make_string(int format, uint8_t *s)
{
    int32_t f[17];
    size_t n = 0;
    make_fields(format, f);
    if (format == TRIMBLE)
        return make_trimble(f, s);
    insist(reference_write((uint8_t)format, REFERENCE_SENDS_U, REFERENCE_FIRST_YEAR, f, fields_of(format), s, 66, &n),
           "string");
    return n;
}

size_t make_minute(uint8_t *marks)
{
    int32_t f[16];
    size_t n = 0;
    make_fields(MINUTE, f);
    insist(reference_write_minute(REFERENCE_FIRST_YEAR, f, 16, marks, 60, &n), "minute");
    return n;
}

/* A place of a string, more often one with rules of its own. */
static size_t any_place(int format, size_t n)
{
    if (format == GPS && n == 66 && one_in(2))
        return one_in(3) ? 24 + below(15) : 41 + below(23);
    if (format == TRIMBLE && n == 37 && one_in(3))
        return 26 + below(10);
    return below(n);
}

void damage_string(int format, uint8_t *s, size_t n, size_t places)
{
    bool mend = format == TRIMBLE && n == 37 && !one_in(4);
    for (; places > 0 && n > 0; places--) {
        size_t i = any_place(format, n);
        switch (below(6)) {
        case 0:
            s[i] = any_byte();
            break;
        case 1:
            s[i] ^= (uint8_t)(1u << below(8));
            break;
        case 2:
            s[i] = (uint8_t)one_of("0123456789 #*USA!RL.:;+-NSEWmDT\002\003\r/<>BCFabf");
            break;
        case 3:
            s[i] = s[below(n)];
            break;
        default:
            while (s[i] < '0' || s[i] > '9') {
                i = below(n);
                if (one_in(40))
                    break;
            }
            s[i] = (uint8_t)('0' + below(10));
            break;
        }
    }
    if (mend)
        mend_sum(s);
}

static uint8_t any_mark(void) { return one_in(3) ? any_byte() : (uint8_t)(2 + below(2)); }

void damage_minute(uint8_t *marks, size_t n, size_t places)
{
    for (; places > 0 && n > 0; places--) {
        size_t i = below(n);
        marks[i] = one_in(6) ? any_mark() : marks[i] ^ 1;
    }
}

static void even(uint8_t *marks, int last)
{
    uint8_t odd = 0;
    for (int i = 0; i < last; i++)
        odd ^= marks[i];
    marks[last] = odd;
}

size_t make_bits(uint8_t *marks)
{
    uint64_t bits = any_number();
    for (int i = 0; i < 60; i++)
        marks[i] = bits >> i & 1;
    marks[0] = 0;
    marks[20] = 1;
    marks[18] = marks[17] ^ 1;
    /* Most digits of four bits are made small, so that what comes after 18 is reached. */
    static const uint8_t highest[] = { 24, 32, 39, 48, 53, 57 };
    for (size_t i = 0; i < sizeof highest; i++)
        if (!one_in(12))
            marks[highest[i]] = 0;
    if (one_in(2))
        memset(marks + 21, 0, 7);
    if (one_in(2))
        marks[59] = 0;
    even(marks + 21, 7);
    even(marks + 29, 6);
    even(marks + 36, 22);
    return one_in(2) ? 60 : 59;
}

void make_recording(uint8_t *marks, size_t n)
{
    uint8_t run[80];
    size_t i = 0;
    while (i < n) {
        size_t length = 0;
        switch (below(10)) {
        case 0:
            length = below(4);
            memset(run, (int)below(2), length);
            break;
        case 1:
            length = make_bits(run);
            break;
        case 2:
            length = make_minute(run);
            damage_minute(run, length, 1 + below(2));
            break;
        case 3:
            length = 57 + below(6);
            memset(run, (int)below(2), length);
            break;
        default:
            length = make_minute(run);
            break;
        }
        if (!one_in(12))
            run[length++] = 2;
        length = length < n - i ? length : n - i;
        memcpy(marks + i, run, length);
        i += length;
    }
}

void make_line(uint8_t *s, size_t n)
{
    uint8_t piece[200];
    size_t i = 0;
    while (i < n) {
        size_t length = 0;
        switch (below(8)) {
        case 0:
            length = 1 + below(4);
            for (size_t j = 0; j < length; j++)
                piece[j] = (uint8_t)one_of("\002\003\003\r\nx ");
            break;
        case 1:
            length = below(90);
            for (size_t j = 0; j < length; j++)
                piece[j] = any_byte();
            break;
        case 2:
            length = 62 + below(12);
            memset(piece, 'x', length);
            piece[0] = 2;
            if (!one_in(3))
                piece[length - 1] = 3;
            break;
        case 3:
            length = make_string(GPS, piece);
            length = below(length);
            break;
        default:
            length = make_string((int)below(3), piece);
            if (one_in(2)) {
                piece[length++] = 13;
                piece[length++] = 10;
            }
            break;
        }
        length = length < n - i ? length : n - i;
        memcpy(s + i, piece, length);
        i += length;
    }
}

void make_state(uint8_t *state)
{
    memset(state, 0, 68);
    if (one_in(2))
        return;
    for (int i = 0; i < 66; i++)
        state[i] = any_byte();
    state[66] = one_in(4) ? any_byte() : one_in(3) ? (uint8_t)(63 + below(6)) : (uint8_t)below(67);
    state[67] = one_in(6) ? any_byte() : (uint8_t)below(4);
    if (state[67] == 1 && one_in(2))
        state[0] = 2;
}
