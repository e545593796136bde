/* The examples of document 01 by their numbers there, with what it says of them; and strings of a Trimble, with what
 * document 02 says of each. */
#include "examples.h"

#include <stdint.h>
#include <stdio.h>
#include <string.h>

#include "radio_clock.h"
#include "reference.h"

/* The functions under their two names. */
struct api {
    const char *name;
    uint8_t (*read)(uint8_t, const uint8_t *, size_t, int32_t *, size_t);
    uint8_t (*read_trimble)(const uint8_t *, size_t, int32_t *, size_t);
    uint8_t (*read_minute)(const uint8_t *, size_t, int32_t *, size_t);
    uint8_t (*unix_time)(const int32_t *, size_t, int64_t *);
    uint8_t (*fill_outcomes)(const uint8_t *, size_t, uint32_t *, size_t);
    uint8_t (*correct_mark)(uint8_t *, size_t, uint32_t *, size_t, size_t, uint8_t, size_t *);
};

/* The reference as document 01 takes receivers and years. */

static uint8_t read_string(uint8_t kind, const uint8_t *s, size_t n, int32_t *fields, size_t room)
{
    size_t place = 0;
    return reference_read(kind, REFERENCE_SENDS_U, REFERENCE_FIRST_YEAR, s, n, fields, room, &place);
}

static uint8_t read_trimble(const uint8_t *s, size_t n, int32_t *fields, size_t room)
{
    size_t place = 0;
    return reference_read_trimble(REFERENCE_FIRST_YEAR, s, n, fields, room, &place);
}

static uint8_t read_minute(const uint8_t *marks, size_t n, int32_t *fields, size_t room)
{
    return reference_read_minute(REFERENCE_FIRST_YEAR, marks, n, fields, room);
}

static uint8_t fill_outcomes(const uint8_t *marks, size_t n, uint32_t *outcomes, size_t count)
{
    return reference_fill_outcomes(REFERENCE_FIRST_YEAR, marks, n, outcomes, count);
}

static uint8_t correct_mark(uint8_t *marks, size_t n, uint32_t *outcomes, size_t count, size_t place, uint8_t mark,
                            size_t *changed)
{
    return reference_correct_mark(REFERENCE_FIRST_YEAR, marks, n, outcomes, count, place, mark, changed);
}

static const struct api apis[] = {
    { "library", radio_clock_read, radio_clock_read_trimble, radio_clock_read_minute, radio_clock_unix_time,
      radio_clock_fill_outcomes, radio_clock_correct_mark },
    { "reference", read_string, read_trimble, read_minute, reference_unix_time, fill_outcomes, correct_mark },
};

static bool passed;

static void check(const struct api *api, bool holds, const char *example)
{
    if (!holds) {
        printf("example failed on the %s: %s\n", api->name, example);
        passed = false;
    }
}

/* P3: marks 0 to 20 all 0 but 18 and 20, then the bits as the document prints them. */
static void make_p3(uint8_t *marks)
{
    static const char bits[] = "00000000000000000010110011100001010000010011010001011000001";
    for (size_t i = 0; i < 59; i++)
        marks[i] = (uint8_t)(bits[i] - '0');
}

static void run_strings(const struct api *api)
{
    static const struct {
        uint8_t kind;
        const char *string;
        uint8_t answer;
        const char *what;
    } examples[] = {
        { 2, "\00209.07.93; 5; 08:48:26; +00:00;        ; 49.5736N  11.0280E  373m\003", 0, "P1" },
        { 2, "\00209.07.93; 5; 08:48:26; +14:00;        ; 49.5736N  11.0280E  373m\003", 0, "14:00" },
        { 2, "\00209.07.93; 5; 08:48:26; +14:01;        ; 49.5736N  11.0280E  373m\003", 8, "14:01" },
        { 2, "\00209.07.93; 5; 08:48:26; -00:00;        ; 49.5736N  11.0280E  373m\003", 8, "-00:00" },
        { 2, "\00209.07.93; 5; 08:48:26; +00:00;        ; 90.0000N  11.0280E  373m\003", 0, "90.0000" },
        { 2, "\00209.07.93; 5; 08:48:26; +00:00;        ; 90.0001N  11.0280E  373m\003", 9, "90.0001" },
        { 2, "\00209.07.93; 5; 08:48:26; +00:00;        ;  0.0000N  11.0280E  373m\003", 0, "0.0000N" },
        { 2, "\00209.07.93; 5; 08:48:26; +00:00;        ;  0.0000S  11.0280E  373m\003", 9, "0.0000S" },
        { 2, "\00231.12.16; 6; 23:59:60; +00:00;       L; 49.5736N  11.0280E  373m\003", 0, "second 60" },
        { 2, "\00231.12.16; 6; 23:59:60; +00:00;        ; 49.5736N  11.0280E  373m\003", 6, "second 60 without L" },
        { 1, "\00201.01.17; 7; 00:59:60;        \003", 0, "second 60 at +60" },
        { 1, "\00201.01.17; 7; 00:59:60; U      \003", 6, "second 60 at 00:59 UTC" },
        { 0, "\002D:29.02.00;T:2;U:14.39.39;    \003", 0, "29.02.2000" },
        { 0, "\002D:29.02.01;T:4;U:14.39.39;    \003", 5, "29.02.2001" },
        { 0, "\002D:31.06.06;T:6;U:14.39.39;    \003", 5, "day 31 in June" },
        { 0, "\002D:08.11.06;T:3;U:14.39.39;    \003", 0, "the listing's first string" },
        { 1, "\00208.11.06; 3; 24:00:00; U      \003", 6, "the listing's second string" },
        { 3, "06-11-08-14-39-39-07\r", 0, "ELV" },
        { 3, "06-11-08-14-39-39-08\r", 4, "ELV with FF 08" },
    };
    int32_t fields[17];
    for (size_t i = 0; i < sizeof examples / sizeof examples[0]; i++) {
        const uint8_t *s = (const uint8_t *)examples[i].string;
        uint8_t answer = api->read(examples[i].kind, s, strlen(examples[i].string), fields, 17);
        check(api, answer == examples[i].answer, examples[i].what);
        if (i == 0)
            check(api, fields[0] == 1993 && fields[3] == 5 && fields[14] == 495736 && fields[15] == 110280,
                  "P1's fields");
    }
}

/* The sums were worked out by hand from that of the first string: a byte that changes changes it by its difference. */
static void run_trimble(const struct api *api)
{
    static const struct {
        const char *string;
        uint8_t answer;
        const char *what;
    } examples[] = {
        { ">RTM1439391230811200614007100000;*6E<", 0, "a Trimble string" },
        { ">RTM1439391230811200614007100000;*6e<", 24, "a sum in small letters" },
        { ">RTM1439391230811200614007100000;*7F<", 24, "the sum without ;*" },
        { ">RTM1439391230811200614007000000;*6F<", 25, "v 0" },
        { ">RTM1439391230811200614007000000;*6E<", 24, "v 0 and the sum of v 1" },
        { ">RTM1439391230811200614007\26100000;*EE<", 25, "v 177, whose sum is above 127" },
        { ">RTM143939123081120061400710000~;*20<", 0, "~ in rrrrr" },
        { ">RTM143939123081120061400710000\177;*21<", 2, "127 in rrrrr" },
        { ">RTM143939123081120061400710000 ;*7E<", 0, "a blank in rrrrr" },
        { ">RTM143939123081120061400710000\037;*41<", 2, "31 in rrrrr" },
        { ">RTM1439x9123081120061400710000\177;*xx<", 2, "127 in rrrrr, a letter in ss and no sum" },
        { ">RTM1439x91230811200614007000000;*xx<", 3, "a letter in ss, v 0 and no sum" },
        { ">RTM14393912308112006x4007100000;*27<", 3, "a letter in oo" },
        { ">RTM1439391230811200699999100000;*65<", 0, "other digits in oo, d and nn" },
        { ">RTM1439391230811196914007100000;*6D<", 5, "1969" },
        { ">RTM1439391230811197014007100000;*65<", 0, "1970" },
        { ">RTM1439391230811206914007100000;*67<", 0, "2069" },
        { ">RTM1439391230811207014007100000;*6F<", 5, "2070" },
        { ">RTM1439391230811000614007100000;*6C<", 5, "0006" },
        { ">RTM1439391232902200014007100000;*69<", 0, "29.02.2000" },
        { ">RTM1439391232902200114007100000;*68<", 5, "29.02.2001" },
        { ">RTM1439391232902210014007100000;*68<", 5, "29.02.2100" },
        { ">RTM2359601230811200614007100000;*60<", 0, "second 60 at 23:59" },
        { ">RTM2259601230811200614007100000;*61<", 6, "second 60 at 22:59" },
        { ">RTM143939123081120061400710000;*5E<", 1, "36 bytes" },
    };
    int32_t fields[15];
    for (size_t i = 0; i < sizeof examples / sizeof examples[0]; i++) {
        const uint8_t *s = (const uint8_t *)examples[i].string;
        uint8_t answer = api->read_trimble(s, strlen(examples[i].string), fields, 15);
        check(api, answer == examples[i].answer, examples[i].what);
        if (i == 0)
            check(api,
                  fields[0] == 2006 && fields[1] == 11 && fields[2] == 8 && fields[3] == 3 && fields[4] == 14 &&
                      fields[5] == 39 && fields[6] == 39 && fields[7] == 0 && fields[14] == 123,
                  "a Trimble string's fields");
    }
    check(api, api->read(3, (const uint8_t *)examples[0].string, 37, fields, 15) == 1, "a Trimble string as ELV");
}

static void run_instants(const struct api *api)
{
    static const int32_t p2[14] = { 2006, 11, 8, 3, 14, 39, 39, 0 }, first[14] = { 1970, 1, 1, 4, 0, 0, 0, 60 };
    int64_t time = 0;
    check(api, api->unix_time(p2, 14, &time) == 0 && time == 1162996779, "P2");
    check(api, api->unix_time(first, 14, &time) == 0 && time == -3600, "1 January 1970 at +60");
}

static void run_marks(const struct api *api)
{
    uint8_t p3[61], tape[62], copy[62];
    uint32_t sheet[62], mended[62];
    int32_t fields[16];
    size_t changed = 99;
    make_p3(p3);
    check(api,
          api->read_minute(p3, 59, fields, 16) == 0 && fields[0] == 2006 && fields[1] == 11 && fields[2] == 8 &&
              fields[3] == 3 && fields[4] == 14 && fields[5] == 39 && fields[7] == 60,
          "P3");
    tape[0] = 2;
    memcpy(tape + 1, p3, 59);
    tape[60] = 2;
    check(api, api->fill_outcomes(tape, 61, sheet, 61) == 0 && sheet[0] == 10 && sheet[60] == 620265028, "P4");
    for (size_t i = 1; i < 60; i++)
        check(api, sheet[i] == 0, "P4, the rest");
    memcpy(copy, tape, 61);
    memcpy(mended, sheet, sizeof sheet);
    check(api, api->correct_mark(copy, 61, mended, 61, 30, 2, &changed) == 0 && changed == 2, "P5's count");
    check(api, mended[30] == 11 && mended[60] == 11, "P5");
    memcpy(copy, tape, 61);
    memcpy(mended, sheet, sizeof sheet);
    check(api, api->correct_mark(copy, 61, mended, 61, 60, 0, &changed) == 0 && changed == 1, "P6's count");
    check(api, mended[60] == 0 && copy[60] == 0, "P6");
    memcpy(copy, tape, 61);
    memcpy(mended, sheet, sizeof sheet);
    check(api, api->correct_mark(copy, 61, mended, 61, 30, tape[30], &changed) == 0 && changed == 0, "P7");
    check(api, api->correct_mark(copy, 61, mended, 61, 61, 0, &changed) == 21, "P8");
    tape[1] = 2;
    check(api, api->fill_outcomes(tape, 2, sheet, 2) == 0 && sheet[0] == 10 && sheet[1] == 11, "P9");
    p3[28] = 1;
    check(api, api->read_minute(p3, 59, fields, 16) == 15, "P10");
    p3[28] = 0;
    p3[59] = 0;
    check(api, api->read_minute(p3, 60, fields, 16) == 19, "P11");
}

bool run_examples(void)
{
    passed = true;
    for (size_t i = 0; i < sizeof apis / sizeof apis[0]; i++) {
        run_strings(&apis[i]);
        run_trimble(&apis[i]);
        run_instants(&apis[i]);
        run_marks(&apis[i]);
    }
    return passed;
}
