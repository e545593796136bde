/* samples DIR: makes DIR/elv.bin, DIR/trimble.bin and DIR/marks.bin, the samples that the collector is shown with. The
 * recording and the Trimble's strings run over the leap second at the end of 2016; all have faults in them. */
#include <stdio.h>
#include <stdlib.h>
#include <string.h>

#include "inputs.h"
#include "reference.h"

static FILE *open_sample(const char *folder, const char *name)
{
    char path[1000];
    snprintf(path, sizeof path, "%s/%s", folder, name);
    FILE *file = fopen(path, "wb");
    if (file == NULL) {
        perror(path);
        exit(1);
    }
    return file;
}

static void insist(uint8_t error)
{
    if (error != 0) {
        fprintf(stderr, "samples: refused %d\n", error);
        exit(1);
    }
}

/* Around the end of summer time 2016; the third string has no such hour. */
static void make_elv(FILE *file)
{
    int32_t times[][14] = {
        { 2016, 10, 30, 7, 2, 59, 58, 120, 0, 0, 1, 1 },
        { 2016, 10, 30, 7, 2, 0, 3, 60, 0, 0, 0, 0 },
        { 2016, 10, 30, 7, 2, 0, 8, 60, 0, 0, 0, 0 },
        { 2017, 1, 1, 7, 1, 0, 30, 60, 1, 0, 0, 0 },
    };
    for (size_t i = 0; i < sizeof times / sizeof times[0]; i++) {
        uint8_t s[21];
        size_t n = 0;
        insist(reference_write(3, REFERENCE_SENDS_U, REFERENCE_FIRST_YEAR, times[i], 14, s, sizeof s, &n));
        if (i == 2)
            memcpy(s + 9, "24", 2);
        fwrite(s, 1, n, file);
    }
}

/* Around the leap second, with CR and LF between the strings, where any bytes may stand. The third has the sum of other
 * bytes, the fourth v 0, the fifth has lost its end, and rrrrr of the last has < and > in it. */
static void make_trimble(FILE *file)
{
    int32_t times[][15] = {
        { 2016, 12, 31, 6, 23, 59, 59, 0, 0, 0, 0, 0, 0, 0, 120 },
        { 2016, 12, 31, 6, 23, 59, 60, 0, 0, 0, 0, 0, 0, 0, 121 },
        { 2017, 1, 1, 7, 0, 0, 0, 0, 0, 0, 0, 0, 0, 0, 122 },
        { 2017, 1, 1, 7, 0, 0, 1, 0, 0, 0, 0, 0, 0, 0, 123 },
        { 2017, 1, 1, 7, 0, 0, 2, 0, 0, 0, 0, 0, 0, 0, 124 },
        { 2017, 1, 1, 7, 0, 0, 30, 0, 0, 0, 0, 0, 0, 0, 5 },
    };
    for (size_t i = 0; i < sizeof times / sizeof times[0]; i++) {
        uint8_t s[37];
        size_t n = i == 4 ? 20 : sizeof s;
        put_trimble(times[i], s);
        memcpy(s + 21, "17009", 5);
        if (i == 5)
            memcpy(s + 27, "<a>b~", 5);
        mend_sum(s);
        if (i == 2)
            s[9]++;
        if (i == 3) {
            s[26] = '0';
            mend_sum(s);
        }
        fwrite(s, 1, n, file);
        fputs("\r\n", file);
    }
}

/* A cut minute, a gap, then the minutes that announce 00:58 to 01:02 on 1 January 2017. The one that announces 01:00
 * has 60 marks, and one mark of the next is unsure. */
static void make_marks(FILE *file)
{
    uint8_t marks[60] = { 0, 1, 0, 0, 1, 2 };
    size_t n = 6;
    fwrite(marks, 1, n, file);
    for (int32_t i = 0; i < 5; i++) {
        int32_t minute = (58 + i) % 60, leap = i <= 2;
        int32_t time[16] = { 2017, 1, 1, 7, i < 2 ? 0 : 1, minute, 0, 60, 0, 0, 0, 0, leap, 0, 1365, i == 2 };
        insist(reference_write_minute(REFERENCE_FIRST_YEAR, time, 16, marks, sizeof marks, &n));
        if (i == 3)
            marks[40] = 3;
        fwrite(marks, 1, n, file);
        fputc(2, file);
    }
}

int main(int argc, char **argv)
{
    if (argc != 2) {
        fputs("usage: samples DIR\n", stderr);
        return 2;
    }
    FILE *elv = open_sample(argv[1], "elv.bin"), *trimble = open_sample(argv[1], "trimble.bin");
    FILE *marks = open_sample(argv[1], "marks.bin");
    make_elv(elv);
    make_trimble(trimble);
    make_marks(marks);
    return fclose(elv) != 0 || fclose(trimble) != 0 || fclose(marks) != 0;
}
