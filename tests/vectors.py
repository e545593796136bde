#!/usr/bin/env python3
"""Writes the table of the program `vectors`, and what it has to answer.

Usage: vectors.py stdin > crates/vectors/stdin
       vectors.py stdout > crates/vectors/stdout

The answers come from Python's `datetime` and `calendar` and from the rules of documents 01 and 02, none from our own
code.
"""
import calendar
import random
import sys
from datetime import date, datetime, timedelta

import minute_vectors
import recording_vectors
import rules
import string_vectors
import trimble_vectors

NOT_UNDERSTOOD = "?"
NO_SUCH_DATE = "refused 5"
NO_VALID_READING = "refused 23"
EPOCH = datetime(1970, 1, 1)


# What each command answers: the line, and the answer.


def error(place):
    """Document 01 numbers its refusals from 1 to 23, in the order of its table; document 02 goes on with 24 and 25."""
    return f"error {place}", str(place + 1)


def leap(year):
    return f"leap {year}", truth(calendar.isleap(year))


def month(year, month):
    return f"month {year} {month}", str(rules.month_length(year, month))


def exists(year, month, day):
    return f"date {year} {month} {day}", truth(rules.date_exists(year, month, day))


def year(digits, first_year=rules.FIRST_YEAR):
    return f"year {digits}", str(rules.full_year(digits, first_year))


def day(year, month, day):
    answer = NO_SUCH_DATE
    if date_known(year, month, day):
        answer = str(rules.days_since_1970(year, month, day))
    return f"day {year} {month} {day}", answer


def weekday(year, month, day):
    answer = NO_SUCH_DATE
    if date_known(year, month, day):
        answer = str(rules.weekday_of(year, month, day))
    return f"weekday {year} {month} {day}", answer


def time(hour, minute, second, offset):
    return f"time {hour} {minute} {second} {offset}", truth(rules.time_exists(hour, minute, second, offset))


def unix(year, month, day, weekday, hour, minute, second, offset):
    """The weekday is only held to its range. Second 60 has the instant of the second after it."""
    answer = NO_VALID_READING
    valid = date_known(year, month, day) and rules.time_exists(hour, minute, second, offset)
    if valid and 1 <= weekday <= 7 and abs(offset) <= rules.LARGEST_OFFSET:
        utc = datetime(year, month, day, hour, minute) - timedelta(minutes=offset)
        answer = str((utc - EPOCH) // timedelta(seconds=1) + second)
    return f"unix {year} {month} {day} {weekday} {hour} {minute} {second} {offset}", answer


def not_understood(line):
    return line, NOT_UNDERSTOOD


# What several commands share.


def truth(holds):
    return "1" if holds else "0"


def date_known(year, month, day):
    return year in rules.YEARS and rules.date_exists(year, month, day)


def last_minute(offset):
    """The local hour and minute that the last minute of the UTC day has at an offset: the one with a second 60."""
    local = datetime(2000, 1, 1, 23, 59) + timedelta(minutes=offset)
    allowed = [m for m in range(1440) if rules.second_60_allowed(m // 60, m % 60, offset)]
    assert allowed == [60 * local.hour + local.minute]
    return local.hour, local.minute


# The table, a section at a time: a heading alone, or a line and its answer.


def errors():
    yield "The numbers of the errors, in the order of document 01"
    for place in range(25):
        yield error(place)


def leap_years():
    yield "Leap years: every year from 1970 to 2070"
    for y in range(1970, 2071):
        yield leap(y)
    yield "Years that end a century, and the ends of the type"
    for y in (1900, 2000, 2100, 2400, 0, 65535):
        yield leap(y)


def month_lengths():
    for y, note in (2000, "a leap year"), (2001, "a common year"), (1900, "a common year that ends a century"):
        yield f"The months of {y}, {note}"
        for m in range(1, 13):
            yield month(y, m)
    yield "No such month"
    for y in (2000, 2001):
        for m in (0, 13, 255):
            yield month(y, m)


def dates():
    yield "29 February"
    for y in (1900, 2000, 2001, 2004, 2069, 2100):
        yield exists(y, 2, 29)
    yield "The last days of months, and the days after them"
    for y in (2000, 2001):
        for m in range(1, 13):
            last = rules.month_length(y, m)
            yield exists(y, m, last)
            yield exists(y, m, last + 1)
    yield "No such day or month"
    for m, d in (1, 0), (6, 31), (12, 32), (12, 255), (0, 1), (0, 0), (13, 1), (255, 1), (255, 255):
        yield exists(2000, m, d)
    yield "Years that no clock sends"
    for y in (0, 1, 1969, 2070, 9999, 65535):
        yield exists(y, 2, 29)
        yield exists(y, 12, 31)


def two_digit_years():
    yield "Two digits of year mean 1970 to 2069; of a larger number the last two count"
    for digits in (0, 1, 69, 70, 99, 100, 169, 170, 199, 200, 255):
        yield year(digits)


YEAR_NOTES = {
    1970: ", the first year",
    1999: ", the last year that starts with 19",
    2000: ", the end of a century and a leap year all the same",
    2069: ", the last year",
}


def firsts_of_months():
    for y in rules.YEARS:
        yield f"The first of each month of {y}" + YEAR_NOTES.get(y, ", a leap year" if calendar.isleap(y) else "")
        for m in range(1, 13):
            yield day(y, m, 1)
            yield weekday(y, m, 1)


def other_days():
    yield "The ends of leap days and of years"
    ends = (1970, 12, 31), (1972, 2, 28), (1972, 2, 29), (1972, 12, 31), (1999, 12, 31), (2000, 2, 29), (2069, 12, 31)
    for y, m, d in ends:
        yield day(y, m, d)
        yield weekday(y, m, d)
    yield "No such date"
    for m, d in (2, 29), (6, 31), (1, 0), (12, 32), (1, 255), (0, 1), (13, 1), (255, 255):
        yield day(2001, m, d)
        yield weekday(2001, m, d)
    yield "Before the first year and after the last"
    for y, m, d in (1969, 12, 31), (2070, 1, 1), (0, 1, 1), (65535, 12, 31):
        yield day(y, m, d)
        yield weekday(y, m, d)


def times():
    yield "The ends of the day"
    for h, m, s in (0, 0, 0), (23, 59, 59), (24, 0, 0), (23, 60, 0), (255, 0, 0), (0, 255, 0), (0, 0, 255):
        yield time(h, m, s, 0)
    for offset in (0, 60, 120, -60, 840, -840, 330, 841, -841, 1440, -1440, 32767, -32768):
        h, m = last_minute(offset)
        yield f"Second 60 at offset {offset}: at {h:02}:{m:02}, and no minute before or after"
        for away in (-1, 0, 1):
            near = (60 * h + m + away) % 1440
            yield time(near // 60, near % 60, 60, offset)
        yield time(h, m, 59, offset)
        yield time(h, m, 61, offset)
    yield "An offset matters for second 60 alone"
    for offset in (841, -841, 32767, -32768):
        yield time(12, 30, 59, offset)
        yield time(12, 30, 60, offset)
    yield "Second 60 at no time of day"
    yield time(24, 59, 60, 60)
    yield time(23, 119, 60, 60)


def unix_times():
    yield "The instants that document 01 names"
    yield unix(2006, 11, 8, 3, 14, 39, 39, 0)
    yield unix(1970, 1, 1, 4, 0, 0, 0, 60)
    yield "The first and the last instant, by the offset"
    for offset in (0, 60, -60, 840, -840):
        yield unix(1970, 1, 1, 4, 0, 0, 0, offset)
        yield unix(2069, 12, 31, 2, 23, 59, 59, offset)
    yield "Second 60 has the instant of the second after it"
    yield unix(2016, 12, 31, 6, 23, 59, 59, 0)
    yield unix(2016, 12, 31, 6, 23, 59, 60, 0)
    yield unix(2017, 1, 1, 7, 0, 0, 0, 0)
    yield unix(2017, 1, 1, 7, 0, 59, 60, 60)
    yield unix(2017, 1, 1, 7, 1, 0, 0, 60)
    yield unix(2015, 7, 1, 3, 1, 59, 60, 120)
    yield unix(1970, 1, 1, 4, 0, 59, 60, 60)
    yield unix(2069, 12, 31, 2, 23, 59, 60, 0)


def refused_unix_times():
    good = dict(year=2006, month=11, day=8, weekday=3, hour=14, minute=39, second=39, offset=0)
    yield "One field at a time, inside its range and outside"
    for field, values in (
        ("year", (1970, 2069, 1969, 2070, 0, 65535)),
        ("month", (1, 12, 0, 13, 200, 255)),
        ("day", (1, 30, 0, 31, 255)),
        ("weekday", (1, 7, 0, 8, 255)),
        ("hour", (0, 23, 24, 255)),
        ("minute", (0, 59, 60, 255)),
        ("second", (0, 59, 60, 61, 255)),
        ("offset", (840, -840, 841, -841, 32767, -32768)),
    ):
        for value in values:
            yield unix(**{**good, field: value})
    yield "Dates and times that are none"
    for y, m, d in (2000, 2, 29), (2001, 2, 29), (2001, 6, 30), (2001, 6, 31), (2001, 12, 31):
        yield unix(**{**good, "year": y, "month": m, "day": d})
    for h, m, s in (23, 59, 60), (23, 58, 60), (0, 0, 60), (24, 0, 0), (23, 60, 0), (23, 59, 61):
        yield unix(**{**good, "hour": h, "minute": m, "second": s})
    yield "The weekday is not held to the date"
    for w in range(1, 8):
        yield unix(**{**good, "weekday": w})


def random_unix_times():
    numbers = random.Random(1)
    first, last = date(rules.YEARS[0], 1, 1).toordinal(), date(rules.YEARS[-1], 12, 31).toordinal()

    def any_day():
        drawn = date.fromordinal(numbers.randint(first, last))
        return drawn.year, drawn.month, drawn.day, numbers.randint(1, 7)

    yield "Valid clock times at random"
    for _ in range(270):
        clock = numbers.randint(0, 23), numbers.randint(0, 59), numbers.randint(0, 59)
        yield unix(*any_day(), *clock, numbers.randint(-840, 840))
    yield "Second 60 at random"
    for _ in range(30):
        offset = numbers.randint(-840, 840)
        yield unix(*any_day(), *last_minute(offset), 60, offset)


def lines_not_understood():
    yield "Numbers that don't fit"
    for line in (
        "leap 65536", "leap 18446744073709551616", "leap 340282366920938463463374607431768211456", "leap -1",
        "month 2000 256", "month 65536 1", "date 2000 1 256", "date 2000 256 1", "year 256", "day 70000 1 1",
        "weekday 2000 1 -1", "time 256 0 0 0", "time 0 0 0 32768", "time 0 0 0 -32769",
        "unix 2006 11 8 3 14 39 39 65536", "unix 2006 11 8 256 14 39 39 0",
    ):
        yield not_understood(line)
    yield "Lines that are no command"
    for line in (
        "leap", "leap ", "leap x", "leap 2000 1", "leap 2000x", "leap +4", "leap 0x10", "leap -", "Leap 2000",
        "leapyear 2000", "month 2000", "month 2000 1 1", "date 2000 1", "year", "time 0 0 0", "time 0 0 0 -",
        "time 0 0 0 --1", "time 0 0 0 +1", "unix 2006 11 8 3 14 39 39", "unix 2006 11 8 3 14 39 39 0 0", "error",
        "errors", "erro", "? 1", "=", "x",
    ):
        yield not_understood(line)


SECTIONS = (
    errors,
    leap_years,
    month_lengths,
    dates,
    two_digit_years,
    firsts_of_months,
    other_days,
    times,
    unix_times,
    refused_unix_times,
    random_unix_times,
    lines_not_understood,
)


def check_against_document():
    """What document 01 itself names."""
    assert unix(2006, 11, 8, 3, 14, 39, 39, 0)[1] == "1162996779"
    assert unix(1970, 1, 1, 4, 0, 0, 0, 60)[1] == "-3600"
    assert exists(2000, 2, 29)[1] == "1" and exists(2001, 2, 29)[1] == "0"
    assert time(24, 0, 0, 0)[1] == "0" and time(0, 59, 60, 60)[1] == "1"


def main():
    if sys.argv[1:] not in (["stdin"], ["stdout"]):
        sys.exit(__doc__)
    check_against_document()
    string_vectors.check_against_document()
    minute_vectors.check_against_document()
    recording_vectors.check_against_document()
    trimble_vectors.check_against_document()
    named = (*string_vectors.SECTIONS, *minute_vectors.SECTIONS, *recording_vectors.SECTIONS, *trimble_vectors.SECTIONS)
    for section in (*SECTIONS, *map(with_heading, named)):
        for row in section():
            if isinstance(row, str):
                print(f"# {row}")
            else:
                line, answer = row
                print(line if sys.argv[1] == "stdin" else f"{line} = {answer}")
        print()


def with_heading(named):
    heading, section = named
    return lambda: [heading, *section()]


if __name__ == "__main__":
    main()
