"""Document 01's rules for one DCF77 minute, in plain Python: from the paper, sharing nothing with the library."""
import rules
from rules import FIRST_YEAR, Refused

NUMBERS = dict(minute=(21, 3), hour=(29, 2), day=(36, 2), month=(45, 1), year=(50, 4))
DIGITS_OF_FOUR_BITS = (21, 29, 36, 45, 50, 54)
PARITIES = ((15, 21, 28), (16, 29, 35), (17, 36, 58))


def binary(m, at, count):
    """'Lowest bit first'"""
    return sum(m[at + i] << i for i in range(count))


def two_digits(m, name):
    at, tens = NUMBERS[name]
    return binary(m, at, 4) + 10 * binary(m, at + 4, tens)


@rules.checked
def read_minute(m, first_year=FIRST_YEAR):
    """'For a minute: 11, 12, 13, 14, 15, 16, 17, 18, 7, 5, 6, 19'"""
    if len(m) not in (59, 60):
        raise Refused(11)
    if any(mark > 1 for mark in m):
        raise Refused(12)
    if m[0] != 0 or m[20] != 1:
        raise Refused(13)
    if m[17] == m[18]:
        raise Refused(14)
    for number, first, last in PARITIES:
        if sum(m[first : last + 1]) % 2:
            raise Refused(number)
    if any(binary(m, at, 4) > 9 for at in DIGITS_OF_FOUR_BITS):
        raise Refused(18)
    flags = "".join(f for f, at in (("R", 15), ("!", 16), ("S", 17), ("A", 19)) if m[at])
    year = rules.full_year(two_digits(m, "year"), first_year)
    r = rules.reading(year, two_digits(m, "month"), two_digits(m, "day"), binary(m, 42, 3), two_digits(m, "hour"),
                      two_digits(m, "minute"), 0, 120 if m[17] else 60, flags)
    if r["weekday"] == 0:
        raise Refused(7)
    if not rules.date_exists(r["year"], r["month"], r["day"]):
        raise Refused(5)
    if not rules.time_exists(r["hour"], r["minute"], r["second"], r["offset"]):
        raise Refused(6)
    if len(m) == 60 and not (m[19] == 1 and m[59] == 0 and r["minute"] == 0):
        raise Refused(19)
    return dict(r, marks=binary(m, 1, 14), sixty=len(m) == 60)


def bits(value, count):
    return [value >> i & 1 for i in range(count)]


def with_parity(marks):
    return marks + [sum(marks) % 2]


def bcd(value, tens):
    return bits(value % 10, 4) + bits(value // 10, tens)


def marks_of(r):
    """The only marks that could announce a reading."""
    head = [0, *bits(r["marks"], 14), r["antenna"], r["change"], r["summer"], not r["summer"], r["leap"], 1]
    calendar = bcd(r["day"], 2) + bits(r["weekday"], 3) + bcd(r["month"], 1) + bcd(r["year"] % 100, 4)
    marks = head + with_parity(bcd(r["minute"], 3)) + with_parity(bcd(r["hour"], 2)) + with_parity(calendar)
    return [int(mark) for mark in marks] + ([0] if r["sixty"] else [])


def write_minute(r, first_year=FIRST_YEAR):
    """The marks that read as the reading, None where nothing does."""
    m = marks_of(r)
    return m if read_minute(m, first_year=first_year) == (0, r) else None


def run_number(m, first_year=FIRST_YEAR):
    """'the refusal number; or, accepted, 100 + 32 L + 16 (run of 60) + 8 (offset 120) + 4 antenna + 2 change + 1 leap,
    where L is local minutes from 1970-01-01 00:00'"""
    number, r = read_minute(m, first_year=first_year)
    if number:
        return number
    local = 1440 * rules.days_since_1970(r["year"], r["month"], r["day"]) + 60 * r["hour"] + r["minute"]
    flags = 16 * r["sixty"] + 8 * (r["offset"] == 120) + 4 * r["antenna"] + 2 * r["change"] + r["leap"]
    return 100 + 32 * local + flags
