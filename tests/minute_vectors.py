"""The sections of the table on DCF77 minutes; the answers come from `minute_rules`, written from the paper."""
import random

import minute_rules
import rules
from rules import FIRST_YEAR
from string_vectors import KINDS, answer_of, fields, written

HEAD = [0] * 18 + [1, 0, 1]
P3 = HEAD + [int(mark) for mark in "10011100" "0010100" "00010011010001011000001"]
GROUPS = [(first, last) for _, first, last in minute_rules.PARITIES]


def as_text(m):
    return "".join(map(str, m))


def changed(m, **marks):
    """The marks with others at some places, named p0, p1, .."""
    m = list(m)
    for place, mark in marks.items():
        m[int(place[1:])] = mark
    return m


def flipped(m, *places):
    return [1 - mark if i in places else mark for i, mark in enumerate(m)]


# What each command answers: the line, and the answer.


def read(m, first_year=FIRST_YEAR):
    return f"read {KINDS['minute']}: {as_text(m)}", answer_of(*minute_rules.read_minute(m, first_year=first_year))


def run(m, first_year=FIRST_YEAR):
    return f"run: {as_text(m)}", str(minute_rules.run_number(m, first_year))


def write(r, room, first_year=FIRST_YEAR):
    m = minute_rules.write_minute(r, first_year)
    return written(f"write {KINDS['minute']} {fields(r)}", None if m is None else bytes(m), room, base=48)


def both(m):
    return [read(m), run(m)]


# The sections.


def reading(**changes):
    r = minute_rules.read_minute(P3)[1]
    r.update(changes)
    return r


def made(**changes):
    """The marks of P3's reading with some fields changed, accepted or not."""
    return minute_rules.marks_of(reading(**changes))


def examples():
    """P3, P10 and P11."""
    return both(P3) + both(changed(P3, p28=1)) + both(P3 + [0])


def one_mark_flipped():
    return [line for i in range(59) for line in both(flipped(P3, i))]


def two_marks_flipped():
    """Two of one parity group: the parity holds again."""
    pairs = ((i, j) for first, last in GROUPS for i in range(first, last + 1) for j in range(i + 1, last + 1))
    return [read(flipped(P3, i, j)) for i, j in pairs]


def zones():
    return [line for a in (0, 1) for b in (0, 1) for line in both(changed(P3, p17=a, p18=b))]


def digits_above_9():
    lines = []
    for at in minute_rules.DIGITS_OF_FOUR_BITS:
        first, last = next(group for group in GROUPS if at <= group[1])
        for digit in range(8, 16):
            m = list(P3)
            m[at : at + 4] = minute_rules.bits(digit, 4)
            m[first : last + 1] = minute_rules.with_parity(m[first:last])
            lines.append(read(m))
    return lines


def dates():
    days = ((31, 6, 2006), (30, 6, 2006), (29, 2, 2000), (29, 2, 2001), (0, 1, 2006), (8, 0, 2006), (8, 13, 2006),
            (31, 12, 2069), (1, 1, 1970), (39, 1, 2006))
    lines = [line for d, m, y in days for line in both(made(day=d, month=m, year=y))]
    return lines + [read(made(weekday=w)) for w in range(8)]


def times():
    lines = [read(made(minute=n)) for n in (0, 59, 60, 61, 79)] + [read(made(hour=h)) for h in (0, 23, 24, 29, 39)]
    return lines + [read(made(hour=24, weekday=0)), read(made(day=31, month=6, hour=24)),
                    read(made(day=31, month=6, weekday=0))]


def lengths():
    lines = [read(P3[:n]) for n in (0, 1, 58)] + [read(P3 + [0] * n) for n in (1, 2, 5)]
    return lines + [read([3] * 58), read([3] * 61)]


def unsure_marks():
    lines = [read(changed(P3, **{f"p{i}": mark})) for i in (0, 1, 14, 20, 28, 58) for mark in (2, 3, 9)]
    return lines + [read(P3 + [2]), read(P3 + [3])]


def leap_minutes():
    """60 marks: mark 19 long, mark 59 short, minute 0 announced, and no other condition."""
    leap = made(minute=0, hour=1, day=1, month=1, leap=True, sixty=True)
    minutes = (leap, changed(leap, p19=0), leap[:59] + [1], made(minute=1, hour=1, leap=True, sixty=True), leap[:59],
               made(minute=0, hour=17, leap=True, sixty=True))
    return [line for m in minutes for line in both(m)]


def changes_of_zone():
    """Over the change to summer time and back: the zone is that of the announced time."""
    cases = (dict(day=26, month=3, hour=1, minute=59, change=True),
             dict(day=26, month=3, hour=3, minute=0, change=True, summer=True, offset=120),
             dict(day=29, month=10, hour=2, minute=59, change=True, summer=True, offset=120),
             dict(day=29, month=10, hour=2, minute=0, change=True))
    return [line for c in cases for line in both(made(**c))]


def other_minutes():
    chance = random.Random(4)
    lines = []
    for _ in range(150):
        r = random_minute(chance)
        m = minute_rules.marks_of(r)
        for _ in range(chance.choice((0, 0, 1, 2))):
            m[chance.randrange(len(m))] = chance.choice((0, 1, 1, 2))
        lines += both(m)
    return lines


def random_minute(chance):
    summer = chance.random() < 0.5
    return reading(year=chance.choice(rules.YEARS), month=chance.randrange(1, 13), day=chance.randrange(1, 29),
                   weekday=chance.randrange(1, 8), hour=chance.randrange(24), minute=chance.randrange(60),
                   summer=summer, offset=120 if summer else 60, change=chance.random() < 0.3,
                   leap=chance.random() < 0.3, antenna=chance.random() < 0.3, marks=chance.randrange(1 << 14))


def room():
    lines = [write(reading(), n) for n in (0, 58, 59, 60, 65)]
    leap = reading(minute=0, leap=True, sixty=True)
    return lines + [write(leap, n) for n in (59, 60, 61)] + [write(reading(month=200), n) for n in (0, 70)]


def refused_readings():
    changes = (dict(year=1969), dict(year=1970), dict(year=2069), dict(year=2070), dict(year=65535), dict(month=0),
               dict(month=13), dict(month=255), dict(day=0), dict(day=31), dict(day=40), dict(weekday=0),
               dict(weekday=8), dict(weekday=5), dict(hour=24), dict(hour=255), dict(minute=60), dict(minute=255),
               dict(second=1), dict(second=60), dict(offset=0), dict(offset=120), dict(offset=-60), dict(summer=True),
               dict(summer=True, offset=120), dict(unsynchronised=True), dict(unverified=True), dict(change=True),
               dict(leap=True), dict(antenna=True), dict(marks=16383), dict(marks=16384), dict(marks=65535),
               dict(sixty=True), dict(sixty=True, leap=True), dict(sixty=True, leap=True, minute=0),
               dict(sixty=True, minute=0))
    chance = random.Random(5)
    return [write(reading(**c), 60) for c in changes] + [write(random_minute(chance), 60) for _ in range(60)]


SECTIONS = (
    ("Minutes of document 01", examples),
    ("One mark flipped", one_mark_flipped),
    ("Two marks of a parity group flipped", two_marks_flipped),
    ("Zones", zones),
    ("Decimal digits above 9", digits_above_9),
    ("Dates of minutes", dates),
    ("Times of minutes", times),
    ("Lengths of runs", lengths),
    ("Unsure marks", unsure_marks),
    ("Leap minutes", leap_minutes),
    ("Changes of zone", changes_of_zone),
    ("Random minutes", other_minutes),
    ("Room for minutes", room),
    ("Readings that a minute can't carry", refused_readings),
)


def check_against_document():
    """P3, P10 and P11, by the document's own numbers."""
    assert minute_rules.run_number(P3) == 620265028
    assert minute_rules.run_number(changed(P3, p28=1)) == 15 and minute_rules.run_number(P3 + [0]) == 19
