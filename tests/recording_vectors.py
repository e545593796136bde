"""The sections of the table on tapes and sheets; the answers come from `recording_rules`, written from the paper."""
import random
from functools import lru_cache
from operator import mul

import minute_rules
import minute_vectors
import recording_rules
import rules
from minute_vectors import P3
from recording_rules import GAP, LONGEST

P4 = [GAP, *P3, GAP]
DAY = 86_400
LAST = DAY - 1
LEAP_MINUTE = 1500
POWERS = [1]
for _ in range(LONGEST):
    POWERS.append(POWERS[-1] * 16777619 % 2**32)


class Tape:
    """Marks, and how a line shows them: a digit for each, or no text at all for the long tape's first marks. The
    first year is that with which they are read."""

    def __init__(self, marks, text=None, first_year=rules.FIRST_YEAR):
        self.marks = list(marks)
        self.first_year = first_year
        self.text = ": " + minute_vectors.as_text(marks) if text is None else text

    def line(self, command, *numbers):
        return " ".join(map(str, (command, len(self.marks), *numbers))) + self.text


def minute(i):
    """Summer time ends after three hours; the second day has a leap second at 01:00."""
    days, minutes = divmod(i, 1440)
    flags = ("S" if i < 180 else "") + ("!" if minutes // 60 == 2 and not days else "") + ("R" if i % 7 == 0 else "")
    flags += "A" if 1440 < i <= LEAP_MINUTE else ""
    r = rules.reading(2006, 11, 8 + days, 3 + days, minutes // 60, minutes % 60, 0, 120 if i < 180 else 60, flags)
    return dict(r, marks=i, sixty=i == LEAP_MINUTE)


@lru_cache(maxsize=None)
def long_tape():
    """Minutes from the one that announces 8 November 2006 00:00 on, a gap after each; then unsure marks."""
    tape, i = [], 0
    while True:
        m = minute_rules.write_minute(minute(i))
        if len(tape) + len(m) > LONGEST + 1:
            return tape + [3] * (LONGEST + 1 - len(tape))
        tape += m
        if len(tape) < LONGEST + 1:
            tape.append(GAP)
        i += 1


def day(length=DAY):
    return Tape(long_tape()[:length], "")


def total(numbers):
    """A sum that depends on the order too: 16,777,619 times the sum so far and the next number, in 32 bits."""
    return sum(map(mul, reversed(numbers), POWERS)) % 2**32


def answer_of(rule, *arguments):
    try:
        return str(rule(*arguments))
    except rules.Refused as refused:
        return f"refused {refused.number}"


# What each command answers: the line, and the answer.


def at(place, tape):
    return tape.line("at", place), answer_of(recording_rules.outcome_at, tape.marks, place, tape.first_year)


def fill(count, tape):
    """How many numbers there are, and the sum of the sheet, which held 7 everywhere."""
    sheet = [7] * count
    answer = answer_of(recording_rules.fill, tape.marks, sheet, tape.first_year).replace("None", str(count))
    return tape.line("fill", count), f"{answer} {total(sheet)}"


def corrected(line, tape, sheet, place, mark):
    """How many numbers changed, then the sums of the tape, of the sheet, and of the sheet made anew."""
    marks = list(tape.marks)
    answer = answer_of(recording_rules.correct, marks, sheet, place, mark, tape.first_year)
    sums = f"{total(marks)} {total(sheet)}"
    answer_of(recording_rules.fill, marks, sheet, tape.first_year)
    return line, f"{answer} {sums} {total(sheet)}"


def correct(place, mark, tape):
    sheet = recording_rules.sheet_of(tape.marks, tape.first_year)
    return corrected(tape.line("correct", len(sheet), place, mark), tape, sheet, place, mark)


def mend(wrong_place, number, place, mark, tape):
    sheet = recording_rules.sheet_of(tape.marks, tape.first_year)
    sheet[wrong_place] = number
    return corrected(tape.line("mend", len(sheet), place, mark, wrong_place, number), tape, sheet, place, mark)


def unfit(count, place, mark, tape):
    return corrected(tape.line("unfit", count, place, mark), tape, [7] * count, place, mark)


# The sections.


def examples():
    """P4 to P9."""
    tape = Tape(P4)
    lines = [fill(61, tape), *(at(place, tape) for place in (0, 1, 30, 59, 60, 61))]
    lines += [correct(30, 2, tape), correct(60, 0, tape), correct(30, 0, tape), correct(61, 0, tape)]
    two_gaps = Tape([GAP, GAP])
    return lines + [fill(2, two_gaps), at(0, two_gaps), at(1, two_gaps)]


def every_place_and_mark():
    """Of P4: marks 0 to 3 are taken, 4 and 255 are not, and no place is past the end."""
    tape = Tape(P4)
    return [correct(place, mark, tape) for place in range(62) for mark in range(4)] + [
        correct(place, mark, tape) for place in (0, 30, 60, 61) for mark in (4, 255)]


def short_tapes():
    """No mark at all, no gap, one gap, gaps alone, and unsure marks."""
    few = ([], [0], [2], [1, 1], [2, 1], [1, 2], [2, 2, 2], [3, 2, 9, 2, 4])
    tapes = [Tape(m) for m in (*few, P3, [*P3, GAP], [GAP, *P3])]
    lines = [fill(len(t.marks), t) for t in tapes]
    lines += [at(place, t) for t in tapes for place in range(min(len(t.marks), 5) + 1)]
    for t in tapes:
        n = len(t.marks)
        lines += [correct(place, mark, t) for place in sorted({0, 1, max(n - 1, 0), n}) for mark in (0, 2, 3)]
    return lines


def leap_minutes():
    """A run of 60 marks, whole, with a mark too few and one too many, and two minutes that a gap parts."""
    leap = minute_rules.write_minute(minute_vectors.reading(hour=1, minute=0, leap=True, sixty=True))
    tape = Tape([GAP, *leap, *P4])
    joined = Tape([GAP, *P3, 3, *P3, GAP])
    lines = [fill(len(t.marks), t) for t in (tape, joined)] + [at(61, tape), at(121, tape)]
    lines += [correct(place, mark, tape) for place in (0, 1, 20, 60, 61, 62, 121) for mark in range(4)]
    return lines + [correct(place, mark, joined) for place in (0, 59, 60, 61, 120) for mark in range(4)]


def days_sheet():
    tape = day()
    lines = [fill(DAY, tape), fill(60, day(60)), fill(119, day(119)), fill(120, day(120))]
    places = (0, 58, 59, 60, 119, 120, 179, 7199, 10799, 10859, 43199, 86339, 86398, LAST, DAY)
    return lines + [at(place, tape) for place in places]


def days_corrections():
    """Inside a run, at a gap, a gap put in, the first and the last gap, before and after them, the same mark again."""
    tape = day()
    places = (0, 1, 30, 58, 59, 60, 61, 90, 118, 119, 120, 43170, 43199, 43200, 86338, 86339, 86340, 86370, 86398, LAST)
    lines = [correct(place, mark, tape) for place in places for mark in range(4)]
    own = [correct(place, tape.marks[place], tape) for place in (0, 59, 60, 119, 43199, LAST)]
    cut = day(DAY - 30)
    after = [correct(place, mark, cut) for place in (86339, 86340, 86360, 86369) for mark in range(4)]
    return lines + own + after + [correct(DAY, 2, tape), correct(30, 4, tape), correct(DAY, 4, tape)]


def random_corrections():
    chance = random.Random(6)
    tape = day()
    lines = [correct(chance.randrange(DAY), chance.randrange(4), tape) for _ in range(30)]
    return lines + [correct(60 * chance.randrange(1440) + 59, chance.randrange(4), tape) for _ in range(10)]


def wrong_sheets():
    """The numbers at the place and at the first gap after it are put right; every other stays, whatever it was."""
    tape = Tape(P4)
    lines = []
    for wrong in (0, 30, 60):
        for number in (0, 5, 4294967295):
            for place in (0, 30, 60):
                lines += [mend(wrong, number, place, mark, tape) for mark in (tape.marks[place], 2)]
    whole = day()
    cases = ((30, 5, 30, 0), (59, 5, 30, 0), (119, 5, 30, 0), (119, 11, 60, 1), (119, 0, 100, 2), (119, 5, 119, 2),
             (179, 5, 119, 2), (119, 5, 120, 0), (LAST, 5, 86350, 2), (LAST, 5, LAST, 2), (59, 5, LAST, 0),
             (43199, 1, 43170, 3))
    return lines + [mend(*case, whole) for case in cases]


def other_lengths():
    """20 before 21 and 22, and nothing changes."""
    tape = Tape(P4)
    lines = [fill(count, tape) for count in (0, 1, 60, 61, 62, 100)]
    for count in (0, 60, 62, 100):
        lines += [unfit(count, *case, tape) for case in ((30, 2), (30, 4), (61, 2), (99, 255))]
    lines += [unfit(61, *case, tape) for case in ((30, 2), (60, 0), (61, 2), (30, 4), (61, 4))]
    for count in (0, DAY - 1, DAY + 1):
        lines += [fill(count, day()), unfit(count, 30, 2, day())]
    return lines + [fill(1, Tape([])), unfit(1, 0, 0, Tape([]))]


def longest_tapes():
    """100,000 marks pass and 100,001 do not; the second day has a leap second."""
    more = LONGEST + 1
    longest, longer = day(LONGEST), day(more)
    lines = [fill(LONGEST, longest), fill(more, longer), fill(LONGEST, longer), fill(more, longest)]
    lines += [at(place, longest) for place in (90_060, 90_120, 99_960, 99_999, LONGEST)]
    lines += [at(place, longer) for place in (0, more)]
    cases = ((90_020, 2), (90_060, 0), (90_059, 1), (99_960, 0), (99_999, 2), (LONGEST, 2))
    lines += [correct(*case, longest) for case in cases]
    lines += [unfit(more, *case, longer) for case in ((30, 2), (more, 4))]
    return lines + [unfit(LONGEST, 30, 2, longer)]


def outcome(number):
    return f"outcome {number}", answer_of(recording_rules.outcome_time, number)


def outcome_times():
    """Each refusal's number and 0 are no time; nor is what no minute up to 2069 has, such as one of 60 marks without a
    leap second or after another minute than 0."""
    last = 100 + 32 * 36_525 * 1440 - 1
    numbers = [*range(30), 99, *range(100, 165), 620_265_028, last - 32, last - 31, *range(last - 24, last + 34)]
    hour = 100 + 32 * 60 * 324_000
    numbers += [*range(hour - 32, hour + 64)]
    numbers += [2**31 - 1, 2**31, 2**32 - 1]
    numbers += recording_rules.sheet_of(day().marks)[119::3600]
    numbers += [recording_rules.sheet_of(long_tape())[place] for place in (90_060, 90_120, 99_960)]
    return [outcome(number) for number in numbers]


SECTIONS = (
    ("Tapes of document 01", examples),
    ("Every place of P4 with every mark", every_place_and_mark),
    ("Short tapes", short_tapes),
    ("Leap minutes on a tape", leap_minutes),
    ("The sheet of a day's tape", days_sheet),
    ("Corrections on a day's tape", days_corrections),
    ("Corrections on a day's tape at random", random_corrections),
    ("Sheets that are not right", wrong_sheets),
    ("Sheets and tapes of other lengths", other_lengths),
    ("The longest tapes", longest_tapes),
    ("Unix times of outcomes", outcome_times),
)


def check_against_document():
    """P4 to P9, by the document's own numbers."""
    sheet = [10] + [0] * 59 + [620265028]
    assert recording_rules.sheet_of(P4) == sheet and recording_rules.sheet_of([GAP, GAP]) == [10, 11]
    for place, mark, count, mended in (30, 2, 2, {30: 11, 60: 11}), (60, 0, 1, {60: 0}), (30, 0, 0, {}):
        marks, numbers = list(P4), list(sheet)
        assert recording_rules.correct(marks, numbers, place, mark) == count
        assert numbers == [mended.get(i, number) for i, number in enumerate(sheet)]
    assert answer_of(recording_rules.correct, list(P4), list(sheet), 61, 0) == "refused 21"
    assert recording_rules.outcome_time(620265028) == 1162993140 and recording_rules.outcome_time(100) == -3600
