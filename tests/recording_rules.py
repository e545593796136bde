"""Document 01's rules for a tape, its sheet and the correction of a mark, in plain Python: written from the paper."""
from datetime import datetime, timedelta
from functools import lru_cache
from operator import ne

import minute_rules
from rules import FIRST_YEAR, Refused

LONGEST = 100_000
GAP = 2

run_number = lru_cache(maxsize=None)(minute_rules.run_number)


def sheet_of(tape, first_year=FIRST_YEAR):
    """'0 where there is no gap; at a gap the refusal number', 10 at the first; or the number of the accepted minute."""
    sheet = [0] * len(tape)
    place = -1
    for gaps_before, run in enumerate(bytes(tape).split(bytes([GAP]))[:-1]):
        place += len(run) + 1
        sheet[place] = run_number(run, first_year) if gaps_before else 10
    return sheet


def check_lent(tape, sheet):
    """20: 'sheet and tape lengths differ, tape over 100,000'"""
    if len(tape) != len(sheet) or len(tape) > LONGEST:
        raise Refused(20)


def outcome_at(tape, place, first_year=FIRST_YEAR):
    if len(tape) > LONGEST:
        raise Refused(20)
    if place >= len(tape):
        raise Refused(21)
    return sheet_of(tape, first_year)[place]


def fill(tape, sheet, first_year=FIRST_YEAR):
    check_lent(tape, sheet)
    sheet[:] = sheet_of(tape, first_year)


def correct(tape, sheet, place, mark, first_year=FIRST_YEAR):
    """'For a correction: 20, 21, 22.' Mends the number at the place and at the first gap after it, and counts."""
    check_lent(tape, sheet)
    if place >= len(tape):
        raise Refused(21)
    if mark > 3:
        raise Refused(22)
    before = list(sheet)
    tape[place] = mark
    right = sheet_of(tape, first_year)
    for i in (place, next_gap(tape, place)):
        if i is not None:
            sheet[i] = right[i]
    return sum(map(ne, before, sheet))


def next_gap(tape, place):
    """'the nearest later place whose mark is 2'"""
    at = bytes(tape).find(GAP, place + 1)
    return None if at < 0 else at


def outcome_time(number, first_year=FIRST_YEAR):
    """Seconds from 1970 to the instant that an accepted minute's number announces: L and the offset are in it. 23 if no
    accepted minute has the number; a run of 60 has the leap second's mark and announces minute 0."""
    minutes, flags = divmod(number - 100, 32)
    local = datetime(1970, 1, 1) + timedelta(minutes=minutes)
    if number < 100 or local.year > first_year + 99 or flags & 16 and (not flags & 1 or local.minute):
        raise Refused(23)
    utc = local - timedelta(minutes=120 if flags & 8 else 60)
    return (utc - datetime(1970, 1, 1)) // timedelta(seconds=1)
