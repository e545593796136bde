"""The sections of the table on Trimble strings; the answers come from `rules`, written from the papers."""
import itertools
import random

import rules
import string_vectors
from string_vectors import PRINTABLE, as_text, put

ORDER = (1, 2, 3, 24, 25, 5, 6)
V, RRRRR, XX, LENGTH = 26, range(27, 32), 34, 37


def mended(s):
    """The string with the sum that its places 0 to 33 have."""
    return s[:XX] + rules.trimble_sum(s) + s[XX + 2 :]


# 14:39:39.123 on 8 November 2006; oo is 14, d is 0, nn is 07. By hand, `>RTM` gives 75, all digits 0B, v 31, rrrrr 30
# and `;*` 11: together 6E.
SAMPLE = b">RTM1439391230811200614007100000;*6E<"


def edited(*edits):
    """The sample with texts at places, and then the sum that it has."""
    s = SAMPLE
    for at, text in edits:
        s = put(s, at, text)
    return mended(s)


def trimble(s):
    """The command's line, and its answer: 15 numbers, the milliseconds last. Nothing is written back."""
    number, r = rules.read_trimble(s)
    return f"trimble: {as_text(s)}", f"refused {number}" if number else string_vectors.fields(r)


# The sections.


def lengths():
    """1; the poll `>QTM<` and nothing at all are too short."""
    cut = [SAMPLE[:-1], SAMPLE[1:], SAMPLE + b"<", b">" + SAMPLE, SAMPLE + b"\r", b"", b"<", b">QTM<", SAMPLE * 2]
    return [trimble(s) for s in (SAMPLE, *cut)]


def every_v():
    """25 with the right sum, unless it is `1`; with the sum of `1` it is 24."""
    values = [edited((V, chr(b))) for b in range(256)]
    return [trimble(s) for s in values] + [trimble(put(SAMPLE, V, text)) for text in "0 2AV\x00\xff"]


def every_byte_of_rrrrr():
    return [trimble(edited((i, chr(b)))) for i in RRRRR for b in range(256)]


def every_byte_of_the_sum():
    return [trimble(put(SAMPLE, i, chr(b))) for i in (XX, XX + 1) for b in range(256)]


def with_sum(total, s):
    """The string with other bytes at 30 and 31, so that its sum is the one named."""
    rest = total ^ rules.exclusive_or(s[:30] + s[32:XX])
    two = next(chr(a) + chr(b) for a in PRINTABLE for b in PRINTABLE if a ^ b == rest)
    return mended(put(s, 30, two))


def every_sum():
    """A sum below 128, as every accepted string has: capital letters are taken and small ones are not. A sum of 128 and
    more comes with a v above 127 only."""
    below = [with_sum(total, SAMPLE) for total in range(128)]
    above = [with_sum(total, put(SAMPLE, V, "\xb1")) for total in range(0x8A, 0x100, 16)]
    small = [s[:XX] + s[XX : XX + 2].lower() + s[XX + 2 :] for s in below + above]
    assert all(exact[XX : XX + 2].decode() == f"{total:02X}" for total, exact in enumerate(below))
    return [trimble(s) for s in (*below, *above, *(s for s in small if s not in below))]


def ignored_digits():
    """oo, d and nn: any digit, and no other byte."""
    places = range(21, 26)
    lines = [trimble(edited((i, str(digit)))) for i in places for digit in range(10)]
    return lines + [trimble(edited((i, text))) for i in places for text in "xA /:-\x00\xff"]


def neighbours_of_digits():
    """The bytes before `0` and after `9`, in every place of a digit."""
    return [trimble(edited((i, text))) for i in range(4, V) for text in "/:"]


def dates():
    days = ("29022000", "29022001", "29022004", "29022069", "28022001", "30022004", "31062006", "30062006", "31122006",
            "00112006", "08002006", "08132006", "32012006", "99992006", "01012006", "01032000")
    years = ("1969", "1970", "2069", "2070", "0000", "0006", "0070", "0106", "1906", "2106", "2006", "9999")
    ends = [day + year for year in years for day in ("0101", "0811", "3112")]
    centuries = [day + year for year in ("1600", "1900", "2000", "2100", "2200", "2400") for day in ("2802", "2902")]
    return [trimble(edited((13, text))) for text in (*days, *ends, *centuries)]


def weekdays():
    """A week, and the first of each month of a leap year."""
    texts = [f"{day:02}112006" for day in range(6, 13)] + [f"01{month:02}2004" for month in range(1, 13)]
    return [trimble(edited((13, text))) for text in texts]


def times():
    """Second 60 at 23:59 alone, on any date."""
    texts = ("000000", "235959", "240000", "236000", "235961", "235960", "225960", "235860", "005960", "015960",
             "000060", "240060", "236060", "999999", "123460", "006000", "000099")
    lines = [trimble(edited((4, text))) for text in texts]
    return lines + [trimble(edited((4, text), (13, "31122016"))) for text in texts]


def milliseconds():
    texts = ("000", "001", "009", "010", "090", "099", "100", "123", "321", "500", "900", "998", "999")
    return [trimble(edited((10, text))) for text in texts] + [trimble(edited((4, "235960999")))]


# Faults, each with the number that it gives if there is no other: the place, and a text there.
FAULTS = ((2, 0, "x"), (2, 3, "m"), (2, 27, "\x1f"), (2, 31, "\x7f"), (2, 32, ":"), (2, 33, "+"), (2, 36, ">"),
          (3, 6, "x"), (3, 12, " "), (3, 21, "x"), (3, 25, ":"), (24, XX, "xx"), (24, XX, "~~"), (25, V, "0"),
          (25, V, " "), (5, 13, "3106"), (5, 17, "1969"), (5, 17, "2070"), (6, 4, "24"), (6, 8, "60"))


def with_faults(*faults):
    """A fault of the sum is put after the sum of all others is."""
    s = edited(*(fault[1:] for fault in faults if fault[0] != 24))
    for _, at, text in (fault for fault in faults if fault[0] == 24):
        s = put(s, at, text)
    return s


def first_error_in_order():
    """Each fault alone, each two of different numbers, and each with a length that is wrong."""
    cases = [(fault,) for fault in FAULTS]
    cases += [two for two in itertools.combinations(FAULTS, 2) if two[0][0] != two[1][0]]
    strings = [with_faults(*faults) for faults in cases]
    for s, faults in zip(strings, cases):
        assert rules.read_trimble(s)[0] == min((fault[0] for fault in faults), key=ORDER.index)
    return [trimble(s) for s in (*strings, *(with_faults(fault)[:-1] for fault in FAULTS))]


def one_byte_changed():
    """Every place with other bytes, with the sum of the sample and with its own."""
    lines = []
    for i in range(LENGTH):
        texts = {chr(b) for b in (120, 32, 48, (SAMPLE[i] + 1) % 256, SAMPLE[i] ^ 128)} - {chr(SAMPLE[i])}
        changed = [put(SAMPLE, i, text) for text in sorted(texts)]
        lines += [trimble(s) for s in (*changed, *map(mended, changed))]
    return list(dict.fromkeys(lines))


def random_string(chance):
    day = f"{chance.randrange(1, 29):02}{chance.randrange(1, 13):02}{chance.choice(rules.YEARS)}"
    time = f"{chance.randrange(24):02}{chance.randrange(60):02}{chance.randrange(60):02}{chance.randrange(1000):03}"
    ignored = f"{chance.randrange(100000):05}"
    rest = "".join(chr(chance.choice(PRINTABLE)) for _ in RRRRR)
    return edited((4, time), (13, day), (21, ignored), (27, rest))


def random_strings():
    """Valid ones, and valid ones with up to three places changed; most have the right sum then."""
    chance = random.Random(7)
    lines = []
    for _ in range(300):
        s = random_string(chance)
        for _ in range(chance.choice((0, 0, 1, 2, 3))):
            byte = chance.choice((*s, 32, 48, 49, 57, 65, chance.randrange(256)))
            s = put(s, chance.randrange(LENGTH), chr(byte))
            s = s if chance.random() < 0.2 else mended(s)
        lines.append(trimble(s))
    return lines


def no_kind():
    """37 bytes are the length of no kind."""
    return [string_vectors.tell(SAMPLE), *(string_vectors.read(kind, SAMPLE) for kind in string_vectors.SAMPLES)]


SECTIONS = (
    ("Lengths of Trimble strings", lengths),
    ("Every v", every_v),
    ("Every byte at each place of rrrrr", every_byte_of_rrrrr),
    ("Every byte at each place of the sum", every_byte_of_the_sum),
    ("Every sum", every_sum),
    ("oo, d and nn", ignored_digits),
    ("The neighbours of the digits", neighbours_of_digits),
    ("Dates in Trimble strings", dates),
    ("Weekdays of Trimble strings", weekdays),
    ("Times in Trimble strings", times),
    ("Milliseconds", milliseconds),
    ("The order of the Trimble's refusals", first_error_in_order),
    ("One byte of a Trimble string changed", one_byte_changed),
    ("Random Trimble strings", random_strings),
    ("A Trimble string is of no kind", no_kind),
)


def check_against_document():
    """The sample is accepted with its sum, and each number of the order comes twice at least."""
    number, r = rules.read_trimble(SAMPLE)
    assert (number, list(r.values())) == (0, [2006, 11, 8, 3, 14, 39, 39, 0, *[False] * 6, 123])
    answers = [answer for _, section in SECTIONS for _, answer in section()]
    assert all(answers.count(f"refused {number}") >= 2 for number in ORDER)
