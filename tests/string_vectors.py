"""The sections of the table on digits and time strings; the answers come from `rules`, written from the paper."""
import itertools
import random

import rules
from rules import FIRST_YEAR, SENDS_U

PRINTABLE = range(32, 127)
STANDARD = b"\x02D:08.11.06;T:3;U:14.39.39;    \x03"
PZF = b"\x0208.11.06; 3; 14:39:39;        \x03"
GPS = b"\x0209.07.93; 5; 08:48:26; +00:00;        ; 49.5736N  11.0280E  373m\x03"
ELV = b"06-11-08-14-39-39-00\r"
NO_SUCH_HOUR = b"\x0208.11.06; 3; 24:00:00; U      \x03"
SAMPLES = {"standard": STANDARD, "pzf": PZF, "gps": GPS, "elv": ELV}
# A kind by its number: those of the C header, and 4 for a DCF77 minute.
KINDS = {"standard": 0, "pzf": 1, "gps": 2, "elv": 3, "minute": 4}


def as_text(s):
    """Bytes as the table shows them: %hh for what cannot be printed, and for the per cent sign."""
    return "".join(chr(b) if b in PRINTABLE and b != 37 else f"%{b:02x}" for b in s)


def put(s, at, text):
    """The string with a text at a place."""
    return s[:at] + text.encode("latin-1") + s[at + len(text) :]


def fields(r):
    """The numbers of a reading; a flag is 1 or 0."""
    return " ".join(str(int(value)) for value in r.values())


# What each command answers: the line, and the answer.


def answer_of(number, r):
    """The last 1 says that what was read is written back as the same bytes. The place of a refusal is not shown."""
    return f"refused {number}" if number else f"{fields(r)} 1"


def read(kind, s, sends_u=SENDS_U, first_year=FIRST_YEAR):
    return f"read {KINDS[kind]}: {as_text(s)}", answer_of(*rules.read(kind, s, sends_u, first_year))


def tell(s, sends_u=SENDS_U, first_year=FIRST_YEAR):
    kind = rules.kind_of(s)
    answer = answer_of(*rules.read(kind, s, sends_u, first_year))
    return f"kind: {as_text(s)}", f"{KINDS[kind]} {answer}" if kind else answer


def written(line, text, room, base=0):
    """23, then 20; else the first places are filled, and nothing after them changes. A byte shown has `base` added."""
    buffer = b"." * room
    if text is None:
        answer = "refused 23"
    elif len(text) > room:
        answer = "refused 20"
    else:
        answer, buffer = str(len(text)), text + buffer[len(text) :]
    return f"{line} {room}", f"{answer} |{as_text(b + base for b in buffer)}|"


def write(kind, r, room, sends_u=SENDS_U, first_year=FIRST_YEAR):
    return written(f"write {KINDS[kind]} {fields(r)}", rules.write(kind, r, sends_u, first_year), room)


def digits(text):
    """At most 19 digits; else 3, and 100 more for each place before the first byte that is none."""
    s = text.encode()
    if len(s) > 19:
        return f"digits: {text}", "refused 1"
    bad = [i for i, b in enumerate(s) if not rules.is_digit(b)]
    return f"digits: {text}", f"refused {3 + 100 * bad[0]}" if bad else str(int(text or "0"))


def number(value, count, room):
    text = f"{value:0{count}}" if count else ""
    fits = count <= 19 and value < 10**count
    return written(f"number {value} {count}", text.encode() if fits else None, room)


# The sections.


def runs_of_digits():
    texts = ("0", "9", "00", "007", "42", "1234567890123456789", "9999999999999999999", "12345678901234567890", "",
             "1x", "x1", "12:4", "12/4", "1 2", "123456789012345678x", "%3a", "a")
    return [digits(t) for t in texts if "%" not in t]


def numbers():
    cases = ((0, 0, 0), (0, 1, 1), (7, 1, 1), (7, 2, 2), (42, 2, 5), (42, 1, 5), (100, 2, 9), (99, 2, 1), (100, 2, 1),
             (5, 3, 2), (0, 19, 19), (9999999999999999, 16, 16), (9999999999999999, 15, 16), (123, 19, 20),
             (123, 20, 30), (1, 0, 4))
    return [number(*c) for c in cases]


def samples():
    """Document 01's own strings first: P1, and the two that the listing program is fed."""
    lines = [read("gps", GPS), read("standard", STANDARD), read("pzf", NO_SUCH_HOUR)]
    return lines + [read(k, s) for k, s in SAMPLES.items()]


def lengths():
    """1: one byte less, one more, none."""
    return [read(k, t) for k, s in SAMPLES.items() for t in (s[:-1], s + b" ", b"")]


def standard_strings():
    flags = map("".join, itertools.product(" #", " *", " US", " !A"))
    lines = [read("standard", put(STANDARD, 27, f)) for f in flags]
    wrong = ["U   ", "#U  ", "  s ", "  u ", "   R", "   S", "\x00   ", "S   "]
    return lines + [read("standard", put(STANDARD, 27, f)) for f in wrong]


def pzf_strings():
    """t `U` gives offset 0 whatever x is; x is the summer flag in each case."""
    flags = list(map("".join, itertools.product(" U", " #", " *", " S", " !", " A", " R")))
    wrong = ["S      ", "#      ", " *     ", "  #    ", "   U   ", "    A  ", "     ! ", "      L", "u      "]
    return [read("pzf", put(PZF, 24, f)) for f in flags + wrong]


def elv_strings():
    return [read("elv", put(ELV, 18, f"{n:02}")) for n in (*range(12), 17, 70, 99)] + [
        read("elv", put(ELV, 18, f)) for f in ("1x", "x1", " 0", "0 ", "xx")]


def gps_offsets():
    """14:00 and 14:01, minutes at most 59, no -00:00, and the sign."""
    texts = ("+14:00", "-14:00", "+14:01", "-14:01", "+13:59", "+00:60", "+13:60", "+01:99", "-00:00", "-00:01",
             "+99:59", " 01:00", "#01:00", "001:00", "+ 1:00", "+1 :00", "+01: 0", "+01.00", "-12:30")
    return [read("gps", put(GPS, 24, t)) for t in texts]


def gps_positions():
    latitudes = ("90.0000N", "90.0000S", "90.0001N", "90.0001S", " 0.0000N", " 0.0000S", " 0.0001S", "00.0000N",
                 "09.5000N", " 9.5000N", "  .5000N", "9 .5000N", "49.573 N", "49.57x6N", "49.5736E", "49.5736n",
                 "49.5736 ", "4 .5736N", "x9.5736N")
    longitudes = ("180.0000E", "180.0000W", "180.0001E", "180.0001W", "  0.0000E", "  0.0000W", "  0.0001W",
                  "000.0000E", "011.0280E", " 01.0280E", "  1.0280E", "   .0280E", "1 1.0280E", "11 .0280E",
                  " 11.02 0E", " 11.0280N", " 11.0280w", "999.9999E")
    heights = ("   0", "  00", "0000", " 000", "   9", "  05", "9999", "    ", "5   ", " 5 5", "  -5", "37 3", "x373",
               "8848")
    lines = [read("gps", put(GPS, 41, t)) for t in latitudes] + [read("gps", put(GPS, 50, t)) for t in longitudes]
    return lines + [read("gps", put(GPS, 60, t)) for t in heights]


def gps_flags():
    """b must be `L` exactly if the second is 60: wrong letter 4, mismatch 6."""
    base = put(GPS, 14, "23:59:60")
    texts = ("#      ", " *     ", "  S    ", "   !   ", "    A  ", "     R ", "      L", "#*S!ARL", "S      ",
             "      R", "  U    ", "      l", "      S", "       ")
    return [read("gps", put(s, 32, t)) for s in (base, GPS) for t in texts]


def dates_in_strings():
    days = ("29.02.00", "29.02.01", "29.02.04", "30.02.04", "31.06.06", "30.06.06", "31.12.69", "01.01.70", "00.11.06",
            "08.00.06", "08.13.06", "32.01.06", "99.99.99")
    lines = [read("standard", put(STANDARD, 3, d)) for d in days] + [read("pzf", put(PZF, 1, d)) for d in days]
    lines += [read("gps", put(GPS, 1, d)) for d in days]
    return lines + [read("elv", put(ELV, 0, f"{d[6:]}-{d[3:5]}-{d[:2]}")) for d in days]


def times_in_strings():
    times = ("00:00:00", "23:59:59", "24:00:00", "23:60:00", "23:59:61", "23:59:60", "00:59:60", "01:59:60", "00:58:60",
             "01:00:60", "22:59:60", "99:99:99", "12:34:60")
    lines = []
    for zone in " US":
        lines += [read("standard", put(put(STANDARD, 18, t.replace(":", ".")), 29, zone)) for t in times]
    for flags in ("       ", "U      ", "   S   ", "U  S   "):
        lines += [read("pzf", put(put(PZF, 14, t), 24, flags)) for t in times]
    for offset in ("+00:00", "+01:00", "-01:00", "+02:00", "+14:00"):
        for letter in " L":
            lines += [read("gps", put(put(put(GPS, 14, t), 24, offset), 38, letter)) for t in times]
    for ff in ("00", "01"):
        lines += [read("elv", put(put(ELV, 9, t.replace(":", "-")), 18, ff)) for t in times]
    return lines


def weekdays_in_strings():
    """0, 8 and 9 are 7, not 3; one that doesn't fit the date passes."""
    lines = [read("standard", put(STANDARD, 14, str(w))) for w in range(10)]
    return lines + [read(k, put(s, 11, str(w))) for k, s in (("pzf", PZF), ("gps", GPS)) for w in range(10)]


def first_error_in_order():
    """Two faults in one string: the order goes by number, wherever they stand."""
    return [
        read("standard", put(put(STANDARD, 0, "x"), 3, "x")), read("standard", put(put(STANDARD, 31, " "), 3, "x")),
        read("standard", put(put(STANDARD, 27, "x"), 25, "x")), read("standard", put(put(STANDARD, 3, "99"), 27, "x")),
        read("standard", put(put(STANDARD, 3, "99"), 18, "99")),
        read("standard", put(put(STANDARD, 14, "0"), 18, "99")),
        read("gps", put(put(GPS, 24, "-00:00"), 41, "99")), read("gps", put(put(GPS, 24, "x"), 32, "x")),
        read("gps", put(put(GPS, 41, "99"), 1, "99")), read("gps", put(put(GPS, 43, "x"), 41, "xx")),
        read("gps", put(put(GPS, 64, "x"), 60, "xxxx")), read("gps", put(put(GPS, 11, "0"), 38, "L")),
        read("elv", put(put(ELV, 18, "08"), 3, "13")), read("elv", put(put(ELV, 18, "99"), 20, "x")),
    ]


def one_byte_changed():
    """Every place of every kind with four other bytes."""
    places = [(k, s, i) for k, s in SAMPLES.items() for i in range(len(s))]
    changed = [(k, s, put(s, i, t)) for k, s, i in places for t in ("x", " ", "0", chr((s[i] + 1) % 256))]
    return [read(k, other) for k, s, other in changed if other != s]


def random_strings():
    """Valid ones, and valid ones with up to three places changed."""
    chance = random.Random(2)
    lines = []
    for _ in range(400):
        kind = chance.choice(list(SAMPLES))
        s = random_text(chance, kind)
        for _ in range(chance.choice((0, 0, 1, 2, 3))):
            i = chance.randrange(len(s))
            s = put(s, i, chr(chance.choice((*s, 32, 48, 57, 65, chance.randrange(256)))))
        lines.append(read(kind, s))
    return lines


def random_reading(chance, kind):
    year, month = chance.choice(rules.YEARS), chance.randrange(1, 13)
    flags = "".join(f for f in rules.FLAG_LETTERS if chance.random() < 0.4)
    r = rules.reading(year, month, chance.randrange(1, 29), chance.randrange(1, 8), chance.randrange(24),
                      chance.randrange(60), chance.randrange(60), chance.choice((0, 60, 120)), flags)
    if kind == "gps":
        r.update(offset=chance.randrange(-840, 841), latitude=chance.randrange(-900000, 900001),
                 longitude=chance.randrange(-1800000, 1800001), height=chance.randrange(10000))
    return r


def random_text(chance, kind):
    return rules.TEXTS[kind](random_reading(chance, kind)).encode("latin-1")


def kinds():
    strings = [*SAMPLES.values(), b"", b"D", b"x" * 21, b"x" * 32, b"xD" * 16, b"x" * 66, b"x" * 20, b"x" * 33,
               b"x" * 65, b"x" * 67, put(STANDARD, 1, "d"), b"\x02" + b" " * 19 + b"\x03"]
    return [tell(s) for s in strings]


def base_reading(kind, **changes):
    r = rules.read(kind, SAMPLES[kind])[1]
    r.update(changes)
    return r


def room_for_strings():
    """One too short, exact, and longer with the rest unchanged; 23 comes before 20."""
    lines = [write(k, base_reading(k), len(s) + d) for k, s in SAMPLES.items() for d in (-1, 0, 3)]
    return lines + [write(k, base_reading(k, month=200), d) for k in SAMPLES for d in (0, 70)]


def refused_readings():
    """Each single reason why nothing reads as a reading."""
    changes = [dict(year=1969), dict(year=1970), dict(year=2069), dict(year=2070), dict(year=0), dict(year=65535),
               dict(month=0), dict(month=13), dict(month=255), dict(day=0), dict(day=32), dict(day=255),
               dict(weekday=0), dict(weekday=8), dict(weekday=2), dict(hour=24), dict(hour=255), dict(minute=60),
               dict(second=60), dict(second=61), dict(hour=23, minute=59, second=60),
               dict(hour=0, minute=59, second=60), dict(hour=0, minute=58, second=60), dict(offset=30), dict(offset=0),
               dict(offset=60), dict(offset=120), dict(offset=-60), dict(offset=840), dict(offset=841),
               dict(offset=-840), dict(offset=-841), dict(offset=32767), dict(offset=-32768), dict(summer=True),
               dict(summer=True, offset=120), dict(summer=True, offset=0), dict(summer=True, offset=60),
               dict(unsynchronised=True), dict(unverified=True), dict(change=True), dict(leap=True),
               dict(change=True, leap=True), dict(antenna=True)]
    lines = [write(k, base_reading(k, **c), 66) for k in SAMPLES for c in changes]
    places = [dict(latitude=900000), dict(latitude=900001), dict(latitude=-900000), dict(latitude=-900001),
              dict(latitude=0), dict(latitude=1), dict(latitude=-1), dict(latitude=2147483647),
              dict(latitude=-2147483648), dict(longitude=1800000), dict(longitude=1800001), dict(longitude=-1800000),
              dict(longitude=-1800001), dict(longitude=0), dict(longitude=-1), dict(longitude=2147483647),
              dict(longitude=-2147483648), dict(height=0), dict(height=9), dict(height=9999), dict(height=10000),
              dict(height=65535)]
    return lines + [write("gps", base_reading("gps", **c), 66) for c in places]


def random_readings():
    chance = random.Random(3)
    return [write(k, random_reading(chance, k), 66) for k in SAMPLES for _ in range(60)]


SECTIONS = (
    ("Runs of digits", runs_of_digits),
    ("Numbers as digits", numbers),
    ("Strings of document 01", samples),
    ("Lengths", lengths),
    ("Flags of the standard string", standard_strings),
    ("Flags of PZF", pzf_strings),
    ("FF of ELV", elv_strings),
    ("Offsets of GPS", gps_offsets),
    ("Positions of GPS", gps_positions),
    ("Flags of GPS", gps_flags),
    ("Dates in strings", dates_in_strings),
    ("Times in strings", times_in_strings),
    ("Weekdays in strings", weekdays_in_strings),
    ("The order of refusals", first_error_in_order),
    ("One byte changed", one_byte_changed),
    ("Random strings", random_strings),
    ("Kinds", kinds),
    ("Room for strings", room_for_strings),
    ("Readings that a format can't carry", refused_readings),
    ("Random readings", random_readings),
)


def check_against_document():
    """P1 and the strings of the program's example, by the document's own numbers."""
    number, r = rules.read_gps(GPS)
    assert (number, r["year"], r["weekday"], r["offset"]) == (0, 1993, 5, 0)
    assert (r["latitude"], r["longitude"]) == (495736, 110280)
    number, r = rules.read_standard(STANDARD)
    assert (number, r["year"], r["hour"], r["offset"]) == (0, 2006, 14, 60)
    assert rules.read_pzf(NO_SUCH_HOUR)[0] == 6
