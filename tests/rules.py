"""Document 01's rules for time strings, and document 02's for the Trimble's (T-01), in plain Python: written from the
papers, sharing nothing with the library.

A reading is a dict with its fields in the paper's order. `read_KIND(bytes)` gives (0, reading) or (refusal number,
place): for 2, 3 and 4 the place of the first such byte, else 0. `write(kind, reading)` gives the bytes, or None if
nothing that is accepted reads as the reading. A caller may name whether the receiver sends U, and the first of the
hundred years that two digits mean; SENDS_U and FIRST_YEAR hold if it does not. A Trimble string is of no kind and is
only read.
"""
import calendar
from datetime import date

FLAG_NAMES = ("unsynchronised", "unverified", "summer", "change", "leap", "antenna")
FLAG_LETTERS = "#*S!AR"
SENDS_U = True
FIRST_YEAR = 1970
YEARS = range(1970, 2070)
LARGEST_OFFSET = 840


class Refused(Exception):
    def __init__(self, number, place=0):
        super().__init__(number, place)
        self.number = number
        self.place = place


def reading(year, month, day, weekday, hour, minute, second, offset, flags=""):
    """A reading with the flags whose letters of `#*S!AR` are named."""
    fields = dict(year=year, month=month, day=day, weekday=weekday, hour=hour, minute=minute, second=second,
                  offset=offset)
    for name, letter in zip(FLAG_NAMES, FLAG_LETTERS):
        fields[name] = letter in flags
    return fields


def month_length(year, month):
    return calendar.monthrange(year, month)[1] if 1 <= month <= 12 else 0


def date_exists(year, month, day):
    return 1 <= day <= month_length(year, month)


def days_since_1970(year, month, day):
    return (date(year, month, day) - date(1970, 1, 1)).days


def weekday_of(year, month, day):
    return date(year, month, day).isoweekday()


def second_60_allowed(hour, minute, offset):
    """'Second 60 is allowed only where (60 × hour + minute − offset) modulo 1,440 is 1,439.'"""
    return (60 * hour + minute - offset) % 1440 == 1439


def time_exists(hour, minute, second, offset):
    in_range = hour <= 23 and minute <= 59 and second <= 60
    return in_range and (second < 60 or second_60_allowed(hour, minute, offset))


def full_year(digits, first_year=FIRST_YEAR):
    """The year of the hundred with these last two digits: from 1970 on '70..99 are 19xx, 00..69 are 20xx.'"""
    return first_year + (digits - first_year) % 100


def is_digit(byte):
    return 48 <= byte <= 57


def number(s, at, count):
    """The digits from a place on; a blank counts 0."""
    return int("".join(chr(b) if is_digit(b) else "0" for b in s[at : at + count]))


def places(picture, **letters):
    """A layout from a picture: a named letter is a class, every other byte stands for itself."""
    return [letters.get(chr(b), b) for b in picture]


DIGIT, PRINTABLE, FREE = "digit", "printable", "free"

STANDARD = places(
    b"\x02D:dd.dd.dd;T:d;U:dd.dd.dd;uvxy\x03", d=DIGIT, u="#", v="*", x="US", y="!A"
)
PZF = places(b"\x02dd.dd.dd; d; dd:dd:dd; tuvxyza\x03", d=DIGIT, t="U", u="#", v="*", x="S", y="!", z="A", a="R")
GPS = places(
    b"\x02dd.dd.dd; d; dd:dd:dd; fdd:dd; uvxyzab; ff.fffff fff.fffff ffffm\x03",
    d=DIGIT, f=FREE, u="#", v="*", x="S", y="!", z="A", a="R", b="L",
)
ELV = places(b"dd-dd-dd-dd-dd-dd-dd\r", d=DIGIT)
# In the paper `>RTMhhmmssdddDDMMYYYYoodnnvrrrrr;*xx<`: here every digit is a d.
TRIMBLE = places(b">RTMddddddddddddddddddddddvrrrrr;*xx<", d=DIGIT, v=FREE, r=PRINTABLE, x=FREE)


def refuse_first(number, wrong):
    """Refuses with the number at the first place that is wrong."""
    if any(wrong):
        raise Refused(number, wrong.index(True))


def wrong_byte(place, byte):
    """Whether a byte is another than the fixed one, or outside 32 to 126 ('others give 2') if it must be printable."""
    return byte not in range(32, 127) if place == PRINTABLE else isinstance(place, int) and byte != place


def check_layout(layout, s):
    """The first four of 'Order for text: 1, 2, 3, 4, 8, 9, 5, 6, 7.', each over the whole string before the next."""
    if len(s) != len(layout):
        raise Refused(1)
    pairs = list(zip(layout, s))
    flags = [isinstance(p, str) and p not in (DIGIT, PRINTABLE, FREE) for p in layout]
    refuse_first(2, [wrong_byte(p, b) for p, b in pairs])
    refuse_first(3, [p == DIGIT and not is_digit(b) for p, b in pairs])
    refuse_first(4, [flag and b not in (" " + p).encode() for flag, (p, b) in zip(flags, pairs)])


def check_clock(r, mismatch=False):
    """5, 6, 7."""
    if not date_exists(r["year"], r["month"], r["day"]):
        raise Refused(5)
    if not time_exists(r["hour"], r["minute"], r["second"], r["offset"]) or mismatch:
        raise Refused(6)
    if not 1 <= r["weekday"] <= 7:
        raise Refused(7)


def checked(read):
    def run(s, **named):
        try:
            return 0, read(bytes(s), **named)
        except Refused as refused:
            return refused.number, refused.place

    return run


@checked
def read_standard(s, sends_u=SENDS_U, first_year=FIRST_YEAR):
    """A blank x as from a receiver that sends U: document 01 knows no other."""
    assert sends_u
    check_layout(STANDARD, s)
    u, v, x, y = (chr(b) for b in s[27:31])
    offset = {"U": 0, "S": 120, " ": 60}[x]
    flags = (u + v + ("S" if x == "S" else "") + y).replace(" ", "")
    r = reading(full_year(number(s, 9, 2), first_year), number(s, 6, 2), number(s, 3, 2), number(s, 14, 1),
                number(s, 18, 2), number(s, 21, 2), number(s, 24, 2), offset, flags)
    check_clock(r)
    return r


def pzf_clock(s, first_year, offset, flags):
    return reading(full_year(number(s, 7, 2), first_year), number(s, 4, 2), number(s, 1, 2), number(s, 11, 1),
                   number(s, 14, 2), number(s, 17, 2), number(s, 20, 2), offset, flags)


@checked
def read_pzf(s, first_year=FIRST_YEAR):
    check_layout(PZF, s)
    t, x = chr(s[24]), chr(s[27])
    offset = 0 if t == "U" else 120 if x == "S" else 60
    r = pzf_clock(s, first_year, offset, s[25:31].decode().replace(" ", ""))
    check_clock(r)
    return r


def whole_part(field):
    """'right-aligned with blanks for leading zeros, the last whole digit always present, a needless zero refused'"""
    text = bytes(field).lstrip(b" ")
    if not text or not text.isdigit() or (len(text) > 1 and text[:1] == b"0"):
        raise Refused(9)
    return int(text)


def degrees(s, at, whole, letters, limit):
    value = whole_part(s[at : at + whole]) * 10000
    fraction = s[at + whole + 1 : at + whole + 5]
    hemisphere = chr(s[at + whole + 5])
    if not all(is_digit(b) for b in fraction) or hemisphere not in letters:
        raise Refused(9)
    value += int(bytes(fraction))
    if value > limit or (value == 0 and hemisphere == letters[1]):
        raise Refused(9)
    return -value if hemisphere == letters[1] else value


@checked
def read_gps(s, first_year=FIRST_YEAR):
    check_layout(GPS, s)
    sign, minutes = chr(s[24]), number(s, 28, 2)
    magnitude = 60 * number(s, 25, 2) + minutes
    if sign not in "+-" or minutes > 59 or magnitude > LARGEST_OFFSET or (sign == "-" and magnitude == 0):
        raise Refused(8)
    latitude = degrees(s, 41, 2, "NS", 900000)
    longitude = degrees(s, 50, 3, "EW", 1800000)
    height = whole_part(s[60:64])
    r = pzf_clock(s, first_year, -magnitude if sign == "-" else magnitude, s[32:38].decode().replace(" ", ""))
    check_clock(r, mismatch=(s[38:39] == b"L") != (r["second"] == 60))
    return dict(r, latitude=latitude, longitude=longitude, height=height)


@checked
def read_elv(s, first_year=FIRST_YEAR):
    check_layout(ELV, s)
    flags = number(s, 18, 2)
    if flags > 7:
        raise Refused(4, 19 if s[18:19] == b"0" else 18)
    letters = ("S" if flags & 1 else "") + ("!" if flags & 2 else "") + ("#" if flags & 4 else "")
    r = reading(full_year(number(s, 0, 2), first_year), number(s, 3, 2), number(s, 6, 2), 1, number(s, 9, 2),
                number(s, 12, 2), number(s, 15, 2), 120 if flags & 1 else 60, letters)
    check_clock(r)
    return with_weekday(r)


def with_weekday(r):
    """A reading that was sent without a weekday, with that of its date."""
    return dict(r, weekday=weekday_of(r["year"], r["month"], r["day"]))


def exclusive_or(s):
    total = 0
    for byte in s:
        total ^= byte
    return total


def trimble_sum(s):
    """'xx is two capital hex digits of the exclusive or of places 0 to 33.'"""
    return b"%02X" % exclusive_or(s[:34])


@checked
def read_trimble(s, first_year=FIRST_YEAR):
    """Order 1, 2, 3, 24, 25, 5, 6. Of oo at 21, d at 23 and nn at 24 only that they are digits is looked at."""
    check_layout(TRIMBLE, s)
    if s[34:36] != trimble_sum(s):
        raise Refused(24)
    if s[26:27] != b"1":
        raise Refused(25)
    r = reading(number(s, 17, 4), number(s, 15, 2), number(s, 13, 2), 1, number(s, 4, 2), number(s, 6, 2),
                number(s, 8, 2), 0)
    if r["year"] not in range(first_year, first_year + 100):
        raise Refused(5)
    check_clock(r)
    return dict(with_weekday(r), milliseconds=number(s, 10, 3))


READERS = {"pzf": read_pzf, "gps": read_gps, "elv": read_elv}


def read(kind, s, sends_u=SENDS_U, first_year=FIRST_YEAR):
    """1 for no kind at all, which `kind_of` gives for a length that no kind has."""
    if kind is None:
        return 1, 0
    if kind == "standard":
        return read_standard(s, sends_u=sends_u, first_year=first_year)
    return READERS[kind](s, first_year=first_year)


def kind_of(s):
    """'66 long is GPS; 32 long is standard if place 1 holds `D`, else PZF; 21 long is ELV; any other length is refused
    with 1.'"""
    if len(s) == 66:
        return "gps"
    if len(s) == 32:
        return "standard" if s[1:2] == b"D" else "pzf"
    return "elv" if len(s) == 21 else None


def letters(r, names):
    return "".join(FLAG_LETTERS[FLAG_NAMES.index(n)] if r[n] else " " for n in names)


def clock_text(r, form):
    return form.format(dd=r["day"] % 100, mm=r["month"] % 100, yy=r["year"] % 100, w=r["weekday"] % 10,
                       hh=r["hour"] % 100, nn=r["minute"] % 100, ss=r["second"] % 100)


def text_standard(r):
    zone = "S" if r["summer"] else "U" if r["offset"] == 0 else " "
    announced = "!" if r["change"] else "A" if r["leap"] else " "
    clock = clock_text(r, "\x02D:{dd:02}.{mm:02}.{yy:02};T:{w};U:{hh:02}.{nn:02}.{ss:02};")
    return clock + letters(r, ("unsynchronised", "unverified")) + zone + announced + "\x03"


def text_pzf_clock(r):
    return clock_text(r, "\x02{dd:02}.{mm:02}.{yy:02}; {w}; {hh:02}:{nn:02}:{ss:02}; ")


def text_pzf(r):
    return text_pzf_clock(r) + ("U" if r["offset"] == 0 else " ") + letters(r, FLAG_NAMES) + "\x03"


def text_offset(offset):
    magnitude = abs(offset)
    return f"{'-' if offset < 0 else '+'}{magnitude // 60 % 100:02}:{magnitude % 60:02}"


def text_degrees(value, whole, hemispheres):
    magnitude = abs(value)
    return f"{magnitude // 10000:{whole}}.{magnitude % 10000:04}{hemispheres[value < 0]}"


def text_gps(r):
    flags = letters(r, FLAG_NAMES) + ("L" if r["second"] == 60 else " ")
    place = f"{text_degrees(r['latitude'], 2, 'NS')} {text_degrees(r['longitude'], 3, 'EW')} {r['height']:4}m"
    return text_pzf_clock(r) + text_offset(r["offset"]) + "; " + flags + "; " + place + "\x03"


def text_elv(r):
    flags = r["summer"] + 2 * r["change"] + 4 * r["unsynchronised"]
    return clock_text(r, "{yy:02}-{mm:02}-{dd:02}-{hh:02}-{nn:02}-{ss:02}-") + f"{flags:02}\r"


TEXTS = {"standard": text_standard, "pzf": text_pzf, "gps": text_gps, "elv": text_elv}


def write(kind, r, sends_u=SENDS_U, first_year=FIRST_YEAR):
    """The bytes that read as the reading, None where nothing does: the text is the only candidate."""
    text = TEXTS[kind](r).encode("latin-1")
    return text if read(kind, text, sends_u, first_year) == (0, r) else None
