#!/usr/bin/env python3
"""Runs the listing program and compares what it writes with a listing in plain Python, made from document 01; tries its
arguments, terminals in both modes, and what can fail.

Usage: list_times.py PROGRAM [CAPTURE]
       list_times.py --capture > samples/capture.bin
"""
import os
import pty
import random
import re
import select
import signal
import subprocess
import sys
import tempfile
import termios
import threading
import tty

import rules
from string_vectors import GPS, NO_SUCH_HOUR, STANDARD, put, random_text
from trimble_vectors import SAMPLE as TRIMBLE

STX, ETX = 2, 3
HEADING = b"time zone flags\n"
USAGE = b"usage: list_times [FILE | - | --help | --version]\n"
HEADER = os.path.join(os.path.dirname(__file__), "..", "include", "radio_clock.h")
SECONDS = 20  # longer than any run here takes
STREAMS = 150  # random ones


# The listing, from 'The serial feed' and 'Examples'.


def feed(data):
    """The strings in data, None for an overlong one that was dropped."""
    kept, state = b"", "outside"
    for byte in data:
        if byte == STX:
            kept, state = bytes([STX]), "inside"
        elif state == "inside" and len(kept) == 66:
            state = "overlong"
        elif state == "inside":
            kept += bytes([byte])
        if byte == ETX and state != "outside":
            yield kept if state == "inside" else None
            state = "outside"


def time_line(r):
    flags = zip(rules.FLAG_LETTERS + "L", [r[name] for name in rules.FLAG_NAMES] + [r["second"] == 60])
    return (
        f"{r['year']:04}-{r['month']:02}-{r['day']:02} {r['hour']:02}:{r['minute']:02}:{r['second']:02} "
        f"{rules.text_offset(r['offset'])} {''.join(letter if on else '-' for letter, on in flags)}"
    )


def lines(data):
    """The line of each string, and the counts of frames, refused and dropped."""
    text, frames, refused, dropped = [], 0, 0, 0
    for string in feed(data):
        if string is None:
            dropped += 1
            text.append("dropped")
            continue
        frames += 1
        number, r = rules.read(rules.kind_of(string), string)
        refused += number != 0
        text.append(f"refused {number}" if number else time_line(r))
    return "".join(line + "\n" for line in text).encode(), (frames, refused, dropped)


def totals_line(counts):
    return "frames {} refused {} dropped {}\n".format(*counts).encode()


def listing(data):
    text, counts = lines(data)
    return HEADING + text + totals_line(counts)


# Inputs.

LEAP = b"\x0201.01.17; 7; 00:59:60; +01:00;     A L; 49.5736N  11.0280E  373m\x03"
WEST = b"\x0229.02.00; 2; 23:59:59; -09:30; #*S! R ; 90.0000S 180.0000W    0m\x03"


REFUSED = {
    1: b"\x02too short\x03",
    2: put(GPS, 64, "M"),
    3: put(STANDARD, 3, "x"),
    4: put(GPS, 38, "l"),
    5: put(STANDARD, 3, "31"),
    6: put(GPS, 14, "24"),
    7: put(STANDARD, 14, "0"),
    8: put(GPS, 24, "-"),
    9: put(WEST, 41, "91"),
}


def framed(n):
    """A string of n bytes, STX and ETX counted, that holds neither inside."""
    return b"\x02" + b"x" * (n - 2) + b"\x03"


def random_stream(rng):
    """Valid strings, strings with wrong bytes or a piece missing, overlong ones and noise."""
    stream = b""
    for _ in range(rng.randint(1, 60)):
        piece = bytearray(random_text(rng, rng.choice(["standard", "pzf", "gps"])))
        kind = rng.random()
        if kind < 0.3:
            for _ in range(rng.randint(1, 3)):
                piece[rng.randrange(len(piece))] = rng.choice(b"\x02\x03 0159:;.-+#*US!ARLNEWm\xff")
        elif kind < 0.4:
            at = rng.randrange(len(piece))
            del piece[at : at + rng.randint(1, 40)]
        elif kind < 0.5:
            piece = bytearray(framed(rng.randint(2, 80)))
        elif kind < 0.6:
            piece = bytearray(rng.randrange(256) for _ in range(rng.randint(1, 90)))
        stream += bytes(piece)
    return stream


def capture():
    """The sample: all three Meinberg kinds, each refusal, noise, an overlong string and a leap second."""
    noise = b"\r\n\x00\xfe garbled 08.11.06\x03"
    summer = b"\x02D:25.03.07;T:7;U:01.59.59;#* !\x03\x02D:25.03.07;T:7;U:03.00.00;  S \x03"
    return b"".join(
        [noise, STANDARD, summer, put(NO_SUCH_HOUR, 14, "14"), NO_SUCH_HOUR, GPS, noise, framed(67), WEST]
        + [string for _, string in sorted(REFUSED.items())]
        + [put(put(LEAP, 20, "59"), 38, " "), LEAP, b"\x02D:08.11.06;T:3;U:14.", STANDARD, b"\x02D:08."]
    )


CASES = {
    "document 01": STANDARD + NO_SUCH_HOUR,
    "empty": b"",
    "noise only": bytes(b for b in range(256) if b != STX) * 300,
    "no last ETX": STANDARD + GPS[:-1],
    "STX inside a string": b"\x02D:08.11.06" + STANDARD + b"\x02\x02\x02" + GPS,
    "ETX outside": b"\x03\x03" + STANDARD + b"\x03" + GPS + b"\x03",
    "65, 66 and 67 kept": framed(65) + framed(66) + framed(67) + framed(68) + framed(2) + framed(1000),
    "an overlong string cut by STX": framed(500)[:-1] + STANDARD,
    "66 kept, then STX": framed(67)[:-1] + STANDARD,
    "21 bytes": framed(21) + b"\x0206-11-08-14-39-39-0\x03",
    "every other length": b"".join(framed(n) for n in range(2, 80)),
    "a Trimble string, bare and between STX and ETX": TRIMBLE + b"\x02" + TRIMBLE[1:-1] + b"\x03",
    "every refusal": b"".join(REFUSED.values()),
    "leap second": LEAP + put(LEAP, 38, " ") + put(GPS, 38, "L"),
    "west": WEST,
}


# Runs.


def expect(name, got, want):
    if got != want:
        sys.exit(f"{name}: wrote {got[-300:]!r}\nwhere it must write {want[-300:]!r}")


def run(program, data, *arguments):
    return subprocess.run([program, *arguments], input=data, capture_output=True, timeout=SECONDS)


def expect_run(name, done, output, error=b""):
    """What a run wrote to standard output and to standard error; its exit status is 0, as the kit has no other."""
    expect(name, done.stdout, output)
    expect(name + ", standard error", done.stderr, error)
    expect(name + ", exit status", b"%d" % done.returncode, b"0")


def compare(program, name, data):
    expect_run(name, run(program, data), listing(data))


def peak_memory(program, data):
    """What the program writes, and its peak memory in kilobytes."""
    child = subprocess.Popen([program], stdin=subprocess.PIPE, stdout=subprocess.PIPE)
    feeder = threading.Thread(target=lambda: (child.stdin.write(data), child.stdin.close()))
    feeder.start()
    text = child.stdout.read()
    feeder.join()
    _, _, usage = os.wait4(child.pid, 0)
    child.returncode = 0
    return text, usage.ru_maxrss


def large_input(program):
    """10 MB: a block that ends outside a string, over and over; memory does not grow."""
    rng = random.Random(10)
    block = b"".join(random_stream(rng) for _ in range(40)) + framed(2)
    times = 10_000_000 // len(block) + 1
    text, counts = lines(block)
    got, memory = peak_memory(program, block * times)
    expect("10 MB", got, HEADING + text * times + totals_line(times * n for n in counts))
    _, small = peak_memory(program, b"")
    if memory > small + 512:
        sys.exit(f"10 MB: {memory} kB of memory, {small} kB without input")


def single_bytes(program):
    """Reads of one byte each: a pipe of packets hands them out one by one."""
    data = capture()
    representable, writable = os.pipe2(os.O_DIRECT)
    child = subprocess.Popen([program], stdin=representable, stdout=subprocess.PIPE)
    os.close(representable)
    for byte in data:
        os.write(writable, bytes([byte]))
    os.close(writable)
    expect("single bytes", child.communicate(timeout=SECONDS)[0], listing(data))


def read_until(stream, want, name):
    got = b""
    while got != want:
        if not select.select([stream], [], [], SECONDS)[0]:
            sys.exit(f"{name}: nothing came after {got!r}")
        got += os.read(stream.fileno(), 4096)
        if not want.startswith(got):
            sys.exit(f"{name}: wrote {got!r}")


def shown_at_once(program):
    """A line stands on standard output as soon as its string has come, while the input goes on."""
    child = subprocess.Popen([program], stdin=subprocess.PIPE, stdout=subprocess.PIPE, bufsize=0)
    read_until(child.stdout, HEADING, "heading at once")
    for string in (STANDARD, NO_SUCH_HOUR, GPS):
        child.stdin.write(string[:10])
        child.stdin.write(string[10:])
        read_until(child.stdout, lines(string)[0], "line at once")
    child.stdin.close()
    read_until(child.stdout, totals_line((3, 1, 0)), "totals at the end")
    child.wait(SECONDS)


def failing_write(program, name, open_output, message):
    """Writing fails: the program says so and stops, though its input goes on."""
    child = subprocess.Popen(
        [program], stdin=subprocess.PIPE, stderr=subprocess.PIPE, preexec_fn=open_output, stdout=subprocess.DEVNULL
    )
    child.wait(SECONDS)
    expect(name, child.stderr.read(), message)


def closed_output():
    os.close(1)


def full_output():
    os.dup2(os.open("/dev/full", os.O_WRONLY), 1)


def unreadable_input(program):
    """Reading fails at once: the message, and the totals."""
    directory = os.open("/", os.O_RDONLY)
    done = subprocess.run([program], stdin=directory, capture_output=True, timeout=SECONDS)
    expect_run("a directory", done, listing(b""), b"list_times: standard input: Is a directory\n")


def terminal_note(name, line):
    return b"list_times: %s is a terminal: it must be raw, or its strings are lost (stty -F %s 9600 raw -echo)\n" % (
        name,
        line,
    )


INPUT_NOTE = terminal_note(b"standard input", b"/dev/ttyS0")


def raw_terminal(program):
    """A raw terminal as standard input: strings are listed as they come. Then the line hangs up, and a read fails: what
    came before is counted."""
    reader, line = pty.openpty()
    tty.setraw(line)
    child = subprocess.Popen([program], stdin=reader, stdout=subprocess.PIPE, stderr=subprocess.PIPE)
    data = STANDARD + NO_SUCH_HOUR
    os.write(line, data)
    read_until(child.stdout, HEADING + lines(data)[0], "before the failing read")
    os.close(line)
    out, err = child.communicate(timeout=SECONDS)
    os.close(reader)
    expect("failing read", out, totals_line((2, 1, 0)))
    expect("failing read, standard error", err, INPUT_NOTE + b"list_times: standard input: Input/output error\n")


def raw_terminal_by_name(program):
    """A raw terminal that is named: each string is listed as it comes, and what is said has its own name."""
    line, terminal = pty.openpty()
    tty.setraw(terminal)
    name = os.ttyname(terminal)
    child = subprocess.Popen([program, name], stdin=subprocess.DEVNULL, stdout=subprocess.PIPE, stderr=subprocess.PIPE)
    read_until(child.stdout, HEADING, "a terminal by name")
    for string in (STANDARD, NO_SUCH_HOUR, GPS):
        os.write(line, string[:10])
        os.write(line, string[10:])
        read_until(child.stdout, lines(string)[0], "a terminal by name")
    child.kill()
    expect("a terminal by name, standard error", child.communicate()[1], terminal_note(name.encode(), name.encode()))
    os.close(terminal)
    os.close(line)


def cooked_terminal(program):
    """A terminal that is not raw: the same is said. It has no signals here, so that ETX is no interrupt and the string
    comes through at the end of the input, and no echo."""
    line, terminal = pty.openpty()
    mode = termios.tcgetattr(terminal)
    mode[3] &= ~(termios.ISIG | termios.ECHO)
    termios.tcsetattr(terminal, termios.TCSANOW, mode)
    child = subprocess.Popen([program], stdin=terminal, stdout=subprocess.PIPE, stderr=subprocess.PIPE)
    os.write(line, STANDARD + b"\x04\x04")
    out, err = child.communicate(timeout=SECONDS)
    expect("a terminal that is not raw", out, listing(STANDARD))
    expect("a terminal that is not raw, standard error", err, INPUT_NOTE)
    os.close(terminal)
    os.close(line)


def default_terminal(program):
    """A controlling terminal in its default mode: that is said, ETX interrupts the program, and no string is listed."""
    child, line = pty.fork()
    if child == 0:
        # What starts the tests in the background may ignore it, and that would be handed on.
        signal.signal(signal.SIGINT, signal.SIG_DFL)
        os.execv(program, [program])
    with os.fdopen(line, "r+b", buffering=0) as stream:
        read_until(stream, (INPUT_NOTE + HEADING).replace(b"\n", b"\r\n"), "a terminal in its default mode")
        stream.write(STANDARD)
        echo = b""
        while select.select([stream], [], [], SECONDS)[0]:
            try:
                echo += os.read(line, 4096)
            except OSError:  # the program has ended
                break
        else:
            os.kill(child, signal.SIGKILL)
    _, status = os.waitpid(child, 0)
    if lines(STANDARD)[0].rstrip() in echo or not os.WIFSIGNALED(status) or os.WTERMSIG(status) != signal.SIGINT:
        sys.exit(f"a terminal in its default mode: wrote {echo!r} and ended with status {status}")


def files(program):
    """A file by its name, standard input by a dash, and files that can't be read."""
    data, other = capture(), GPS + STANDARD
    with tempfile.TemporaryDirectory() as folder:
        name = os.path.join(folder, "a capture")
        with open(name, "wb") as file:
            file.write(data)
        expect_run("a file", run(program, other, name), listing(data))
        expect_run("a dash", run(program, other, "-"), listing(other))
        missing = os.path.join(folder, "missing")
        error = b"list_times: %s: No such file or directory\n" % missing.encode()
        expect_run("a missing file", run(program, other, missing), b"", error)
        error = b"list_times: %s: Is a directory\n" % folder.encode()
        expect_run("a folder", run(program, other, folder), listing(b""), error)
    longest = "x" * 4096
    error = b"list_times: %s: File name too long\n" % longest.encode()
    expect_run("a name of 4096 bytes", run(program, other, longest), b"", error)
    expect_run("a name of 4097 bytes", run(program, other, longest + "x"), b"", b"list_times: File name too long\n")


def header_version():
    with open(HEADER, encoding="utf-8") as file:
        found = re.findall(r'^#define RADIO_CLOCK_VERSION "(.*)"$', file.read(), re.MULTILINE)
    if len(found) != 1:
        sys.exit("include/radio_clock.h must define RADIO_CLOCK_VERSION once")
    return found[0].encode()


def told(program):
    """--version has the header's version; --help tells the whole of it; all else gets the usage line."""
    expect_run("--version", run(program, STANDARD, "--version"), b"list_times %s\n" % header_version())
    done = run(program, STANDARD, "--help")
    expect_run("--help", done, done.stdout)
    for part in ("--version", "#*S!ARL", "refused N", "dropped", "stty -F /dev/ttyS0 9600 raw -echo && list_times"):
        if part.encode() not in done.stdout:
            sys.exit(f"--help does not tell {part}")
    wrong = [[word] for word in ("--hel", "--helpp", "--help ", "--versio", "-h", "-v", "--", "---", "-capture", "")]
    for arguments in wrong + [["-", "-"], ["--help", "-"], ["--version", "--help"], ["a", "b", "c"]]:
        expect_run(f"arguments {arguments}", run(program, STANDARD, *arguments), b"", USAGE)


def main(program, sample=None):
    for name, data in CASES.items():
        compare(program, name, data)
    for seed in range(STREAMS):
        compare(program, f"random stream {seed}", random_stream(random.Random(seed)))
    if sample:
        with open(sample, "rb") as file:
            expect("sample", file.read(), capture())
    compare(program, "sample", capture())
    large_input(program)
    single_bytes(program)
    shown_at_once(program)
    failing_write(program, "closed output", closed_output, b"list_times: standard output: Bad file descriptor\n")
    failing_write(program, "full output", full_output, b"list_times: standard output: No space left on device\n")
    unreadable_input(program)
    raw_terminal(program)
    raw_terminal_by_name(program)
    cooked_terminal(program)
    default_terminal(program)
    files(program)
    told(program)
    count = len(CASES) + STREAMS
    parts = "the sample, 10 MB, single bytes, live lines, terminals, files, arguments and failures"
    print(f"list_times: {count} inputs, {parts} as they must be")


if __name__ == "__main__":
    if sys.argv[1:] == ["--capture"]:
        sys.stdout.buffer.write(capture())
    elif len(sys.argv) in (2, 3):
        main(*sys.argv[1:])
    else:
        sys.exit(__doc__)
