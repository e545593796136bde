#!/usr/bin/env python3
"""logger.py LOGGER: runs the logger over pseudo terminals, pipes and files, and compares what it prints, at once and in
order, what it tells, how it leaves a line and its exit status."""
import os
import pty
import select
import signal
import subprocess
import sys
import tempfile
import termios
import time

HEADING = 'UTC                  local               zone   flags    line'
STANDARD = b'\x02D:08.11.06;T:3;U:14.39.39;    \x03'
STANDARD_LINE = '2006-11-08 13:39:39  2006-11-08 14:39:39 +01:00 -------'
LEAP = b'\x0201.01.17; 7; 00:59:60;      A \x03'
LEAP_LINE = '2016-12-31 23:59:60  2017-01-01 00:59:60 +01:00 ----A-L'
AFTER_LEAP = b'\x0201.01.17; 7; 01:00:00;        \x03'
AFTER_LEAP_LINE = '2017-01-01 00:00:00  2017-01-01 01:00:00 +01:00 -------'
GPS = b'\x0209.07.93; 5; 08:48:26; -03:30; #*S!AR ; 49.5736N  11.0280E  373m\x03'
GPS_LINE = '1993-07-09 12:18:26  1993-07-09 08:48:26 -03:30 #*S!AR-'
NO_TIME = b'\x0208.11.06; 3; 24:00:00; U      \x03'
ELV = b'16-10-30-02-59-58-03\r'
ELV_LINE = '2016-10-30 00:59:58  2016-10-30 02:59:58 +02:00 --S!---'
ELV_LATER = b'16-10-30-02-00-03-00\r\n'
ELV_LATER_LINE = '2016-10-30 01:00:03  2016-10-30 02:00:03 +01:00 -------'
# Document 01's minute P3: Wednesday 2006-11-08 14:39 at +60.
MINUTE = bytes(int(bit) for bit in '00000000000000000010110011100001010000010011010001011000001')
MINUTE_LINE = '2006-11-08 13:39:00  2006-11-08 14:39:00 +01:00 -------'
GAP = b'\x02'
LONGEST_WAIT = 20  # seconds for a line that must come
started = []  # what runs, to be ended whatever happens


class Line:
    """A pseudo terminal: the logger opens its name, the test writes to it."""

    def __init__(self):
        self.master, self.slave = pty.openpty()
        self.name = os.ttyname(self.slave)
        self.before = termios.tcgetattr(self.slave)

    def send(self, data):
        os.write(self.master, data)

    def hang_up(self):
        os.close(self.slave)
        os.close(self.master)


class Logger:
    """The logger at work, from its heading on. What it writes is taken line by line, as it comes."""

    def __init__(self, *words):
        self.process = subprocess.Popen([sys.argv[1], *words], stdin=subprocess.DEVNULL, stdout=subprocess.PIPE,
                                        stderr=subprocess.PIPE)
        started.append(self.process)
        self.left = {self.process.stdout: b'', self.process.stderr: b''}
        self.expect(HEADING)

    def next_line(self, stream, wait):
        end = time.monotonic() + wait
        while b'\n' not in self.left[stream]:
            ready, _, _ = select.select([stream], [], [], max(0, end - time.monotonic()))
            data = os.read(stream.fileno(), 65536) if ready else b''
            if not data:
                return None
            self.left[stream] += data
        line, self.left[stream] = self.left[stream].split(b'\n', 1)
        return line.decode()

    def expect(self, line):
        same(self.next_line(self.process.stdout, LONGEST_WAIT), line)

    def told(self, line):
        same(self.next_line(self.process.stderr, LONGEST_WAIT), line)

    def silent(self, wait=0.2):
        same(self.next_line(self.process.stdout, wait), None)

    def ends(self, status, *totals):
        """The rest of standard error is the totals, nothing more is printed, and the status is the one said."""
        for line in totals:
            self.told(line)
        same(self.process.wait(LONGEST_WAIT), status)
        same(self.next_line(self.process.stdout, 0), None)
        same(self.next_line(self.process.stderr, 0), None)
        self.process.stdout.close()
        self.process.stderr.close()

    def stop(self, number=signal.SIGTERM):
        self.process.send_signal(number)

    def processor_time(self):
        with open(f'/proc/{self.process.pid}/stat') as file:
            fields = file.read().rsplit(')', 1)[1].split()
        return (int(fields[11]) + int(fields[12])) / os.sysconf('SC_CLK_TCK')


def same(got, wanted):
    if got != wanted:
        raise AssertionError(f'got {got!r}, wanted {wanted!r}')


def test_three_lines():
    """Three lines at once; a time is printed when its last byte has come, whatever the other lines do."""
    meinberg, elv, marks = Line(), Line(), Line()
    logger = Logger('-s', meinberg.name, '-e', elv.name, '-m', marks.name)
    elv.send(ELV[:10])  # begun, and silent for a while
    marks.send(b'\x00\x01' + GAP + MINUTE[:30])
    meinberg.send(STANDARD + b'\r\n')
    logger.expect(f'{STANDARD_LINE}  {meinberg.name}')
    meinberg.send(NO_TIME)
    logger.told(f'logger: {meinberg.name}: refused 6: no such time of day')
    elv.send(ELV[10:])
    logger.expect(f'{ELV_LINE}  {elv.name}')
    marks.send(MINUTE[30:])
    logger.silent()
    marks.send(GAP)
    logger.expect(f'{MINUTE_LINE}  {marks.name}')
    meinberg.send(LEAP)
    logger.expect(f'{LEAP_LINE}  {meinberg.name}')
    meinberg.send(AFTER_LEAP)
    logger.expect(f'{AFTER_LEAP_LINE}  {meinberg.name}')
    elv.send(ELV_LATER + ELV)
    logger.expect(f'{ELV_LATER_LINE}  {elv.name}')
    logger.expect(f'{ELV_LINE}  {elv.name}')
    marks.send(MINUTE[:58] + GAP + MINUTE[:40] + b'\x03' + MINUTE[41:] + GAP + MINUTE + MINUTE + GAP + MINUTE + GAP)
    logger.told(f'logger: {marks.name}: refused 11: the run is not 59 or 60 marks')
    logger.told(f'logger: {marks.name}: refused 12: a mark in the run is neither short nor long')
    logger.told(f'logger: {marks.name}: refused 11: the run is not 59 or 60 marks')
    logger.expect(f'{MINUTE_LINE}  {marks.name}')
    meinberg.send(b'\x02' + 70 * b'0' + b'\x03' + GPS)
    logger.told(f'logger: {meinberg.name}: overlong string dropped')
    logger.expect(f'{GPS_LINE}  {meinberg.name}')
    elv.send(STANDARD + b'\r' + 100 * b'0' + b'\r')
    logger.told(f'logger: {elv.name}: refused 1: string length wrong for its kind')
    logger.told(f'logger: {elv.name}: refused 1: string length wrong for its kind')
    logger.stop()
    logger.ends(0, f'logger: {meinberg.name}: 4 times, 2 refused', f'logger: {elv.name}: 3 times, 2 refused',
                f'logger: {marks.name}: 2 times, 3 refused')


def test_cuts():
    """Each string cut at each of its bytes."""
    for option, start, text, printed in (('-s', b'', STANDARD, STANDARD_LINE), ('-s', b'', GPS, GPS_LINE),
                                         ('-s', b'', LEAP, LEAP_LINE), ('-e', b'', ELV, ELV_LINE),
                                         ('-m', GAP, MINUTE + GAP, MINUTE_LINE)):
        line = Line()
        logger = Logger(option, line.name)
        line.send(start)
        for cut in range(len(text)):
            line.send(text[:cut])
            time.sleep(0.002)
            line.send(text[cut:])
            logger.expect(f'{printed}  {line.name}')
        for i in range(len(text)):
            line.send(text[i:i + 1])
            time.sleep(0.002)
        logger.expect(f'{printed}  {line.name}')
        logger.stop(signal.SIGINT)
        logger.ends(0, f'logger: {line.name}: {len(text) + 1} times, 0 refused')


def test_settings():
    """A line is raw while the logger runs, with the speed and the parity asked for, and then as it was."""
    plain, parity = Line(), Line()
    logger = Logger('-s', plain.name, '-b', '19200', '-p', '-e', parity.name)
    for line, stop_bits, check, speed in ((plain, 0, 0, termios.B9600),
                                          (parity, termios.CSTOPB, termios.INPCK, termios.B19200)):
        iflag, oflag, cflag, lflag, ispeed, ospeed, cc = termios.tcgetattr(line.slave)
        same(iflag, check)
        same(lflag & (termios.ICANON | termios.ISIG | termios.ECHO | termios.IEXTEN), 0)
        same(oflag & termios.OPOST, 0)
        same(cflag & termios.CSTOPB, stop_bits)
        same((ispeed, ospeed), (speed, speed))
    logger.stop()
    logger.ends(0, f'logger: {plain.name}: 0 times, 0 refused', f'logger: {parity.name}: 0 times, 0 refused')
    for line in (plain, parity):
        same(termios.tcgetattr(line.slave), line.before)


def test_waits():
    """While nothing comes, the logger takes no processor time."""
    line, other = Line(), Line()
    logger = Logger('-s', line.name, '-m', other.name)
    line.send(STANDARD[:7])
    before = logger.processor_time()
    time.sleep(0.5)
    if logger.processor_time() - before > 0.05:
        raise AssertionError('the logger takes processor time while it waits')
    line.send(STANDARD[7:])
    logger.expect(f'{STANDARD_LINE}  {line.name}')
    logger.stop()
    logger.ends(0, f'logger: {line.name}: 1 times, 0 refused', f'logger: {other.name}: 0 times, 0 refused')


def test_hang_up():
    """A line that hangs up is told, and the other goes on; the status tells it at the end."""
    gone, stays = Line(), Line()
    logger = Logger('-e', gone.name, '-s', stays.name)
    gone.send(ELV)
    logger.expect(f'{ELV_LINE}  {gone.name}')
    gone.hang_up()
    logger.told(f'logger: {gone.name}: hung up')
    before = logger.processor_time()
    time.sleep(0.3)
    if logger.processor_time() - before > 0.05:
        raise AssertionError('the logger takes processor time after a line has hung up')
    stays.send(STANDARD)
    logger.expect(f'{STANDARD_LINE}  {stays.name}')
    logger.stop()
    logger.ends(1, f'logger: {gone.name}: 1 times, 0 refused', f'logger: {stays.name}: 1 times, 0 refused')


def test_text():
    """Digits as text are told once."""
    line = Line()
    logger = Logger('-m', line.name)
    line.send(b'0120')
    logger.told(f'logger: {line.name}: sends digits as text; a mark is the byte 0, 1, 2 or 3 itself')
    logger.stop()
    logger.ends(0, f'logger: {line.name}: 0 times, 0 refused')


def test_files():
    """Files and a pipe are read to their end; a string that is not ended is told nowhere."""
    with tempfile.TemporaryDirectory() as folder:
        path, pipe = os.path.join(folder, 'elv'), os.path.join(folder, 'pipe')
        with open(path, 'wb') as file:
            file.write(ELV + ELV_LATER + ELV[:9])
        os.mkfifo(pipe)
        logger = Logger('-e', path, '-s', pipe)
        logger.expect(f'{ELV_LINE}  {path}')
        logger.expect(f'{ELV_LATER_LINE}  {path}')
        with open(pipe, 'wb') as file:
            file.write(STANDARD + GPS)
        logger.expect(f'{STANDARD_LINE}  {pipe}')
        logger.expect(f'{GPS_LINE}  {pipe}')
        logger.ends(0, f'logger: {path}: 2 times, 0 refused', f'logger: {pipe}: 2 times, 0 refused')
    done = subprocess.run([sys.argv[1], '-s', '-'], input=STANDARD, capture_output=True)
    same((done.returncode, done.stdout.decode()), (0, f'{HEADING}\n{STANDARD_LINE}  -\n'))


def test_wrong_calls():
    """A wrong call has the status 2, a line that is not there 1, and what was opened before it is left as it was."""
    line = Line()
    for words, status, text in (((), 2, 'usage: logger'), (('-p',), 2, 'usage: logger'), (('-s',), 2, 'usage: logger'),
                                (('-b', '9601', '-s', line.name), 2, 'usage: logger'),
                                (('-x', line.name), 2, 'usage: logger'), (('-s', line.name, 'x'), 2, 'usage: logger'),
                                (('-s', line.name) * 17, 2, 'usage: logger'),
                                (('-s', line.name, '-e', '/dev/none'), 1, '/dev/none: No such file')):
        done = subprocess.run([sys.argv[1], *words], stdin=subprocess.DEVNULL, capture_output=True, text=True,
                              timeout=LONGEST_WAIT)
        same((done.returncode, done.stdout, text in done.stderr), (status, '', True))
    same(termios.tcgetattr(line.slave), line.before)
    if os.access('/dev/full', os.W_OK):
        with open('/dev/full', 'wb') as full:
            done = subprocess.run([sys.argv[1], '-s', '-'], input=STANDARD, stdout=full, stderr=subprocess.PIPE)
        same((done.returncode, b'standard output: cannot be written' in done.stderr), (1, True))


def main():
    if len(sys.argv) != 2:
        sys.exit(__doc__)
    tests = [test for name, test in globals().items() if name.startswith('test_')]
    for test in tests:
        try:
            test()
        except (AssertionError, subprocess.TimeoutExpired) as error:
            sys.exit(f'{test.__name__}: {error}')
        finally:
            for process in started:
                process.kill()
            started.clear()
    print(f'the logger prints what it must: {len(tests)} tests over pseudo terminals, pipes and files')


main()
