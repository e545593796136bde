#!/usr/bin/env python3
"""header_lines.py HEADER TEST LIBRARY: changes the header, one place of one line at a time, and looks whether the test
finds each change: it no longer compiles, or it fails. A change that neither C nor C++ finds is printed, and fails.

The changes are made of the header's own lines, comments left out: a line dropped; two neighbours of a struct or of the
texts swapped; each number one more; each constant of a count or a size one less; each other constant its neighbour;
each type another; each operator its neighbour; const dropped; the two sides of a colon swapped; a text with another
first letter, and without its last."""
import concurrent.futures
import os
import re
import subprocess
import sys
import tempfile

OPERATORS = {'==': '!=', '!=': '==', '>=': '>', '<': '<=', '&': '|', '/': '*', '-': '/'}
TYPES = {'int32_t': 'int16_t', 'uint8_t': 'int8_t', 'uint32_t': 'int32_t', 'int64_t': 'int32_t', 'size_t': 'uint32_t',
         'bool': 'int', 'char': 'signed char'}
WARN = '-Wall -Wextra -Wpedantic -Wconversion -Wsign-conversion -Wshadow -Werror'.split()
TRAP = ['-fsanitize=undefined', '-fsanitize-undefined-trap-on-error']

# What changes nothing that a caller can see, and why. Each of them must be made, and must pass.
SAME = {
    # The call after it sets the variable, or returns an error.
    ('uint8_t told = 0;', 'uint8_t told = 1;'),
    ('uint8_t event = 0;', 'uint8_t event = 1;'),
    # A string that has no kind's length has not that of kind 0 either: LENGTH (1) both times.
    ('    if (error == 0)', ''),
    # Nothing writes to the texts, and all of them have one size.
    ('static const char *const texts[] = {', 'static const char * texts[] = {'),
    ('sizeof texts[0] ? texts[error] : "no such error number";',
     'sizeof texts[1] ? texts[error] : "no such error number";'),
}


def without_comments(text):
    """The text with each comment made blank, so that its lines and columns stay."""
    return re.sub(r'/\*.*?\*/', lambda m: re.sub(r'[^\n]', ' ', m.group()), text, flags=re.S)


def neighbours(lines):
    """Each constant of an enum with the next of the same enum, or with the one before if it is the last."""
    after, names = {}, []
    for line in lines + ['};']:
        found = re.match(r'\s+(RADIO_CLOCK_\w+) = \d+', line)
        if found:
            names.append(found.group(1))
        elif line.startswith('};'):
            for i, name in enumerate(names):
                after[name] = names[i + 1] if i + 1 < len(names) else names[i - 1]
            names = []
    return after


def token_changes(line, after):
    """All that a line becomes if one token of it is changed."""
    pattern = r'"(?:[^"\\]|\\.)*"|[A-Za-z_]\w*|\d+|==|!=|>=|<=|\*/|/\*|[-&/<]'
    include = line.startswith('#include')
    for found in re.finditer(pattern, line):
        token, start, end = found.group(), found.start(), found.end()
        changed = []
        if token.startswith('"'):
            changed = ['"X' + token[2:], token[:-2] + '"']
        elif token.isdigit():
            changed = [str(int(token) + 1)]
        elif token in TYPES:
            changed = [TYPES[token]]
        elif token == 'const' and not include:
            changed = ['']
        elif re.search(r'_(FIELDS|SIZE|MAX)$', token) and not re.match(r'\s+\w+ = \d', line):
            changed = [token + ' - 1']
        elif token in after and not re.match(r'\s+\w+ = \d', line):
            changed = [after[token]]
        elif token in OPERATORS and not include:
            changed = [OPERATORS[token]]
        for text in changed:
            yield line[:start] + text + line[end:]
    sides = re.search(r'\? (.+?) : (.+?);', line)
    if sides:
        yield line[:sides.start(1)] + sides.group(2) + ' : ' + sides.group(1) + line[sides.end(2):]


def changes(text):
    """The changed headers, each as (line number, line before, line after, whole text)."""
    lines = without_comments(text).split('\n')
    after = neighbours(lines)

    def whole(i, new, count=1):
        return '\n'.join(lines[:i] + new + lines[i + count:])

    for i, line in enumerate(lines):
        if not re.search(r'\w', line):
            continue
        yield i + 1, line, '', whole(i, [])
        member = r'    (int32_t|bool) \w+;$|        ".*",$'
        if re.match(member, line.rstrip()) and re.match(member, lines[i + 1].rstrip()):
            yield i + 1, line, lines[i + 1] + ' first', whole(i, [lines[i + 1], line], 2)
        for new in token_changes(line, after):
            yield i + 1, line, new, whole(i, [new])


def passes(folder, language, test, library):
    """Whether the test compiles over the header in the folder, and passes: '' if so, else what stopped it."""
    program = os.path.join(folder, 'test')
    if language == 'c':
        command = [os.environ.get('CC', 'cc'), '-std=c99', test]
    else:
        command = [os.environ.get('CXX', 'c++'), '-std=c++11', '-x', 'c++', test, '-x', 'none']
    command += WARN + TRAP + ['-O0', '-I' + folder, library, '-o', program]
    if subprocess.run(command, stdout=subprocess.DEVNULL, stderr=subprocess.DEVNULL).returncode != 0:
        return 'does not compile'
    try:
        run = subprocess.run([program], stdout=subprocess.DEVNULL, stderr=subprocess.DEVNULL, timeout=10)
    except subprocess.TimeoutExpired:
        return 'fails'
    return '' if run.returncode == 0 else 'fails'


def stopped(text, test, library):
    """What stops the test over a header of this text, in C or else in C++."""
    with tempfile.TemporaryDirectory() as folder:
        with open(os.path.join(folder, 'radio_clock.h'), 'w') as file:
            file.write(text)
        return passes(folder, 'c', test, library) or passes(folder, 'c++', test, library)


def main():
    if len(sys.argv) != 4:
        sys.exit(__doc__)
    header, test, library = sys.argv[1:]
    with open(header) as file:
        text = file.read()
    if stopped(text, test, library):
        sys.exit('the test does not pass over the header as it is')
    made = list(changes(text))
    with concurrent.futures.ThreadPoolExecutor(os.cpu_count()) as pool:
        answers = list(pool.map(lambda change: stopped(change[3], test, library), made))
    same = {change: 0 for change in SAME}
    missed = 0
    for (number, before, after, _), answer in zip(made, answers):
        change = next((c for c in SAME if before.rstrip().endswith(c[0]) and after.rstrip().endswith(c[1])), None)
        if answer == '' and change is not None:
            same[change] += 1
        elif answer == '':
            missed += 1
            print(f'line {number} not found: {before.strip()}   ->   {after.strip() or "(dropped)"}')
    for change, count in same.items():
        if count != 1:
            sys.exit(f'{count} changes, not 1, are this one, which changes nothing: {change}')
    print(f'{len(made)} changes of the header: {answers.count("does not compile")} do not compile, '
          f'{answers.count("fails")} fail, {sum(same.values())} change nothing, {missed} are not found')
    sys.exit(missed != 0)


main()
