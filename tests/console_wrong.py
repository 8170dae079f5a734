#!/usr/bin/env python3
"""`console_wrong.py KIND PROGRAM WORD..` runs the program and spoils its output in one way, for `soak.py --wrong`, which has to see it."""

import subprocess
import sys
import time

# Where it can be, what comes for the third time is spoilt.
WHICH = 3


def is_mark(line):
    return line[:1].isdigit() and not line.endswith(b' ?')


def spoilt(lines, is_meant, spoil):
    """The lines, with others in place of the third one that is meant."""
    count = 0
    for line in lines:
        meant = is_meant(line)
        count += meant
        yield from spoil(line) if meant and count == WHICH else (line,)


def begins(front):
    return lambda line: line.startswith(front)


def with_last(change):
    """Changes the last word of a line, a number."""
    def changed(line):
        front, _, number = line.rpartition(b' ')
        return [b'%s %d' % (front, int(number) + change)]
    return changed


def moved(line):
    place, start, end, word = line.split(b' ', 3)
    return [b'%s %s %d %s' % (place, start, int(end) + 1, word)]


def stale(lines):
    """Paragraphs that are to be checked have the marks that they had when they were shown before."""
    marks = {}
    for line in lines:
        place = line.split(b' ')[0]
        if is_mark(line):
            marks[place] = line
        yield marks.get(place, line) if line.endswith(b' ?') else line


def fallen_back(lines):
    """Marks that were shown before with the same versions are not shown any more."""
    header, marks, before = None, set(), set()
    for line in lines:
        if line.startswith(b'text '):
            header, marks, before = line, set(), marks if line == header else set()
        if is_mark(line):
            place = line.split(b' ')[0]
            marks.add(place)
            line = place + b' ?' if place in before else line
        yield line


def first_lines(lines):
    for _, line in zip(range(10), lines):
        yield line


def held_back(lines):
    yield from list(lines)


SPOILERS = {
    'nothing': lambda lines: lines,
    'a mark is left out': lambda lines: spoilt(lines, is_mark, lambda line: []),
    'a mark is twice there': lambda lines: spoilt(lines, is_mark, lambda line: [line, line]),
    'a mark ends one byte later': lambda lines: spoilt(lines, is_mark, moved),
    'a mark is shown as not checked': lambda lines: spoilt(lines, is_mark, lambda line: [line.split(b' ')[0] + b' ?']),
    'old marks are shown': stale,
    'what was checked is not checked any more': fallen_back,
    'a reply is doubled': lambda lines: spoilt(lines, begins(b'ok '), lambda line: [line, line]),
    'a reply is missing': lambda lines: spoilt(lines, begins(b'no '), lambda line: []),
    'a version of the text is one too low': lambda lines: spoilt(lines, begins(b'ok '), with_last(-1)),
    'a version of the dictionary is one too high': lambda lines: spoilt(lines, begins(b'text '), with_last(1)),
    'a number of paragraphs is one too high': lambda lines: spoilt(lines, begins(b'no Place '), with_last(1)),
    'a dot is missing': lambda lines: spoilt(lines, begins(b'.'), lambda line: []),
    'a refusal has another cause': lambda lines: spoilt(lines, begins(b'no Command'), lambda line: [b'no Gone']),
    'the output ends early': first_lines,
    'replies are held back to the end': held_back,
    'no worker works': lambda lines: lines,
    'it does not end': lambda lines: lines,
    'it ends with status 3': lambda lines: lines,
    'it writes on standard error': lambda lines: lines,
}
# These are seen by waiting for what does not come.
LATE = {'a reply is missing', 'a dot is missing', 'the output ends early', 'replies are held back to the end', 'no worker works',
        'it does not end'}
# Of these, those that are seen at once where what is missing would have been the end of the output.
AT_ONCE_TOO = {'a reply is missing', 'a dot is missing', 'the output ends early'}


def main():
    kind, *words = sys.argv[1:]
    if kind == 'no worker works' and '--workers' in words:
        at = words.index('--workers')
        del words[at:at + 2]
    with subprocess.Popen(words, stdout=subprocess.PIPE) as program:
        for line in SPOILERS[kind](line.removesuffix(b'\n') for line in program.stdout):
            sys.stdout.buffer.write(line + b'\n')
            sys.stdout.buffer.flush()
        status = program.wait()
    if kind == 'it does not end':
        time.sleep(3600)
    if kind == 'it writes on standard error':
        print('spoilt', file=sys.stderr)
    return 3 if kind == 'it ends with status 3' else status


if __name__ == '__main__':
    sys.exit(main())
