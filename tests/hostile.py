#!/usr/bin/env python3
"""Runs the program over files and inputs that no one meant: random bytes, and pieces of real ones that are cut, doubled and exchanged.

`hostile.py RUNS` makes so many runs, 300 where nothing is said, of `check`, `edit`, `pipe`, `forms`, `team` and `make`, with workers and without. Each
has to end by itself within the seconds of --limit, with a status of the table, with the last line that this status has, and with nothing on
standard error; marks have to stand in their text. A run that does not is told, and its files are kept; the status is 1 then. It prints a seed, which
--seed takes, and how often which command ended with which status.
"""

import argparse
import collections
import glob
import os
import random
import re
import shutil
import subprocess
import sys
import tempfile
import time

sys.dont_write_bytecode = True

import program  # noqa: E402

TOP = os.path.dirname(os.path.dirname(os.path.abspath(__file__)))
# No file that is made is larger, but for those that are to pass a limit.
MOST = 200_000
# The last line of each status that a command may end with, but for 6 and 7, which nothing here brings about.
FAULTS = rb'(aff|dic) \d+ [A-Za-z0-9]+'
ENDS = {
    'check': {0: rb'0 of \d+', 1: rb'\d+ of \d+', 3: rb'(aff|dic|own) \d+ [A-Za-z0-9]+', 4: rb'doc \d+', 5: rb'missing|files',
              8: rb'limit (16777216|67108864|20000|65536)'},
    'edit': {0: rb'.*', 3: rb'(aff|dic|own) \d+ [A-Za-z0-9]+', 5: rb'missing|files|input', 8: rb'limit (16777216|131072|4294967295)'},
    'pipe': {0: rb'.*', 3: FAULTS, 5: rb'missing|files|input', 8: rb'limit (16777216|131072|4294967295)'},
    'forms': {0: rb'\d+ forms', 3: FAULTS, 5: rb'missing|files', 8: rb'limit (16777216|1000000)'},
    'team': {0: rb'total text \d+ dict \d+', 3: FAULTS, 4: rb'script \d+', 5: rb'missing|files', 8: rb'limit (16777216|131072|4)'},
    'make': {0: rb'marks 0', 1: rb'marks \d+', 2: rb'affedit: words'},
    'other': {2: rb'affedit: words'}}
AFF_LINES = [
    b'SET UTF-8', b'SET ISO8859-1', b'FLAG long', b'FLAG num', b'FLAG UTF-8', b'AF 2', b'AF AB', b'TRY esian', b'KEY qwert|asdf', b'WORDCHARS -.0123456789',
    b'IGNORE \xd9\x8b\xc3\xa4', b'ICONV 2', b'ICONV y i', b'ICONV ss \xc3\x9f', b'OCONV 1', b'OCONV a b', b'BREAK 2', b'BREAK -', b'BREAK ^x', b'BREAK 0', b'REP 2',
    b'REP f ph', b'REP ^a b$', b'MAP 1', b'MAP a\xc3\xa4', b'PFX A Y 1', b'PFX A 0 re .', b'SFX B Y 2', b'SFX B 0 ed [^y]', b'SFX B y ied y', b'SFX C N 1',
    b'SFX C 0 s/AB [^s\xc3\x9f]', b'SFX 65000 Y 1', b'COMPOUNDFLAG X', b'COMPOUNDBEGIN X', b'COMPOUNDMIDDLE Y', b'COMPOUNDEND Z', b'COMPOUNDMIN 1',
    b'COMPOUNDWORDMAX 2', b'COMPOUNDRULE 2', b'COMPOUNDRULE n*1t', b'COMPOUNDRULE (11)*(22)?', b'COMPOUNDPERMITFLAG P', b'COMPOUNDFORBIDFLAG F',
    b'CHECKCOMPOUNDDUP', b'CHECKCOMPOUNDCASE', b'CHECKCOMPOUNDTRIPLE', b'SIMPLIFIEDTRIPLE', b'CHECKCOMPOUNDREP', b'CHECKCOMPOUNDPATTERN 1',
    b'CHECKCOMPOUNDPATTERN o/X b/Y z', b'COMPOUNDMORESUFFIXES', b'FORCEUCASE U', b'NEEDAFFIX N', b'ONLYINCOMPOUND O', b'CIRCUMFIX Q', b'FORBIDDENWORD !',
    b'KEEPCASE K', b'CHECKSHARPS', b'FULLSTRIP', b'NOSUGGEST *', b'WARN W', b'FORBIDWARN', b'LANG de_DE', b'COMPLEXPREFIXES', b'# a comment', b'']
DIC_LINES = [b'hello', b'try/B', b'work/AB', b'foo/X', b'bar/XYZ', b'Stra\xc3\x9fe/K', b'na\xc3\xafve', b'0/n', b'1st/pt', b'a/65535', b'\xe2\x80\x99s', b'x\\/y/A', b'iPod/K!', b'o\xcc\x88l po:noun']
TEXTS = [b'hello wrold', b'retried foobar foobarfoo', b'STRASSE Strasse', b"it's re-tried 12 1st", b'HELLO Hello hELLO', b'\xef\xbb\xbfhello', b'\xe2\x80\x99 \xe2\x80\x99s', b'', b' ']
EDITS = [
    b'ins 1 hello wrold', b'ins 2 foobar', b'put 1 x', b'sub 1 0 1 yz', b'sub 1 1 99 ', b'del 1', b'stop 1', b'ask 1', b'settle', b'show', b'load aff dic', b'load b.aff dic',
    b'own wurk', b'own *hello', b'own foo/work', b'quit', b'', b'ins', b'show ', b'ins 999999999 x']
SCRIPTS = [b'%d %s' % (session, line) for session in (1, 2, 16) for line in EDITS] + [b'3', b'09 show', b'17 show', b' ', b'2  ins 1 a', b'1 load b.aff none.dic']
PIPED = [b'hello wrold', b'^retried', b'!', b'%', b'*x', b'#', b'', b'^', b'@word']


def nonsense(rolled):
    """Random bytes, of all, of ASCII, or of few."""
    signs = rolled.choice((bytes(range(256)), bytes(range(32, 127)) + b'\n', b'ab\n /', b'\x00\n\xff', '-./0aZéßſ\u0301\U0001f600\n'.encode()))
    return bytes(rolled.choices(signs, k=rolled.choice((0, 1, 7, 100, 5_000))))


def lines_from(rolled, known):
    """Lines that are known, in any order, with rows that a table announces or not."""
    lines = rolled.choices(known, k=rolled.choice((1, 5, 30, 200)))
    if known is DIC_LINES:
        lines.insert(0, b'%d' % rolled.choice((0, len(lines), 10**6)))
    return rolled.choice((b'\n', b'\n', b'\n', b'\r\n')).join(lines) + rolled.choice((b'', b'\n'))


def twisted(rolled, data, others):
    """The bytes with some of them cut, doubled, changed, or put in from elsewhere."""
    data = data[:MOST]
    for _ in range(rolled.choice((0, 0, 1, 1, 2, 5))):
        start, end = sorted(rolled.choices(range(len(data) + 1), k=2))
        end = min(end, start + rolled.choice((1, 10, 1_000, MOST)))
        piece = data[start:end]
        kind = rolled.randrange(7)
        if kind == 0:
            data = data[:start]
        elif kind == 1:
            data = data[:end] + piece * rolled.choice((1, 3, 50)) + data[end:]
        elif kind == 2:
            data = data[:start] + data[end:]
        elif kind == 3:
            data = data[:start] + nonsense(rolled)[:100] + data[end:]
        elif kind == 4:
            other = rolled.choice(others)
            place = rolled.randrange(len(other) + 1)
            data = data[:start] + other[place : place + 1_000] + data[start:]
        elif kind == 5:
            data = re.sub(rb'\d+', lambda _: rolled.choice((b'0', b'1', b'65535', b'65536', b'4294967296', b'99999999999999999999', b'')), data, count=3)
        else:
            data = data[:start] + b'\n' + bytes(piece[::-1]) + data[end:]
        data = data[:MOST]
    return data


class Runs:
    """Makes runs, and counts how they end."""

    def __init__(self, program, seed, limit):
        self.program = program
        self.seed = seed
        self.limit = limit
        self.ends = collections.Counter()
        self.longest = 0.0
        self.wrong = 0
        read = [os.path.join(TOP, 'examples/sample'), os.path.join(TOP, 'crates/affedit/data/a'), *(path[:-4] for path in sorted(glob.glob('/usr/share/hunspell/*.aff')))]
        self.affs = [data for path in read if (data := self.bytes_of(path + '.aff'))]
        self.dics = [data for path in read if (data := self.bytes_of(path + '.dic'))]
        self.texts = [data for path in glob.glob(os.path.join(TOP, 'docs/*.md')) if (data := self.bytes_of(path))]

    @staticmethod
    def bytes_of(path):
        try:
            with open(path, 'rb') as file:
                return file.read(MOST)
        except OSError:
            return b''

    def made(self, rolled, known, real):
        base = rolled.choice((lambda: lines_from(rolled, known), lambda: rolled.choice(real), lambda: nonsense(rolled)))()
        return twisted(rolled, base, real)

    def files(self, rolled):
        files = {'aff': self.made(rolled, AFF_LINES, self.affs), 'dic': self.made(rolled, DIC_LINES, self.dics), 'text': self.made(rolled, TEXTS, self.texts)}
        files['own'] = self.made(rolled, [b'wurk', b'*hello', b'foo/work', b''], self.dics)
        # A script of lines that are known is often good.
        scripts = rolled.choice((SCRIPTS[:-6], SCRIPTS))
        files['script'] = rolled.choice((lines_from(rolled, scripts), self.made(rolled, scripts, self.texts)))
        if rolled.random() < 0.7:
            files['b.aff'] = rolled.choice((b'', files['aff']))
        if rolled.random() < 0.5:
            # Most of what is twisted is refused: so a pair is often good, and what comes behind is reached.
            files['aff'] = rolled.choice((b'', self.affs[0]))
            files['dic'] = rolled.choice((b'3\nhello\nfoo/S\nwork\n', self.dics[0]))
        if rolled.random() < 0.02:
            name, size = rolled.choice((('aff', 16_777_217), ('dic', 16_777_217), ('script', 16_777_217), ('text', 67_108_865), ('text', 65_537)))
            files[name] = rolled.choice((b'a', b'\n')) * size
        if rolled.random() < 0.03:
            del files[rolled.choice(sorted(files))]
        return files

    def words(self, rolled):
        command = rolled.choice(('check', 'check', 'check', 'edit', 'edit', 'pipe', 'forms', 'team', 'team', 'make', 'other'))
        options = [['--workers', str(rolled.choice((0, 1, 2, 4, 16)))], ['--own', 'own']]
        options = [word for option in options if rolled.random() < 0.5 for word in option]
        if command == 'check':
            return command, ['check', 'aff', 'dic', 'text', *options]
        if command == 'edit':
            return command, ['edit', 'aff', 'dic', *options]
        if command == 'team':
            return command, ['team', 'aff', 'dic', 'script', *(options if options[:1] == ['--workers'] else [])[:2]]
        if command == 'make':
            return command, ['make', rolled.choice(('0', '7', '18446744073709551616', '-1', 'x')), rolled.choice(('1', '300', '50001', ''))]
        if command == 'other':
            return command, [nonsense(rolled)[:50].replace(b'\0', b''), *rolled.choice((['aff', 'dic'], [b'\xff'], ['--workers'], []))]
        return command, [command, 'aff', 'dic']

    def run(self, number):
        rolled = random.Random(f'{self.seed} {number}')
        files = self.files(rolled)
        command, words = self.words(rolled)
        given = self.made(rolled, EDITS if command == 'edit' else PIPED, self.texts)
        if rolled.random() < 0.01:
            given = b'a' * 131_073
        folder = tempfile.mkdtemp()
        for name, data in files.items():
            with open(os.path.join(folder, name), 'wb') as file:
                file.write(data)
        began = time.monotonic()
        try:
            done = subprocess.run([self.program, *words], cwd=folder, input=given, capture_output=True, check=False, timeout=self.limit)
            fault = self.fault(command, done, files)
            self.ends[command, done.returncode] += 1
        except subprocess.TimeoutExpired:
            fault = f'it did not end within {self.limit} seconds'
        self.longest = max(self.longest, time.monotonic() - began)
        if fault:
            self.wrong += 1
            with open(os.path.join(folder, 'input'), 'wb') as file:
                file.write(given)
            print(f'run {number} of seed {self.seed}: {words}: {fault}; its files are in {folder}')
        else:
            shutil.rmtree(folder)

    def fault(self, command, done, files):
        """What is wrong with the end of a run, if anything is."""
        status, written = done.returncode, done.stdout
        if status not in ENDS[command]:
            return f'status {status}'
        if done.stderr:
            return f'on standard error: {done.stderr[:200]!r}'
        last = written.removesuffix(b'\n').rsplit(b'\n', 1)[-1]
        if written and not written.endswith(b'\n'):
            return 'no end of the last line'
        if not re.fullmatch(ENDS[command][status], last, re.DOTALL):
            return f'status {status} behind {last[:200]!r}'
        if (status in (2, 3, 4) or command == 'team' and status > 0) and written.count(b'\n') != 1:
            return f'status {status} with more than one line'
        return self.marks_fault(written, files['text']) if command == 'check' and status == 1 else None

    @staticmethod
    def marks_fault(written, text):
        lines = text.removeprefix(b'\xef\xbb\xbf').split(b'\n')
        marks = written.split(b'\n')[:-2]
        for mark in marks:
            place, start, end, word = mark.split(b' ', 3)
            if lines[int(place) - 1][int(start) : int(end)] != word:
                return f'a mark that does not stand in its text: {mark!r}'
        count, total = written.split(b'\n')[-2].split(b' of ')
        return None if int(count) == len(marks) <= int(total) else 'another number of marks'


def main():
    parser = argparse.ArgumentParser(description=__doc__, formatter_class=argparse.RawDescriptionHelpFormatter)
    parser.add_argument('runs', nargs='?', type=int, default=300)
    parser.add_argument('--seed', type=int, default=int(time.time()))
    parser.add_argument('--first', type=int, default=0, help='the number of the first run')
    parser.add_argument('--limit', type=int, default=60, help='seconds')
    asked = parser.parse_args()
    runs = Runs(program.found() or sys.exit(1), asked.seed, asked.limit)
    for number in range(asked.first, asked.first + asked.runs):
        runs.run(number)
    print(f'seed {asked.seed}, {asked.runs} runs, the longest {runs.longest:.2f} s, {runs.wrong} wrong')
    for command in ENDS:
        print(f'{command}: ' + ', '.join(f'{count} with {status}' for (name, status), count in sorted(runs.ends.items()) if name == command))
    sys.exit(1 if runs.wrong else 0)


if __name__ == '__main__':
    main()
