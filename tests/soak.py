#!/usr/bin/env python3
"""Talks to `edit` in random dialogues, and compares each reply with what a model of docs/CONSOLE.md says. Marks are compared with what
`check` prints of the same text by the same dictionary. With workers a paragraph that is to be checked may be shown unchecked or with its
marks; shown with its marks it has to stay so until it is touched; and left alone all have to be checked some time, without `settle`.

`soak.py SECONDS` goes on for so long, 5 where nothing is said, and ends with status 1 at the first dialogue that goes wrong, whose input
and output it keeps. It prints a seed; `--seed S --first K --dialogues 1` is dialogue K of that seed again, but for what threads do.

`soak.py --wrong` spoils the output in each of the ways of console_wrong.py, and ends with status 1 where that is not seen.
"""

import argparse
import collections
import os
import random
import shutil
import sys
import tempfile
import time

sys.dont_write_bytecode = True

import console_files  # noqa: E402
import console_wrong  # noqa: E402
import program  # noqa: E402
from console_lines import Writer, opening  # noqa: E402
from console_model import MARK, Model, Wrong, compare, lines_of  # noqa: E402
from console_talk import Marks, Output, Talk  # noqa: E402

# One of so many dialogues begins with as many paragraphs as there may be.
CROWDED = 150
CROWD = 20_000


class Dialogue:
    """A random dialogue: its words, its input line by line, and in which pieces that is sent."""

    def __init__(self, seed, number, workers, most_lines):
        self.random = rolled = random.Random(f'{seed} {number} {workers}')
        self.is_crowded = rolled.random() < 1 / CROWDED
        self.workers = workers
        self.dictionary, self.items = opening(rolled, self.is_crowded)
        self.writer = Writer(rolled, self.dictionary, self.items)
        self.front = rolled.choice((b'', b'', b'', MARK))
        self.lines = list(self.crowd()) if self.is_crowded else []
        self.lines += self.writer.lines(rolled.randint(1, 60 if self.is_crowded else most_lines))
        self.is_left_alone = self.count_of_workers() > 0 and not self.is_crowded and rolled.random() < 0.5
        if self.is_left_alone:
            places = range(1, len(self.writer.model.paragraphs) + 1)
            self.lines += [self.writer.ended(b'ask %d' % place) for place in places]
        # What follows comes behind the shows of a dialogue that is left alone.
        self.last = [self.writer.ended(b'show'), self.writer.ended(b'settle'), self.writer.ended(b'show')]

    def count_of_workers(self):
        return 0 if self.workers == 'none' else int(self.workers)

    def crowd(self):
        """Paragraphs up to the most that there may be, and some more."""
        for place in range(1, CROWD - 1):
            yield self.writer.ended(b'ins %d %s' % (place, self.random.choice((b'hello', b'wurk', b'tried', b''))))
        for _ in range(4):
            yield self.writer.ended(b'ins %d wurk' % self.random.randint(1, CROWD))

    def words(self, *program):
        options = [] if self.workers == 'none' else ['--workers', self.workers]
        own = ['--own', 'own'] if self.dictionary.own or self.random.random() < 0.2 else []
        return [*program, 'edit', self.dictionary.aff, self.dictionary.dic, *options, *own]

    def pieces(self):
        """The input in pieces, each with how many replies are waited for behind it; None where none are."""
        ways = {'line by line': 1, 'in small batches': 20, 'in large batches': 700, 'at once': len(self.lines) + 1, 'in bytes': 0}
        most = self.random.choice([*ways.values()])
        data, due = self.front, 0
        left = self.random.randint(1, max(most, 1))
        for line, has_reply in self.lines:
            if most == 0 and self.random.random() < 0.3:
                # The piece ends within the line, whose front has no reply yet.
                cut = self.random.randint(0, len(line) - 1)
                yield data + line[:cut], due if self.random.random() < 0.5 else None
                data, line = b'', line[cut:]
            data, due, left = data + line, due + has_reply, left - 1
            if left == 0:
                yield data, due if self.random.random() < 0.8 or most == 1 else None
                data, left = b'', self.random.randint(1, max(most, 1))
        yield data, due

    def ending(self):
        """How the input ends: with `quit`, which nothing is answered behind, or at its end, where the line feed may be missing."""
        behind = self.random.choice((b'', b'', b'show\n', b'ins 1 x\nins 1', b'\xff\nquit\n'))
        return self.random.choice((b'quit\n', b'quit\r\n', b'quit', b'', b'', b' \t', b'no command', b'settle', b'show\r')) + behind


def hold(dialogue, talk):
    """Sends the input of a dialogue to the program."""
    rolled, due = dialogue.random, 0
    for data, wanted in dialogue.pieces():
        talk.send(data)
        if rolled.random() < 0.05:
            time.sleep(rolled.random() / 200)
        if wanted is not None:
            talk.wait(due := wanted)
    if dialogue.is_left_alone:
        due = leave_alone(talk, due)
    for line, has_reply in dialogue.last:
        talk.send(line)
        due += has_reply
    talk.wait(due)
    talk.send(dialogue.ending())


def leave_alone(talk, due):
    """Has all shown until all are checked, and nothing else. No paragraph is stopped."""
    pause, began = 0.0005, time.monotonic()
    while True:
        start = talk.wait(due)
        talk.send(b'show\n')
        due += 1
        end = talk.wait(due)
        if talk.has_closed or not any(line.endswith(b' ?') for line in talk.lines[start:end]):
            return due
        if time.monotonic() - began > talk.limit:
            raise Wrong(f'left alone for {talk.limit:g} s, not all are checked')
        time.sleep(pause)
        pause = min(pause * 1.5, 0.2)


class Soak:
    """Dialogues one after another, in a folder of their own."""

    def __init__(self, options, folder, front=()):
        # The words before the program's name are those of what spoils its output.
        self.options, self.folder, self.front = options, folder, front
        self.seen = collections.Counter()
        self.marks = Marks(options.program, folder)
        self.done = self.lines = 0
        console_files.write_all(folder)

    def dialogue(self, number, workers):
        """One dialogue, from its start to its end."""
        dialogue = Dialogue(self.options.seed, number, workers, self.options.lines)
        if len(self.marks.known) > 2_000:
            self.marks.known.clear()
        with open(os.path.join(self.folder, 'own'), 'wb') as file:
            file.write(dialogue.dictionary.own)
        talk = Talk(dialogue.words(*self.front, self.options.program), self.folder, self.options.limit)
        try:
            self.hold_and_compare(dialogue, talk)
        except Wrong:
            self.keep(talk)
            raise
        finally:
            talk.stop()
        self.done += 1
        self.lines += talk.sent.count(b'\n')

    def hold_and_compare(self, dialogue, talk):
        try:
            hold(dialogue, talk)
            status = talk.end()
        except Wrong as late:
            try:
                self.compare(dialogue, talk)
            except Wrong as first:
                raise Wrong(f'{late}; {first}') from first
            raise
        self.compare(dialogue, talk)
        if status != 0:
            raise Wrong(f'ended with status {status}')
        with open(os.path.join(self.folder, 'stderr'), 'rb') as file:
            if said := file.read():
                raise Wrong(f'on standard error: {said[:200]!r}')

    def compare(self, dialogue, talk):
        for dictionary, texts in dialogue.writer.shown.items():
            self.marks.learn(dictionary, texts)
        model = Model(dialogue.dictionary, dialogue.items, console_files.fault_of, dialogue.count_of_workers() > 0)
        compare(model, lines_of(bytes(talk.sent)), Output(talk.lines, self.seen), self.marks.of)

    def keep(self, talk):
        """Leaves the input and the output of a dialogue that went wrong."""
        for name, content in ('input', bytes(talk.sent)), ('output', b''.join(line + b'\n' for line in talk.lines)):
            with open(os.path.join(self.folder, name), 'wb') as file:
                file.write(content)

    def run(self):
        """Dialogues until the time is over, by each number of workers in turn. Gives the first that went wrong."""
        ends, number = time.monotonic() + self.options.seconds, self.options.first
        while time.monotonic() < ends and number < self.options.first + self.options.dialogues:
            workers = self.options.workers[number % len(self.options.workers)]
            try:
                self.dialogue(number, workers)
            except Wrong as wrong:
                return f'dialogue {number}, workers {workers}: {wrong}'
            number += 1
        return None


def spoil(options):
    """Spoils the output in each way in turn, and prints how it was seen. Gives whether each was, and nothing else."""
    unseen, options.seconds = 0, 600
    for kind in console_wrong.SPOILERS:
        is_late = kind in console_wrong.LATE
        # Not every dialogue has what is to be spoilt: only one in six has old marks.
        options.limit, options.dialogues, options.lines = 3 if is_late else 60, 20 if kind == 'nothing' else 200, 100
        folder = tempfile.mkdtemp()
        seen = Soak(options, folder, [sys.executable, console_wrong.__file__, kind]).run()
        shutil.rmtree(folder)
        is_at_once_too = kind in console_wrong.AT_ONCE_TOO
        is_right = (seen is None) if kind == 'nothing' else (seen is not None and (is_at_once_too or (' for 3 s' in seen) == is_late))
        print(f'{"" if is_right else "NOT AS IT SHOULD BE: "}{kind}: {seen or "nothing was seen"}', flush=True)
        unseen += not is_right
    return unseen == 0


def options_of(words):
    parser = argparse.ArgumentParser(description=__doc__, formatter_class=argparse.RawDescriptionHelpFormatter)
    parser.add_argument('seconds', nargs='?', type=float, default=float(os.environ.get('SOAK_SECONDS', '5')), help='how long it goes on')
    parser.add_argument('--program', default=os.environ.get('SOAK_PROGRAM'), help='the program; without it the one that tests/program finds')
    parser.add_argument('--workers', default='none,0,1,4,16', help='numbers of workers, by turns; `none` is without the option')
    parser.add_argument('--seed', type=int, default=int(time.time()))
    parser.add_argument('--first', type=int, default=0, help='the number of the first dialogue')
    parser.add_argument('--dialogues', type=int, default=1_000_000, help='how many there are at most')
    parser.add_argument('--lines', type=int, default=300, help='how many lines a dialogue has at most')
    parser.add_argument('--wrong', action='store_true', help='spoil the output, and see whether that is seen')
    parser.add_argument('--limit', type=float, default=60, help='for how many seconds the program may be silent')
    options = parser.parse_args(words)
    options.workers = options.workers.split(',')
    options.program = os.path.abspath(options.program or program.found() or sys.exit(1))
    return options


def main():
    options = options_of(sys.argv[1:])
    print(f'seed {options.seed}', flush=True)
    if options.wrong:
        return 0 if spoil(options) else 1
    folder = tempfile.mkdtemp()
    soak = Soak(options, folder)
    wrong = soak.run()
    if wrong:
        print(f'soak: seed {options.seed}, {wrong}\nsoak: {folder} has its input, its output and its dictionaries', file=sys.stderr)
        return 1
    shutil.rmtree(folder)
    print(f'{soak.done} dialogues, {soak.lines} lines, {soak.marks.runs} runs of `check`')
    print('; '.join(f'{kind}: {count}' for kind, count in sorted(soak.seen.items())))
    return 0


if __name__ == '__main__':
    sys.exit(main())
