#!/usr/bin/env python3
"""Runs `team` on random scripts, and has team_history.py decide whether one history explains what each prints.

`team.py SECONDS` goes on for so long, 5 where nothing is said, and ends with status 1 at the first output that no history explains, which
it keeps with its script. It prints a seed; `--seed S --first K --scripts 1` is script K of that seed again, but for what threads do.

`team.py --simulated` has a simulator in place of the program, by which sessions mix as they like. It needs no program. For half of the
time it tries all outputs of small scripts (team_every.py).

`team.py --wrong` turns outputs in each of the ways of team_wrong.py and team_wrong_looks.py, and ends with status 1 where none is refused
of those that one of them makes, or where one is accepted that nothing can explain. If the program prints few outputs that a way can turn,
the simulator prints more. At last it has simulators that go wrong, of which some output has to be refused.

Each of them begins with the outputs of team_table.py, which were written by hand.
"""

import argparse
import collections
import os
import random
import shutil
import subprocess
import sys
import tempfile
import time

sys.dont_write_bytecode = True

import console_files as files  # noqa: E402
import team_ends  # noqa: E402
import team_every  # noqa: E402
import program  # noqa: E402
from console_model import MARK, Wrong  # noqa: E402
from team_history import Undecided  # noqa: E402
from team_lines import sessions_of  # noqa: E402
from team_marks import ProgramMarks, WordMarks  # noqa: E402
from team_script import Writer, some_pairs  # noqa: E402
from team_simulator import Simulator  # noqa: E402
from team_trial import decide, try_table, try_wrong  # noqa: E402

# One of so many runs of the program is of files that end it before a session starts.
SPOILT = 5


class Script:
    """A random script."""

    def __init__(self, seed, number, workers, options):
        self.random = rolled = random.Random(f'{seed} {number} {workers}')
        self.workers, self.pair = int(workers), rolled.choice(files.GOOD[:2])
        count = rolled.randint(1, options.sessions)
        writer = Writer(rolled, count, some_pairs(rolled))
        lines = [line + rolled.choice((b'\n', b'\n', b'\r\n')) for line in writer.lines(options.lines)]
        self.data = rolled.choice((b'', b'', MARK)) + b''.join(lines)
        self.sessions = sessions_of(self.data)
        # How likely a turn of a session is followed by one of the same, where the simulator runs it. Many sessions that mix much have
        # too many histories for the checker to decide in time.
        self.stay = rolled.choice((0, 0.5, 0.9, 0.98) if count <= 6 else (0.8, 0.9, 0.98))

    def simulated(self, marks, kind=Simulator):
        """What is printed where turns come as they like."""
        last = None

        def choose(count, turns):
            nonlocal last
            if last in turns and self.random.random() < self.stay:
                return turns.index(last)
            chosen = self.random.randrange(count)
            last = turns[chosen]
            return chosen
        return kind(self.sessions, self.pair, self.workers > 0, files.fault_of, marks.of, choose).run()


class Team:
    """Scripts one after another, in a folder of their own."""

    def __init__(self, options, folder):
        self.options, self.folder = options, folder
        self.seen, self.ends = collections.Counter(), collections.Counter()
        self.done = self.lines = self.steps = self.undecided = 0
        self.marks = WordMarks() if options.simulated else ProgramMarks(options.program, folder)
        if not options.simulated:
            files.write_all(folder)

    def output(self, script):
        if self.options.simulated:
            return script.simulated(self.marks)
        self.write('script', script.data)
        status, output, error = self.call([*script.pair, 'script', '--workers', str(script.workers)])
        if status != 0 or error:
            raise Wrong(f'status {status}, {output[-100:]!r}, on standard error {error[:200]!r}')
        return output

    def call(self, words):
        """A run of the program: its status, and what it wrote."""
        words = [self.options.program, 'team', *words]
        done = subprocess.run(words, cwd=self.folder, capture_output=True, timeout=self.options.limit, check=False)
        return done.returncode, done.stdout, done.stderr

    def write(self, name, content):
        with open(os.path.join(self.folder, name), 'wb') as file:
            file.write(content)

    def try_end(self, script):
        """A run of files that differ from those of a script, and of words that are of no form."""
        aff, dic, name, data = team_ends.spoilt(script.random, script.data)
        self.write('script', data)
        end = team_ends.end_of(aff, dic, name, data)
        status, output, error = self.call([aff, dic, name, '--workers', str(script.workers)])
        is_right = status == 0 if end is None else (status, output) == (end[0], end[1] + b'\n')
        if not is_right or error:
            raise Wrong(f'ended with {status}, {output[-100:]!r} and {error[:100]!r}, by {aff!r} {dic!r} {name!r}, and should with {end}')
        self.ends[end] += 1
        words = script.random.choice(team_ends.BAD_WORDS)
        if (came := self.call(words)) != (2, b'affedit: words\n', b''):
            raise Wrong(f'the words {words} ended with {came}')

    def decide(self, script, output):
        """Ends well where a history explains the output. Gives its calls."""
        return decide(script.sessions, script.pair, script.workers, output, self.marks, self.options.steps)

    def try_every(self, seconds):
        """All outputs of small scripts. Gives what went wrong first."""
        ends, number, tried = time.monotonic() + seconds, 0, 0
        while time.monotonic() < ends:
            rolled = random.Random(f'{self.options.seed} small {number}')
            count, wrong = team_every.try_small_script(rolled, lambda *words: decide(*words, self.marks, self.options.steps), self.marks.of)
            if wrong:
                return f'small script {number}: {wrong}'
            number, tried = number + 1, tried + count
        print(f'{number} small scripts, {tried} outputs of them')
        return None

    def script(self, number):
        workers = self.options.workers[number % len(self.options.workers)]
        return Script(self.options.seed, number, workers, self.options)

    def run(self):
        """Scripts until the time is over. Gives what went wrong first."""
        ends, number = time.monotonic() + self.options.seconds, self.options.first
        if self.options.simulated and (wrong := self.try_every(self.options.seconds / 2)):
            return wrong
        while time.monotonic() < ends and number < self.options.first + self.options.scripts:
            script, output = self.script(number), b''
            try:
                output = self.output(script)
                calls, steps = self.decide(script, output)
                self.steps += steps
                self.seen.update(call.kind for mine in calls for call in mine)
                if not self.options.simulated and number % SPOILT == 0:
                    self.try_end(script)
            except Undecided:
                self.undecided += 1
            except (Wrong, subprocess.TimeoutExpired) as wrong:
                self.keep(script, output)
                return f'script {number}, workers {script.workers}: {wrong}'
            self.done += 1
            self.lines += script.data.count(b'\n')
            number += 1
        if self.undecided > self.done // 4:
            return f'of {self.done} outputs {self.undecided} were not decided in {self.options.steps} steps'
        return None

    def keep(self, script, output):
        for name, content in ('first script', script.data), ('output', output), ('pair', b' '.join(script.pair)):
            self.write(name, content)


def options_of(words):
    parser = argparse.ArgumentParser(description=__doc__, formatter_class=argparse.RawDescriptionHelpFormatter)
    parser.add_argument('seconds', nargs='?', type=float, default=float(os.environ.get('TEAM_SECONDS', '5')), help='how long it goes on')
    parser.add_argument('--program', default=os.environ.get('TEAM_PROGRAM'), help='the program; without it the one that tests/program finds')
    parser.add_argument('--workers', default='0,1,4,16', help='numbers of workers, by turns')
    parser.add_argument('--seed', type=int, default=int(time.time()))
    parser.add_argument('--first', type=int, default=0, help='the number of the first script')
    parser.add_argument('--scripts', type=int, default=1_000_000, help='how many there are at most')
    parser.add_argument('--sessions', type=int, default=16, help='how many sessions a script has at most')
    parser.add_argument('--lines', type=int, default=40, help='how many lines a session has at most, about')
    parser.add_argument('--steps', type=int, default=20_000, help='after how many steps an output is given up as not decided')
    parser.add_argument('--simulated', action='store_true', help='have a simulator in place of the program')
    parser.add_argument('--wrong', action='store_true', help='turn outputs, and see whether they are refused')
    parser.add_argument('--limit', type=float, default=60, help='for how many seconds the program may run')
    options = parser.parse_args(words)
    options.workers = options.workers.split(',')
    if options.wrong:
        options.sessions, options.lines = min(options.sessions, 4), min(options.lines, 14)
    if not options.simulated:
        options.program = os.path.abspath(options.program or program.found() or sys.exit(1))
    return options


def main():
    options = options_of(sys.argv[1:])
    print(f'seed {options.seed}', flush=True)
    if wrongs := [*try_table()]:
        print('team: written by hand: ' + '\nteam: written by hand: '.join(wrongs), file=sys.stderr)
        return 1
    folder = tempfile.mkdtemp()
    team = Team(options, folder)
    if options.wrong:
        failed = try_wrong(team, Team(argparse.Namespace(**{**vars(options), 'simulated': True}), folder))
        shutil.rmtree(folder)
        return 1 if failed else 0
    wrong = team.run()
    if wrong:
        print(f'team: seed {options.seed}, {wrong}\nteam: {folder} has its script, its output and its dictionaries', file=sys.stderr)
        return 1
    shutil.rmtree(folder)
    print(f'{team.done} scripts, {team.lines} lines, {team.steps} steps of the search, {team.undecided} not decided')
    print('; '.join(f'{kind}: {count}' for kind, count in sorted(team.seen.items())))
    if not options.simulated:
        print('; '.join(f'{"sessions start" if end is None else end[1].decode()}: {count}' for end, count in team.ends.most_common()))
    return 0


if __name__ == '__main__':
    sys.exit(main())
