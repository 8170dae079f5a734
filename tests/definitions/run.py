#!/usr/bin/env python3
"""Compares the program with a plain slow program of the definitions, on random small dictionaries.

    run.py [DICTIONARIES] [--seed S] [--first N]    compares what `check`, `forms` and `pipe` print; 300 dictionaries where nothing is said
    run.py --wrong [DICTIONARIES]                   plants wrong verdicts, one at a time, in a copy of the slow program; each has to be found

Each difference is printed with its dictionary, made as small as it gets, and with the seed and the number of the dictionary: `--seed S --first N 1`
is that dictionary again. The status is 1 where there is a difference, or a wrong verdict that was not found, and 2 where there is no program.
"""

import argparse
import sys
import time

sys.dont_write_bytecode = True

import coverage  # noqa: E402
import wrong  # noqa: E402
from lines import Wrong  # noqa: E402
from program import NoProgram, Program, program_of  # noqa: E402
from smaller import told  # noqa: E402
from trial import Trial, made_by  # noqa: E402


def compare(options, path):
    """Goes through the dictionaries, or up to the first difference where one is enough. Gives how many differ."""
    program, counts, began = Program(path), coverage.Counts(), time.time()
    done = differing = refused = 0
    # Looking at what was tried costs more than comparing, so of many dictionaries some 300 are looked at.
    every = max(options.dictionaries // 300, 1)
    for number in range(options.first, options.first + options.dictionaries):
        try:
            made, rolled = made_by(options.seed, number)
            trial = Trial(made, rolled)
        except Wrong:
            # What is rolled may be no dictionary, as one with an entry whose characters are all ignored.
            refused += 1
            continue
        done += 1
        differs = trial.difference(program)
        if differs:
            differing += 1
            print(f'seed {options.seed}, dictionary {number}: {told(trial, differs, program, not options.stop)}', flush=True)
            if options.stop:
                break
        counts.add_words(trial)
        if not options.stop and number % every == 0:
            counts.add_ways(trial)
    print(f'{done} dictionaries, {differing} with a difference, {refused} made that are none, seed {options.seed}, {time.time() - began:.0f} s, '
          f'{time.process_time():.0f} s of this processor')
    if not options.stop:
        print(counts.told())
    return differing


def options_of(words):
    """What the words of the command line say."""
    parser = argparse.ArgumentParser(description=__doc__, formatter_class=argparse.RawDescriptionHelpFormatter)
    parser.add_argument('dictionaries', nargs='?', type=int, help='how many dictionaries; 300, and with --wrong 2000 at most')
    parser.add_argument('--seed', type=int, default=1)
    parser.add_argument('--first', type=int, default=0, help='the number of the first dictionary')
    parser.add_argument('--stop', action='store_true', help='stop at the first difference, and do not make it smaller')
    parser.add_argument('--wrong', action='store_true', help='plant wrong verdicts in a copy of the slow program')
    parser.add_argument('--only', help='with --wrong, the one verdict with this name')
    options = parser.parse_args(words)
    options.dictionaries = options.dictionaries or (2000 if options.wrong else 300)
    return options


def main():
    """Runs what is asked for, and gives the status."""
    options = options_of(sys.argv[1:])
    try:
        path = program_of()
    except NoProgram as fault:
        print(fault, file=sys.stderr)
        return 2
    if options.wrong:
        return 0 if wrong.plant_all(options, path) else 1
    return 1 if compare(options, path) else 0


if __name__ == '__main__':
    sys.exit(main())
