#!/usr/bin/env python3
"""Looks at each edit that the prover must refuse, those of crates/CRATE/must-fail and those of mutants/CRATE, without a proof.

An edit is told where
- its first line is not a sentence behind `# `, of at most 30 words, that begins with `Refuses`;
- a line is none that `rt` reads, or no pair of `old:` and `new:` stands behind a `file:`;
- a text `old:` does not stand exactly once in the file that is named, as the pairs before it have left that, or nothing changes: a BAD EDIT;
- its crate is none of crates.txt, or another edit of the crate has its name.
A file that ends with .md says why there is no such edit.

Prints a line for each such edit, and last how many there are of both kinds. The status is 0 where none is told, and 1 where one is.
"""

import glob
import os
import re
import sys

TOP = os.path.dirname(os.path.dirname(os.path.realpath(__file__)))
PLACES = ('crates/*/must-fail/*', 'mutants/*/*')
SENTENCE = re.compile(r'# Refuses [^.]\S*( \S+)*\.')
MOST_WORDS = 30


def listed_crates():
    """The crates of crates.txt."""
    with open(os.path.join(TOP, 'crates.txt'), encoding='utf-8') as file:
        heads = [line.partition('#')[0].partition(':')[0].split() for line in file]
    return {head[0] for head in heads if head}


def said_first(line):
    """What is wrong with the first line of an edit, or nothing."""
    if not SENTENCE.fullmatch(line):
        return 'its first line is no sentence of the form `# Refuses ... .`'
    if len(line.split()) - 1 > MOST_WORDS:
        return f'its first line has more than {MOST_WORDS} words'
    return None


def parts_of(lines):
    """The pairs of an edit as (file, old, new), or what is wrong with its lines."""
    path, old, pairs = None, None, []
    for line in lines:
        if line.startswith('file: '):
            path = line[len('file: '):].strip()
        elif line.startswith('old: '):
            old = line[len('old: '):]
        elif line.startswith('new:'):
            if not path or not old:
                return None, 'a line `new:` stands before a line `file:` or `old:`'
            pairs.append((path, old, line[len('new:'):].removeprefix(' ')))
            old = None
        elif line:
            return None, f'rt does not read the line `{line}`'
    if not pairs or old is not None:
        return None, 'it has no pair of `old:` and `new:`, or a text `old:` has no `new:`'
    return pairs, None


def applied(folder, pairs):
    """What is wrong with the pairs of an edit over the crate in this folder, or nothing."""
    was, texts = {}, {}
    for path, old, new in pairs:
        if not os.path.isfile(os.path.join(folder, path)):
            return f'there is no file {path}'
        if path not in texts:
            with open(os.path.join(folder, path), encoding='utf-8') as file:
                was[path] = texts[path] = file.read()
        found = texts[path].count(old)
        if found != 1:
            return f'`{old}` stands {found} times in {path}'
        texts[path] = texts[path].replace(old, new)
    return 'it changes nothing' if texts == was else None


def fault_of(edit, crate, crates):
    """What is wrong with an edit of this crate, or nothing."""
    if crate not in crates:
        return f'crates.txt has no crate {crate}'
    if not edit.endswith('.edit'):
        return 'its name does not end with .edit'
    with open(edit, encoding='utf-8') as file:
        first, *lines = file.read().split('\n')
    pairs, fault = parts_of(lines)
    return said_first(first) or fault or applied(os.path.join(TOP, 'crates', crate), pairs)


def main():
    """Looks at all edits."""
    crates, names, told = listed_crates(), set(), 0
    numbers = []
    for place in PLACES:
        edits = sorted(edit for edit in glob.glob(os.path.join(TOP, place)) if not edit.endswith('.md'))
        numbers.append(len(edits))
        for edit in edits:
            shown = os.path.relpath(edit, TOP)
            crate = shown.split('/')[1]
            fault = fault_of(edit, crate, crates)
            if (crate, os.path.basename(edit)) in names:
                fault = fault or 'another edit of its crate has its name'
            names.add((crate, os.path.basename(edit)))
            if fault:
                told += 1
                print(f'{shown}: {fault}')
    print(f'{numbers[0]} edits that the gate tries, {numbers[1]} mutants, {told} with a fault')
    return 1 if told else 0


if __name__ == '__main__':
    sys.exit(main())
