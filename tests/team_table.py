"""Outputs of `team` that were written by hand, each with its script: those that may be printed, and those that may not.

They stand in team_outputs.txt, with an empty line between two. The first line of each says what it is about; the second one how many
workers there are, and `yes` where it may be printed, else `no`; then come the script, a dash, and the output. The dictionary of a.aff and
a.dic has the words `hello` and `tried`, that of b.aff and b.dic `foobar` and `bars`. The example of docs/TEAM.md is a script, and two
outputs of it.
"""

import os

HERE = os.path.dirname(os.path.abspath(__file__))
FIRST = b'a.aff', b'a.dic'
SAMPLE = b'examples/sample.aff', b'examples/sample.dic'


def lines_of(*names):
    with open(os.path.join(HERE, *names), encoding='utf-8') as file:
        return file.read().split('\n')


def rows():
    """Each row: what it is about, the first pair, the number of workers, whether it may be printed, the script, and the output."""
    lines = lines_of('team_outputs.txt')
    while any(lines):
        about, given = lines[0], lines[1].split(' ')
        middle = lines.index('-')
        end = next(place for place in range(middle, len(lines)) if lines[place].startswith('total '))
        script, output = lines[2:middle], lines[middle + 1:end + 1]
        yield about, FIRST, int(given[0]), given[1] == 'yes', ('\n'.join(script) + '\n').encode(), ('\n'.join(output) + '\n').encode()
        lines = lines[end + 2:]
    script, *outputs = blocks_of(lines_of('..', 'docs', 'TEAM.md'))
    for number, output in enumerate(outputs, 1):
        yield f'docs/TEAM.md: output {number}', SAMPLE, 0, True, script, output
    yield 'docs/TEAM.md: the script and two outputs', SAMPLE, 0, len(outputs) == 2, script, outputs[0]


def blocks_of(lines):
    """The blocks of a document: the lines with four spaces in front."""
    blocks, is_inside = [], False
    for line in lines:
        is_block = line.startswith('    ')
        if is_block and not is_inside:
            blocks.append(b'')
        if is_block:
            blocks[-1] += line[4:].encode() + b'\n'
        is_inside = is_block
    return blocks
