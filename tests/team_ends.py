"""How `team` ends where something stops it before a session starts: by files and scripts in which that is so, and what is printed then."""

import console_files as files
from console_model import MARK, is_blank, lines_of
from team_lines import MOST_LINE, MOST_PAIRS, MOST_SCRIPT, pairs_of, read_line

ENDS = {b'no Missing': (5, b'missing'), b'no Files': (5, b'files'), b'no Large 16777216': (8, b'limit 16777216')}
BAD_LINES = [b'0 show', b'17 show', b'001 show', b'x', b' 1 show', b'1\tshow', b'\t1 show', b'+1 show', b'show', b'100', b'1\xff',
             b'1 ins 1 \xc3', b'\xff', '１ show'.encode(), b'1\x00', MARK + b'1 show']
GOOD_WORDS = ['a.aff', 'a.dic', 'script']
BAD_WORDS = [[], GOOD_WORDS[:1], GOOD_WORDS[:2], [*GOOD_WORDS, 'more'], ['--workers', '1', *GOOD_WORDS],
             *([*GOOD_WORDS, *more] for more in (['--workers'], ['--workers', '17'], ['--workers', '-1'], ['--workers', '001'],
                                                 ['--workers', ''], ['--workers', '1', '--own', 'a.dic'], ['--own', 'a.dic']))]


def fault_of_file(name, bad):
    """How a file ends the run: one that has a fault tells it in its last line, with status 3."""
    if name in files.BAD_FILES:
        return ENDS[files.BAD_FILES[name]]
    return (3, bad[name].removeprefix(b'no ')) if name in bad else None


def fault_of_pair(aff, dic):
    """How the pair of the dictionary ends the run: the .aff file, and then the .dic file."""
    return fault_of_file(aff, files.BAD_AFF) or fault_of_file(dic, files.BAD_DIC)


def fault_of_named(aff, dic):
    """How a pair ends the run that is loaded: not by a fault in a line. No file is there of a name that `spoilt` makes up."""
    if aff.startswith(b'pair'):
        return ENDS[b'no Missing']
    if aff in files.BAD_FILES or aff in files.BAD_AFF:
        return fault_of_file(aff, {})
    return fault_of_file(dic, {})


def fault_of_script(data):
    """How a script ends the run by what stands in it: a line of no form, then one that is too long, too many pairs, and a pair."""
    lines = [(number, line) for number, line in enumerate(lines_of(data), 1) if not is_blank(line)]
    said = [(number, read_line(line)) for number, line in lines]
    for number, told in said:
        if told is None:
            return 4, b'script %d' % number
    if any(len(text) > MOST_LINE for _, (_, text) in said):
        return 8, b'limit %d' % MOST_LINE
    pairs = pairs_of(data)
    if len(pairs) > MOST_PAIRS:
        return 8, b'limit %d' % MOST_PAIRS
    return next((fault for fault in (fault_of_named(*pair) for pair in pairs) if fault), None)


def end_of(aff, dic, name, data):
    """The status and the last line of a run by these files, the last of which is the script; None where its sessions start."""
    if fault := fault_of_pair(aff, dic) or fault_of_file(name, {}):
        return fault
    return (8, b'limit %d' % MOST_SCRIPT) if len(data) > MOST_SCRIPT else fault_of_script(data)


def spoilt(rolled, data):
    """Files that differ from good ones in a way or more: the two of the dictionary, the name of the script, and what stands in it."""
    aff, dic, name = *rolled.choice(files.GOOD), b'script'
    lines = data.split(b'\n')

    def put_in(line):
        lines.insert(rolled.randint(0, len(lines)), line)
    for _ in range(rolled.choice((1, 1, 2, 3))):
        kind = rolled.randrange(9)
        if kind == 0:
            aff = rolled.choice([*files.BAD_AFF, *files.BAD_FILES])
        elif kind == 1:
            dic = rolled.choice([*files.BAD_DIC, *files.BAD_FILES])
        elif kind == 2:
            name = rolled.choice([*files.BAD_FILES])
        elif kind <= 4:
            put_in(rolled.choice(BAD_LINES))
        elif kind == 5:
            put_in(b'%d ' % rolled.randint(1, 16) + rolled.choice((b'x', b'put 1 x', b' ')) * (MOST_LINE // 7 * 7))
        elif kind == 6:
            for number in range(rolled.randint(3, 6)):
                put_in(b'%d load pair%d.aff a.dic' % (rolled.randint(1, 16), number))
        elif kind == 7:
            put_in(b'%d load %s %s' % (rolled.randint(1, 16), rolled.choice([b'a.aff', *files.BAD_AFF, *files.BAD_FILES]),
                                       rolled.choice([b'a.dic', *files.BAD_DIC, *files.BAD_FILES])))
        elif rolled.random() < 0.1:
            put_in(b'1 ' + b'\n1 '.join([b'x' * 100_000] * 170))
    return aff, dic, name, b'\n'.join(lines)
