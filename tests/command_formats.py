"""Each format of tools/affedit-check is read by what it is for."""

import json
import os
import pty
import re
import select
import subprocess

from command_runs import COMMAND, PROGRAM, SAMPLE, write

# Lines of a file with the word, line and column of each mark; `\t` and wide characters stand before some.
TEXT = 'The citys was reread\n\twrold 日本 wurk, é teh\r\n\ntext text\u00e9\n'
MARKS = (('citys', 2, 5), ('wurk', 3, 11), ('teh', 3, 19), ('texté', 5, 6))
PAIR = ('SET UTF-8\n', '7\nthe\nwas\nreread\nwrold\n日本\né\ntext\n')
GITHUB = re.compile(r'::(\w+) ([^:]*)::(.*)')


def unescaped(text):
    """A value of a command as GitHub's runner reads it."""
    for written, sign in (('%0D', '\r'), ('%0A', '\n'), ('%3A', ':'), ('%2C', ','), ('%25', '%')):
        text = text.replace(written, sign)
    return text


def test_lines(tester, folder):
    """The usual format, words alone, and counts."""
    base = os.path.join(folder, 'd')
    lines = ''.join(f'a b.txt:{line}:{column}: {word}\n' for word, line, column in MARKS)
    tester.ends('lines', (1, lines), ['-d', base, 'a b.txt'], folder=folder)
    tester.ends('lines of standard input', (1, lines.replace('a b.txt', '<stdin>')), ['-d', base], folder=folder, given=('\n' + TEXT).encode())
    tester.ends('words', (1, ''.join(f'{word}\n' for word, _, _ in MARKS)), ['-d', base, '-l', 'a b.txt'], folder=folder)
    tester.ends('counts', (1, 'a b.txt: 4\n4 of 11\n'), ['-d', base, '--count', 'a b.txt', 'none'], folder=folder)
    tester.ends('counts of nothing', (0, '0 of 0\n'), ['-d', base, '--count', 'none'], folder=folder)
    write(folder, 'e\nf\x1b', 'teh\n')
    tester.ends('a name with control characters', (1, 'e\\x0af\\x1b:1:1: teh\n'), ['-d', base, 'e\nf\x1b'], folder=folder)


def test_json(tester, folder):
    """Lines of JSON, read by Python."""
    _, output, _ = tester.run(['-d', os.path.join(folder, 'd'), '--format', 'json', 'a b.txt'], folder=folder)
    rows = [json.loads(line) for line in output.splitlines()]
    data = ('\n' + TEXT).split('\n')
    tester.same('json', [('a b.txt', *mark) for mark in MARKS], [(row['file'], row['word'], row['line'], row['column']) for row in rows])
    for row in rows:
        line = data[row['line'] - 1]
        tester.same('json: bytes', row['word'].encode(), line.encode()[row['start']:row['end']])
        tester.same('json: characters', row['word'], line[row['column'] - 1:row['end_column'] - 1])


def test_github(tester, folder):
    """Annotations, read as GitHub's runner reads them."""
    name = 'odd: 50%, a.txt'
    write(folder, name, '\n' + TEXT)
    _, output, _ = tester.run(['-d', os.path.join(folder, 'd'), '--format', 'github', './' + name], folder=folder)
    found = []
    for line in output.decode().splitlines():
        read = GITHUB.fullmatch(line)
        if not read:
            tester.same('github: a line', 'a command', line)
            continue
        fields = {key: unescaped(value) for key, _, value in (field.partition('=') for field in read[2].split(','))}
        found.append((read[1], fields['file'], read[3].split()[0], int(fields['line']), int(fields['col'])))
        tester.same('github: the end', int(fields['col']) + len(read[3].split()[0]), int(fields['endColumn']))
    tester.same('github', [('warning', name, *mark) for mark in MARKS], found)


def test_vim(tester, folder):
    """The usual format, read by Vim's errorformat."""
    vim = next((path for path in ('/usr/bin/vim', '/usr/local/bin/vim') if os.path.exists(path)), None)
    if vim is None:
        print("skipped: Vim's errorformat: needs the package vim")
        return
    _, output, _ = tester.run(['-d', os.path.join(folder, 'd'), 'a b.txt'], folder=folder)
    write(folder, 'errors', output)
    script = ["let &errorformat = '%f:%l:%c: %m'", 'cgetfile errors',
              "call writefile([json_encode(map(getqflist(), {_, e -> [bufname(e.bufnr), e.text, e.lnum, e.col, e.valid]}))], 'read')", 'qall!']
    words = [vim, '-es', '-N', '-u', 'NONE', '-i', 'NONE', '-c', script[0], '-c', script[1], '-c', script[2], '-c', script[3]]
    subprocess.run(words, cwd=folder, env=tester.environment(TERM='dumb'), stdin=subprocess.DEVNULL, stdout=subprocess.DEVNULL, check=False)
    try:
        with open(os.path.join(folder, 'read'), encoding='utf-8') as file:
            found = [tuple(row) for row in json.load(file)]
    except (OSError, ValueError) as error:
        found = repr(error)
    tester.same("Vim's errorformat", [('a b.txt', *mark, 1) for mark in MARKS], found)


def at_terminal(words, folder, env):
    """What the command prints with a terminal as its output and errors."""
    main, other = pty.openpty()
    with subprocess.Popen([COMMAND, *words], cwd=folder, env=env, stdin=subprocess.DEVNULL, stdout=other, stderr=other) as process:
        os.close(other)
        pieces = []
        while True:
            if not select.select([main], [], [], 60)[0]:
                process.kill()
            try:
                piece = os.read(main, 65_536)
            except OSError:
                break
            if not piece:
                break
            pieces.append(piece)
    os.close(main)
    return b''.join(pieces).decode(errors='surrogateescape').replace('\r\n', '\n')


def test_terminal(tester, folder):
    """Lines and rows of `~` at a terminal, with colours and without."""
    env = tester.environment(TERM='xterm', COLUMNS='60')
    shown = at_terminal(['-d', os.path.join(folder, 'd'), 'a b.txt'], folder, env)
    plain = re.sub('\x1b\\[[0-9;]*m', '', shown)
    wanted = ('a b.txt:2:5: citys\n    The citys was reread\n        ~~~~~\n'
              'a b.txt:3:11: wurk\n     wrold 日本 wurk, é teh\n                ~~~~\n'
              'a b.txt:3:19: teh\n     wrold 日本 wurk, é teh\n                        ~~~\n'
              'a b.txt:5:6: texté\n    text texté\n         ~~~~~\n')
    tester.same('a terminal', wanted, plain)
    tester.same('a terminal: colours', True, '\x1b[1;31mcitys\x1b[0m' in shown)
    shown = at_terminal(['-d', os.path.join(folder, 'd'), 'a b.txt'], folder, {**env, 'NO_COLOR': '1'})
    tester.same('a terminal without colours', wanted, shown)
    write(folder, 'long', 'é the ' * 5_000 + 'teh\x1b[2J ' + 'the ' * 5_000)
    rows = at_terminal(['-d', os.path.join(folder, 'd'), 'long'], folder, {**env, 'NO_COLOR': '1'}).split('\n')
    found = (len(rows[1]) < 60, rows[1].index('teh') == rows[2].index('~~~'), '\x1b' not in rows[1])
    tester.same('a long line at a terminal', (True, True, True), found)


def test_progress(tester, folder):
    """A line that says how far a slow run is: at a terminal, and not in a pipe."""
    slow = os.fsdecode(write(folder, 'slow', f'#!/bin/sh\nsleep 3\nexec "{PROGRAM}" "$@"\n'))
    os.chmod(slow, 0o755)
    env = tester.environment(TERM='xterm', AFFEDIT=slow, NO_COLOR='1')
    words = ['-d', os.path.join(folder, 'd'), 'a b.txt', '-l']
    shown = at_terminal(words, folder, env)
    line = '\r0 files checked, 0.0 MB\x1b[K'
    tester.same('a slow run at a terminal', (True, '\r\x1b[Kcitys\nwurk\nteh\ntexté\n'), (line in shown, shown.replace(line, '')))
    tester.same('a slow run in a pipe', b'', tester.run(words, folder=folder, env=env)[2])


def test(tester):
    folder = tester.folder()
    write(folder, 'd.aff', PAIR[0])
    write(folder, 'd.dic', PAIR[1])
    write(folder, 'a b.txt', '\n' + TEXT)
    write(folder, 'none', '')
    env = tester.environment(AFFEDIT=None)
    tester.ends('the sample, by the launcher', (1, f'{SAMPLE}.txt:2:31: citys\n'), ['-d', SAMPLE, SAMPLE + '.txt'], env=env)
    for part in (test_lines, test_json, test_github, test_vim, test_terminal, test_progress):
        part(tester, folder)
