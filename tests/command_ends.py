"""How tools/affedit-check ends, and which files it passes over."""

import os
import signal
import subprocess
import sys
import time

from command_runs import COMMAND, SAMPLE, TOP, write

SAY = ['-d', SAMPLE]
TOOLS = os.path.join(TOP, 'tools')


def test_words(tester):
    """Command lines that are wrong, and those that check nothing."""
    for words in (['--format', 'xml'], ['--format'], ['--nothing'], ['-d', ''], ['-p', '', 'a'], ['-l', '--count'], ['-D', 'a'], ['-x']):
        tester.ends(f'{words}', (2, ''), words)
    status, output, _ = tester.run(['--help'])
    lines = output.decode().split('\n')
    tester.same('--help', (0, True, True), (status, len(lines) <= 25, max(map(len, lines)) <= 90))
    status, output, _ = tester.run(['--version'])
    tester.same('--version', 0, status)


def test_files(tester):
    """Files that are not there, are no text or no file."""
    folder = tester.folder()
    write(folder, 'a', 'teh\n')
    write(folder, 'b', b'\xef\xbb\xbfteh\n\xe9\n')
    write(folder, 'wide', 'teh'.encode('utf-16'))
    write(folder, 'in/binary', b'teh\0\n')
    write(folder, 'in/.git/config', 'teh\n')
    write(folder, 'in/.x/a', 'teh\n')
    write(folder, 'in/skip/a', 'teh\n')
    write(folder, 'in/a.log', 'teh\n')
    write(folder, 'in/a', 'teh\n')
    os.symlink('..', os.path.join(folder, 'in/ring'))
    os.symlink('a', os.path.join(folder, 'link'))
    os.mkfifo(os.path.join(folder, 'in/pipe'))
    found = 'a:1:1: teh\n'
    said = tester.ends('a file that is not there', (5, found), [*SAY, 'none', 'a'], folder=folder)
    tester.holds('a file that is not there', 'affedit-check: none: No such file or directory', said)
    said = tester.ends('a file that is not UTF-8', (4, found), [*SAY, 'b', 'a'], folder=folder)
    tester.holds('a file that is not UTF-8', 'affedit-check: b:2: not UTF-8: the byte 0xe9', said)
    tester.holds('UTF-16', 'wide: not UTF-8, but UTF-16', tester.ends('UTF-16', (4, ''), [*SAY, 'wide'], folder=folder))
    tester.ends('the highest status', (5, ''), [*SAY, 'b', 'none', 'b'], folder=folder)
    tester.ends('a folder', (1, 'in/a:1:1: teh\nin/a.log:1:1: teh\nin/skip/a:1:1: teh\n'), [*SAY, 'in'], folder=folder)
    tester.ends('a folder with a slash', (1, 'in/a:1:1: teh\n'), [*SAY, 'in/', '--exclude', 'skip', '--exclude', '*.log'], folder=folder)
    tester.ends('a path that is excluded', (1, 'in/a.log:1:1: teh\n'), [*SAY, 'in', '--exclude', 'in/skip/*', '--exclude=in/a'], folder=folder)
    tester.ends('hidden files', (1, 'in/.x/a:1:1: teh\n'), [*SAY, '--hidden', '--exclude', 'skip', '--exclude', 'in/a*', 'in'], folder=folder)
    tester.ends('a link and a file twice', (1, 'link:1:1: teh\na:1:1: teh\na:1:1: teh\n'), [*SAY, 'link', 'a', 'a'], folder=folder)
    tester.ends('a binary file that is named', (1, 'in/binary:1:1: teh\n'), [*SAY, 'in/binary'], folder=folder)
    tester.ends('empty devices', (0, ''), [*SAY, '/dev/null', os.devnull], folder=folder)
    tester.ends('other devices', (5, ''), [*SAY, '/dev/zero'], folder=folder)
    tester.ends('an error of reading', (5, found), [*SAY, '/proc/self/mem', 'a'], folder=folder)
    tester.ends('a name with a byte 0 cannot come; one that is long', (5, ''), [*SAY, 'x' * 5_000], folder=folder)


def test_unreadable(tester):
    """Files and folders that may not be read, by a user who is not root."""
    folder = tester.folder()
    write(folder, 'a', 'teh\n')
    write(folder, 'b', 'teh\n')
    write(folder, 'shut/a', 'teh\n')
    os.chmod(os.path.join(folder, 'b'), 0)
    os.chmod(os.path.join(folder, 'shut'), 0)
    more = {}
    if os.geteuid() == 0:
        for path in (tester.top, folder):
            os.chmod(path, 0o755)
        more = {'user': 65534, 'group': 65534, 'extra_groups': []}
        if subprocess.run(['test', '-r', COMMAND, '-a', '-x', os.path.dirname(COMMAND)], check=False, **more).returncode:
            print('skipped: files that may not be read: needs a repository that every user may read')
            return
    said = tester.ends('files that may not be read', (5, './a:1:1: teh\n'), [*SAY, '.'], folder=folder, **more)
    tester.holds('a file that may not be read', './b: Permission denied', said)
    tester.holds('a folder that may not be read', './shut: Permission denied', said)


def test_lines(tester):
    """Lines past the limits of the program."""
    folder = tester.folder()
    write(folder, 'a', 'teh ' + 'x' * 70_000 + ' teh\nteh ' + 'é' * 32_768 + ' ' + '日' * 21_845 + '\n')
    said = tester.ends('a run without a blank', (8, 'a: 5\n5 of 5\n'), [*SAY, 'a', '--count'], folder=folder)
    tester.same('a run without a blank', 'affedit-check: a:1: not checked: more than 65,536 bytes without a blank', said.split('\n')[0])


def test_output(tester):
    """Output that is closed, is full, or that nobody reads."""
    folder = tester.folder()
    write(folder, 'a', 'teh wrold\n' * 20_000)
    words = [COMMAND, *SAY, 'a']
    env = tester.environment()
    with open('/dev/full', 'wb') as full:
        status, _, errors = tester.run([*SAY, 'a'], folder=folder, stdout=full)
        tester.same('a full device', (6, b'affedit-check: standard output: No space left on device\n'), (status, errors))
    script = '"$@" >&-'
    done = subprocess.run(['sh', '-c', script, 'sh', *words], cwd=folder, env=env, stdin=subprocess.DEVNULL, stderr=subprocess.PIPE, check=False)
    tester.same('a closed output', (6, b'affedit-check: standard output is closed\n'), (done.returncode, done.stderr))
    script = '{ "$@"; echo "$?" >&2; } | head -n 1 > /dev/null'
    piped = ['sh', '-c', script, 'sh', *words, 'a', 'a', 'a']
    done = subprocess.run(piped, cwd=folder, env=env, stdin=subprocess.DEVNULL, stderr=subprocess.PIPE, check=False)
    tester.same('a closed pipe', b'1\n', done.stderr)
    for words_of in (['--help'], ['-D'], ['--version']):
        with open('/dev/full', 'wb') as full:
            tester.same(f'{words_of}: a full device', True, tester.run(words_of, stdout=full)[0] in (5, 6))
    script = '"$@" <&- 2> /dev/null'
    done = subprocess.run(['sh', '-c', script, 'sh', COMMAND, *SAY], cwd=folder, env=env, check=False)
    tester.same('a closed input', 5, done.returncode)
    script = '"$@" 2>&-'
    done = subprocess.run(['sh', '-c', script, 'sh', COMMAND, *SAY, 'none'], cwd=folder, env=env, stdin=subprocess.DEVNULL, check=False)
    tester.same('closed errors', 5, done.returncode)


def test_program(tester):
    """Programs that are missing or end in another way."""
    folder = tester.folder()
    write(folder, 'a', 'teh\n')

    def ended(what, status, program):
        path = os.path.join(folder, 'program')
        write(folder, 'program', '#!/bin/sh\n' + program + '\n')
        os.chmod(path, 0o755)
        tester.ends(what, (status, ''), [*SAY, 'a'], folder=folder, env=tester.environment(AFFEDIT=path))

    ended('no program', 125, 'exit 125')
    ended('memory', 7, 'echo memory; exit 7')
    ended('a signal', 8, 'kill -9 $$')
    ended('a program that prints nothing', 8, 'exit 1')
    tester.ends('a program that is not there', (125, ''), [*SAY, 'a'], folder=folder, env=tester.environment(AFFEDIT=folder + '/none'))


# The command, in which Popen is slow: it returns when the signal is sent.
SLOW = f"""\
import os
import subprocess
import sys
import time

sys.dont_write_bytecode = True
sys.path.insert(0, {TOOLS!r})


class SlowPopen(subprocess.Popen):
    def __init__(self, *words, **more):
        super().__init__(*words, **more)
        end = time.monotonic() + 30
        while not os.path.exists('sent') and time.monotonic() < end:
            time.sleep(0.02)


subprocess.Popen = SlowPopen
from check_command.command import main
main()
"""


def await_text(path):
    """The text of a file, when it has some."""
    end = time.monotonic() + 30
    while time.monotonic() < end:
        if os.path.exists(path) and os.path.getsize(path):
            with open(path, encoding='utf-8') as file:
                return file.read()
        time.sleep(0.05)
    raise AssertionError(f'{path} is not written')


def is_left(process):
    """Whether a process still runs. If so, it is ended."""
    try:
        os.kill(process, signal.SIGKILL)
    except ProcessLookupError:
        return False
    return True


def test_signals(tester):
    """Signals that come while the program runs, and while it is started: no process is left, and standard error is closed."""
    for what, command in (('runs', [COMMAND]), ('is started', [sys.executable, '-c', SLOW])):
        for number in (signal.SIGTERM, signal.SIGINT):
            folder = tester.folder()
            write(folder, 'a', 'teh\n')
            write(folder, 'program', '#!/bin/sh\necho $$ > started\nexec sleep 60\n')
            os.chmod(os.path.join(folder, 'program'), 0o755)
            with subprocess.Popen([*command, *SAY, 'a'], cwd=folder, env=tester.environment(AFFEDIT=os.path.join(folder, 'program')),
                                  stdin=subprocess.DEVNULL, stdout=subprocess.DEVNULL, stderr=subprocess.PIPE) as process:
                child = int(await_text(os.path.join(folder, 'started')))
                process.send_signal(number)
                write(folder, 'sent', '')
                status = process.wait(timeout=30)
                left = is_left(child)
                errors = process.stderr.read()
            tester.same(f'signal {number} while the program {what}: its status', True, status in (-number, 128 + number))
            tester.same(f'signal {number} while the program {what}: a process left and errors', (False, b''), (left, errors))


def test(tester):
    for part in (test_words, test_files, test_unreadable, test_lines, test_output, test_program, test_signals):
        part(tester)
