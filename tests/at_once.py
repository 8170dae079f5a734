#!/usr/bin/env python3
"""Whether workers check at once, beside the console of `edit` and beside the sessions of `team`, and whether `team` reads each pair of files once.

A first paragraph has a word that takes seconds, since many joints may write it; the word of a second one takes no time. Two workers that
check at once finish the second while the first is still shown unchecked, without `settle`. The same is looked for with one worker and with
none, where it may not be seen: so the test would tell workers that go to work one after another, or after the sessions.

A pair of `team` is two named pipes, into which its files are written once. Who opened one again would wait for ever. `edit` reads a pair
anew at each `load`: it has to be seen waiting at the second one, which shows that a second reading is seen.

Prints what is otherwise; the status is 0 if nothing is, and 2 if there is no program.
"""

import os
import subprocess
import sys
import tempfile
import threading
import time

sys.dont_write_bytecode = True

import program  # noqa: E402
from console_model import Wrong  # noqa: E402
from console_talk import Talk  # noqa: E402

# Seconds after which a program that is silent hangs: on a machine where much else runs the slow word may take half a minute.
LIMIT = 300
# How many joints may write the slow word, and how many parts. It takes some two seconds of a processor.
JOINTS, PARTS = 200, 22
SLOW = b'b' + b'a' * 99
# How often a session looks. Its looks take a part of a second.
LOOKS = 400_000
# How long `edit` is waited for that reads a pair again.
PAUSE = 3

JOINT_ROWS = [f'CHECKCOMPOUNDPATTERN a a {"a" * (number % 100 + 1)}' for number in range(JOINTS)]
AFF = '\n'.join(['SET UTF-8', 'COMPOUNDFLAG X', 'COMPOUNDMIN 1', f'CHECKCOMPOUNDPATTERN {JOINTS}', *JOINT_ROWS, ''])
DIC = '\n'.join([str(PARTS + 1), 'hello', *(f'{"a" * number}/X' for number in range(1, PARTS + 1)), ''])
FILES = {'a.aff': AFF, 'a.dic': DIC, 'b.aff': 'SET UTF-8\n', 'b.dic': '1\nwrold\n'}

UNCHECKED = [b'1 ?', b'2 ?']
# The second paragraph is checked before the first one is.
AT_ONCE = [b'1 ?', b'2 0 5 wrold']


def looks_in(lines):
    """What each `show` prints of the paragraphs."""
    look = None
    for line in lines:
        if line.startswith(b'text '):
            look = []
        elif line == b'.' and look is not None:
            yield look
            look = None
        elif look is not None:
            look.append(line)


def seen_by_console(path, folder, workers):
    """The first look of a console, by which one of two paragraphs is checked."""
    talk = Talk([path, 'edit', 'a.aff', 'a.dic', '--workers', str(workers)], folder, LIMIT)
    try:
        talk.send(b'ins 1 ' + SLOW + b'\n')
        talk.wait(1)
        talk.send(b'ins 2 wrold\n')
        due = 2
        start = talk.wait(due)
        look = UNCHECKED
        while look == UNCHECKED:
            talk.send(b'show\n')
            due += 1
            end = talk.wait(due)
            look = next(looks_in(talk.lines[start:end]), None)
            start = end
            time.sleep(0.01)
        return look
    finally:
        talk.stop()


def seen_by_session(path, folder, workers):
    """Whether a session of `team` sees the second paragraph checked before the first one is, and whether it sees any that is checked."""
    with open(os.path.join(folder, 'script'), 'wb') as file:
        file.write(b'1 ins 1 ' + SLOW + b'\n1 ins 2 wrold\n' + b'1 show\n' * LOOKS)
    words = [path, 'team', 'a.aff', 'a.dic', 'script', '--workers', str(workers)]
    done = subprocess.run(words, cwd=folder, stdout=subprocess.PIPE, timeout=LIMIT, check=False)
    looks = list(looks_in(done.stdout.split(b'\n')))
    if done.returncode != 0 or len(looks) != LOOKS:
        raise Wrong(f'`team` with {workers} workers: status {done.returncode}, {len(looks)} looks of {LOOKS}')
    return AT_ONCE in looks, any(look != UNCHECKED for look in looks)


def fill(folder, name):
    """Writes a file once into a named pipe, when it is opened."""
    os.mkfifo(os.path.join(folder, name))

    def write():
        with open(os.path.join(folder, name), 'wb') as pipe:
            pipe.write(FILES['b' + name[1:]].encode())
    thread = threading.Thread(target=write, daemon=True)
    thread.start()
    return thread


def try_workers(path, folder):
    for workers, is_meant in ((2, True), (1, False)):
        look = seen_by_console(path, folder, workers)
        if (look == AT_ONCE) != is_meant:
            yield f'`edit` with {workers} workers: the first look with a paragraph that is checked is {look}'
    for workers, is_meant in ((2, (True, True)), (0, (False, False))):
        seen = seen_by_session(path, folder, workers)
        if seen != is_meant:
            yield f'`team` with {workers} workers: the second paragraph checked before the first, and any checked, is {seen}, wanted {is_meant}'


def try_pair(path, folder):
    """A pair of `team` that three lines load, two of which find it in force already."""
    writers = [fill(folder, name) for name in ('p.aff', 'p.dic')]
    with open(os.path.join(folder, 'script'), 'wb') as file:
        file.write(b'1 ins 1 hello wrold\n' + b'1 load p.aff p.dic\n1 settle\n1 show\n' * 3)
    shown = [line for version in (1, 2, 3) for line in (f'dict {version}', 'ok 1', f'text 1 dict {version}', '1 0 5 hello', '.')]
    wanted = '\n'.join(['session 1', 'ok 1', *shown, 'total text 1 dict 3', ''])
    try:
        done = subprocess.run([path, 'team', 'a.aff', 'a.dic', 'script'], cwd=folder, stdout=subprocess.PIPE, timeout=60, text=True, check=False)
    except subprocess.TimeoutExpired:
        yield '`team` reads a pair that was loaded again, or waits for another reason'
        return
    for writer in writers:
        writer.join(60)
    if done.stdout != wanted or done.returncode != 0:
        yield f'`team` with a pair of named pipes: status {done.returncode}, and it printed {done.stdout!r}'


def try_pair_of_edit(path, folder):
    """The second `load` of a pair of named pipes is never answered by `edit`, which reads it again."""
    for name in ('q.aff', 'q.dic'):
        fill(folder, name)
    talk = Talk([path, 'edit', 'a.aff', 'a.dic'], folder, LIMIT)
    try:
        talk.send(b'load q.aff q.dic\n')
        if talk.lines[:talk.wait(1)] != [b'dict 1']:
            yield f'`edit` loads a pair of named pipes, and answers {talk.lines}'
            return
        talk.send(b'load q.aff q.dic\n')
        time.sleep(PAUSE)
        if talk.replies != 1:
            yield f'a named pipe can be read twice: {talk.lines}, so the test of `team` would see nothing'
    finally:
        talk.stop()


def main():
    path = program.found()
    if path is None:
        return 2
    with tempfile.TemporaryDirectory(prefix='at-once-') as folder:
        for name, text in FILES.items():
            with open(os.path.join(folder, name), 'w', encoding='utf-8') as file:
                file.write(text)
        wrong = 0
        for tried in (try_pair, try_pair_of_edit, try_workers):
            try:
                for said in tried(path, folder):
                    print(said, flush=True)
                    wrong += 1
            except (Wrong, subprocess.TimeoutExpired) as fault:
                print(f'{tried.__name__}: {fault}', flush=True)
                wrong += 1
    return 1 if wrong else 0


if __name__ == '__main__':
    sys.exit(main())
