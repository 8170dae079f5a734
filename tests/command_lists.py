"""Own words of tools/affedit-check."""

import os
import subprocess

from command_runs import COMMAND, SAMPLE, write

PAIR = (SAMPLE + '.aff', SAMPLE + '.dic')


def read(path):
    with open(path, encoding='utf-8') as file:
        return file.read()


def test_lists(tester):
    """Which lists count for which files."""
    folder, config = tester.folder(), tester.folder()
    env = tester.environment(XDG_CONFIG_HOME=config)
    write(folder, 'a', 'citys wrold teh\n')
    write(folder, 'sub/a', 'citys wrold teh\n')
    write(folder, 'sub/deep/a', 'citys wrold teh\n')
    write(folder, '.affedit-words', '\ufeffcitys\r\n')
    write(folder, 'sub/.affedit-words', 'wrold')
    words = ['-d', SAMPLE, 'a', 'sub', 'a']
    found = 'a:1:7: wrold\na:1:13: teh\nsub/a:1:13: teh\nsub/deep/a:1:13: teh\na:1:7: wrold\na:1:13: teh\n'
    tester.ends('lists of folders', (1, found), words, folder=folder, env=env)
    tester.ends('lists above the folder of a run', (1, 'a:1:13: teh\n'), ['-d', SAMPLE, 'a'], folder=os.path.join(folder, 'sub/deep'), env=env)
    tester.ends('lists of standard input', (1, '<stdin>:1:1: teh\n'), ['-d', SAMPLE], folder=os.path.join(folder, 'sub'), env=env, given=b'teh wrold')
    write(config, 'affedit/words', 'teh\n*the\n')
    tester.ends('the list of the user', (1, 'a:1:7: wrold\na:1:7: wrold\n'), words, folder=folder, env=env)
    tester.ends('a prohibited word', (1, '<stdin>:1:1: The\n'), ['-d', SAMPLE], folder=folder, env=env, given=b'The citys')
    write(folder, 'own', 'jig/read\n')
    tester.ends('a list that is named', (1, '<stdin>:1:1: citys\n'), ['-d', SAMPLE, '-p', 'own'], folder=folder, env=env, given=b'citys rejig jig')
    tester.ends('the walk passes the list over', (0, ''), ['-d', SAMPLE, '--hidden', 'sub'], folder=folder, env=env)
    tester.same('no list is changed', '*the', read(os.path.join(config, 'affedit/words')).split('\n')[1])


def test_faults(tester):
    """Lists that are refused."""
    folder = tester.folder()
    write(folder, 'sub/.affedit-words', 'fine\n\n')
    write(folder, '.affedit-words', 'good\nbad/\n')
    write(folder, 'sub/a', 'teh\n')
    said = tester.ends('a fault of a list', (3, ''), ['-d', SAMPLE, 'sub/a'], folder=folder)
    tester.holds('a fault of a list', '.affedit-words:2: the word is empty, or the model behind the slash is', said)
    tester.same('a fault of a list: which', False, 'sub/.affedit' in said)
    said = tester.ends('a list that is not there', (5, ''), ['-d', SAMPLE, '-p', 'none', 'sub/a'], folder=folder)
    tester.holds('a list that is not there', 'none: No such file', said)


def test_adding(tester):
    """--add."""
    folder, config = tester.folder(), tester.folder()
    env = tester.environment(XDG_CONFIG_HOME=config)
    os.makedirs(os.path.join(folder, 'sub/deep'))
    users = os.path.join(config, 'affedit/words')
    tester.ends('--add makes the list of the user', (0, ''), ['--add', 'citys'], folder=folder, env=env)
    tester.same('the list of the user', 'citys\n', read(users))
    path = os.path.join(folder, '.affedit-words')
    write(folder, '.affedit-words', 'one')
    said = tester.ends('--add', (0, ''), ['--add', 'wrold', '--add', '*teh', '--add', 'one'], folder=os.path.join(folder, 'sub/deep'), env=env)
    tester.same('the nearest list', 'one\nwrold\n*teh\n', read(path))
    tester.holds('--add says where', '.affedit-words', said)
    tester.ends('--add to a list that is named', (0, ''), ['-p', 'new', '--add', 'x', '--add', 'x'], folder=folder, env=env)
    tester.same('a list that is named', 'x\n', read(os.path.join(folder, 'new')))
    tester.ends('--add, and a check', (1, '<stdin>:1:1: jig\n'), ['-d', SAMPLE, '--add', 'jog', '-'], folder=folder, env=env, given=b'jig jog')
    for word in ('', ' ', '*', 'a/', 'a\nb', 'a\udcff'):
        tester.ends(f'--add {word!r}', (2, ''), ['--add', word], folder=folder, env=env)
    tester.same('nothing is added', 'one\nwrold\n*teh\njog\n', read(path))
    processes = [subprocess.Popen([COMMAND, '--add', f'word{number}'], cwd=folder, env=env, stderr=subprocess.DEVNULL) for number in range(8)]
    for process in processes:
        process.wait()
    tester.same('eight at once', sorted(f'word{number}' for number in range(8)), sorted(read(path).split('\n')[4:-1]))


def test(tester):
    test_lists(tester)
    test_faults(tester)
    test_adding(tester)
