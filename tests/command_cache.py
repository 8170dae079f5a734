"""Dictionaries that are prepared: what is said of it, and the cache when several runs, a full disk or damage come together."""

import os
import subprocess

from command_runs import COMMAND, PROGRAM, TOP, write

AFF = 'SET ISO8859-2\nSFX A Y 1\nSFX A 0 \xb9 .\n'.encode('latin-1')
DIC = '2\n\xb9aty\nfoo/A\n'.encode('latin-1')
TEXT = 'šaty fooš teh'.encode()
FOUND = (1, 'teh\n')


class Cache:
    """A dictionary that has to be prepared, and a folder for the cache."""

    def __init__(self, tester, aff=AFF, dic=DIC):
        self.tester = tester
        self.folder = tester.folder()
        self.cache = os.path.join(self.folder, 'cache')
        self.env = tester.environment(XDG_CACHE_HOME=self.cache)
        write(self.folder, 'x y.aff', aff)
        write(self.folder, 'x y.dic', dic)
        self.words = ['-d', os.path.join(self.folder, 'x y'), '-l']

    def ends(self, what, wanted=FOUND, **more):
        """A run, and what it says."""
        return self.tester.ends(what, wanted, self.words, given=TEXT, **{'env': self.env, 'folder': self.folder, **more})

    def entries(self):
        """What stands in the cache, without locks."""
        try:
            return [name for name in os.listdir(os.path.join(self.cache, 'affedit')) if not name.endswith('.lock')]
        except FileNotFoundError:
            return []

    def file(self, name):
        """The path of a file of the one entry."""
        return os.path.join(self.cache, 'affedit', self.entries()[0], name)


def test_once(tester):
    """What is changed is said once; another dictionary of the same name is another one."""
    cache = Cache(tester)
    said = cache.ends('prepared')
    tester.holds('prepared', 'x y.aff:1: SET UTF-8 in place of SET ISO8859-2', said)
    tester.same('prepared: one entry', 1, len(cache.entries()))
    tester.same('prepared before', '', cache.ends('prepared before'))
    write(cache.folder, 'x y.dic', DIC + b'teh\n')
    tester.holds('another one', 'converted from ISO8859-2', cache.ends('another one', (0, '')))
    tester.same('another one: two entries', 2, len(cache.entries()))
    tester.same('both are kept', '', tester.ends('both are kept', (0, ''), cache.words, env=cache.env))
    tester.same('no folder is left', [], [name for name in os.listdir(tester.top) if name.startswith('affedit-check-')])


def test_losses(tester):
    """A loss is said at each run. What cannot be mended is refused."""
    cache = Cache(tester, AFF + b'COMPOUNDFLAG B\nCOMPOUNDWORDMAX 2\nCOMPOUNDSYLLABLE 6 aeiou\n')
    for what in ('a loss', 'the loss again'):
        tester.holds(what, 'prepared with a loss: COMPOUNDSYLLABLE', cache.ends(what))
    cache = Cache(tester, AFF + b'SFX B Y 1\nSFX B 0 s [a\n')
    said = cache.ends('a fault', (3, ''))
    tester.holds('a fault', 'x y.aff:5: BadCondition cannot be mended', said)
    tester.same('a fault is not kept', [], cache.entries())
    cache = Cache(tester, b'SET UTF-8\n', 'n\0\n')
    cache.ends('no text', (3, ''))


def test_damage(tester):
    """An entry that is not whole is made anew."""
    cache = Cache(tester)
    cache.ends('prepared')
    for name, data in (('pair.dic', '2\nteh\n'), ('pair.aff', None), ('made.json', '{}'), ('made.json', '[1'), ('made.json', None)):
        if data is None:
            os.unlink(cache.file(name))
        else:
            write(cache.folder, cache.file(name), data)
        tester.holds(f'damage of {name}', 'prepared', cache.ends(f'damage of {name}'))
        tester.same(f'damage of {name}: one entry', 1, len(cache.entries()))
        tester.same(f'damage of {name}: mended', '', cache.ends(f'mended {name}'))
    place = os.path.dirname(cache.file('pair.aff'))
    os.rename(place, place + '.old')
    write(cache.folder, place, 'a file')
    cache.ends('a file in place of an entry')
    tester.same('a file in place of an entry', True, os.path.isdir(place))


def test_unwritable(tester):
    """A cache that cannot be written, or has no room."""
    cache = Cache(tester)
    write(cache.folder, 'cache', 'a file')
    said = cache.ends('a cache that is a file')
    tester.holds('a cache that is a file', 'not kept in', said)
    tester.holds('a cache that is a file, again', 'not kept in', cache.ends('again'))
    tester.same('nothing is left of it', [], [name for name in os.listdir(tester.top) if name.startswith('affedit-check-')])
    cache.ends('no folder at all', (6, ''), env={**cache.env, 'TMPDIR': '/dev/null/x', 'TEMP': '', 'TMP': ''}, preexec_fn=no_files)
    if os.geteuid() == 0:
        test_full(tester)
    else:
        print('skipped: a full disk: needs the user root')
        os.unlink(cache.cache)
        os.makedirs(os.path.join(cache.cache, 'affedit'))
        os.chmod(os.path.join(cache.cache, 'affedit'), 0o500)
        tester.holds('a cache that is read-only', 'not kept in', cache.ends('a cache that is read-only'))


def no_files():
    """No file of this process and its children may grow."""
    import resource
    import signal
    signal.signal(signal.SIGXFSZ, signal.SIG_IGN)
    resource.setrlimit(resource.RLIMIT_FSIZE, (0, 0))


def test_full(tester):
    """A cache on a disk with so little room, for each room: a whole entry or none, and always the right words."""
    cache = Cache(tester, AFF, DIC + b'foo\n' * 30_000)
    os.mkdir(cache.cache)
    for size in (4, 64, 128, 160, 400):
        mounted = subprocess.run(['mount', '-t', 'tmpfs', '-o', f'size={size}k', 'none', cache.cache], stderr=subprocess.DEVNULL, check=False)
        if mounted.returncode:
            print('skipped: a full disk: needs to mount a tmpfs')
            return
        try:
            said = cache.ends(f'a disk of {size} KB')
            kept = 'not kept in' not in said
            tester.same(f'a disk of {size} KB: entries', 1 if kept else 0, len(cache.entries()))
            tester.same(f'a disk of {size} KB: again', kept, cache.ends(f'a disk of {size} KB, again') == '')
        finally:
            subprocess.run(['umount', cache.cache], check=False)
    tester.same('a disk with room', True, kept)
    # A whole entry in a cache that is read-only.
    subprocess.run(['mount', '-t', 'tmpfs', '-o', 'size=2m', 'none', cache.cache], check=False)
    try:
        cache.ends('a cache that will be read-only')
        subprocess.run(['mount', '-o', 'remount,ro', cache.cache], check=False)
        tester.same('a cache that is read-only', '', cache.ends('a cache that is read-only'))
        cache.words[1] = Cache(tester).words[1]
        tester.holds('a cache that is read-only, another dictionary', 'not kept in', cache.ends('another dictionary'))
    finally:
        subprocess.run(['umount', cache.cache], check=False)


def test_race(tester):
    """Processes at once, some of which are killed: each prints what it should."""
    for round_of in range(4):
        cache = Cache(tester, AFF, DIC + b'foo\n' * (round_of * 2_000))
        text = write(cache.folder, 'text', TEXT)
        words = [COMMAND, *cache.words, os.fsdecode(text)]

        def start():
            return subprocess.Popen(words, stdout=subprocess.PIPE, stderr=subprocess.PIPE, env=cache.env, cwd=cache.folder)

        victims = [start() for _ in range(2)] if round_of % 2 else []
        runs = [start() for _ in range(4)]
        for victim in victims:
            try:
                victim.wait(0.05 * (round_of + 1))
            except subprocess.TimeoutExpired:
                victim.kill()
            victim.communicate()
        said = []
        for process in runs:
            output, errors = process.communicate()
            tester.same('several at once', (1, b'teh\n'), (process.returncode, output))
            said.append(b'prepared:' in errors)
        tester.same('several at once: who prepares', True, sum(said) <= 1)
        tester.same('several at once: whole entries', '', cache.ends('after several at once'))


def test_tool(tester):
    """The tool that prepares is the one of the repository, with the same program."""
    cache = Cache(tester)
    cache.ends('prepared')
    tool = os.path.join(TOP, 'tools', 'prepare-dictionary')
    done = subprocess.run([tool, 'x y.aff', 'x y.dic', 'out'], cwd=cache.folder, stdout=subprocess.DEVNULL,
                          env={**cache.env, 'AFFEDIT': PROGRAM}, check=False)
    tester.same('tools/prepare-dictionary', 0, done.returncode)
    for end in ('aff', 'dic'):
        with open(cache.file('pair.' + end), 'rb') as made, open(os.path.join(cache.folder, 'out.' + end), 'rb') as wanted:
            tester.same(f'the .{end} file', wanted.read(), made.read())


def test(tester):
    for part in (test_once, test_losses, test_damage, test_unwritable, test_race, test_tool):
        part(tester)
