"""How long tools/prepare-dictionary and tools/lint-dictionary take for dictionaries of a real size, and what they show meanwhile.

Each dictionary is made up like a packaged one that took long: German, Polish, Turkish, Hungarian. The same bytes come out at each run, so
the digests of what is made of them stand here. Limits are processor seconds, as other programs run beside. Prints what is wrong, and with
--times how long each run took; the status is 0 where nothing is wrong.
"""

import hashlib
import os
import pty
import random
import resource
import subprocess
import sys
import tempfile

TOP = os.path.dirname(os.path.dirname(os.path.realpath(__file__)))
PREPARE, LINT = (os.path.join(TOP, 'tools', name) for name in ('prepare-dictionary', 'lint-dictionary'))
SYLLABLES = 'ba be bi da de do fa fe ga ge ha he ka ke ki la le li ma me mi na ne no pa pe ra re ri sa se si ta te ti wa we za'.split()
LETTERS = 'ABCDEFGHIJKLMNOPQRSTUVWXYZabcdefghijklmnopqrstuvwxyz'
# The most processor seconds of a run, with those of the program that checks the result. The best of three runs counts.
MOST = 2.0
# Seconds after which a run is ended.
PATIENCE = 60


class Words:
    """Makes words and flags by chance. Only `random.random` is used, which is the same in each version of Python."""

    def __init__(self, seed, letters):
        self.chance = random.Random(seed).random
        self.letters = letters

    def one(self, items):
        return items[int(self.chance() * len(items))]

    def word(self):
        """A word of two to five syllables, one in three with a letter of the language."""
        pieces = [self.one(SYLLABLES) for _ in range(2 + int(self.chance() * 4))]
        if self.chance() < 0.35:
            pieces.insert(int(self.chance() * len(pieces)), self.one(self.letters))
        return ''.join(pieces)

    def some(self, flags, most):
        """One to MOST different flags, in most cases few."""
        count = 1 + int(most * self.chance() ** 3)
        return list(dict.fromkeys(self.one(flags) for _ in range(count)))

    def classes(self, flags, rules, added):
        """The lines of a class of suffixes for each flag, of RULES in all. ADDED makes the text that a rule adds."""
        each = rules // len(flags)
        for flag in flags:
            yield f'SFX {flag} Y {each}'
            for _ in range(each):
                end = self.one(SYLLABLES)
                yield f'SFX {flag} {end[-1]} {added()} [^{end}]{end[-1]}'

    def entries(self, count, entry):
        """The lines of a .dic file."""
        return [str(count), *(entry() for _ in range(count))]


def german():
    """Latin-1, flags of one character, compounds; 330,000 entries."""
    words = Words(1, 'äöüß')
    aff = ['# Björn and others', 'SET ISO8859-1', 'TRY esijanrtolcdugmphbyfvkwqxzäüöß', 'COMPOUNDBEGIN x', 'COMPOUNDMIDDLE y', 'COMPOUNDEND z',
           'FORBIDDENWORD o', 'COMPOUNDMIN 2', 'BREAK 2', 'BREAK -', 'BREAK .', 'REP 3', 'REP f ph', 'REP ß ss', 'REP ss ß',
           *words.classes(LETTERS[:40], 1_600, lambda: f'{words.word()[:3]}/xoc')]
    dic = words.entries(330_000, lambda: f'{words.word().capitalize()}/{"".join(words.some(LETTERS, 10))}')
    return encoded(aff, 'latin-1'), encoded(dic, 'latin-1')


def polish():
    """Latin-2, long lists of flags of one character; 300,000 entries and 6,000 rules."""
    words = Words(2, 'ąćęłńóśźż')
    flags = [chr(code) for code in range(33, 127) if chr(code) not in '#/0\\']
    aff = ['SET ISO8859-2', 'TRY iaoezrnwyctpskmludjbhłąęgfóśćżńźvqx', 'REP 2', 'REP rz ż', 'REP ż rz',
           *words.classes(flags, 6_000, lambda: words.word()[:4])]
    dic = words.entries(300_000, lambda: f'{words.word()}/{"".join(words.some(flags, 40))}')
    return encoded(aff, 'iso8859-2'), encoded(dic, 'iso8859-2')


def turkish():
    """UTF-8, lists of numbers as flags, one of which is 0 and is renamed; 75,000 entries and 9,000 rules."""
    words = Words(3, 'çğıöşü')
    flags = [str(number) for number in range(600)]
    aff = ['SET UTF-8', 'LANG tr_TR', 'FLAG num', 'TRY aeinr', "WORDCHARS '",
           *words.classes(flags, 9_000, lambda: f'{words.word()[:5]}/{",".join(words.some(flags, 12))}')]
    dic = words.entries(75_000, lambda: f'{words.word()}/{",".join(words.some(flags, 60))}')
    return encoded(aff, 'utf-8'), encoded(dic, 'utf-8')


def hungarian():
    """UTF-8 with comments and flags in Latin-1, aliases of flags and of morphology, options that are not built; 24,000 rules."""
    words = Words(4, 'áéíóöőúüű')
    flags = [*LETTERS, *(chr(code) for code in range(0xc0, 0xf0) if code != 0xd7)]
    rows = sorted({''.join(words.some(flags, 40)) for _ in range(1_500)})
    aff = ['SET UTF-8', '# by L\xe1szl\xf3', 'LANG hu_HU', 'COMPOUNDMIN 2', 'COMPOUNDWORDMAX 2', 'COMPOUNDSYLLABLE 6 aeiou', 'SYLLABLENUM klmc',
           'COMPOUNDFLAG Y', f'AF {len(rows)}', *(f'AF {row} # {number}' for number, row in enumerate(rows, 1)),
           'AM 20000', *(f'AM po:noun ts:{words.one(SYLLABLES)}{number}' for number in range(20_000)),
           *words.classes(flags, 24_000, lambda: f'{words.one(SYLLABLES)}{words.one(SYLLABLES)}/{1 + int(words.chance() * len(rows))}'),
           # All else than flags is UTF-8.
           'REP 1', 'REP \xc3\xb6 \xc5\x91']
    dic = words.entries(90_000, lambda: f'{words.word()}/{1 + int(words.chance() * len(rows))}\t{1 + int(words.chance() * 20_000)}')
    return encoded(aff, 'latin-1'), encoded(dic, 'utf-8')


def encoded(lines, encoding):
    return ('\n'.join(lines) + '\n').encode(encoding)


# Each dictionary, with the digest of both files that are made of it. The tool as it was before it was made quick wrote the same bytes.
DICTIONARIES = {
    german: 'd62f2e32d5ad9a170f53a2d3d5a47ad18cc27360924ef5c699a0cca46d617ab7',
    polish: '14677edebd9c24767035963a78e1a908d124d836e2ced4da2aaf9747745e090e',
    turkish: 'a1420749d49b7298ae923d27aec98c703cb437dd94bbe862aae08fd86a1b26d3',
    hungarian: 'f5deb96af31985158dbc3c658ba42281a1b97be382bf45352e19741c109c76da',
}
# Files in which something stands very often, .aff and .dic: a walk over all of it for each one would take minutes.
OFTEN = {
    'blanks': ('SET ISO8859-1\n', f'1\nfoo{" " * 200_000}x\n'),
    'parentheses': (f'SET ISO8859-1\nCOMPOUNDRULE 1\nCOMPOUNDRULE {"(" * 200_000}\n', '1\nfoo\n'),
    'an option that is not built': ('SET ISO8859-1\n' + 'COMPLEXPREFIXES\n' * 60_000, '1\nfoo\n'),
    'rows before a header': ('SET ISO8859-1\n' + 'REP\n' * 60_000 + 'REP 1\nREP a b\n', '1\nfoo\n'),
    'rows without flags': ('SET ISO8859-1\nFLAG num\nAF 50000\n' + ''.join(f'AF {row}\nAF\n' for row in range(1, 25_001)), '1\nfoo/1\n'),
    'an address': (f'SET ISO8859-1\nSFX A Y 1\nSFX A 0 {"s" * 500_000} .\n', '1\nfoo/A\n'),
}


class Tester:
    """Counts what is wrong."""

    def __init__(self):
        self.failed = 0

    def holds(self, what, is_so, said=''):
        if not is_so:
            print(what, said)
            self.failed = 1


def timed(words, folder):
    """The status and the output of a command, and the processor seconds that it took."""
    before = resource.getrusage(resource.RUSAGE_CHILDREN)
    try:
        done = subprocess.run(words, cwd=folder, capture_output=True, timeout=PATIENCE, check=False)
    except subprocess.TimeoutExpired:
        return subprocess.CompletedProcess(words, None, b'', b'ended'), PATIENCE
    after = resource.getrusage(resource.RUSAGE_CHILDREN)
    return done, after.ru_utime + after.ru_stime - before.ru_utime - before.ru_stime


def is_quick(words, folder):
    """What a command says, and the least seconds of up to three runs."""
    least = PATIENCE
    for _ in range(3):
        done, seconds = timed(words, folder)
        least = min(least, seconds)
        if least < MOST or seconds >= PATIENCE:
            break
    return done, least


def digest_of(folder, base):
    """The digest of both files of a pair."""
    whole = hashlib.sha256()
    for file in ('aff', 'dic'):
        with open(os.path.join(folder, f'{base}.{file}'), 'rb') as made:
            whole.update(made.read())
    return whole.hexdigest()


def write(folder, base, pair):
    """Writes both files of a pair."""
    for file, data in zip(('aff', 'dic'), pair):
        with open(os.path.join(folder, f'{base}.{file}'), 'wb') as written:
            written.write(data)


def test_speed(tester, folder):
    """Both tools are quick, and make the same bytes as ever."""
    for made, wanted in DICTIONARIES.items():
        name = made.__name__
        write(folder, name, made())
        for tool, more in ((PREPARE, ['out']), (LINT, [])):
            options = ['--lossy'] if more and made is hungarian else []
            done, seconds = is_quick([tool, *options, f'{name}.aff', f'{name}.dic', *more], folder)
            what = f'{name}: {os.path.basename(tool)}:'
            tester.holds(what, seconds < MOST, f'{seconds:.2f} processor seconds, and {MOST} are the most')
            tester.holds(what, done.returncode == (0 if more else 1), f'status {done.returncode}: {done.stderr.decode()}')
            if '--times' in sys.argv[1:]:
                print(what, f'{seconds:.2f}')
        found = digest_of(folder, 'out')
        tester.holds(f'{name}: other bytes are made:', found == wanted, found)


def test_often(tester, folder):
    """What stands in a file very often costs no more than other lines."""
    for name, pair in OFTEN.items():
        write(folder, 'often', [file.encode() for file in pair])
        done, seconds = is_quick([PREPARE, '--lossy', 'often.aff', 'often.dic', 'out'], folder)
        tester.holds(name, seconds < MOST, f'{seconds:.2f} processor seconds, and {MOST} are the most: {done.stderr.decode()[:200]}')
        if '--times' in sys.argv[1:]:
            print(f'{name}: {seconds:.2f}', done.stderr.decode()[:200])


def at_terminal(words, folder, env):
    """What a command prints on standard error, if that is a terminal."""
    near, far = pty.openpty()
    with subprocess.Popen(words, cwd=folder, stdin=subprocess.DEVNULL, stdout=subprocess.DEVNULL, stderr=far, env=env):
        os.close(far)
        shown = b''
        while True:
            try:
                piece = os.read(near, 4096)
            except OSError:
                break
            shown += piece
            if not piece:
                break
    os.close(near)
    return shown.decode()


def test_progress(tester, folder):
    """After a second each tool says at a terminal, and only there, what it does."""
    write(folder, 'small', (b'SET ISO8859-1\n', b'1\nfoo\n'))
    slow = os.path.join(folder, 'slow')
    with open(slow, 'w', encoding='utf-8') as script:
        script.write(f'#!/bin/sh\nsleep 2\nexec {TOP}/affedit "$@"\n')
    os.chmod(slow, 0o755)
    env = {**os.environ, 'TERM': 'xterm'}
    for tool, more in ((PREPARE, ['out']), (LINT, [])):
        words, name = [tool, 'small.aff', 'small.dic', *more], os.path.basename(tool)
        shown = at_terminal(words, folder, {**env, 'AFFEDIT': slow})
        tester.holds(f'{name}: progress:', '\rchecking small.aff and small.dic, 1 s\x1b[K' in shown and shown.endswith('\r\x1b[K'), repr(shown))
        for what, others in (('at a dumb terminal', {'AFFEDIT': slow, 'TERM': 'dumb'}), ('of a quick run', {})):
            shown = at_terminal(words, folder, {**env, **others})
            tester.holds(f'{name}: progress {what}:', shown == '', repr(shown))
        done = subprocess.run(words, cwd=folder, capture_output=True, env={**env, 'AFFEDIT': slow}, check=False)
        tester.holds(f'{name}: progress in a file:', done.stderr == b'', repr(done.stderr))


def main():
    tester = Tester()
    with tempfile.TemporaryDirectory() as folder:
        for test in (test_speed, test_often, test_progress):
            test(tester, folder)
    return tester.failed


if __name__ == '__main__':
    sys.exit(main())
