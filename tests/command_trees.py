"""Random trees of files: the marks of tools/affedit-check are those of `affedit check` on each file alone."""

import json
import os
import random
import subprocess

from command_runs import checked, write

# Dictionaries as the lines of both files: characters of words, conversions and breaks are what files could spoil in one another.
PAIRS = (
    ('SET UTF-8\nSFX A Y 1\nSFX A 0 s .\n', '5\nhello\nwork/A\nthe\ncat/A\né\n'),
    ("SET UTF-8\nWORDCHARS -.’\nICONV 1\nICONV ’ '\n", "6\nhello\nwork\ndon't\nfoo-bar\nthe\netc\n"),
    ('SET UTF-8\nWORDCHARS \u0301\u00a0\ufeff\u2028\nIGNORE \u0301\nBREAK 2\nBREAK x\nBREAK ^y\n', '4\nhello\nwork\nthe\n日本\n'),
)
PIECES = (*'hello work works the cat wrold teh don\'t don’t foo-bar foo- -bar etc. 12 2nd x1 é É ß 日本 😀 a\u0301'.split(' '),
          '\u0301', 'a\ufeffb', '\u00a0', '\ufeff', "'", '’', '-', '.', '\u2028', '\x85', '\x0b', '\x0c', '\r', '\x1b', 'hellox', 'ywork',
          'https://a.b/c', 'x' * 120)
GAPS = (' ', ' ', ' ', '\n', '\n', '\t', '', '', '\r\n', '\r\r\n', '\n\n', '  ', ',')
NAMES = ('a', 'b.txt', 'c d', 'e\nf', b'g\xff\xfe', 'h:1:2', '.hidden', '-dash', 'é.md', '*', "it's", 'k%,:', '\x1b[31m', 'Z', '日本')


def text_of(random_of):
    """The bytes of a file."""
    kind = random_of.random()
    if kind < 0.08:
        return b''
    if kind < 0.11:
        return random_of.choice((b'\n', b'\r', b'\r\n', b'\xef\xbb\xbf', b'\xef\xbb\xbf\xef\xbb\xbfteh\n', b'\n\r', b' ', b'\n\n\n', b'\t'))
    pieces = []
    for _ in range(random_of.choice((1, 3, 10, 40, 200))):
        pieces += [random_of.choice(PIECES), random_of.choice(GAPS)]
    if random_of.random() < 0.1:
        pieces.insert(0, '\ufeff')
    data = ''.join(pieces).encode()
    if kind > 0.95:
        place = random_of.randrange(len(data) + 1)
        data = data[:place] + random_of.choice((b'\xff', b'\xc3', b'\xed\xa0\x80', b'\xf8', b'\xc0\x80', b'\xf4\x90\x80\x80')) + data[place:]
    elif kind > 0.93:
        data += b'\0teh'
    return data + random_of.choice((b'', b'\n', b'\r\n', b'\r'))


def large_text(random_of):
    """A file past a limit of the program: more than 20,000 lines, or lines of more than 65,536 bytes."""
    if random_of.random() < 0.5:
        lines = [random_of.choice(('teh', 'hello', '', 'é wrold')) for _ in range(random_of.randrange(20_001, 45_000))]
        return random_of.choice(('\n', '\r\n')).join(lines).encode()
    words = [random_of.choice(('hello', 'wrold', 'é', 'a' * 3_000, '日本')) for _ in range(random_of.randrange(400, 1_200))]
    return ('teh\n' + random_of.choice((' ', '\t')).join(words) + '\nteh').encode()


class Tree:
    """A folder with random files, and the names of what is in it."""

    def __init__(self, path, seed):
        self.path, self.random = path, random.Random(seed)
        self.files, self.links = {}, []
        self.fill(os.fsencode(path), b'', 0)
        if seed % 25 == 0:
            self.put(b'large', large_text(self.random))

    def put(self, name, data):
        self.files[name] = data
        write(self.path, name, data)

    def fill(self, folder, prefix, depth):
        """Puts files, links, pipes and folders into a folder."""
        names = self.random.sample(NAMES, self.random.randrange(1, 4 if depth else 6))
        for name in map(os.fsencode, names):
            kind = self.random.random()
            path = os.path.join(folder, name)
            if kind < 0.2 and depth < 3:
                os.mkdir(path)
                self.fill(path, prefix + name + b'/', depth + 1)
            elif kind < 0.26:
                os.symlink(self.random.choice((folder, b'..', b'nothing', path, *(os.path.join(folder, other) for other in self.files))), path)
                self.links.append(prefix + name)
            elif kind < 0.28:
                os.mkfifo(path)
            elif not os.path.lexists(path):
                self.put(prefix + name, text_of(self.random))


def parted(data):
    """A large file in pieces within the limits, cut at blanks: the line and the byte of the line at which each begins, and its bytes."""
    lines = data.split(b'\n')
    for first in range(0, len(lines), 15_000):
        group = lines[first:first + 15_000]
        if max(map(len, group)) <= 65_536:
            yield first, 0, b'\n'.join(group)
            continue
        for place, line in enumerate(group):
            start = 0
            while len(line) - start > 50_000:
                cut = max(line.rfind(b' ', start, start + 50_000), line.rfind(b'\t', start, start + 50_000))
                yield first + place, start, line[start:cut]
                start = cut
            yield first + place, start, line[start:]


def alone(pair, data, aside):
    """What the program says of a file alone: its marks with places in it, or None and the first line that is not UTF-8."""
    # The name may be one that the program does not take: those are UTF-8.
    status, marks, said = checked(*pair, write(aside, 'whole', data))
    if status < 2:
        return marks, None
    if status == 4:
        return None, int(said.split()[1])
    marks = []
    for line, start, piece in parted(data):
        # Nothing at the front, where a byte order mark would be dropped.
        part = write(aside, 'part', b'\n' + piece)
        for number, first, last, word in checked(*pair, part)[1]:
            marks.append((number - 1 + line, first + (start if number == 2 else 0), last + (start if number == 2 else 0), word))
    return marks, None


def wanted_of(tree, pair, aside, names):
    """The marks that are wanted, as lines of JSON have them, and what is to be said of files that are not UTF-8."""
    found, told = [], []
    for name in names:
        data = tree.files[name]
        marks, bad = alone(pair, data, aside)
        if marks is None:
            told.append((name, bad))
            continue
        lines = data.removeprefix(b'\xef\xbb\xbf').split(b'\n')
        for line, start, end, word in marks:
            column = len(lines[line - 1][:start].decode()) + 1
            found.append((os.fsdecode(name), line, column, column + len(word), start, end, word))
    return found, told


def in_order(names):
    """Names of files as a walk finds them."""
    return sorted(names, key=lambda name: [os.fsdecode(part) for part in name.split(b'/')])


def compare(tester, pair, seed):
    """Checks a tree by the command and by the program."""
    tree = Tree(tester.folder(), seed)
    hidden = seed % 3 == 0
    names = [name for name in in_order(tree.files)
             if b'\0' not in tree.files[name] and (hidden or not any(part.startswith(b'.') for part in name.split(b'/')))]
    # Every fourth tree is given as names, in a random order, in place of its folder.
    words = ['.']
    if seed % 4 == 1:
        tree.random.shuffle(names)
        words = ['--', *map(os.fsdecode, names)]
        if not names:
            return
    found, told = wanted_of(tree, pair, tester.folder(), names)
    base = os.path.splitext(pair[0])[0]
    status, output, errors = tester.run(['-d', base, '--all', '--format', 'json', *(['--hidden'] if hidden else []), *words], folder=tree.path)
    rows = [json.loads(line) for line in output.splitlines()]
    prefix = './' if words == ['.'] else ''
    marks = [tuple(row[key] for key in ('file', 'line', 'column', 'end_column', 'start', 'end', 'word')) for row in rows]
    tester.same(f'tree {seed}: the marks', [(prefix + row[0], *row[1:]) for row in found], marks)
    tester.same(f'tree {seed}: the status', 4 if told else 1 if found else 0, status)
    said = errors.decode(errors='surrogateescape').splitlines()
    tester.same(f'tree {seed}: what is said', len(told), len(said))
    for (_, line), text in zip(told, said):
        tester.holds(f'tree {seed}: what is said', f':{line}: not UTF-8', text)


def test(tester, count):
    """Checks random trees."""
    folder = tester.folder()
    pairs = []
    for number, (aff, dic) in enumerate(PAIRS):
        pairs.append((os.fsdecode(write(folder, f'{number}.aff', aff)), os.fsdecode(write(folder, f'{number}.dic', dic))))
    for seed in range(count):
        try:
            compare(tester, pairs[seed % len(pairs)], seed)
        except (OSError, ValueError, subprocess.SubprocessError) as error:
            tester.same(f'tree {seed}', None, repr(error))
