#!/usr/bin/env python3
"""Compares what tools/lint-dictionary says of random personal lists with what the program marks: tests/linter_items.py [LISTS [SEED]].

An item that is reported changes no mark: without these items, a text has the same marks by a list. The text has the words of all items, by themselves
and beside other characters, and random words. If the .aff file has no option but WORDCHARS, the text of an item that adds its word and is not
reported has no mark. Then come items that match a text by options. Prints what differs; the status is 1 if anything does.
"""

import os
import random
import re
import subprocess
import sys

sys.dont_write_bytecode = True

from command_runs import PROGRAM, TOP, Tester, checked, write  # noqa: E402

ALPHABET = "aaabbBéß'’ .-/1"
# Of each row at most one text is part of an .aff file.
OPTIONS = [
    ['WORDCHARS .', 'WORDCHARS -.', 'WORDCHARS -/1’', "WORDCHARS 1'"],
    ["ICONV 1\nICONV ’ '", "ICONV 2\nICONV b -\nICONV é 'a", 'ICONV 3 of\nICONV bb .\nICONV a ’\nICONV ’ b', 'ICONV 1\nICONV . é'],
    ['IGNORE é-', "IGNORE é'", 'IGNORE .'],
    ['BREAK 0', 'BREAK 2\nBREAK .\nBREAK ^a', 'BREAK 1\nBREAK ß$', "BREAK 1\nBREAK '"],
    ["CHECKCOMPOUNDREP\nREP 3\nREP ab a_b\nREP a '\nREP bé b.é"],
    ['CHECKCOMPOUNDPATTERN 1\nCHECKCOMPOUNDPATTERN -b a é', 'CHECKCOMPOUNDPATTERN 1\nCHECKCOMPOUNDPATTERN b . 1'],
    ['SFX S Y 2\nSFX S .b é .\nSFX S 0 a .\nPFX P Y 2\nPFX P 0 b .\nPFX P - a .'],
    ['FORBIDDENWORD S', 'FORBIDDENWORD F'],
    ['CHECKSHARPS', 'FULLSTRIP'],
]
DIC = '6\na/SPC\nb/C\nab/SC\na-b/S\nb.\nBé/PC\n'
# Options with which an item matches a text though it has a character that is no word character, or an apostrophe at an end: the lines of the
# .aff file, the entries, the item, and a text that has another verdict by it.
MATCHED = [
    ('WORDCHARS .', 'foo', "dogs'", "dogs'."),
    ('WORDCHARS .', 'foo', 'Hudn.', 'Hudn.'),
    ('WORDCHARS .', 'etc.', '*etc.', 'etc.'),
    ('WORDCHARS /', 'foo', r'a\/b', 'a/b'),
    ('WORDCHARS -', 'foo', "'tis", "foo-'tis"),
    ('ICONV 1\nICONV é -\nBREAK 0', 'foo', 'a-b', 'aéb'),
    ("ICONV 1\nICONV é '", 'foo', "'tis", 'étis'),
    ('ICONV 1\nICONV b x', 'foo', 'bar', 'Bar'),
    ('IGNORE -', 'foo', 'foo-bar', 'foobar'),
    ('IGNORE é', 'foo', "'tis", "é'tis"),
    ('SFX S Y 1\nSFX S + s .', 'foo/S', 'bar+/foo', 'bars'),
    ('SFX S Y 1\nSFX S 0 s .', 'foo/S', "dogs'/foo", "dogs's"),
    ("FORBIDDENWORD S\nSFX S Y 1\nSFX S 0 s .", "dogs's", "*dogs'", "dogs's"),
    ('COMPOUNDFLAG C\nCHECKCOMPOUNDPATTERN 1\nCHECKCOMPOUNDPATTERN + b é', 'foo/C\nbar/C', 'xyz+/foo', 'xyzéar'),
    ('COMPOUNDFLAG C\nCHECKCOMPOUNDREP\nREP 1\nREP ob o_b', 'foo/C\nbar/C', 'foo bar', 'foobar'),
    ("COMPOUNDFLAG C\nCHECKCOMPOUNDREP\nREP 1\nREP bar '", 'foo/C\nbar/C', "foo'", 'foobar'),
]
REPORT = re.compile(r'own:([0-9]+): no text can match ')


def random_word(draw):
    return ''.join(draw.choices(ALPHABET, k=draw.randint(1, 5)))


def random_items(draw, count):
    """Lines of a list, each with its word and whether it adds that alone."""
    items = []
    for _ in range(count):
        word = random_word(draw).strip(' ') or 'a'
        star, model = draw.choice([('', ''), ('', ''), ('*', ''), ('', '/' + draw.choice(['a', 'ab', 'Bé']))])
        items.append((star + word.replace('/', r'\/') + model, word, star + model == ''))
    return items


def text_of(draw, items):
    """Words of texts: first those of the items."""
    words = [word for _, word, _ in items]
    beside = ["a{}", "{}a", "b{}", "{}b", "a-{}", "-{}", "{}-", "{}-b", "a.{}", "ß{}b", "é{}", "1{}1"]
    more = [form.format(word) for word in words for form in draw.sample(beside, 4)]
    for word in words:
        more += [f'{word}.', word.upper(), word.replace("'", '’'), word.replace(' ', '')]
    return words + more + [random_word(draw) for _ in range(100)]


def reported(folder):
    """The lines of the list that the linter reports."""
    done = subprocess.run([os.path.join(TOP, 'tools', 'lint-dictionary'), 'a.aff', 'a.dic', 'own'], cwd=folder, stdin=subprocess.DEVNULL,
                          stdout=subprocess.PIPE, env={**os.environ, 'AFFEDIT': PROGRAM}, check=False)
    lines = done.stdout.decode().split('\n')
    if lines[-2] != 'a.aff, a.dic, own: read':
        raise AssertionError(lines)
    return {int(found[1]) for found in map(REPORT.match, lines) if found}


class Round:
    """A random dictionary in a folder, with a random list and a text."""

    def __init__(self, tester, draw):
        self.tester, self.folder = tester, tester.folder()
        self.options = [draw.choice(row) for row in OPTIONS if draw.random() < draw.choice([0.0, 0.3])]
        write(self.folder, 'a.aff', '\n'.join(['SET UTF-8', 'COMPOUNDFLAG C', 'COMPOUNDMIN 1', *self.options]) + '\n')
        write(self.folder, 'a.dic', DIC)
        self.items = random_items(draw, 12)
        self.text = write(self.folder, 'text', '\n'.join(text_of(draw, self.items)) + '\n')
        status, _, said = self.marks('own', self.items)
        while status == 3 and said.startswith('own '):
            # The characters to ignore were all that the item had. The text keeps its word.
            del self.items[int(said.split()[1]) - 1]
            status, _, said = self.marks('own', self.items)

    def marks(self, name, items):
        """What the program says of the text by a list, which is written to a file."""
        own = write(self.folder, name, ''.join(f'{line}\n' for line, *_ in items))
        return checked(*(os.path.join(self.folder, file) for file in ('a.aff', 'a.dic')), self.text, own)

    def lost(self, lines, marked):
        """The items that add a word alone and are not at these lines of the list, though that line of the text is marked. With dots or dashes
        in WORDCHARS an apostrophe may be at an end of an item."""
        moves = any('-' in option or '.' in option for option in self.options)
        others = {word for _, word, adds in self.items if not adds}
        return [line for number, (line, word, adds) in enumerate(self.items, 1)
                if number in marked - lines and adds and word not in others and not (moves and re.search("['’]", word))]

    def compare(self, what):
        """Compares, and returns how many items are reported."""
        lines = reported(self.folder)
        status, marks, _ = self.marks('own', self.items)
        kept = [item for number, item in enumerate(self.items, 1) if number not in lines]
        said = f'{what}, {self.options}, {[line for line, *_ in self.items]}, reported {sorted(lines)}'
        self.tester.same(f'{said}: marks without these items', (status, marks), self.marks('kept', kept)[:2])
        if all(option.startswith('WORDCHARS') for option in self.options):
            lost = self.lost(lines, {mark[0] for mark in marks})
            self.tester.same(f'{said}: items that are not reported, and whose words are marked', [], lost)
        return len(lines)


def test_matched(tester):
    """Items that match a text by an option."""
    for options, entries, item, text in MATCHED:
        folder = tester.folder()
        paths = [write(folder, name, data + '\n').decode() for name, data in
                 (('a.aff', 'SET UTF-8\n' + options), ('a.dic', '9\n' + entries), ('text', text), ('own', item))]
        said = f'{options}, {item} and {text}'
        tester.same(f'{said}: whether a mark is another one', True, checked(*paths) != checked(*paths[:3]))
        tester.same(f'{said}: reported', set(), reported(folder))


def main(words):
    count, seed = map(int, words + ['40', '1'][len(words):])
    draw, tester, told = random.Random(seed), Tester(), 0
    try:
        test_matched(tester)
        for number in range(count):
            told += Round(tester, draw).compare(f'list {number}')
    finally:
        tester.close()
    print(f'{count} lists, {told} items reported, {tester.failed} differences')
    return 1 if tester.failed or not told else 0


if __name__ == '__main__':
    sys.exit(main(sys.argv[1:]))
