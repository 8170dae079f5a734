#!/usr/bin/env python3
"""Tests examples/ispell-face by the program that tests/program finds: personal words in all cases, which are those of `check --own`, and
Emacs's set-up, by whose brackets a text is cut into the words of `check`. Emacs itself is tried by tests/emacs.sh. Prints what differs; the
status is 1 if anything does.
"""

import os
import re
import subprocess
import sys
import tempfile
import unicodedata

sys.dont_write_bytecode = True

import program  # noqa: E402

TOP = os.path.dirname(os.path.dirname(os.path.realpath(__file__)))
FACE = os.path.join(TOP, 'examples', 'ispell-face')
SAMPLE = [os.path.join(TOP, 'examples', f'sample.{end}') for end in ('aff', 'dic')]
BANNER = '@(#) International Ispell Version 3.1.20 (but really Affedit)'

# A dialogue: what is sent, and the lines of its answer, of which an empty one ends each.
DIALOGUE = [
    ('^wurk Wurk', ['# wurk 1', '# Wurk 6', '']),
    ('*wurk', []),
    ('^wurk Wurk WURK wURK WuRK', ['*', '*', '*', '# wURK 16', '# WuRK 21', '']),
    ('&FLURB', []),
    ('^flurb Flurb FLURB', ['*', '*', '*', '']),
    ('@McDon', []),
    ('^McDon mcDon MCDON Mcdon', ['*', '# mcDon 7', '# MCDON 13', '# Mcdon 19', '']),
    ('@Kiew', []),
    ('^Kiew KIEW kiew', ['*', '*', '# kiew 11', '']),
    ('* ', []),
    ('#', []),
]
# Personal words, and texts of them in many cases. No small letter stands alone for U+0130, U+01C5 is no capital, and U+1E9E is that of ß.
PERSONAL = ['wurk', 'McDon', 'Kiew', 'été', 'straße', 'ßa', 'σας', 'iyi', 'ǆa', 'İyi', 'x']
CASES = [str, str.lower, str.upper, str.title, str.capitalize, str.swapcase, lambda word: word.upper().replace('SS', 'ẞ'),
         lambda word: word[0] + word[1:].upper(), lambda word: 'İ' + word[1:], lambda word: 'ǅ' + word[1:]]

# WORDCHARS of dictionaries, and a text with words of each; and signs alone, which are no words and are taken out of both cuts.
WORDCHARS = ['', '0123456789', '-', '-.0123456789', ']^[-:\\"', "'’-", 'ü·_+']
TEXT = ("isn’t 4nd isn't 2nd 'tis dogs’ ’n’ rock'n'roll x''y foo-bar -foo a.b. 12 e\u0301te\u0301 naïve l·l a_b a]b^c[d:e\\f\"g "
        'Ⅷ日本 слово’s a’1 1’a ü+ü -- ]] [:alpha:] a-z')


class Brackets:
    """A class of characters in brackets, as Emacs reads it: a `]` at its front is literal, and so are `-` at its end, `\\` and `^` elsewhere."""

    def __init__(self, text):
        match = re.fullmatch(r'\[(\^?)(\]?(?:\[:[a-z]+:\]|[^\]])*)\]', text)
        assert match, text
        self.is_turned = bool(match[1])
        items = re.findall(r'\[:([a-z]+):\]|(.)(?:-(.))?', match[2], re.DOTALL)
        self.names = {name for name, _, _ in items if name}
        assert self.names <= {'alpha'}, text
        self.ranges = [(first, last or first) for name, first, last in items if not name]

    def __contains__(self, sign):
        # Emacs: letters, marks, and numbers that are letters.
        category = unicodedata.category(sign)
        is_named = 'alpha' in self.names and (category[0] in 'LM' or category == 'Nl')
        return (is_named or any(first <= sign <= last for first, last in self.ranges)) != self.is_turned


def cut(text, casechars, otherchars):
    """The words of a text as ispell.el finds them: runs of one class, with one sign of the other between two of them."""
    words, word = [], ''
    for place, sign in enumerate(text + '\n'):
        is_between = word and sign in otherchars and text[place + 1 : place + 2] != '' and text[place + 1] in casechars and word[-1] in casechars
        if sign in casechars or is_between:
            word += sign
        elif word:
            words.append(word)
            word = ''
    return words


def is_word(text):
    """Whether a run is a word for `check`: it has a letter or a digit."""
    return any(sign.isalpha() or sign in '0123456789' for sign in text)


class Tester:
    """Runs the face and the program, with files in a folder, and counts what differs."""

    def __init__(self, affedit, folder):
        self.affedit = affedit
        self.folder = folder
        self.failed = 0

    def file(self, name, text):
        path = os.path.join(self.folder, name)
        with open(path, 'w', encoding='utf-8') as file:
            file.write(text)
        return path

    def face(self, words, given=''):
        env = {**os.environ, 'AFFEDIT': self.affedit}
        return subprocess.run([FACE, *words], input=given, stdout=subprocess.PIPE, encoding='utf-8', env=env, check=False).stdout

    def marked(self, words):
        """The words that `check` marks."""
        done = subprocess.run([self.affedit, 'check', *words], stdout=subprocess.PIPE, encoding='utf-8', check=False)
        return [line.split(' ')[3] for line in done.stdout.splitlines()[:-1]]

    def same(self, what, wanted, found):
        if wanted != found:
            self.failed += 1
            print(f'{what}:\n  wanted {wanted}\n  found  {found}')


def test_dialogue(tester):
    personal = tester.file('personal', 'here\n')
    found = tester.face(['-a', '-p', personal, *SAMPLE], ''.join(line + '\n' for line, _ in DIALOGUE))
    tester.same('the dialogue', [BANNER] + [line for _, answer in DIALOGUE for line in answer], found.splitlines())
    with open(personal, encoding='utf-8') as file:
        tester.same('the personal words that are kept', 'here\nwurk\nflurb\n', file.read())
    tester.same('a kept word in capitals', '', tester.face(['-l', '-p', personal, *SAMPLE], 'HERE Wurk\n'))


def test_own(tester):
    own = tester.file('own', ''.join(word + '\n' for word in PERSONAL))
    text = tester.file('cases', ''.join(f'{change(word)}\n' for word in PERSONAL for change in CASES))
    with open(text, encoding='utf-8') as file:
        found = tester.face(['-l', '-p', own, *SAMPLE], file.read())
    tester.same('personal words in many cases', tester.marked([*SAMPLE, text, '--own', own]), found.splitlines())


def test_set_up(tester, signs):
    aff = tester.file('signs.aff', 'SET UTF-8\n' + (f'WORDCHARS {signs}\n' if signs else ''))
    dic = tester.file('signs.dic', '0\n')
    strings = [re.sub(r'\\(.)', r'\1', string) for string in re.findall(r'"((?:[^"\\]|\\.)*)"', tester.face(['--emacs', aff, dic]))]
    tester.same(f'the strings of the set-up for {signs}', [FACE, 'affedit', "['’]", aff, dic, 'affedit'], strings[:2] + strings[4:])
    casechars, others, otherchars = map(Brackets, strings[2:5])
    tester.same(f'signs of both classes for {signs}', [], [sign for sign in TEXT if (sign in casechars) == (sign in others)])
    # Every word is marked: the dictionary has none, and a number is left out of both.
    wanted = tester.marked([aff, dic, tester.file('text', TEXT)])
    found = [word for word in cut(TEXT, casechars, otherchars) if is_word(word) and not re.fullmatch('[0-9]+', word)]
    tester.same(f'the words that are cut for {signs}', wanted, found)


def main():
    affedit = program.found()
    if not affedit:
        return 1
    with tempfile.TemporaryDirectory() as folder:
        tester = Tester(affedit, folder)
        test_dialogue(tester)
        test_own(tester)
        for signs in WORDCHARS:
            test_set_up(tester, signs)
    print(f'{tester.failed} differences')
    return 1 if tester.failed else 0


if __name__ == '__main__':
    sys.exit(main())
