"""Finds the items of a personal list that no text can match, since a text is cut into words and only words are looked up.

docs/DEFINITIONS.md says how words are cut and converted. Where an option may bring an item about after all, nothing is told of it.
"""

import os
import tempfile
from typing import NamedTuple

import dictionary_grammar as grammar
from dictionary_grammar import Refused
from dictionary_preparing import check

APOSTROPHES = frozenset("'\u2019")
NAMES = {' ': 'a space', '\t': 'a tab', '.': 'a dot'}
# So many characters are asked about in one line.
ASKED = 1000


class Item(NamedTuple):
    """An item of a list: the number and the text of its line, its word, and whether affixes and compounds may make other words of it."""

    number: int
    text: str
    word: str
    has_forms: bool


class Options:
    """The lines of an .aff file that say what becomes of a word of a text before it is looked up."""

    def __init__(self, lines):
        self.rows = {}
        for line in lines:
            name, *row = grammar.FIELD.findall(line.removesuffix('\r')) or ['']
            if name in grammar.READ:
                self.rows.setdefault(name, []).append(row)

    def fields(self, name, place=0):
        """The fields at a place behind the name, of all lines of an option."""
        return [row[place] for row in self.rows.get(name, []) if len(row) > place]

    def table(self, name):
        """The rows of a table, without its header."""
        return self.rows.get(name, [])[1:]

    def breaks(self):
        """The texts at which a word is broken."""
        texts = [row[0] for row in self.table('BREAK')] if 'BREAK' in self.rows else ['-']
        return [text.removeprefix('^').removesuffix('$') or text for text in texts]

    def replaced(self):
        """The apostrophes of which ICONV leaves none. A letter that it replaces may be left in the other case."""
        return APOSTROPHES.intersection(row[0] for row in self.table('ICONV')) - self.placed()

    def placed(self):
        """The characters that a word or an entry of it may have though the text has not: what is put in, or taken off again."""
        texts = [row[1] for row in self.table('ICONV')]
        texts += [text for name in grammar.CLASSES for text in self.fields(name, 1) if text != '0']
        texts += [text for row in self.table('CHECKCOMPOUNDPATTERN') for text in row]
        if 'CHECKCOMPOUNDREP' in self.rows:
            texts += [row[1].replace('_', ' ') for row in self.table('REP')]
        return set(''.join(texts))

    def forbids_forms(self):
        """Whether the flag of a prohibited word is one of affixes too, so that words with these are prohibited as well."""
        classes = {flag.lstrip('0') for name in grammar.CLASSES for flag in self.fields(name)}
        return any(flag.lstrip('0') in classes for flag in self.fields('FORBIDDENWORD'))

    def moves_apostrophes(self, known):
        """Whether an apostrophe of a word that is looked up may stand elsewhere than between two characters of these. A neighbour may be
        left out, as dots at the end are, or be broken off, or another one be put in."""
        return ('IGNORE' in self.rows or 'CHECKCOMPOUNDREP' in self.rows or '.' in ''.join(self.fields('WORDCHARS'))
                or any(set(text) <= known for text in self.breaks())
                or any(APOSTROPHES & set(row[1]) and not APOSTROPHES >= {row[0], row[1]} for row in self.table('ICONV')))


def items_of(options, lines):
    """The items of a list with these lines."""
    ignored, forbids_forms = set(''.join(options.fields('IGNORE'))), options.forbids_forms()
    for number, line in enumerate(lines, 1):
        text = line.removesuffix('\r').strip(' ')
        if not text.strip(' \t'):
            continue
        word = text.removeprefix('*')
        slash = grammar.SLASH.search(word, 1)
        bare = (word[:slash.start()] if slash else word).replace('\\/', '/')
        has_forms = forbids_forms if text.startswith('*') else slash is not None
        yield Item(number, text, ''.join(char for char in bare if char not in ignored), has_forms)


def word_characters(options, characters):
    """Those of some characters that are word characters, by what the program says of each one between two letters."""
    rows = [' '.join(f'x{char}x' for char in characters[place:place + ASKED]) for place in range(0, len(characters), ASKED)]
    files = {'a.aff': ['SET UTF-8', *(f'WORDCHARS {text}' for text in options.fields('WORDCHARS'))], 'a.dic': ['0']}
    with tempfile.TemporaryDirectory() as folder:
        paths = [os.path.join(folder, name) for name in files]
        for path, lines in zip(paths, files.values()):
            with open(path, 'w', encoding='utf-8', newline='') as file:
                file.writelines(f'{line}\n' for line in lines)
        *marks, last = check(*paths, text='\n'.join(rows).encode()).split('\n')
    if ' of ' not in last:
        raise Refused(f'the program does not say which characters are of words: {last}')
    words = [mark.split(' ', 3)[3] for mark in marks]
    return {word[1] for word in words if len(word) == 3}


def named(char):
    """A character as a reason has it."""
    return NAMES.get(char) or (f'`{char}`' if char.isprintable() else f'U+{ord(char):04X}')


class Matching:
    """Which characters a word has when it is looked up, and where."""

    def __init__(self, options, items):
        asked = set(''.join([item.word for item in items] + options.breaks()))
        self.replaced = options.replaced()
        self.known = word_characters(options, sorted(asked)) | APOSTROPHES | options.placed()
        self.moves_apostrophes = options.moves_apostrophes(self.known)

    def fault(self, item):
        """Why no text can match an item, or None: its first character that no word has, or none has there."""
        word = item.word
        for place, char in enumerate(word):
            if char not in self.known:
                return f'{named(char)} is no word character'
            if char in self.replaced:
                return f'ICONV replaces `{char}` in each text'
            is_inside = 0 < place < len(word) - 1 and not APOSTROPHES & {word[place - 1], word[place + 1]}
            if char in APOSTROPHES and not (is_inside or item.has_forms or self.moves_apostrophes):
                return 'an apostrophe is part of a word only between two word characters'
        return None


def unmatched(aff, own):
    """The items of a list that no text can match, each with the reason, by the lines of an .aff file and of the list."""
    options = Options(aff)
    items = list(items_of(options, own))
    matching = Matching(options, items)
    return [(item, fault) for item in items for fault in [matching.fault(item)] if fault]
