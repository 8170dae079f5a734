#!/usr/bin/env python3
"""Makes three small languages: languages.py FOLDER COUNT.

Writes NAME.aff, NAME.dic, NAME.own, NAME.words with COUNT words, a line each, and NAME.want with what each is answered, 1 or 2. That is found here by the
rules by which words are made, without the program: one language has affixes, one compounds, one another alphabet with conversions.
"""

import os
import random
import sys


def syllables(starts, vowels, count, chance):
    """So many different stems of two or three syllables."""
    stems = set()
    while len(stems) < count:
        stems.add(''.join(chance.choice(starts) + chance.choice(vowels) for _ in range(chance.choice((2, 3)))))
    return sorted(stems)


def spoiled(word, letters, chance):
    """The word with one letter changed, put in or left out."""
    place = chance.randrange(len(word))
    kind = chance.randrange(3)
    return word[:place] + (chance.choice(letters) if kind < 2 else '') + word[place + (kind > 0):]


def affixes(chance):
    """English in its way: -s, -es behind x, y to -ies, un- with all of them, and a forbidden form."""
    stems = syllables('bdfgklmnprstvx', 'aeiouy', 3000, chance)
    forms = set()
    for stem in stems:
        ends = stem[:-1] + 'ies' if stem.endswith('y') else stem + 's'
        forms |= {stem, ends, 'un' + stem, 'un' + ends}
    barred = {stems[7], stems[77]}
    aff = ('SET UTF-8\nFORBIDDENWORD !\nSFX S Y 2\nSFX S y ies y\nSFX S 0 s [^y]\nPFX U Y 1\nPFX U 0 un .\n')
    dic = ''.join(f'{stem}/{"!" if stem in barred else "SU"}\n' for stem in stems)
    for stem in barred:
        ends = stem[:-1] + 'ies' if stem.endswith('y') else stem + 's'
        forms -= {stem, ends, 'un' + stem, 'un' + ends}
    return aff, f'{len(stems)}\n{dic}', sorted(forms), 'abdeisux', forms.__contains__


def compounds(chance):
    """German in its way: two or more stems of three letters at least, with umlauts."""
    stems = syllables('bdfgklmnrst', ['a', 'e', 'ä', 'ö', 'ü'], 400, chance)
    known = set(stems)
    words = stems + [chance.choice(stems) + chance.choice(stems) + chance.choice([*stems, '', '']) for _ in range(20000)]

    def is_known(word):
        """Whether the word is cut into stems."""
        return word in known or any(word[:at] in known and is_known(word[at:]) for at in range(3, len(word) - 2))

    return 'SET UTF-8\nCOMPOUNDFLAG C\nCOMPOUNDMIN 3\n', f'{len(stems)}\n' + ''.join(f'{stem}/C\n' for stem in stems), words, 'aäeördgk', is_known


def alphabet(chance):
    """Russian in its way: an ending in place of another, ё written for е, and an accent that is ignored."""
    stems = [stem + 'а' for stem in syllables('бвгдзклмнпрст', 'аеиоу', 3000, chance)]
    forms = {form for stem in stems for form in (stem, stem[:-1] + 'ы', stem[:-1] + 'ой')}
    aff = 'SET UTF-8\nICONV 1\nICONV ё е\nIGNORE \u0301\nSFX A Y 2\nSFX A а ы а\nSFX A а ой а\n'
    written = sorted(forms) + [form.replace('е', 'ё', 1) for form in sorted(forms)[::3]] + [form[:2] + '\u0301' + form[2:] for form in sorted(forms)[::5]]

    def is_known(word):
        """Whether the word is a form once it is converted."""
        return word.replace('ё', 'е').replace('\u0301', '') in forms

    return aff, f'{len(stems)}\n' + ''.join(f'{stem}/A\n' for stem in stems), written, 'абеиойыё', is_known


def main():
    """Writes the files of each."""
    folder, count = sys.argv[1], int(sys.argv[2])
    for make in (affixes, compounds, alphabet):
        chance = random.Random(make.__name__)
        aff, dic, words, letters, is_known = make(chance)
        asked = []
        while len(asked) < count:
            word = chance.choice(words)
            if chance.random() < 0.5:
                word = spoiled(word, letters, chance)
            # An accent at the front of a word is no letter of it.
            if word and word[0] != '\u0301':
                asked.append(word)
        files = {
            'aff': aff,
            'dic': dic,
            'own': f'{letters}/{words[0]}\n*{words[1]}\n\nzzz\n',
            'words': ''.join(word + '\n' for word in asked),
            'want': ''.join('1\n' if is_known(word) else '2\n' for word in asked),
        }
        for ending, text in files.items():
            with open(os.path.join(folder, f'{make.__name__}.{ending}'), 'w', encoding='utf-8') as file:
                file.write(text)


main()
