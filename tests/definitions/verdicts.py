"""Verdicts: which written words a dictionary generates. Letter cases, break points, conversions and numbers."""

import re

from characters import begins_upper, holds_lower, low, lowered
from compounds import Compounds
from derivations import Forms
from lines import without

NUMBER = re.compile('[0-9]+([.,-][0-9]+)*')
MOST_CHARACTERS = 100
MOST_PAIRS = 5
SAME, SHARP, OTHER = 'same', 'sharp', 'other'


def is_number(word):
    """Groups of one ASCII digit or more, with one dot, comma or dash between neighbours."""
    return NUMBER.fullmatch(word) is not None


# ---- Letter cases

def sharp_lowered(text, pairs=MOST_PAIRS):
    """All ways to lower a text where each of its first pairs `SS`, from left to right, is `ß` or `ss`. CHECKSHARPS."""
    if text == '':
        return ['']
    if text.startswith('SS') and pairs > 0:
        return [front + rest for front in ('ß', 'ss') for rest in sharp_lowered(text[2:], pairs - 1)]
    return [low(text[0]) + rest for rest in sharp_lowered(text[1:], pairs)]


def sharp_kept(word):
    """The same ways with the first character kept, which is then in no pair that is `ß`."""
    return [word[:1] + way[1:] for way in sharp_lowered(word) if not (word.startswith('SS') and way.startswith('ß'))]


def plain_spellings(word):
    """What a written word stands for in each dictionary. It stands for itself. With a capital at its front it stands for the word with
    that one lowered. Without lower-case characters it stands for all lowered, and for all but the first."""
    spellings = [word]
    if begins_upper(word):
        spellings.append(low(word[0]) + word[1:])
    if not holds_lower(word):
        spellings += [lowered(word), word[:1] + lowered(word[1:])]
    return spellings


def spellings_of_sharps(dictionary, word):
    """What a word without lower-case characters stands for with CHECKSHARPS: words in which some of its pairs `SS` are `ß`."""
    return sharp_lowered(word) + sharp_kept(word) if dictionary.has('CHECKSHARPS') and not holds_lower(word) else []


def covered_by(dictionary, word):
    """All spellings that a written word stands for, each once."""
    return list(dict.fromkeys(plain_spellings(word) + spellings_of_sharps(dictionary, word)))


def case_of(dictionary, word, spelling):
    """The case of a written word, seen from a spelling that it covers. With CHECKSHARPS words with `ß` may be written with a capital at
    the front, or without lower-case characters and without the capital sharp s."""
    if word == spelling:
        return SAME
    if not dictionary.has('CHECKSHARPS'):
        return OTHER
    if holds_lower(word):
        return SHARP if low(word[0]) + word[1:] == spelling else OTHER
    return SHARP if 'ẞ' not in word else OTHER


def allows_case(dictionary, derivation, case):
    """KEEPCASE: an entry with it stands for a word in another case only where it is a word with `ß` that may be written so."""
    keeps = dictionary.is_in('KEEPCASE', derivation.entry.flags)
    return case == SAME or not keeps or (case == SHARP and 'ß' in derivation.entry.word)


# ---- Break points

def ways_to_break(dictionary, word):
    """The pieces that each row of BREAK leaves of a word, where it takes something off. No piece is empty."""
    for pattern in dictionary.breaks:
        size = len(pattern.text)
        if pattern.at_front and pattern.at_end:
            continue
        if pattern.at_front:
            if word.startswith(pattern.text) and len(word) > size:
                yield [word[size:]]
        elif pattern.at_end:
            if word.endswith(pattern.text) and len(word) > size:
                yield [word[:len(word) - size]]
        else:
            for place in range(1, len(word) - size):
                if word[place:place + size] == pattern.text:
                    yield [word[:place], word[place + size:]]


# ---- Conversions

def converted(dictionary, word):
    """ICONV: from left to right the longest pattern that fits is replaced, the first of equally long ones, and not read again."""
    done = ''
    while word:
        fitting = [row for row in dictionary.conversions if word.startswith(row[0])]
        longest = max(fitting, key=lambda row: len(row[0]), default=(word[0], word[0]))
        done, word = done + longest[1], word[len(longest[0]):]
    return done


class Verdicts:
    """What a dictionary says of words."""

    def __init__(self, dictionary):
        self.dictionary, self.forms = dictionary, Forms(dictionary)
        self.compounds = Compounds(dictionary, self.forms)
        self.known = {}

    def is_barred(self, word):
        """FORBIDDENWORD."""
        return word in self.forms.barred

    def derivations_as(self, word, spelling):
        """The derivations of a spelling that stand as a word where the word is written so. A forbidden spelling has none."""
        if self.is_barred(spelling):
            return []
        case = case_of(self.dictionary, word, spelling)
        return [one for one in self.forms.alone.get(spelling, []) if allows_case(self.dictionary, one, case)]

    def is_right_spelling(self, word, spelling):
        """A spelling is right for a word that is written so: it is not forbidden, and it stands as a word, or it is a compound."""
        if self.is_barred(spelling):
            return False
        return bool(self.derivations_as(word, spelling)) or self.compounds.is_compound(spelling, spelling != word, begins_upper(word))

    def is_base(self, word):
        """A word that is accepted without being broken: it is not forbidden and covers a right spelling."""
        return not self.is_barred(word) and any(self.is_right_spelling(word, spelling) for spelling in covered_by(self.dictionary, word))

    def is_broken(self, word):
        """BREAK: a word that is accepted in pieces. It is a base; or it is not forbidden, and each piece of some way to break it is
        accepted in pieces."""
        if word not in self.known:
            self.known[word] = self.is_base(word) or not self.is_barred(word) and any(
                all(map(self.is_broken, pieces)) for pieces in ways_to_break(self.dictionary, word))
        return self.known[word]

    def looked_up(self, word):
        """The written word converted, and then without the characters to ignore. ICONV, IGNORE."""
        return without(converted(self.dictionary, word), self.dictionary.ignored)

    def accepts(self, word):
        """Whether a word that is looked up is accepted: it is empty; or a number; or it has a hundred characters or fewer and is
        accepted in pieces. Where WORDCHARS holds a dot, such a word may also be a number, or accepted in pieces, without the dots at
        its end."""
        if word == '' or is_number(word):
            return True
        if len(word) > MOST_CHARACTERS:
            return False
        undotted = word.rstrip('.')
        return self.is_broken(word) or ('.' in self.dictionary.wordchars and undotted != ''
                                        and (is_number(undotted) or self.is_broken(undotted)))

    def yields(self, word):
        """Whether the dictionary generates a written word."""
        return self.accepts(self.looked_up(word))

    def told_derivation(self, word):
        """The derivation that `pipe` answers by, of a word that is looked up: the least of those of all spellings that it covers. A
        forbidden word has none, and neither has one of more than a hundred characters. The empty word may have one by FULLSTRIP."""
        if self.is_barred(word) or len(word) > MOST_CHARACTERS:
            return None
        found = [one for spelling in covered_by(self.dictionary, word) for one in self.derivations_as(word, spelling)]
        return min(found, key=lambda one: one.places, default=None)
