"""One dictionary: what the definitions say of it, beside what the program prints."""

import random

import texts
from asked import Asker
from compounds import TooManyLists
from dictionary import Dictionary, LeftOut
from maker import Maker
from verdicts import Verdicts

WORDS, WORDS_OF_PIPE = 50, 16


def verdicts_of(made, with_own=True):
    """What the definitions say of a dictionary, with its personal list or without."""
    aff, dic, own = made.files()
    dictionary = Dictionary(aff, dic)
    if own is not None and with_own:
        dictionary.extend(own)
    return Verdicts(dictionary)


def made_by(seed, number):
    """The dictionary with this number, and what rolls what it is asked."""
    rolled = random.Random(f'{seed} {number}')
    return Maker(rolled).made(), rolled


def without_hard_ones(verdicts, words):
    """The words that have few enough lists of parts to look at."""
    kept = []
    for word in words:
        try:
            for _, _, one in texts.words_of(verdicts.dictionary, word):
                verdicts.yields(one)
            kept.append(word)
        except TooManyLists:
            pass
    return kept


class Trial:
    """What one dictionary is asked, and where answers differ."""

    def __init__(self, made, rolled):
        self.made = made
        self.left_out, self.verdicts = None, None
        try:
            self.verdicts = verdicts_of(made)
        except LeftOut as refused:
            self.left_out = refused.args[0]
            self.text, self.lines, self.words, self.cut, self.hard = 'a\n', b'', [], [], 0
            return
        asker = Asker(rolled, made, self.verdicts)
        words = asker.words(WORDS)
        self.words = without_hard_ones(self.verdicts, words)
        self.hard = len(words) - len(self.words)
        # The same as a text is cut into words.
        self.cut = [one for word in self.words for _, _, one in texts.words_of(self.verdicts.dictionary, word)]
        self.text = asker.text(self.words)
        # Words that stand together in a text may make one that is hard.
        if len(without_hard_ones(self.verdicts, [self.text])) == 0:
            self.text = ''.join(word + '\n' for word in self.words)
        self.plain = verdicts_of(made, False) if made.own is not None else self.verdicts
        few = without_hard_ones(self.plain, rolled.sample(self.words, min(WORDS_OF_PIPE, len(self.words))))
        self.lines = asker.lines(few)
        if len(without_hard_ones(self.plain, [self.lines.decode('utf-8', 'ignore')])) == 0:
            self.lines = ''.join(f'^{word}\n' for word in few).encode()
        self.workers = ['--workers', rolled.choice('124')] if rolled.random() < 0.1 else []

    def wanted(self):
        """What is to be printed by `check`, `forms` and `pipe`, each with its status."""
        if self.left_out:
            refused = (f'aff {self.left_out} LeftOut\n', 3)
            return [refused] * 3
        return [texts.report(self.verdicts, self.text.encode()), (texts.listing(self.plain), 0),
                (texts.pipe_answers(self.plain, self.lines), 0)]

    def printed(self, program):
        """What the program prints of the same."""
        aff, dic, own = self.made.files()
        for name, data in (('a.aff', aff), ('a.dic', dic), ('own', own), ('text', self.text.encode())):
            if data is not None:
                program.put(name, data)
        options = [] if self.left_out else self.workers
        options = options + (['--own', 'own'] if own is not None else [])
        return [program.run('check', 'a.aff', 'a.dic', 'text', *options), program.run('forms', 'a.aff', 'a.dic'),
                program.run('pipe', 'a.aff', 'a.dic', given=self.lines)]

    def difference(self, program):
        """What differs, or None."""
        for name, wanted, printed in zip(('check', 'forms', 'pipe'), self.wanted(), self.printed(program)):
            if wanted != printed:
                return name, wanted, printed
        return None
