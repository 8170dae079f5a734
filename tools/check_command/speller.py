"""Judges texts by one dictionary or by several, with own words."""

import bisect
import os

from . import faults
from .faults import Fault, shown
from .own import FILE_MOST
from .texts import Text, cut_text, parts_of

MORE = '    '


class Dictionary:
    """A dictionary by its name. It is prepared if the program does not read it as it is."""

    def __init__(self, name, base, program, cache, teller):
        self.name, self.base = name, base
        self.program, self.cache, self.teller = program, cache, teller
        self.is_prepared = False
        self.pair = base
        entry = cache.kept(base)
        if entry:
            self.take(entry)

    def take(self, entry):
        """Uses a prepared pair of files, and says what was lost."""
        self.pair, self.is_prepared = entry.base, True
        if entry.loss:
            self.teller.say(f'{shown(self.name)}: prepared with a loss: {entry.loss}')

    def check(self, text, own):
        """The answer of the program to a text."""
        answer = self.program.check(f'{self.pair}.aff', f'{self.pair}.dic', text, own)
        if self.is_refused(answer) and not self.is_prepared:
            self.prepare()
            answer = self.program.check(f'{self.pair}.aff', f'{self.pair}.dic', text, own)
        if self.is_refused(answer):
            raise Fault(faults.DICTIONARY, f'{shown(self.pair)}: {answer.said}')
        return answer

    def is_refused(self, answer):
        """Whether the program does not read the files of the dictionary."""
        if answer.status == 3:
            return answer.said.startswith(('aff ', 'dic '))
        return answer.status == 8 and any(os.path.getsize(f'{self.pair}.{file}') > FILE_MOST for file in ('aff', 'dic'))

    def prepare(self):
        """Prepares the dictionary, and says what was changed if it was not prepared before."""
        entry, is_new, reason = self.cache.make(self.base)
        if is_new:
            self.teller.say(f'{shown(self.name)}: prepared: {shown(entry.base)}.aff and .dic')
            for line in entry.told:
                self.teller.say(MORE + shown(line))
        if reason:
            self.teller.say(f'{shown(self.name)}: not kept in {shown(self.cache.folder)}: {reason}')
        self.take(entry)


class Speller:
    """All dictionaries of a run. A word that the first one marks stays marked if none of the others has it."""

    def __init__(self, dictionaries, lists):
        self.first, self.others = dictionaries[0], dictionaries[1:]
        self.lists = lists
        # For each set of lists, whether words that the first dictionary marks are marked by all others.
        self.known = {}

    def check(self, text, paths):
        """How many words a text has, and its marks as owners with START and END, by these lists of own words."""
        data = text.bytes()
        answer = self.answer(self.first, data, paths)
        marks = list(text.places(answer, data))
        if self.others and marks:
            marks = self.by_others(marks, paths)
        return answer.words(), marks

    def answer(self, dictionary, data, paths):
        """The answer to a text by a dictionary and lists of own words."""
        answer = dictionary.check(data, self.lists.file(paths))
        if answer.status in (0, 1):
            return answer
        if answer.said.startswith('own '):
            raise self.lists.fault(paths, answer.said)
        raise Fault(answer.status, f'the program ended with {answer.said}')

    def by_others(self, marks, paths):
        """The marks of words that no other dictionary has."""
        known = self.known.setdefault(paths, {})
        words = [owner.data[start:end] for owner, start, end in marks]
        new = [word for word in dict.fromkeys(words) if word not in known]
        wrong = new
        for dictionary in self.others:
            wrong = self.wrong_words(dictionary, wrong, paths)
        known.update(dict.fromkeys(new, False))
        known.update(dict.fromkeys(wrong, True))
        return [mark for mark, word in zip(marks, words) if known[word]]

    def wrong_words(self, dictionary, words, paths):
        """Those of some words in which a dictionary marks anything."""
        starts, place = [], 0
        for word in words:
            starts.append(place)
            place += len(word) + 1
        found = set()
        for offset, part in parts_of(cut_text(b'\n'.join(words))[0]):
            text = Text()
            text.add(None, offset, part)
            data = text.bytes()
            for _, start, _ in text.places(self.answer(dictionary, data, paths), data):
                found.add(bisect.bisect_right(starts, start) - 1)
        return [words[place] for place in sorted(found)]
