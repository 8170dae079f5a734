"""Checks files: puts them together into texts, and hands each file with its marks on, in the order in which they came."""

import collections

from . import faults
from .faults import shown
from .files import without_mark
from .prose import Filter
from .texts import LINE_MOST, Text, cut_text, parts_of

# How many bytes of files may wait for their marks.
HELD_MOST = 1 << 26


class Checked:
    """A file: its bytes without a byte order mark, its marks as START and END, and how many parts of it are not checked."""

    __slots__ = ('path', 'data', 'marks', 'left')

    def __init__(self, path, data):
        self.path, self.data = path, data
        self.marks, self.left = [], 0


class Checking:
    """The files of a run."""

    def __init__(self, speller, lists, teller, progress, takes_all):
        self.speller, self.lists, self.teller, self.progress = speller, lists, teller, progress
        self.takes_all = takes_all
        self.waiting, self.held = collections.deque(), 0
        self.texts = {}
        self.words = 0

    def run(self, files):
        """Each file in turn when it is checked, with the marks that stand in prose."""
        for path, folder, data in files:
            self.add(path, self.lists.of(folder), without_mark(data))
            if self.held > HELD_MOST:
                self.check_all()
            yield from self.ready()
        self.check_all()
        yield from self.ready()

    def add(self, path, lists, data):
        """Takes a file, and checks texts that are full."""
        file = Checked(path, data)
        self.waiting.append(file)
        self.held += len(data)
        text, holes = cut_text(data)
        for start, _ in holes:
            line = data.count(b'\n', 0, start) + 1
            cause = f'not checked: more than {LINE_MOST:,} bytes without a blank'
            self.teller.fault(faults.LIMIT, f'{shown(path)}:{line}: {cause}')
        for offset, part in parts_of(text):
            if not part or part.isspace():
                continue
            if lists in self.texts and not self.texts[lists].has_room(part):
                self.check(lists)
            self.texts.setdefault(lists, Text()).add(file, offset, part)
            file.left += 1

    def check(self, lists):
        """Checks the text that waits for these lists of own words."""
        text = self.texts.pop(lists)
        words, marks = self.speller.check(text, lists)
        self.words += words
        for file, start, end in marks:
            file.marks.append((start, end))
        for file, _ in text.owners:
            file.left -= 1

    def check_all(self):
        for lists in list(self.texts):
            self.check(lists)

    def ready(self):
        """The files at the front of those that wait, if they are checked."""
        while self.waiting and not self.waiting[0].left:
            file = self.waiting.popleft()
            self.held -= len(file.data)
            self.progress.count(len(file.data))
            if file.marks and not self.takes_all:
                file.marks = Filter(file.path, file.data).prose(file.marks)
            yield file
