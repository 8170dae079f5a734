"""What is shown at a terminal: marks in colour with their line, and how far a long run is."""

import os
import re
import shutil
import unicodedata

from .faults import CONTROLS, shown
from .printing import Printer, marks_of
from .progress import Progress

BOLD, RED, PLAIN = '\x1b[1m', '\x1b[1;31m', '\x1b[0m'
SLOW = 2.0
# Signs that turn the direction of a line, and what else has no width, would hide what is marked.
HIDDEN = re.compile('[\u200b-\u200f\u2028-\u202e\u2060-\u206f\ufeff]')


def has_colour(stream):
    """Whether a stream is a terminal that shows colours, and wants them."""
    return stream.isatty() and not os.environ.get('NO_COLOR') and os.environ.get('TERM', '') not in ('', 'dumb')


def width_of(text):
    """How many columns of a terminal a text takes."""
    if text.isascii():
        return len(text)
    return sum(0 if unicodedata.combining(char) else 2 if unicodedata.east_asian_width(char) in 'WF' else 1 for char in text)


def plain(text):
    """A text that a terminal shows as it is: a space for a tab, and a sign for each control character."""
    return HIDDEN.sub('\ufffd', CONTROLS.sub('\ufffd', text.replace('\t', ' ')))


class TerminalPrinter(Printer):
    """Prints each mark with its line, and a row of `~` below it."""

    def __init__(self, stream):
        super().__init__(stream)
        self.signs = (BOLD, RED, PLAIN) if has_colour(stream) else ('', '', '')
        self.columns = max(20, shutil.get_terminal_size().columns)

    def lines(self, file):
        bold, red, end = self.signs
        name = shown(file.path)
        for mark in marks_of(file):
            yield f'{bold}{name}:{mark.line}:{mark.column}:{end} {red}{shown(mark.word)}{end}\n'
            before, word, after = self.window(file.data, mark)
            yield f'    {before}{red}{word}{end}{after}\n'
            yield f'    {" " * width_of(before)}{red}{"~" * max(1, width_of(word))}{end}\n'

    def window(self, data, mark):
        """What of the line stands before the word, the word, and what stands after it: as much as has room."""
        room = self.columns - 5
        start, end = mark.first + mark.start, mark.first + mark.end
        last = data.find(b'\n', end, end + 4 * room)
        after = data[end:last if last >= 0 else end + 4 * room].decode(errors='ignore').rstrip('\r')
        before = data[max(mark.first, start - 4 * room):start].decode(errors='ignore')
        before, word, after = plain(before), plain(data[start:end].decode()), plain(after)
        half = max(0, (room - width_of(word)) // 2)
        free = room - width_of(word) - min(half, width_of(after))
        before = front_cut(before, max(0, free))
        return before, word, back_cut(after, max(0, room - width_of(word) - width_of(before)))


def front_cut(text, room):
    """The end of a text that has room."""
    if width_of(text) <= room:
        return text
    text = text[-room:] if room else ''
    while width_of(text) > room:
        text = text[1:]
    return text


def back_cut(text, room):
    """The front of a text that has room."""
    text = text[:room]
    while width_of(text) > room:
        text = text[:-1]
    return text


class FileProgress(Progress):
    """Says after two seconds how many files are checked."""

    def __init__(self, stream):
        super().__init__(stream, SLOW)
        self.files, self.size = 0, 0

    def count(self, size):
        """Counts a file that is checked."""
        self.files += 1
        self.size += size

    def text(self):
        return f'{self.files:,} files checked, {self.size / 1e6:,.1f} MB'
