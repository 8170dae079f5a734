"""Puts files together into texts within the limits of the program, and gives places back to files.

No dictionary has a space, a tab or a line feed in a word. So each of them may become another one, and no mark changes. A text
therefore has each byte of its files at its own place, with spaces for line feeds. Line feeds stand only where paragraphs are cut.
"""

import bisect

LINE_MOST = 65_536
LINES_MOST = 20_000
# About how long paragraphs are, and how long texts: threads share paragraphs, and a text is read before any mark of it is printed.
PARAGRAPH = 4_096
TEXT_MOST = 1 << 24
BLANKS = bytes.maketrans(b'\t\n', b'  ')
MARK = b'\xef\xbb\xbf'


def without_ends(data):
    """The bytes of a file with blanks for its line ends and tabs. Each other byte keeps its place."""
    if b'\r' in data:
        data = data.replace(b'\r\n', b'  ')
        if data.endswith(b'\r'):
            data = data[:-1] + b' '
    return data.translate(BLANKS)


def next_cut(text, place, size):
    """The end of the paragraph that begins at a place, or -1 if a run without a blank is longer than a line may be."""
    if size - place <= PARAGRAPH:
        return size
    cut = text.rfind(b' ', place, place + PARAGRAPH)
    if cut < 0:
        cut = text.find(b' ', place + PARAGRAPH, place + LINE_MOST + 1)
    if cut < 0 and size - place <= LINE_MOST:
        return size
    return cut


def cut_text(data):
    """The text of a file, in paragraphs, and the places of runs that are too long: START and END of each."""
    text = bytearray(without_ends(data))
    size, place, holes = len(text), 0, []
    while place < size:
        cut = next_cut(text, place, size)
        if cut < 0:
            cut = text.find(b' ', place)
            cut = size if cut < 0 else cut
            text[place:cut] = b' ' * (cut - place)
            holes.append((place, cut))
            # A line of blanks has a limit too.
            for feed in range(place + PARAGRAPH, cut, PARAGRAPH):
                text[feed] = 10
        if cut < size:
            text[cut] = 10
        place = cut + 1
    return bytes(text), holes


def parts_of(text):
    """A text in parts of a limited size, which are cut between paragraphs: OFFSET and bytes of each."""
    place, size = 0, len(text)
    while size - place > TEXT_MOST:
        cut = text.rfind(b'\n', place, place + TEXT_MOST)
        yield place, text[place:cut]
        place = cut + 1
    yield place, text[place:] if place else text


class Text:
    """A text that is put together from parts of files."""

    def __init__(self):
        self.parts, self.owners, self.starts = [], [], []
        # The first line is empty: at the start of a text the program drops a byte order mark.
        self.size, self.lines = 1, 1

    def has_room(self, part):
        """Whether a part fits."""
        return not self.parts or (self.size + len(part) < TEXT_MOST and self.lines + part.count(b'\n') < LINES_MOST)

    def add(self, owner, offset, part):
        """Puts a part of a file in, which begins at an offset of it."""
        self.starts.append(self.size)
        self.owners.append((owner, offset - self.size))
        self.parts.append(part)
        self.size += len(part) + 1
        self.lines += part.count(b'\n') + 1

    def bytes(self):
        """The text as the program reads it."""
        return b'\n' + b'\n'.join(self.parts)

    def places(self, answer, text):
        """The owner, START and END of each mark, with bytes of its file."""
        paragraphs = paragraphs_of(text)
        for number, start, end in answer.marks():
            base = paragraphs[number - 1]
            owner, shift = self.owners[bisect.bisect_right(self.starts, base + start) - 1]
            yield owner, base + start + shift, base + end + shift


def paragraphs_of(text):
    """The places where paragraphs of a text begin."""
    found, place = [0], text.find(b'\n')
    while place >= 0:
        found.append(place + 1)
        place = text.find(b'\n', place + 1)
    return found
