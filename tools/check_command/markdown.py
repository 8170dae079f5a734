"""Finds code blocks, code spans and the targets of links in Markdown."""

import bisect
import re

BLANK = re.compile(rb'[ \t>]*\r?\Z')
FENCE = re.compile(rb'[ \t>]*(?:(?:[-*+]|[0-9]{1,9}[.)])[ \t]+)*(`{3,}(?=[^`]*\Z)|~{3,})')
ITEM = re.compile(rb'[ \t>]*(?:[-*+]|[0-9]{1,9}[.)])(?=[ \t]|\r?\Z)[ \t]*')
TICKS = re.compile(rb'`+')
HEADING = re.compile(rb'[ \t>]*#{1,6}(?:[ \t]|\r?\Z)')
TARGET = re.compile(rb'\]\([ \t\r\n]*(<[^<>\n]*>|[^\s()]*(?:\([^\s()]*\)[^\s()]*)*)')
DEFINITION = re.compile(rb'^[ \t>]*\[[^\[\]\n]+\]:[ \t]*(\S+)', re.MULTILINE)


def width_of(line):
    """How far a line is indented. A tab goes on to the next column of four."""
    width = 0
    for byte in line:
        if byte == 32:
            width += 1
        elif byte == 9:
            width += 4 - width % 4
        else:
            break
    return width


class Blocks:
    """Parts the lines of a text into code and paragraphs."""

    def __init__(self):
        self.code, self.paragraphs = [], []
        self.fence = b''
        # Where the text of the last item of a list begins, and whether the line before was blank.
        self.indent, self.after_blank = 0, True
        self.paragraph = None

    def read(self, data):
        """Reads all lines."""
        place = 0
        for line in data.split(b'\n'):
            end = place + len(line)
            self.read_line(line, place, end)
            place = end + 1
        self.close()

    def close(self):
        if self.paragraph:
            self.paragraphs.append(tuple(self.paragraph))
        self.paragraph = None

    def read_line(self, line, start, end):
        if self.fence:
            self.code.append((start, end))
            if is_end_of_fence(line, self.fence):
                self.fence = b''
                self.after_blank = True
        elif BLANK.match(line):
            self.close()
            self.after_blank = True
        else:
            self.read_text(line, start, end)

    def read_text(self, line, start, end):
        """Reads a line that is not blank and outside a fence."""
        fence = FENCE.match(line)
        width = width_of(line)
        if fence:
            self.close()
            self.fence = fence[1]
            self.code.append((start, end))
        elif self.after_blank and width >= self.indent + 4:
            # The next line may be code too: it counts as one after a blank line.
            self.code.append((start, end))
            return
        else:
            self.note_item(line, width)
            if self.paragraph:
                self.paragraph[1] = end
            else:
                self.paragraph = [start, end]
        # Code may follow a heading at once.
        self.after_blank = HEADING.match(line) is not None
        if self.after_blank:
            self.close()

    def note_item(self, line, width):
        """Notes where the text of an item of a list begins, or that a list has ended."""
        item = ITEM.match(line)
        if item:
            self.indent = min(item.end(), width + 5)
        elif width < self.indent and self.after_blank:
            self.indent = 0


def is_end_of_fence(line, fence):
    """Whether a line closes a code block."""
    line = line.strip(b' \t\r>')
    return len(line) >= len(fence) and not line.strip(fence[:1])


def code_spans(text):
    """START and END of the code spans of a paragraph: two equal runs of backticks, and what stands between them."""
    runs = [(start_of_run(text, found.start()), found.end()) for found in TICKS.finditer(text)]
    places = {}
    for place, (start, end) in enumerate(runs):
        places.setdefault(end - start, []).append(place)
    place = 0
    while place < len(runs):
        start, end = runs[place]
        equal = places[end - start]
        later = bisect.bisect_right(equal, place)
        if start == end or later == len(equal):
            place += 1
            continue
        closing = equal[later]
        yield start, runs[closing][1]
        place = closing + 1


def start_of_run(text, start):
    """Where a run of backticks begins: one with a backslash before it is none of it."""
    before = text[max(0, start - 64):start]
    return start + (len(before) - len(before.rstrip(b'\\'))) % 2


def targets(text):
    """START and END of the targets of links in a paragraph."""
    for pattern in (TARGET, DEFINITION):
        for found in pattern.finditer(text):
            yield found.span(1)


def spans_of(data):
    """START and END of all code and of all targets of links, as two lists. They rise and do not overlap."""
    blocks = Blocks()
    blocks.read(data)
    spans = list(blocks.code)
    for start, end in blocks.paragraphs:
        text = data[start:end]
        if b'`' in text:
            found = list(code_spans(text))
            spans += [(start + first, start + last) for first, last in found]
            text = masked(text, found)
        if b']' in text:
            spans += [(start + first, start + last) for first, last in targets(text)]
    spans.sort()
    starts, ends = [], []
    for start, end in spans:
        if starts and start <= ends[-1]:
            ends[-1] = max(ends[-1], end)
        else:
            starts.append(start)
            ends.append(end)
    return starts, ends


def masked(text, spans):
    """A text with other signs for its code spans, in which no link begins."""
    text = bytearray(text)
    for start, end in spans:
        text[start:end] = b'x' * (end - start)
    return bytes(text)
