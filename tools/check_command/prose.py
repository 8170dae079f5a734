"""Finds what is no prose in a line: addresses, paths and e-mail addresses. Marks inside it are dropped."""

import bisect
import re

from .markdown import spans_of as markdown_spans

MARKDOWN = ('.md', '.markdown')
CHUNK = re.compile(rb'[^\s<>"]+')
PIECE = re.compile(rb'[^()\[\]{}|,;`]+')
SCHEME = b'abcdefghijklmnopqrstuvwxyzABCDEFGHIJKLMNOPQRSTUVWXYZ0123456789+.-'
# Signs around an address that are none of it.
BEFORE = b'\'"*_(['
AFTER = b'.,;:!?)]}\'"*_`'
# What a chunk holds that has an address, a path or an e-mail address.
SIGNS = (b'/', b'@', b'www.', b'\\')
ROOTED = re.compile(rb'(?:~[A-Za-z0-9_-]*|\.\.?|\$[A-Z_]+)?/|[A-Za-z]:[/\\]|\\\\')
EXTENSION = re.compile(rb'\.[A-Za-z][A-Za-z0-9]{0,9}(?::[0-9]+)*\Z')


class Filter:
    """Drops the marks of a file that stand in no prose."""

    def __init__(self, path, data):
        self.data = data
        self.line_end = -1
        self.starts, self.ends = [], []
        self.code = markdown_spans(data) if path.lower().endswith(MARKDOWN) else ([], [])

    def prose(self, marks):
        """The marks that stand in prose. They rise by their places."""
        return [(start, end) for start, end in marks if not self.is_dropped(start, end)]

    def is_dropped(self, start, end):
        if start >= self.line_end:
            self.read_line(start)
        return holds(self.starts, self.ends, start, end) or holds(self.code[0], self.code[1], start, end)

    def read_line(self, place):
        """Finds what is no prose in the line of a place."""
        first = self.data.rfind(b'\n', 0, place) + 1
        last = self.data.find(b'\n', place)
        self.line_end = len(self.data) if last < 0 else last
        spans = list(spans_of(self.data[first:self.line_end]))
        self.starts = [first + start for start, _ in spans]
        self.ends = [first + end for _, end in spans]


def holds(starts, ends, start, end):
    """Whether one of some spans, which rise and do not overlap, holds a mark."""
    place = bisect.bisect_right(starts, start) - 1
    return place >= 0 and end <= ends[place]


def spans_of(line):
    """START and END of what is no prose in a line."""
    if not any(sign in line for sign in SIGNS):
        return
    for found in CHUNK.finditer(line):
        chunk = found[0]
        if any(sign in chunk for sign in SIGNS):
            for start, end in spans_of_chunk(chunk):
                yield found.start() + start, found.start() + end


def spans_of_chunk(chunk):
    """START and END of what is no prose in a run without blanks."""
    place = 0
    colon = chunk.find(b'://')
    if colon > 0:
        start = len(chunk[:colon].rstrip(SCHEME))
        if start < colon:
            yield from spans_of_pieces(chunk[:start], 0)
            place = end_of_address(chunk, colon)
            yield start, place
    yield from spans_of_pieces(chunk[place:], place)


def end_of_address(chunk, place):
    """The end of an address: a bracket that closes more than the address opens is none of it, nor are signs at its end."""
    for opening, closing in ((b'(', b')'), (b'[', b']')):
        depth = 0
        for found in re.finditer(rb'[' + re.escape(opening + closing) + rb']', chunk[place:]):
            depth += 1 if found[0] == opening else -1
            if depth < 0:
                chunk = chunk[:place + found.start()]
                break
    return max(len(chunk.rstrip(AFTER.replace(b')', b''))), place + 3)


def spans_of_pieces(chunk, base):
    """START and END of the paths, names of hosts and e-mail addresses of a run, with a base added."""
    for found in PIECE.finditer(chunk):
        piece = found[0]
        # Of `--own=a/b` only the value may be a path.
        start = piece.rfind(b'=') + 1
        start = len(piece) - len(piece[start:].lstrip(BEFORE))
        end = len(piece.rstrip(AFTER))
        if start < end and is_no_prose(piece[start:end]):
            yield base + found.start() + start, base + found.start() + end


def is_no_prose(piece):
    """Whether a run is an e-mail address, the name of a host with www, or a path."""
    name, sign, host = piece.partition(b'@')
    if sign:
        return bool(name and host)
    if piece.startswith(b'www.'):
        return True
    if b'/' not in piece and b'\\' not in piece:
        return False
    rooted = ROOTED.match(piece)
    if rooted and rooted.end() < len(piece):
        return True
    return piece.endswith(b'/') and len(piece) > 1 or EXTENSION.search(piece[-24:]) is not None
