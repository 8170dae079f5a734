"""Prints marks: a line for each, as lines of JSON, as annotations of GitHub, as words alone, or as counts."""

import json
import os

from .faults import shown


class Mark:
    """A mark with its place. Lines and columns count from 1; START and END are bytes of the line from 0."""

    __slots__ = ('line', 'column', 'end_column', 'first', 'start', 'end', 'word')

    def __init__(self, line, column, first, start, end, word):
        self.line, self.column, self.end_column = line, column, column + len(word)
        # Where the line begins in the file.
        self.first = first
        self.start, self.end, self.word = start - first, end - first, word


def marks_of(file):
    """The marks of a file with their places."""
    data = file.data
    line, first, seen, column = 1, 0, 0, 1
    for start, end in file.marks:
        feeds = data.count(b'\n', seen, start)
        if feeds:
            line += feeds
            first = seen = data.rfind(b'\n', seen, start) + 1
            column = 1
        column += len(data[seen:start].decode())
        yield Mark(line, column, first, start, end, data[start:end].decode())
        seen = start


class Printer:
    """Prints each mark as FILE:LINE:COLUMN: WORD."""

    def __init__(self, stream):
        self.stream = stream
        self.marks = 0

    def file(self, file):
        """Prints the marks of a file."""
        self.marks += len(file.marks)
        if file.marks:
            self.put(''.join(self.lines(file)))

    def lines(self, file):
        """The lines of the marks of a file."""
        name = shown(file.path, False)
        return [f'{name}:{mark.line}:{mark.column}: {shown(mark.word)}\n' for mark in marks_of(file)]

    def put(self, text):
        self.stream.write(os.fsencode(text) if not text.isascii() else text.encode())
        self.stream.flush()

    def end(self, words):
        """Prints what comes after all marks."""


class JsonPrinter(Printer):
    """Prints a line of JSON for each mark."""

    def lines(self, file):
        for mark in marks_of(file):
            found = {'file': file.path, 'line': mark.line, 'column': mark.column, 'end_column': mark.end_column,
                     'start': mark.start, 'end': mark.end, 'word': mark.word}
            yield json.dumps(found) + '\n'


class GithubPrinter(Printer):
    """Prints a command of GitHub's workflows for each mark, which shows it beside the line."""

    def lines(self, file):
        name = value(shown(os.path.normpath(file.path), False))
        for mark in marks_of(file):
            yield (f'::warning file={name},line={mark.line},col={mark.column},endColumn={mark.end_column},title=Spelling'
                   f'::{shown(mark.word)} is not in the dictionary\n')


def value(text):
    """A text as the value of a property of such a command."""
    for sign, written in (('%', '%25'), ('\r', '%0D'), ('\n', '%0A'), (':', '%3A'), (',', '%2C')):
        text = text.replace(sign, written)
    return text


class WordPrinter(Printer):
    """Prints the marked words alone."""

    def lines(self, file):
        return [shown(file.data[start:end].decode()) + '\n' for start, end in file.marks]


class CountPrinter(Printer):
    """Prints how many marks a file has, and in the end the marks and words of all."""

    def lines(self, file):
        return [f'{shown(file.path, False)}: {len(file.marks)}\n']

    def end(self, words):
        self.put(f'{self.marks} of {words}\n')
