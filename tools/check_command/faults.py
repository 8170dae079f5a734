"""Errors, their exit statuses, and how names of files are printed."""

import contextlib
import os
import re

MARKED = 1
WORDS = 2
DICTIONARY = 3
NOT_UTF8 = 4
FILES = 5
OUTPUT = 6
MEMORY = 7
LIMIT = 8
NO_PROGRAM = 125

CONTROLS = re.compile('[\x00-\x1f\x7f-\x9f]')
# Bytes of names that are not UTF-8, as Python keeps them.
STRAY = re.compile('[\udc80-\udcff]')


class Fault(Exception):
    """Ends a run with a status. Each line is said on standard error."""

    def __init__(self, status, *lines):
        super().__init__(status, *lines)
        self.status, self.lines = status, lines


def shown(text, is_terminal=True):
    """A name or a word on one line: control characters are escaped, and at a terminal bytes that are not UTF-8 too."""
    text = CONTROLS.sub(lambda found: f'\\x{ord(found[0]):02x}', text)
    return STRAY.sub(lambda found: f'\\x{ord(found[0]) - 0xdc00:02x}', text) if is_terminal else text


def cause_of(error):
    """The words of an error of the system."""
    return error.strerror or str(error)


class Teller:
    """Says on standard error what is wrong, and keeps the highest status of it."""

    def __init__(self, stream, progress):
        self.stream, self.progress = stream, progress
        self.status = 0

    def say(self, text):
        """Prints a line with the name of the command."""
        if self.stream is None:
            return
        # If standard error is closed or full, the status still says it.
        with self.progress.paused(), contextlib.suppress(OSError, ValueError):
            self.stream.write(os.fsencode(f'affedit-check: {text}\n'))
            self.stream.flush()

    def fault(self, status, text):
        """Prints an error, and keeps its status."""
        self.status = max(self.status, status)
        self.say(text)
