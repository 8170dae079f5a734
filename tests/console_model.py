"""A model of the console, written from docs/CONSOLE.md: which command a line is, and what it is answered."""

import re
from typing import NamedTuple

MOST_PARAGRAPHS = 20_000
MOST_BYTES = 65_536
MOST_ITEMS = 10_000
MARK = b'\xef\xbb\xbf'
NO_COMMAND = b'no Command'
DIGITS = re.compile(rb'[0-9]{1,9}')
# The slash before a model.
SLASH = re.compile(rb'(?<!\\)/')

# What a paragraph is: checked, not to be checked, or to be checked. With workers the last may have been checked meanwhile.
CHECKED, STOPPED, WAITING = 'checked', 'stopped', 'waiting'


class Wrong(Exception):
    """The program did otherwise than it has to."""


class Command(NamedTuple):
    """A command with its numbers, and with its text or its names of files."""
    name: bytes
    numbers: tuple = ()
    texts: tuple = ()


def lines_of(data):
    """The lines of an input, without what ends them and without a byte order mark at the start."""
    lines = data.removeprefix(MARK).split(b'\n')
    if not lines[-1]:
        lines.pop()
    return [line.removesuffix(b'\r') for line in lines]


def is_blank(line):
    return not line.strip(b' \t')


def is_utf8(line):
    try:
        line.decode('utf-8')
    except UnicodeDecodeError:
        return False
    return True


# How many numbers, and whether a text, stand behind a name.
FORMS = {b'ins': (1, True), b'put': (1, True), b'sub': (3, True), b'own': (0, True), b'del': (1, False), b'stop': (1, False),
         b'ask': (1, False), b'show': (0, False), b'settle': (0, False), b'quit': (0, False)}


def read_command(line):
    """The command that a line is, or None. The line is not blank."""
    name, *words = line.split(b' ')
    if not is_utf8(line):
        return None
    if name == b'load':
        return Command(name, texts=tuple(words)) if len(words) == 2 and all(words) else None
    if name not in FORMS:
        return None
    count, has_text = FORMS[name]
    numbers, rest = words[:count], words[count:]
    if len(numbers) < count or not all(DIGITS.fullmatch(number) for number in numbers) or (rest and not has_text):
        return None
    return Command(name, tuple(map(int, numbers)), (b' '.join(rest),) if has_text else ())


def is_empty_item(text):
    """Whether a line of a personal list lacks its word, or the model behind its slash. The line is not blank, and nothing is ignored."""
    said = text.strip(b' ')
    prohibits = said.startswith(b'*')
    said = said.removeprefix(b'*')
    slash = SLASH.search(said.removeprefix(b'/'))
    return not said or (slash is not None and not prohibits and slash.end() == len(said.removeprefix(b'/')))


def is_edge(text, place):
    """Whether no character has a byte before this place and another behind it."""
    return place == len(text) or text[place] & 0xC0 != 0x80


class Paragraph:
    __slots__ = ('text', 'state')

    def __init__(self, text):
        self.text = text
        self.state = WAITING


class Dictionary(NamedTuple):
    """The names of two files, and the lines of a personal list as a file has them."""
    aff: bytes
    dic: bytes
    own: bytes = b''

    def with_item(self, text):
        return self._replace(own=self.own + text + b'\r\n')


class Model:
    """What the console has come to. `faults` is asked for the reply to a pair of names that cannot be loaded."""

    def __init__(self, dictionary, items, faults, has_workers):
        self.dictionary, self.items, self.faults, self.has_workers = dictionary, items, faults, has_workers
        self.paragraphs = []
        self.text_version = self.dict_version = 0
        self.has_ended = False

    def take(self, line):
        """Takes a line, and gives the replies that it may have: none, or each with what it tells of the model. None stands for the
        reply to `show`."""
        if is_blank(line):
            return {}
        command = read_command(line)
        if command is None:
            return {NO_COMMAND: None}
        if command.name == b'quit':
            self.has_ended = True
            return {}
        if command.name == b'show':
            return None
        return getattr(self, 'take_' + command.name.decode())(*command.numbers, *command.texts)

    def done(self):
        return {b'ok %d' % self.text_version: None}

    def no_place(self):
        return {b'no Place %d' % len(self.paragraphs): None}

    def has(self, place):
        return 1 <= place <= len(self.paragraphs)

    def take_ins(self, place, text):
        if not 1 <= place <= len(self.paragraphs) + 1:
            return self.no_place()
        if len(text) > MOST_BYTES:
            return {b'no TooLong %d' % len(text): None}
        if len(self.paragraphs) == MOST_PARAGRAPHS:
            return {b'no Full %d' % MOST_PARAGRAPHS: None}
        self.paragraphs.insert(place - 1, Paragraph(text))
        self.text_version += 1
        return self.done()

    def take_put(self, place, text):
        return self.take_sub(place, 0, len(self.paragraphs[place - 1].text) if self.has(place) else 0, text)

    def take_sub(self, place, start, end, text):
        if not self.has(place):
            return self.no_place()
        old = self.paragraphs[place - 1].text
        if not (start <= end <= len(old) and is_edge(old, start) and is_edge(old, end)):
            return {b'no BadSpan %d' % len(old): None}
        new = old[:start] + text + old[end:]
        if len(new) > MOST_BYTES:
            return {b'no TooLong %d' % len(new): None}
        self.paragraphs[place - 1] = Paragraph(new)
        self.text_version += 1
        return self.done()

    def take_del(self, place):
        if not self.has(place):
            return self.no_place()
        del self.paragraphs[place - 1]
        self.text_version += 1
        return self.done()

    def take_stop(self, place):
        if not self.has(place):
            return self.no_place()
        paragraph = self.paragraphs[place - 1]
        stopped, is_checked = {b'ok %d' % self.text_version: (paragraph, STOPPED)}, {b'no Finished': (paragraph, CHECKED)}
        if paragraph.state == STOPPED:
            return {b'no Parked': None}
        if paragraph.state == CHECKED:
            return is_checked
        return stopped | is_checked if self.has_workers else stopped

    def take_ask(self, place):
        if not self.has(place):
            return self.no_place()
        paragraph = self.paragraphs[place - 1]
        if paragraph.state != STOPPED:
            return {b'no NotParked': None}
        paragraph.state = WAITING
        return self.done()

    def take_settle(self):
        for paragraph in self.paragraphs:
            if paragraph.state != STOPPED:
                paragraph.state = CHECKED
        return self.done()

    def take_load(self, aff, dic):
        fault = self.faults(aff, dic)
        if fault is not None:
            return {fault: None}
        return self.use(self.dictionary._replace(aff=aff, dic=dic))

    def take_own(self, text):
        if is_blank(text):
            return self.done()
        if is_empty_item(text):
            return {b'no own EmptyWord': None}
        if self.items == MOST_ITEMS:
            return {b'no own TooMany': None}
        self.items += 1
        return self.use(self.dictionary.with_item(text))

    def use(self, dictionary):
        """All paragraphs that are not stopped wait for this dictionary."""
        self.dictionary = dictionary
        self.dict_version += 1
        for paragraph in self.paragraphs:
            if paragraph.state != STOPPED:
                paragraph.state = WAITING
        return {b'dict %d' % self.dict_version: None}

    def compare_show(self, output, marks_of):
        """Compares the lines of a `show`. A paragraph that may have been checked is checked where its marks stand there."""
        output.expect(b'text %d dict %d' % (self.text_version, self.dict_version))
        for place, paragraph in enumerate(self.paragraphs, 1):
            unchecked = b'%d ?' % place
            is_open = paragraph.state == WAITING and self.has_workers
            if paragraph.state == STOPPED or (paragraph.state == WAITING and not is_open) or (is_open and output.is_next(unchecked)):
                output.expect(unchecked)
                output.seen[f'`P ?`, {"might be checked" if is_open else paragraph.state}'] += 1
                continue
            for mark in marks_of(self.dictionary, paragraph.text):
                output.expect(b'%d %s' % (place, mark))
            output.seen['checked, seen first' if is_open else 'checked, as before'] += 1
            paragraph.state = CHECKED
        output.expect(b'.')


def compare(model, lines, output, marks_of):
    """Compares all lines of an output with those of its input."""
    for number, line in enumerate(lines, 1):
        if model.has_ended:
            break
        output.line = (number, line)
        replies = model.take(line)
        if replies is None:
            model.compare_show(output, marks_of)
        elif replies:
            told = replies[output.expect(*replies)]
            if told is not None:
                paragraph, state = told
                paragraph.state = state
    output.line = (len(lines) + 1, b'the end')
    output.expect_end()
