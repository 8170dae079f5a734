"""The lines of both files of a dictionary: decoded, with the fields of options and of flags, and what is changed in them."""

import codecs
import itertools
import re

import dictionary_grammar as grammar

MARK = b'\xef\xbb\xbf'
SET_LINE = re.compile(rb'^[ \t]*SET[ \t]+([^ \t\r\n]+)', re.MULTILINE)
FLAG_LINE = re.compile(rb'^[ \t]*FLAG[ \t]', re.MULTILINE)
COUNT = re.compile(r'([0-9]+)(#.*)?')
# A line behind a line feed whose entry has flags, and its flags: nothing in it is a blank, a backslash or a carriage return.
PLAIN = re.compile(r'\n[^\n\t\r \\][^\n\t\r /\\]*/([^\n\t\r \\]*)(?=\r?\n|\t)')
# The first character of a line for which PLAIN may not hold, and the rest of the line.
ODD = re.compile(r'[ \\\r][^\n]*')


class Line:
    """A line of a file: its number in what was read, its text, and what stands before its line feed."""

    __slots__ = ('number', 'text', 'end')

    def __init__(self, number, text, end=''):
        self.number, self.text, self.end = number, text, end


class Changes:
    """What was changed, with the first line of each kind of change and how many lines it has."""

    def __init__(self):
        self.kinds = {}

    def add(self, file, line, message, key=None, count=1):
        kind = self.kinds.setdefault((file, key or message), [line, message, 0])
        kind[2] += count

    def told(self, names):
        """One line of text for each kind, in the order of files and lines."""
        found = sorted((file, kind[0], place) for place, ((file, _), kind) in enumerate(self.kinds.items()))
        kinds = list(self.kinds.values())
        for file, _, place in found:
            line, message, count = kinds[place]
            more = f' ({count} lines, of which this is the first)' if count > 1 else ''
            yield f'{names[file]}:{line}: {message}{more}'


def line_of(number, piece):
    """A line, whose carriage return is none of its text."""
    return Line(number, piece[:-1], '\r') if piece.endswith('\r') else Line(number, piece)


def split_lines(text, numbers=None):
    """The lines of a text; a last piece without characters is none. NUMBERS are those of the lines, else from 1 on."""
    pieces = text.split('\n')
    if not pieces[-1]:
        pieces.pop()
    return list(map(line_of if '\r' in text else Line, numbers or itertools.count(1), pieces))


def text_of(lines):
    """The text of a file with these lines."""
    return ''.join([f'{line.text}{line.end}\n' for line in lines])


def bytes_of(lines):
    """The bytes of a file with these lines."""
    return text_of(lines).encode()


class DicText:
    """A .dic file as one text. Lines that stay as they are, as most do, are never looked at one by one."""

    def __init__(self, text):
        first, feed, rest = text.partition('\n')
        self.first = line_of(1, first)
        # The lines behind the first one: a line feed stands before each, and behind the last.
        self.rest = '\n' + rest
        if not self.rest.endswith('\n'):
            self.rest += '\n'
        self.is_empty = not first and not feed
        # How many lines were put in at the start, and by number each line with another text, or None for one that was left out.
        self.put_in, self.changed = 0, {}

    def put_first(self, text):
        """Puts in a first line."""
        self.rest = f'\n{self.first.text}{self.first.end}{self.rest}'
        self.first = Line(1, text, self.first.end)
        self.put_in += 1

    def count(self):
        """How many lines there are."""
        return self.rest.count('\n')

    def text(self):
        return f'{self.first.text}{self.first.end}{self.rest}'

    def lines(self):
        """All lines, with the numbers that they had."""
        numbers = (number for number in itertools.count(2 - self.put_in) if self.changed.get(number, True))
        # The end of a text that was changed may be a carriage return.
        return [self.first, *(self.changed.get(line.number, line) for line in split_lines(self.rest[1:], numbers))]

    def odd(self):
        """Where each line starts that has a blank, a backslash or another carriage return than its last before any tab."""
        # Most files have none, and to look for one character is the quickest search.
        is_odd = any(char in self.rest for char in ' \\\r')
        for found in ODD.finditer(self.rest) if is_odd else ():
            start = self.rest.rfind('\n', 0, found.start()) + 1
            if found.group() != '\r' and self.rest.find('\t', start, found.start()) < 0:
                yield start

    def line_at(self, start, number=0):
        """The line that starts at a place."""
        return line_of(number, self.rest[start:self.rest.index('\n', start)])

    def fields(self):
        """The different texts of flags, without that of the first line."""
        found = set(PLAIN.findall(self.rest))
        for start in self.odd():
            text = self.line_at(start).text
            entry = grammar.entry_of(text)
            if entry and entry[1] < entry[2]:
                found.add(text[entry[1] + 1:entry[2]])
        return found

    def suspects(self, ignored, changed):
        """Where each line starts that may not stay: an odd one, one that starts with one of IGNORED, and one with flags of CHANGED."""
        starts = set(self.odd())
        if ignored:
            starts.update(found.start() + 1 for found in re.finditer(f'\n[{re.escape(ignored)}]', self.rest))
        if changed:
            starts.update(found.start() + 1 for found in PLAIN.finditer(self.rest) if found[1] in changed)
        return sorted(starts)

    def change(self, starts, stays):
        """Asks STAYS of each line that starts at one of STARTS, in their order, whether it stays. Its text may become another one."""
        pieces, place, counted, number = [], 0, 0, 1 - self.put_in
        for start in starts:
            number += self.rest.count('\n', counted, start)
            counted = start
            line = self.line_at(start, number)
            before, end = line.text, start + len(line.text)
            if not stays(line):
                self.changed[number] = None
                pieces.append(self.rest[place:start - 1])
                place = end + len(line.end)
            elif line.text != before:
                self.changed[number] = line
                pieces += [self.rest[place:start], line.text]
                place = end
        self.rest = ''.join(pieces) + self.rest[place:]


def roles_of(lines):
    """Each line of an option with the name that it is read by, its fields, and whether it is the first line of a table or a class."""
    seen = set()
    for line in lines:
        found = grammar.FIELD.search(line.text)
        name = found and found.group()
        if name not in grammar.READ:
            continue
        # This is quicker than to find all fields by a pattern.
        fields = list(filter(None, line.text.replace('\t', ' ').split(' ')))
        if len(fields) == 1:
            yield line, name, fields, False
            continue
        key = (name, fields[1] if name in grammar.CLASSES else None)
        first = key not in seen
        if first:
            seen.add(key)
            if name in grammar.TABLES:
                first = COUNT.fullmatch(fields[1]) is not None
        yield line, name, fields, first


def flag_parts(name, fields, first):
    """Each text with flags in a line: the place of its field, where it starts in it, and `one` flag, a `set`, a `rule`, or a `row` of AF."""
    if len(fields) < 2 or (first and name in grammar.TABLES):
        return []
    if name in grammar.CLASSES:
        if not first and len(fields) > 3 and '/' in fields[3]:
            slash = grammar.slash_of(fields[3])
            if slash < len(fields[3]):
                return [(1, 0, 'one'), (3, slash + 1, 'set')]
        return [(1, 0, 'one')]
    if name in grammar.FLAG_OPTIONS:
        return [(1, 0, 'one')]
    if name in ('AF', 'COMPOUNDRULE'):
        return [(1, 0, 'row' if name == 'AF' else 'rule')]
    if name == 'CHECKCOMPOUNDPATTERN':
        return [(place, field.index('/') + 1, 'one') for place, field in enumerate(fields[1:3], 1) if '/' in field]
    return []


def flag_texts(name, fields, first):
    """Each text with flags in a line."""
    return [fields[place][start:] for place, start, _ in flag_parts(name, fields, first)]


def flag_spans(text, name, fields, first):
    """START, END and sort of each text with flags in a line."""
    parts = flag_parts(name, fields, first)
    spans = grammar.fields_of(text) if parts else []
    return [(spans[place][0] + start, spans[place][1], sort) for place, start, sort in parts]


class Decoding:
    """Decodes both files from the encoding that the line SET names, or finds that they are UTF-8."""

    def __init__(self, aff, dic, changes):
        self.files = {'aff': aff.removeprefix(MARK), 'dic': dic.removeprefix(MARK)}
        self.changes = changes
        for file, data in (('aff', aff), ('dic', dic)):
            if data.startswith(MARK):
                changes.add(file, 1, 'a byte order mark left out')
        found = SET_LINE.search(self.files['aff'])
        self.name = found.group(1).decode('latin-1') if found else None
        if self.name is None:
            self.name = 'UTF-8' if all(self.is_whole(data, 'utf-8') for data in self.files.values()) else 'ISO8859-1'
        self.codec = grammar.codec_of(self.name)
        self.latin = grammar.LatinBytes()
        codecs.register_error('latin-bytes', self.latin)

    @staticmethod
    def is_whole(data, codec):
        try:
            data.decode(codec)
            return True
        except UnicodeDecodeError:
            return False

    def lines(self):
        """The lines of the .aff file, and the .dic file as one text, decoded."""
        if self.codec == 'utf-8' and not FLAG_LINE.search(self.files['aff']):
            if not all(self.is_whole(data, 'utf-8') for data in self.files.values()):
                aff = split_lines(self.files['aff'].decode('latin-1'))
                if self.has_byte_flags(aff):
                    return self.byte_flags_in_aff(aff), self.byte_flags_in_dic()
        return split_lines(self.text('aff')), DicText(self.text('dic'))

    def text(self, file):
        """The text of a file, decoded, of which some lines may not be of its encoding."""
        data = self.files[file]
        try:
            text = data.decode(self.codec)
            if self.codec != 'utf-8' and not data.isascii():
                self.changes.add(file, 1, f'converted from {self.name} to UTF-8')
            return text
        except UnicodeDecodeError:
            return self.mixed(file, data)

    def mixed(self, file, data):
        """The text of a file in which some lines are not of its encoding."""
        if self.codec != 'utf-8':
            self.changes.add(file, 1, f'converted from {self.name} to UTF-8')
        lines = split_lines(data.decode('latin-1'))
        for line in lines:
            line.text = self.decoded(file, line.number, line.text)
        return text_of(lines)

    def decoded(self, file, number, text):
        """A text of which each character is a byte so far, decoded; bytes that the encoding has not are those of Latin-1."""
        if text.isascii():
            return text
        before = self.latin.count
        text = text.encode('latin-1').decode(self.codec, 'latin-bytes')
        if self.latin.count > before:
            self.changes.add(file, number, f'bytes that are not {self.name} replaced: read as Latin-1')
        return text

    def has_byte_flags(self, aff):
        """Whether flags are single bytes: some flag field is not UTF-8. Characters of one byte each stand for them then."""
        for line, *role in roles_of(aff):
            if not line.text.isascii():
                if not all(self.is_whole(text.encode('latin-1'), 'utf-8') for text in flag_texts(*role)):
                    return True
        lines = split_lines(self.files['dic'].decode('latin-1'))
        entries = ((line.text, grammar.entry_of(line.text)) for line in lines[1:] if not line.text.isascii())
        return any(found and not self.is_whole(text[found[1]:found[2]].encode('latin-1'), 'utf-8') for text, found in entries)

    def byte_flags_in_aff(self, aff):
        """The lines of the .aff file, where flags are single bytes in a file that is UTF-8 elsewhere."""
        roles = {line.number: role for line, *role in roles_of(aff)}
        for line in aff:
            if not line.text.isascii():
                role = roles.get(line.number)
                if not self.is_decoded(line, role):
                    self.decode_around('aff', line, flag_spans(line.text, *role) if role else ())
        return aff

    @staticmethod
    def is_decoded(line, role):
        """Whether a line was decoded as a whole: it is UTF-8, and its flags are ASCII."""
        if role and not all(map(str.isascii, flag_texts(*role))):
            return False
        try:
            line.text = line.text.encode('latin-1').decode()
            return True
        except UnicodeDecodeError:
            return False

    def byte_flags_in_dic(self):
        """The text of the .dic file, where flags are single bytes in a file that is UTF-8 elsewhere. Its first line stays as it is."""
        data = self.files['dic']
        if self.is_whole(data, 'utf-8'):
            dic = DicText(data.decode())
            if all(map(str.isascii, dic.fields())):
                dic.first.text = dic.first.text.encode().decode('latin-1')
                return dic
        lines = split_lines(data.decode('latin-1'))
        for line in lines[1:]:
            if not line.text.isascii():
                found = grammar.entry_of(line.text)
                self.decode_around('dic', line, [(found[1], found[2])] if found else ())
        return DicText(text_of(lines))

    def decode_around(self, file, line, kept):
        """Decodes a line but for the texts from START to END, whose bytes are flags."""
        pieces, place = [], 0
        for start, end, *_ in kept:
            pieces += [self.decoded(file, line.number, line.text[place:start]), line.text[start:end]]
            if not line.text[start:end].isascii():
                self.changes.add(file, line.number, 'flags that are single bytes read as Latin-1')
            place = end
        line.text = ''.join(pieces) + self.decoded(file, line.number, line.text[place:])
