"""Lines, fields, slashes, flags, conditions and compound rules: the small texts of which the files of a dictionary are made."""

import re
from typing import NamedTuple

BYTE_ORDER_MARK = b'\xef\xbb\xbf'


class Wrong(Exception):
    """A text that this program does not read. The random dictionaries have none."""


def raw_lines_of(data):
    """The lines of a file, as bytes. A byte order mark at its start is dropped, and one carriage return at the end of each line."""
    pieces = data.removeprefix(BYTE_ORDER_MARK).split(b'\n')
    if pieces[-1] == b'':
        pieces.pop()
    return [piece.removesuffix(b'\r') for piece in pieces]


def lines_of(data):
    """The lines of a file that is UTF-8."""
    return [line.decode('utf-8') for line in raw_lines_of(data)]


def fields_of(line):
    """The longest runs of characters other than space and tab."""
    return re.findall(r'[^ \t]+', line)


def is_blank(line):
    """Whether a line has no field."""
    return fields_of(line) == []


def without(text, characters):
    """The text without these characters. IGNORE."""
    return ''.join(character for character in text if character not in characters)


# ---- Slashes

def cut_at_slash(text, from_character=0):
    """What stands before and behind the first slash that no backslash precedes, not looking at so many first characters. In the text
    before it each `\\/` is a slash. The second part is None where there is no such slash."""
    for place in range(from_character, len(text)):
        if text[place] == '/' and text[place - 1:place] != '\\':
            return text[:place].replace('\\/', '/'), text[place + 1:]
    return text.replace('\\/', '/'), None


# ---- Flags: FLAG and AF

def flags_listed(kind, text):
    """The flags that a text names in one of the four types: '' is the default, 'UTF-8', 'long' and 'num' are those of FLAG."""
    if text == '':
        return []
    if kind == 'long':
        if len(text) % 2:
            raise Wrong(f'flags {text!r}')
        return [text[place:place + 2] for place in range(0, len(text), 2)]
    if kind == 'num':
        numbers = [int(item) for item in text.split(',')]
        if any(not 1 <= number <= 65_000 for number in numbers):
            raise Wrong(f'flags {text!r}')
        return numbers
    return list(text)


def one_flag(kind, text):
    """The flag of a text that names exactly one."""
    flags = flags_listed(kind, text)
    if len(flags) != 1:
        raise Wrong(f'{text!r} is not one flag')
    return flags[0]


def flags_of_field(kind, aliases, text):
    """The set of flags that a flag field is. With aliases it is the number of one of them."""
    if text == '':
        return frozenset()
    if aliases is None:
        return frozenset(flags_listed(kind, text))
    return aliases[int(text) - 1]


# ---- Conditions of affix rules: PFX and SFX

class Piece(NamedTuple):
    """What a condition says of one character: it is one of these, or it is none of these."""
    characters: str
    is_one_of: bool

    def accepts(self, character):
        """Whether the character is one that the piece asks for."""
        return (character in self.characters) == self.is_one_of


ANY = Piece('', False)


def condition_of(text):
    """The pieces of a condition. `.` is any character, `[abc]` one of these, `[^abc]` none of these. The text `.` alone asks nothing."""
    if text == '.':
        return []
    pieces = []
    while text:
        if text[0] == '[':
            inside, text = text[1:].split(']', 1)
            pieces.append(Piece(inside[1:], False) if inside.startswith('^') else Piece(inside, True))
        else:
            pieces.append(ANY if text[0] == '.' else Piece(text[0], True))
            text = text[1:]
    return pieces


# ---- Compound rules: COMPOUNDRULE

class Step(NamedTuple):
    """A flag of a compound rule, and the sign behind it: '', '?' or '*'."""
    flag: object
    sign: str


def steps_of(kind, text):
    """The steps of a compound rule. A flag stands in parentheses or, where flags are single characters, as it is."""
    steps = []
    while text:
        if text[0] == '(':
            flag, text = text[1:].split(')', 1)
        elif kind in ('', 'UTF-8') and text[0] not in ')*?':
            flag, text = text[0], text[1:]
        else:
            raise Wrong(f'compound rule {text!r}')
        sign = text[0] if text[:1] in ('*', '?') and text else ''
        text = text[len(sign):]
        steps.append(Step(one_flag(kind, flag), sign))
    if not steps:
        raise Wrong('an empty compound rule')
    return steps


# ---- Texts that may be anchored: BREAK and REP

class Anchored(NamedTuple):
    """A text that may stand at the front of a word alone, or at its end alone."""
    text: str
    at_front: bool
    at_end: bool


def anchored_of(text):
    """A `^` at the front with more behind it is an anchor, and then a `$` at the end with more before it. Alone they are characters."""
    at_front = text.startswith('^') and len(text) > 1
    text = text[1:] if at_front else text
    at_end = text.endswith('$') and len(text) > 1
    return Anchored(text[:-1] if at_end else text, at_front, at_end)
