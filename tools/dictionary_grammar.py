"""What is known of the grammar of hunspell(5): the names of options, encodings, flags, lines and entries.

docs/DICTIONARIES.md tells the same to readers. tools/prepare-dictionary and tools/lint-dictionary share this module.
"""

import codecs
import functools
import itertools
import re

FILE_MOST = 16_777_216
FLAG_MOST = 65_000
ROWS_MOST = 65_000
RULES_MOST = 200_000

# Options with one flag, with a number and with a text.
FLAG_OPTIONS = frozenset(
    'NEEDAFFIX PSEUDOROOT CIRCUMFIX FORBIDDENWORD KEEPCASE WARN COMPOUNDFLAG COMPOUNDBEGIN COMPOUNDMIDDLE COMPOUNDLAST COMPOUNDEND'
    ' COMPOUNDPERMITFLAG COMPOUNDFORBIDFLAG ONLYINCOMPOUND FORCEUCASE'.split())
NUMBER_OPTIONS = frozenset(('COMPOUNDMIN', 'COMPOUNDWORDMAX'))
TEXT_OPTIONS = frozenset(('WORDCHARS', 'IGNORE'))
# Tables, with the fields that a row needs behind the name.
TABLES = {'AF': 1, 'ICONV': 2, 'REP': 2, 'BREAK': 1, 'COMPOUNDRULE': 1, 'CHECKCOMPOUNDPATTERN': 2}
CLASSES = frozenset(('PFX', 'SFX'))
SWITCHES = frozenset(
    'FULLSTRIP FORBIDWARN COMPOUNDMORESUFFIXES CHECKCOMPOUNDDUP CHECKCOMPOUNDCASE CHECKCOMPOUNDTRIPLE CHECKCOMPOUNDREP'
    ' CHECKSHARPS SIMPLIFIEDTRIPLE'.split())
# Two names of one option.
ONE_OPTION = {'PSEUDOROOT': 'NEEDAFFIX', 'COMPOUNDEND': 'COMPOUNDLAST'}
# Options that stop the program, with what leaving them out means for words.
LEFT_OUT = {
    'COMPLEXPREFIXES': 'words with two prefixes are marked, and some with two suffixes are accepted',
    'COMPOUNDSYLLABLE': 'compounds of more parts than COMPOUNDWORDMAX says are marked, however few syllables they have',
    'SYLLABLENUM': 'the syllables of inflected compounds are not counted',
}
PASSED_OVER = frozenset(
    'TRY KEY MAP PHONE NOSUGGEST MAXCPDSUGS MAXNGRAMSUGS MAXDIFF ONLYMAXDIFF NOSPLITSUGS SUGSWITHDOTS OCONV AM LEMMA_PRESENT'
    ' SUBSTANDARD LANG COMPOUNDROOT'.split())
FLAGS_PASSED_OVER = frozenset(('NOSUGGEST', 'SUBSTANDARD', 'LEMMA_PRESENT', 'COMPOUNDROOT', 'SYLLABLENUM'))
READ = (FLAG_OPTIONS | NUMBER_OPTIONS | TEXT_OPTIONS | frozenset(TABLES) | CLASSES | SWITCHES | frozenset(LEFT_OUT)
        | frozenset(('SET', 'FLAG')))

# Names of hunspell(5) that Python has not, with Python's; None where Python has no such encoding.
ENCODINGS = {'MICROSOFT-CP1251': 'cp1251', 'TIS620-2533': 'tis-620', 'ISCII-DEVANAGARI': None}
PRINTED = bytes(range(33, 127))

FIELD = re.compile(r'[^ \t]+')
DECIMAL = re.compile(r'[0-9]+')
# A field of morphology. No search begins in the midst of blanks.
MORPHOLOGY = re.compile(r'(?<! ) +[a-z][a-z]:')
# The slash before flags: not the first character, and no backslash before it.
SLASH = re.compile(r'(?<=[^\\])/', re.DOTALL)
AFFIX_SLASH = re.compile(r'(?<!\\)/')
PAIR = re.compile('..', re.DOTALL)


class Refused(Exception):
    """A reason for which nothing is written."""


class LatinBytes:
    """Decodes the bytes that an encoding has not as those of Latin-1, and counts them."""

    def __init__(self):
        self.count = 0

    def __call__(self, error):
        if not isinstance(error, UnicodeDecodeError):
            raise error
        self.count += error.end - error.start
        return error.object[error.start:error.end].decode('latin-1'), error.end


def codec_of(name):
    """Python's name for an encoding that a line SET names."""
    known = ENCODINGS.get(name.upper(), name)
    if known is None:
        raise Refused(f'the encoding {name} is not one that Python decodes; another tool has to convert both files')
    try:
        found = codecs.lookup(known)
        is_text = found._is_text_encoding and PRINTED.decode(found.name) == PRINTED.decode('ascii')
    except (LookupError, UnicodeError, ValueError):
        is_text = False
    if not is_text:
        raise Refused(f'the encoding {name} is none that is known')
    return found.name


def fields_of(line):
    """START and END of each field of a line. Fields are cut at spaces and tabs alone."""
    return [found.span() for found in FIELD.finditer(line)]


def is_decimal(text):
    return DECIMAL.fullmatch(text) is not None


def number_of(text):
    """The value of a decimal; above every limit, any large number stands for it."""
    digits = text.lstrip('0')
    return int(digits or '0') if len(digits) < 19 else 10 ** 18


def entry_of(line):
    """START, SLASH and END of the entry of a line; SLASH is END where no flags follow. None for a line without an entry."""
    end = line.find('\t')
    if end < 0:
        end = len(line)
    if not end:
        return None
    start = 0
    # Most lines have no blanks.
    if ' ' in line:
        if not line.strip(' \t'):
            return None
        stop = MORPHOLOGY.search(line, 0, end)
        end = len(line[:stop.start() if stop else end].rstrip(' '))
        start = min(len(line) - len(line.lstrip(' ')), end)
    slash = line.find('/', start + 1, end)
    if slash > 0 and '\\' in line:
        found = SLASH.search(line, start + 1, end)
        slash = found.start() if found else -1
    return start, slash if slash > 0 else end, end


def slash_of(text):
    """The place of the slash before the flags of an affix, or the text's length."""
    if '\\' not in text:
        place = text.find('/')
        return place if place >= 0 else len(text)
    found = AFFIX_SLASH.search(text)
    return found.start() if found else len(text)


def rule_flags(text, kind):
    """Reads a compound rule: a list of START, END of its flags and whether parentheses stand there. None if it is none of hunspell(5)."""
    flags, place, was_flag = [], 0, False
    last_close = text.rfind(')')
    while place < len(text):
        if text[place] in '*?':
            if not was_flag:
                return None
            place, was_flag = place + 1, False
            continue
        close = text.find(')', place) if text[place] == '(' and place < last_close else -1
        if close >= 0:
            flags.append((place + 1, close, True))
            place = close + 1
        elif kind in ('long', 'num'):
            return None
        else:
            flags.append((place, place + 1, False))
            place += 1
        was_flag = True
    sizes_fit = all(is_flag(text[start:end], kind) for start, end, _ in flags)
    return flags if flags and sizes_fit else None


def is_flag(text, kind):
    """Whether a text is one flag of a type; the number 0 and those that are too large count here."""
    if kind == 'num':
        return is_decimal(text)
    return len(text) == (2 if kind == 'long' else 1)


def is_value(text, name, kind):
    """Whether a text is a value of an option with a flag or a number, or of FLAG."""
    if name in FLAG_OPTIONS:
        return is_flag(text, kind)
    return is_decimal(text) if name in NUMBER_OPTIONS else text.upper() in ('UTF-8', 'LONG', 'NUM')


@functools.cache
def number_flag(item):
    """The flag of an item of a list of numbers, or None. Items recur often."""
    found = DECIMAL.match(item)
    return found and str(number_of(found.group()))


def flags_of(text, kind):
    """The flags of a flag field, as hunspell reads them: what stands behind the digits of a number is none of it."""
    if kind == 'num':
        return [flag for flag in map(number_flag, text.split(',')) if flag is not None]
    if kind == 'long':
        return [text[place:place + 2] for place in range(0, len(text) - 1, 2)]
    return list(text)


def pieces_of(fields, kind):
    """The different pieces of some flag fields. Each stands for one flag at most."""
    if kind == 'char':
        return set(''.join(fields))
    if kind == 'num':
        return set(','.join(fields).split(',')) if fields else set()
    return set(itertools.chain.from_iterable(map(PAIR.findall, fields)))


def join_flags(flags, kind):
    return (',' if kind == 'num' else '').join(flags)


def flag_kind(value):
    """The type of flags that a line FLAG names, before a comment; None if there is no such type."""
    return {'UTF-8': 'char', 'LONG': 'long', 'NUM': 'num'}.get(value.upper().split('#')[0])


def free_flags(used, kind):
    """Flags that stand in neither file, one by one."""
    plain = 'ABCDEFGHIJKLMNOPQRSTUVWXYZabcdefghijklmnopqrstuvwxyz'
    if kind == 'num':
        names = (str(number) for number in list(range(60000, FLAG_MOST + 1)) + list(range(1, 60000)))
    elif kind == 'long':
        names = (first + second for first in plain for second in plain)
    else:
        names = iter(plain + ''.join(map(chr, range(0x100, 0x800))))
    for name in names:
        if name not in used:
            yield name
