"""A random dictionary by its pieces, so that it can be written in any type of flags, and made smaller piece by piece."""

import random
from typing import NamedTuple

# What flags are written as, by the type of flags. Those of `long` share characters, and those of `num` digits.
NAMES = {
    '': 'ABéßCDEFGHIJKLMNOPQRSTUVWXYZ',
    'UTF-8': 'ÀΩЖABCDEFGHIJKLMNOPQRSTUVWXYZß',
    'long': [one + two for two in 'aAb' for one in 'aAbB(*?12'],
    'num': [1, 2, 12, 21, 112, 211, 3, 65_000, 64_999, 7, *range(30, 50)],
}


class Rule(NamedTuple):
    strip: str
    add: str
    flags: frozenset
    condition: str
    rest: str


class Class(NamedTuple):
    is_prefix: bool
    flag: int
    crosses: bool
    rules: tuple


class Entry(NamedTuple):
    word: str
    flags: frozenset
    rest: str


class Made(NamedTuple):
    """Flags are numbers here. An option has a name and, behind it, a text or a flag. Rows of tables are texts, with two exceptions.
    Those of COMPOUNDRULE are lists of flags with signs. Those of CHECKCOMPOUNDPATTERN are two texts with flags, and a replacement."""
    kind: str
    has_aliases: bool
    options: tuple
    tables: tuple
    classes: tuple
    entries: tuple
    own: tuple
    mixing: int

    def names(self):
        """The options and tables that it has."""
        return {name for name, _ in self.options} | {name for name, _ in self.tables}

    def flag(self, flag):
        """A flag as it is written."""
        return str(NAMES[self.kind][flag])

    def without(self, name):
        """The same without an option, a table, the classes of a side or the personal list."""
        if name == '--own':
            return self._replace(own=None)
        if name in ('PFX', 'SFX'):
            return self._replace(classes=tuple(one for one in self.classes if one.is_prefix != (name == 'PFX')))
        return self._replace(options=tuple(one for one in self.options if one[0] != name), tables=tuple(one for one in self.tables if one[0] != name))

    # ---- The files

    def field(self, flags, aliases):
        """A flag field; with aliases the number of its set."""
        if not flags:
            return ''
        if self.has_aliases:
            if flags not in aliases:
                aliases.append(flags)
            return str(aliases.index(flags) + 1)
        return (',' if self.kind == 'num' else '').join(self.flag(flag) for flag in sorted(flags))

    def slashed(self, text, flags, aliases):
        """A text with its flags behind a slash, if it has any."""
        return text + ('/' + self.field(flags, aliases) if flags else '')

    def row_of(self, name, row):
        """A row of a table as it is written, behind the table's name."""
        if name == 'COMPOUNDRULE':
            bare = self.kind in ('', 'UTF-8')
            return ''.join((self.flag(flag) if bare and not in_brackets else f'({self.flag(flag)})') + sign for flag, sign, in_brackets in row)
        if name == 'CHECKCOMPOUNDPATTERN':
            texts = [text + ('' if flag is None else '/' + self.flag(flag)) for text, flag in row[:2]]
            return ' '.join(texts + ([row[2]] if row[2] else []))
        return row

    def files(self):
        """The bytes of the .aff file, of the .dic file, and of the personal list, which is None where there is none."""
        aliases = []
        # The first line is a count that nobody counts by.
        dic = [(str(len(self.entries)), '0', ' 7', '9 about')[self.mixing % 4 if self.mixing % 5 == 0 else 0]]
        for entry in self.entries:
            word = entry.word[:1] + entry.word[1:].replace('/', '\\/')
            dic.append(self.slashed(word, entry.flags, aliases) + entry.rest)
        blocks = [[' '.join([name, self.flag(value) if isinstance(value, int) else value]).strip()] for name, value in self.options]
        for name, rows in self.tables:
            blocks.append([f'{name} {len(rows)}', *(f'{name} {self.row_of(name, row)}' for row in rows)])
        for one in self.classes:
            name = 'PFX' if one.is_prefix else 'SFX'
            lines = [f'{name} {self.flag(one.flag)} {"Y" if one.crosses else "N"} {len(one.rules)}']
            for rule in one.rules:
                add = self.slashed(rule.add.replace('/', '\\/') or '0', rule.flags, aliases)
                fields = [name, self.flag(one.flag), rule.strip or '0', add, rule.condition, rule.rest]
                lines.append(' '.join(field for field in fields if field))
            blocks.append(lines)
        if self.kind:
            blocks.append([f'FLAG {self.kind}'])
        if self.has_aliases:
            sets = [(',' if self.kind == 'num' else '').join(self.flag(flag) for flag in sorted(flags)) for flags in aliases]
            blocks.append([f'AF {len(sets)}', *(f'AF {text}' for text in sets)])
        aff = mixed(blocks, self.mixing)
        if self.mixing % 5 == 0:
            aff = ['', *(line.replace(' ', ' \t ', 1) + ' ' for line in aff), ' ', '\t#']
            dic += ['', '\tpo:x', ' ']
        return tuple(None if lines is None else self.as_bytes(lines) for lines in (aff, dic, self.own))

    def as_bytes(self, lines):
        """The bytes of some lines, which may end with carriage returns, and begin with a byte order mark."""
        end = '\n' if self.mixing % 3 else '\r\n'
        return (('\ufeff' if self.mixing % 7 == 0 else '') + ''.join(line + end for line in lines)).encode()

    def shown(self):
        """The files as they are printed where a difference is told."""
        names = ('a.aff', 'a.dic', 'own')
        return ''.join(f'--- {name}\n{data.decode()}' for name, data in zip(names, self.files()) if data is not None).replace('\r', '')

    # ---- Smaller ones

    def smaller(self):
        """The same without one piece, in all ways."""
        for place in range(len(self.options)):
            yield self._replace(options=but(self.options, place))
        for place, (name, rows) in enumerate(self.tables):
            yield self._replace(tables=but(self.tables, place))
            for row in range(len(rows)):
                yield self._replace(tables=with_one(self.tables, place, (name, but(rows, row))))
        for place, one in enumerate(self.classes):
            yield self._replace(classes=but(self.classes, place))
            for row, rule in enumerate(one.rules):
                yield self._replace(classes=with_one(self.classes, place, one._replace(rules=but(one.rules, row))))
                fewer = [rule._replace(flags=rule.flags - {flag}) for flag in sorted(rule.flags)]
                for smaller in [rule._replace(rest=''), rule._replace(condition='.'), *fewer]:
                    yield self._replace(classes=with_one(self.classes, place, one._replace(rules=with_one(one.rules, row, smaller))))
        for place, entry in enumerate(self.entries):
            yield self._replace(entries=but(self.entries, place))
            for smaller in [entry._replace(rest=''), *(entry._replace(flags=entry.flags - {flag}) for flag in sorted(entry.flags))]:
                yield self._replace(entries=with_one(self.entries, place, smaller))
        if self.own is not None:
            yield self._replace(own=None)
            for place in range(len(self.own)):
                yield self._replace(own=but(self.own, place))
        yield self._replace(has_aliases=False)
        yield self._replace(kind='', mixing=1)


def but(items, place):
    """The items without one."""
    return items[:place] + items[place + 1:]


def with_one(items, place, item):
    """The items with another one at a place."""
    return items[:place] + (item,) + items[place + 1:]


def mixed(blocks, mixing):
    """The lines of some blocks, one block behind the other; or, by a number, in any order that keeps the lines of each block in theirs."""
    if mixing % 4 == 1:
        return [line for block in blocks for line in block]
    rolled, lines = random.Random(mixing), []
    blocks = [list(block) for block in blocks if block]
    while blocks:
        block = rolled.choice(blocks)
        for _ in range(len(block) if rolled.random() < 0.6 else 1):
            lines.append(block.pop(0))
        blocks = [one for one in blocks if one]
    return lines
