"""A dictionary, as its files say it: entries, affix rules, options and tables. Every name in capitals is an option of hunspell(5)."""

import re
from typing import NamedTuple

from lines import (Anchored, Wrong, anchored_of, condition_of, cut_at_slash, fields_of, flags_of_field, is_blank, lines_of, one_flag,
                   steps_of, without)

FLAGS = ('NEEDAFFIX', 'CIRCUMFIX', 'FORBIDDENWORD', 'KEEPCASE', 'WARN', 'ONLYINCOMPOUND', 'FORCEUCASE', 'COMPOUNDFLAG', 'COMPOUNDBEGIN',
         'COMPOUNDMIDDLE', 'COMPOUNDLAST', 'COMPOUNDPERMITFLAG', 'COMPOUNDFORBIDFLAG')
# Two names of one option.
OTHER_NAMES = {'PSEUDOROOT': 'NEEDAFFIX', 'COMPOUNDEND': 'COMPOUNDLAST'}
SWITCHES = ('FULLSTRIP', 'FORBIDWARN', 'CHECKSHARPS', 'COMPOUNDMORESUFFIXES', 'CHECKCOMPOUNDDUP', 'CHECKCOMPOUNDCASE', 'CHECKCOMPOUNDTRIPLE',
            'SIMPLIFIEDTRIPLE', 'CHECKCOMPOUNDREP')
NUMBERS = ('COMPOUNDMIN', 'COMPOUNDWORDMAX')
TEXTS = ('SET', 'FLAG', 'WORDCHARS', 'IGNORE')
TABLES = ('AF', 'ICONV', 'REP', 'BREAK', 'COMPOUNDRULE', 'CHECKCOMPOUNDPATTERN')
CLASSES = ('PFX', 'SFX')
LEFT_OUT = ('COMPLEXPREFIXES', 'COMPOUNDSYLLABLE', 'SYLLABLENUM')
# The flag of a personal list for the words that it prohibits, where the dictionary names none. No file gives it.
NO_FILE_FLAG = 'a flag of no file'
FIELD_OF_MORPHOLOGY = re.compile(' +[a-z][a-z]:')


class LeftOut(Exception):
    """The .aff file has an option that would change which words are accepted, and that is not built. It has the number of the line."""


class Entry(NamedTuple):
    """An entry of the .dic file, or of a personal list."""
    word: str
    flags: frozenset


class Rule(NamedTuple):
    """A rule of an affix class: a prefix or a suffix. What it carries are the flags behind the slash of what it adds."""
    is_prefix: bool
    flag: object
    crosses: bool
    strip: str
    add: str
    carries: frozenset
    condition: list


class Pattern(NamedTuple):
    """A row of CHECKCOMPOUNDPATTERN. Its first text is None where it is `0`. A flag is None where none is given, and so is the replacement."""
    end: str
    end_flag: object
    begin: str
    begin_flag: object
    replacement: str


class Rep(NamedTuple):
    """A row of REP."""
    wrong: Anchored
    right: str


class Dictionary:
    """What an .aff file and a .dic file say."""

    def __init__(self, aff, dic):
        self.rows, self.class_lines = {}, []
        for number, line in enumerate(lines_of(aff), 1):
            fields = fields_of(line)
            name = OTHER_NAMES.get(fields[0], fields[0]) if fields else ''
            if name in LEFT_OUT:
                raise LeftOut(number)
            # A line that begins with any other name is passed over: a comment, an option for suggestions, one that is unknown.
            if name in FLAGS + SWITCHES + NUMBERS + TEXTS + TABLES:
                self.rows.setdefault(name, []).append(fields[1:])
            if name in CLASSES:
                self.class_lines.append((name, fields[1:]))
        if self.text('SET', 'UTF-8').upper() != 'UTF-8':
            raise Wrong('SET')
        kind = self.text('FLAG', '').upper()
        self.kind = {'UTF-8': 'UTF-8', 'LONG': 'long', 'NUM': 'num', '': ''}[kind]
        self.aliases = None
        if 'AF' in self.rows:
            self.aliases = [flags_of_field(self.kind, None, row[0]) for row in self.table('AF')]
        self.ignored = self.text('IGNORE', '')
        self.wordchars = self.text('WORDCHARS', '')
        self.flags = {name: one_flag(self.kind, self.rows[name][0][0]) for name in FLAGS if name in self.rows}
        self.switches = {name for name in SWITCHES if name in self.rows}
        # A part of a compound has three characters or more where the file does not say, and always one or more.
        self.compound_min = max(int(self.text('COMPOUNDMIN', '3')), 1)
        most = self.text('COMPOUNDWORDMAX', None)
        self.most_parts = None if most is None else int(most)
        self.conversions = [(row[0], row[1]) for row in self.table('ICONV')]
        self.reps = [Rep(anchored_of(row[0])._replace(text=anchored_of(row[0]).text.replace('_', ' ')), row[1].replace('_', ' '))
                     for row in self.table('REP')]
        self.breaks = [anchored_of(row[0]) for row in self.table('BREAK')] if 'BREAK' in self.rows else list(map(anchored_of, ('-', '^-', '-$')))
        self.compound_rules = [steps_of(self.kind, row[0]) for row in self.table('COMPOUNDRULE')]
        self.patterns = [self.pattern_of(row) for row in self.table('CHECKCOMPOUNDPATTERN')]
        self.rules = self.rules_of()
        self.entries = self.entries_of(dic)

    # ---- The .aff file

    def text(self, name, otherwise):
        """The value of an option, which is its first field; or another one where the option is not there."""
        return self.rows[name][0][0] if name in self.rows else otherwise

    def table(self, name):
        """The rows of a table, behind its header with their number."""
        if name not in self.rows:
            return []
        header, *rows = self.rows[name]
        if len(rows) != int(header[0]):
            raise Wrong(f'table {name}')
        return rows

    def has(self, switch):
        """Whether a switch is set."""
        return switch in self.switches

    def is_in(self, name, flags):
        """Whether these flags hold that of an option. A flag that the file does not give is in none."""
        return name in self.flags and self.flags[name] in flags

    def pattern_of(self, row):
        """A row of CHECKCOMPOUNDPATTERN: `end[/flag] begin[/flag] [replacement]`. Nothing escapes the slash."""
        end, _, end_flag = row[0].partition('/')
        begin, _, begin_flag = row[1].partition('/')
        has_replacement = len(row) > 2 and not row[2].startswith('#')
        return Pattern(None if end == '0' else end, one_flag(self.kind, end_flag) if '/' in row[0] else None,
                       begin, one_flag(self.kind, begin_flag) if '/' in row[1] else None, row[2] if has_replacement else None)

    def rules_of(self):
        """The rules of all affix classes, in the order of the file. Of the lines of a class the first is its header."""
        rules, crosses = [], {}
        for name, fields in self.class_lines:
            flag = one_flag(self.kind, fields[0])
            if (name, flag) not in crosses:
                crosses[name, flag] = fields[1] == 'Y'
                continue
            add, carried = cut_at_slash(fields[2])
            rules.append(Rule(
                is_prefix=name == 'PFX', flag=flag, crosses=crosses[name, flag],
                strip='' if fields[1] == '0' else without(fields[1], self.ignored),
                add='' if add == '0' else without(add, self.ignored),
                carries=flags_of_field(self.kind, self.aliases, carried or ''),
                condition=condition_of(fields[3] if len(fields) > 3 else '.')))
        return rules

    # ---- The .dic file and the personal list

    def word_and_flags(self, text):
        """What stands before and behind the first slash that is not the first character and that no backslash precedes. The characters
        to ignore are left out of the word."""
        word, behind = cut_at_slash(text, 1)
        return without(word, self.ignored), behind

    def entries_of(self, dic):
        """The entries of a .dic file. Its first line is a count. An entry goes to a tab, or to a field of morphology."""
        entries = []
        for line in lines_of(dic)[1:]:
            if is_blank(line) or line.startswith('\t'):
                continue
            text = line.split('\t')[0]
            morphology = FIELD_OF_MORPHOLOGY.search(text)
            text = (text[:morphology.start()] if morphology else text).strip(' ')
            word, flags = self.word_and_flags(text)
            if word == '':
                raise Wrong(f'entry {line!r}')
            entries.append(Entry(word, flags_of_field(self.kind, self.aliases, flags or '')))
        return entries

    def extend(self, own):
        """Adds the words of a personal list, as entries behind the others. A star at the front of a line prohibits the word. A model behind
        a slash gives the word the flags of the first entry of the .dic file that has the model as its word."""
        base = list(self.entries)
        self.flags.setdefault('FORBIDDENWORD', NO_FILE_FLAG)
        for line in lines_of(own):
            if is_blank(line):
                continue
            text = line.strip(' ')
            prohibits = text.startswith('*')
            word, model = self.word_and_flags(text[1:] if prohibits else text)
            flags = frozenset()
            if prohibits:
                flags = frozenset([self.flags['FORBIDDENWORD']])
            elif model is not None:
                model = without(model, self.ignored)
                flags = next((entry.flags for entry in base if entry.word == model), frozenset())
            if word == '' or model == '' and not prohibits:
                raise Wrong(f'item {line!r}')
            self.entries.append(Entry(word, flags))
