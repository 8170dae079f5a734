"""Mends a dictionary by the grammar of hunspell(5), so that the program reads it. Nothing is read or written here."""

import re

import dictionary_grammar as grammar
from dictionary_grammar import Refused
from dictionary_lines import COUNT, Changes, Decoding, Line, bytes_of, flag_parts, roles_of
from dictionary_shrinking import Shrinking

ADDRESS = re.compile(r'[a-z]://')
# The first line of a file that was prepared with a loss begins so.
LOSSY = '# prepared with --lossy: '
PASSED_OVER = tuple(grammar.FLAGS_PASSED_OVER)
RULE_EFFECT = 'compounds of that rule alone are marked'


class Flags:
    """The flags of both files: their type, those that are renamed, and fields of them mended."""

    def __init__(self, kind, changes):
        self.kind, self.changes = kind, changes
        # How many rows AF has, or None.
        self.aliases = None
        # The flags of both files, those of the .aff file alone, and new names of those that the type cannot have.
        self.used, self.known, self.renamed = set(), set(), {}
        # Pieces of flag fields that are numbers, those that stay as they are, and what becomes of each field.
        self.numbers, self.plain, self.sets = set(), set(), {}
        # What becomes of each text that is to be one flag, and the flag that it stands for.
        self.ones, self.firsts = {}, {}
        # A flag that stands in neither file, once it is asked for.
        self.free = None

    def collect(self, aff, roles, fields):
        """Finds the flags of both files, and gives new names to those that the type cannot have. FIELDS are those of entries."""
        bad, known = {}, set()
        if any(name == 'AF' for _, name, _, _ in roles):
            self.aliases = sum(name == 'AF' and not first for _, name, _, first in roles)
        for _, name, fields_of_line, first in roles:
            for place, start, sort in flag_parts(name, fields_of_line, first):
                if sort == 'rule':
                    self.collect_rule(fields_of_line[place][start:], bad)
                elif sort != 'set' or self.aliases is None:
                    known.add(fields_of_line[place][start:])
        pieces = grammar.pieces_of(known, self.kind)
        self.known.update(self.flags_of_pieces(pieces))
        if self.aliases is None:
            pieces |= grammar.pieces_of(fields, self.kind)
        self.used.update(self.known, self.flags_of_pieces(pieces), self.passed_over(aff))
        if self.kind == 'num':
            bad.update((flag, None) for flag in sorted(self.used, key=int) if not 0 < int(flag) <= grammar.FLAG_MOST)
        free = grammar.free_flags(self.used | set(bad), self.kind)
        self.renamed = {flag: next(free) for flag in bad}
        if self.kind == 'num':
            self.numbers = set(filter(grammar.is_decimal, pieces))
            self.plain = {piece for piece in self.numbers if grammar.number_flag(piece) not in self.renamed}

    def flags_of_pieces(self, pieces):
        """The flags that pieces of flag fields stand for."""
        return pieces if self.kind == 'char' else grammar.flags_of(grammar.join_flags(pieces, self.kind), self.kind)

    def passed_over(self, aff):
        """The flags of options that are passed over, which no other flag may take."""
        for line in aff:
            if line.text.lstrip().startswith(PASSED_OVER):
                words = line.text.split()
                if len(words) > 1 and words[0] in grammar.FLAGS_PASSED_OVER:
                    yield from grammar.flags_of(words[1], self.kind)

    def collect_rule(self, text, bad):
        for start, end, in_parentheses in grammar.rule_flags(text, self.kind) or ():
            flag = text[start:end]
            self.known.update(grammar.flags_of(flag, self.kind))
            if not in_parentheses and flag in '()':
                bad[flag] = None

    def unused(self):
        """A flag that stands in neither file."""
        if self.free is None:
            self.free = next(grammar.free_flags(self.used | set(self.renamed.values()), self.kind))
        return self.free

    def new_name(self, file, number, flag):
        """The name in what is written of a flag that is renamed."""
        message, key = self.renaming(flag)
        self.changes.add(file, number, message, key)
        return self.renamed[flag]

    def one(self, file, number, text):
        """The one flag that a text stands for, mended; None where it stands for none."""
        known = self.ones.get(text)
        if known is None:
            known = self.ones[text] = self.mend_one(text)
        new, messages = known
        for message, key in messages:
            self.changes.add(file, number, message, key)
        return new

    def first(self, text):
        """The flag that a text stands for, as it is read; None where it stands for none."""
        if text not in self.firsts:
            self.firsts[text] = next(iter(grammar.flags_of(text, self.kind)), None)
        return self.firsts[text]

    def mend_one(self, text):
        """The one flag that a text stands for, mended, with messages and the kinds of change that they are of."""
        flag, messages = self.first(text), []
        if flag is None:
            return None, messages
        is_flag = grammar.is_flag(text, self.kind)
        if not is_flag:
            messages.append((f'text behind the flag {flag} dropped: `{shown(text)}`', None))
        if flag in self.renamed:
            messages.append(self.renaming(flag))
            return self.renamed[flag], messages
        return text if is_flag else flag, messages

    def renaming(self, flag):
        """The message on a flag that is renamed, and the kind of change."""
        return f'the flag {flag} renamed to {self.renamed[flag]}', ('renamed', flag)

    def set_of(self, file, number, text, is_row=False):
        """The flags of a field, mended."""
        new, messages = self.look(text, is_row)
        for message, key in messages:
            self.changes.add(file, number, message, key)
        return new

    def look(self, text, is_row=False):
        """The flags of a field, mended, and the messages on what was changed."""
        known = self.sets.get((text, is_row))
        if known is None:
            known = self.sets[text, is_row] = self.mend_set(text, is_row)
        return known

    def is_plain(self, text):
        """Whether a field of flags, and not of a number of AF, stays as it is."""
        if self.kind == 'num':
            return not text or self.plain.issuperset(text.split(','))
        is_whole = self.kind == 'char' or len(text) % 2 == 0
        return is_whole and (not self.renamed or self.renamed.keys().isdisjoint(grammar.flags_of(text, self.kind)))

    def changed(self, fields):
        """Those of some flag fields of entries that do not stay as they are."""
        if self.aliases is None:
            fields = [field for field in fields if not self.is_plain(field)]
        return {field for field in fields if self.look(field)[0] != field}

    def mend_set(self, text, is_row):
        """The flags of a field, mended, with messages and the kinds of change that they are of."""
        if self.aliases is not None and not is_row:
            return self.mend_alias(text)
        if self.is_plain(text):
            return text, []
        flags = grammar.flags_of(text, self.kind)
        is_whole = len(text) % 2 == 0 if self.kind == 'long' else True
        if self.kind == 'num':
            items = text.split(',')
            is_whole = self.numbers.issuperset(items) or all(map(grammar.is_decimal, items))
        messages = [] if is_whole else [dropped(text)]
        for flag in flags:
            if flag in self.renamed:
                messages.append(self.renaming(flag))
        if not messages:
            return text, messages
        return grammar.join_flags([self.renamed.get(flag, flag) for flag in flags], self.kind), messages

    def mend_alias(self, text):
        found = grammar.DECIMAL.match(text)
        if found and 0 < grammar.number_of(found.group()) <= self.aliases:
            return found.group(), [] if found.end() == len(text) else [dropped(text)]
        return '', [(f'flags left out that are no row of AF: `{shown(text)}`', 'no alias')] if text else []


def dropped(text):
    """The message on what is dropped of a flag field, and the kind of change."""
    if '#' in text:
        return f'a comment behind flags dropped: `{shown(text)}`', 'comment'
    return f'text in a flag field that is no flag dropped: `{shown(text)}`', 'pasted'


def shown(text):
    return text if len(text) <= 60 else text[:57] + '...'


class Losses:
    """The lines that are left out and change which words are accepted: why, each with its line, and what that means for words."""

    def __init__(self):
        self.reasons, self.effects = [], []

    def add(self, line, what, why, effect):
        self.reasons.append((line.number, f'{what} {why}: without it {effect}'))
        self.effects.append(f'{what} ({effect})')


def edited(text, edits):
    """A text with others in place of its parts from START to END. No two of them overlap."""
    pieces, place = [], 0
    for start, end, new in edits:
        pieces += [text[place:start], new]
        place = end
    return ''.join(pieces) + text[place:]


class AffMending:
    """Mends the lines of the .aff file."""

    def __init__(self, lines, roles, flags, changes, losses):
        self.lines, self.roles, self.flags, self.changes, self.losses = lines, roles, flags, changes, losses
        # Whether COMPOUNDWORDMAX is set.
        self.has_most = any(name == 'COMPOUNDWORDMAX' for _, name, _, _ in roles)
        self.values, self.edits, self.before = {}, {}, {}
        # Lines that are left out, and those that end at a comment.
        self.gone, self.cut = set(), set()

    def told(self, line, message, key=None):
        self.changes.add('aff', line.number, message, key)

    def drop(self, line, message, key=None):
        self.gone.add(line)
        if message:
            self.told(line, message, key)

    def lose(self, line, what, why, effect):
        """Leaves out a line, with what that means for words."""
        self.drop(line, f'{what} left out: {effect}')
        self.losses.add(line, what, why, effect)

    def edit(self, line, start, end, new):
        """Puts a text in place of that from START to END."""
        if line.text[start:end] != new:
            self.edits.setdefault(line, []).append((start, end, new))

    def edit_field(self, line, place, text, new):
        """Puts a text in place of one that a field ends with."""
        if text != new:
            end = grammar.fields_of(line.text)[place][1]
            self.edit(line, end - len(text), end, new)

    def mend(self):
        """The lines, mended."""
        tables, classes = {}, {}
        for line, name, fields, first in self.roles:
            if name in grammar.TABLES:
                tables.setdefault(name, []).append((line, fields, first))
            elif name in grammar.CLASSES:
                flag = self.flags.first(fields[1]) if len(fields) > 1 else None
                classes.setdefault((name, flag), []).append((line, fields))
            elif name in grammar.LEFT_OUT:
                self.mend_left_out(line, name)
            elif name not in grammar.SWITCHES:
                self.mend_option(line, name, fields)
        for name, rows in tables.items():
            self.mend_table(name, rows)
        for (name, flag), lines in classes.items():
            self.mend_class(name, flag, lines)
        return self.written()

    def written(self):
        found = []
        for line in self.lines:
            found += self.before.get(line, ())
            if line in self.gone:
                continue
            if line in self.edits:
                line.text = edited(line.text, sorted(self.edits[line]))
            found.append(line)
        return found

    def mend_left_out(self, line, name):
        """An option that is not built: left out without a loss if hunspell(5) gives it no effect."""
        if name != 'COMPLEXPREFIXES' and not self.has_most:
            self.drop(line, f'{name} left out: it changes nothing without COMPOUNDWORDMAX')
        else:
            self.lose(line, name, 'is not judged', grammar.LEFT_OUT[name])

    def mend_option(self, line, name, fields):
        """An option with one value, SET and FLAG too."""
        if len(fields) < 2:
            self.drop(line, f'{name} left out: nothing stands behind it')
            return
        option = grammar.ONE_OPTION.get(name, name)
        before = self.values.get(option)
        if before:
            number = before[0].number
            if before[1] == fields[1]:
                self.drop(line, f'{name} left out: it says what line {number} says')
            else:
                self.lose(line, name, f'has another value than line {number}', f'line {number} counts')
            return
        start, end = grammar.fields_of(line.text)[1]
        value = self.value_of(line, name, self.without_comment(line, name, start, fields[1]))
        if value is None:
            self.drop(line, f'{name} left out: `{shown(fields[1])}` is nothing that it may have')
        else:
            self.edit(line, start, start + len(fields[1].split('#')[0]) if line in self.cut else end, value)
            self.values[option] = line, fields[1]

    def without_comment(self, line, name, start, text):
        """A text without the comment that stands directly behind it, where the text is nothing with it; the line ends there then."""
        front = text.split('#')[0]
        if name in grammar.TEXT_OPTIONS or name == 'SET' or grammar.is_value(text, name, self.flags.kind):
            return text
        if not grammar.is_value(front, name, self.flags.kind):
            return text
        self.cut_comment(line, start + len(front))
        return front

    def cut_comment(self, line, start):
        """Ends a line at START, where a comment begins."""
        self.told(line, 'a comment behind a field dropped', 'comment')
        self.cut.add(line)
        self.edit(line, start, len(line.text), '')

    def value_of(self, line, name, text):
        """The value that a text stands for, or None."""
        if name == 'SET':
            if text.upper() != 'UTF-8':
                self.told(line, f'SET UTF-8 in place of SET {text}')
                return 'UTF-8'
            return text
        if name == 'FLAG':
            return text if grammar.flag_kind(text) else None
        if name in grammar.FLAG_OPTIONS:
            return self.flags.one('aff', line.number, text)
        if name in grammar.NUMBER_OPTIONS and not grammar.is_decimal(text):
            found = grammar.DECIMAL.match(text)
            if found:
                self.told(line, f'text behind the number of {name} dropped: `{shown(text)}`')
            return found and found.group()
        return text

    def mend_table(self, name, rows):
        """A table: its rows, and the number that its header announces."""
        if any(first for *_, first in rows):
            place = next(place for place, row in enumerate(rows) if len(row[1]) > 1)
            for line, *_ in rows[:place]:
                self.drop(line, f'a line of {name} before its header left out, which lacks a text')
            rows = rows[place:]
        header = rows.pop(0) if rows[0][2] else None
        kept = sum(self.mend_row(name, *row[:2]) for row in rows)
        if header is None:
            if kept:
                self.before.setdefault(rows[0][0], []).append(Line(rows[0][0].number, f'{name} {kept}', rows[0][0].end))
                self.told(rows[0][0], f'{name} {kept} put in, which announces the rows')
            return
        line, fields, _ = header
        said, comment = COUNT.fullmatch(fields[1]).groups()
        start = grammar.fields_of(line.text)[1][0]
        if comment:
            self.cut_comment(line, start + len(said))
        if grammar.number_of(said) != kept:
            self.told(line, f'{name} announces {said} rows and has {kept}: the count mended')
            self.edit(line, start, start + len(said), str(kept))

    def mend_row(self, name, line, fields):
        """Whether a row of a table stays."""
        if len(fields) <= grammar.TABLES[name] and name != 'AF':
            self.drop(line, f'a row of {name} left out, which lacks a text', f'short {name}')
            return False
        if len(fields) == 1:
            self.told(line, 'a row of AF without flags gets one that stands nowhere')
            self.edit_field(line, 0, '', ' ' + self.flags.unused())
        if name == 'COMPOUNDRULE':
            return self.mend_rule(line, fields[1])
        for place, start, sort in flag_parts(name, fields, False):
            text = fields[place][start:]
            if sort == 'row':
                # A row keeps its number, so one without flags gets one that stands nowhere.
                self.edit_field(line, place, text, self.flags.set_of('aff', line.number, text, True) or self.flags.unused())
            else:
                flag = self.flags.one('aff', line.number, text)
                self.edit_field(line, place, text if flag else '/' + text, flag or '')
        return True

    def mend_rule(self, line, text):
        """Whether a compound rule stays."""
        flags = grammar.rule_flags(text, self.flags.kind)
        if flags is None:
            self.lose(line, f'the compound rule `{shown(text)}`', 'is none of hunspell(5)', RULE_EFFECT)
            return False
        start = grammar.fields_of(line.text)[1][0]
        for first, last, _ in flags:
            name = text[first:last]
            name = str(grammar.number_of(name)) if self.flags.kind == 'num' else name
            if name in self.flags.renamed:
                self.edit(line, start + first, start + last, self.flags.new_name('aff', line.number, name))
        return True

    def mend_class(self, side, flag, lines):
        """A class: its flag, its header, and its rules."""
        if flag is None:
            for line, _ in lines:
                self.drop(line, f'a line of {side} left out, which has no flag', f'no flag {side}')
            return
        for line, fields in lines:
            self.edit_field(line, 1, fields[1], self.flags.one('aff', line.number, fields[1]))
        rules = self.without_headers(lines[0], lines[1:])
        self.mend_header(lines[0], sum([self.mend_affix(*rule) for rule in rules]))

    def without_headers(self, header, rules):
        """The rules of a class without further headers of it, which have the cross of the first."""
        fields = header[1]
        place = grammar.number_of(fields[3]) if len(fields) > 3 and grammar.is_decimal(fields[3]) else len(rules)
        found = rules[:place]
        while place < len(rules):
            line, fields = rules[place]
            is_header = len(fields) > 3 and fields[2] in ('Y', 'N') and grammar.is_decimal(fields[3])
            if not is_header or (len(fields) > 4 and fields[4][0] != '#'):
                return found + rules[place:]
            if fields[2] == header[1][2]:
                self.drop(line, 'a further header of a class left out: its rules join those above')
            else:
                self.lose(line, 'a further header of a class', 'has another cross', 'its rules have the cross of the first')
            count = grammar.number_of(fields[3])
            found += rules[place + 1:place + 1 + count]
            place += 1 + count
        return found

    def mend_header(self, header, kept):
        """The cross of a class and the number of rules that it announces."""
        line, fields = header
        if len(fields) < 3 or (fields[2] not in 'YN' and (len(fields) < 4 or not COUNT.fullmatch(fields[3]))):
            return
        spans = grammar.fields_of(line.text)
        if fields[2] not in 'YN':
            cross = 'Y' if fields[2][0] == 'Y' else 'N'
            self.told(line, f'the cross `{shown(fields[2])}` of a class is {cross}')
            self.edit(line, *spans[2], cross)
        if len(fields) < 4:
            self.told(line, f'a class announces no count and has {kept} rules: the count put in')
            self.edit(line, spans[2][1], spans[2][1], f' {kept}')
            return
        found = COUNT.fullmatch(fields[3])
        start, end = spans[3]
        if found and found.group(2):
            end = start + len(found.group(1))
            self.cut_comment(line, end)
        if not found or grammar.number_of(found.group(1)) != kept:
            self.told(line, f'a class announces {shown(line.text[start:end])} rules and has {kept}: the count mended')
            self.edit(line, start, end, str(kept))

    def mend_affix(self, line, fields):
        """Whether a rule of a class stays."""
        if len(fields) < 4:
            self.drop(line, 'a rule left out, which lacks a text', 'short rule')
            return False
        if '://' in line.text and (ADDRESS.search(fields[3]) or ADDRESS.search(fields[2])):
            self.drop(line, f'a rule left out, into which an address was pasted: `{shown(fields[3])}`')
            return False
        for place, start, sort in flag_parts(fields[0], fields, False):
            if sort == 'set':
                text = fields[place][start:]
                self.edit_field(line, place, text, self.flags.set_of('aff', line.number, text))
        return True


class DicMending:
    """Mends the lines of the .dic file."""

    def __init__(self, dic, flags, changes):
        self.dic, self.flags, self.changes = dic, flags, changes
        # The different texts of flags, without that of the first line.
        self.fields = dic.fields()

    def mend(self, ignored):
        """Mends the lines. IGNORED are the characters of IGNORE."""
        first, fields = self.dic.first, self.fields
        if not grammar.DECIMAL.match(first.text.lstrip(' ')):
            count = str(self.dic.count())
            self.changes.add('dic', 1, f'a first line {count} put in, the count')
            self.dic.put_first(count)
            fields = self.dic.fields()
        changed = self.flags.changed(fields)
        self.dic.change(self.dic.suspects(ignored, changed), lambda line: self.stays(line, ignored, changed))

    def stays(self, line, ignored, changed):
        """Whether a line stays. Its flags are mended if they are in CHANGED."""
        text = line.text
        entry = grammar.entry_of(text)
        if entry is None:
            return True
        start, slash, end = entry
        if start == slash or (ignored and not text[start:slash].strip(ignored)):
            self.changes.add('dic', line.number, 'an entry without a word left out', 'no word')
            return False
        if slash == end or not changed or text[slash + 1:end] not in changed:
            return True
        if text[start] == '"' and text[end - 1] == '"':
            message = f'an entry in quotation marks left out, which its slash would cut: `{shown(text[start:end])}`'
            self.changes.add('dic', line.number, message, 'quoted')
            return False
        line.text = text[:slash + 1] + self.flags.set_of('dic', line.number, text[slash + 1:end]) + text[end:]
        return True


class Prepared:
    """A dictionary that was mended: both files, the changes, the reasons why words are judged otherwise, and the old numbers of lines."""

    def __init__(self, aff, shrinking, files, changes, reasons):
        self.files, self.changes, self.reasons = files, changes, reasons
        self.aff, self.shrinking = aff, shrinking

    def number_of(self, file, place):
        """The number that a line had before, by its place from 0; that of the last line, if there is no such place."""
        lines = self.aff if file == 'aff' else self.shrinking.dic_lines()
        return lines[place].number if place < len(lines) else len(lines)


def prepare(aff, dic):
    """Mends a dictionary. Where words are judged otherwise then, the reasons tell it. Raises Refused if it cannot be made small enough."""
    changes, losses = Changes(), Losses()
    decoding = Decoding(aff, dic, changes)
    aff, dic = decoding.lines()
    if dic.is_empty:
        raise Refused('the .dic file has no lines')
    roles = list(roles_of(aff))
    kinds = [grammar.flag_kind(fields[1]) for _, name, fields, _ in roles if name == 'FLAG' and len(fields) > 1]
    flags = Flags(next(filter(None, kinds), 'char'), changes)
    dic_mending = DicMending(dic, flags, changes)
    flags.collect(aff, roles, dic_mending.fields)
    has_set = any(name == 'SET' and len(fields) > 1 for _, name, fields, _ in roles)
    aff_mending = AffMending(aff, roles, flags, changes, losses)
    aff = aff_mending.mend()
    if decoding.name != 'UTF-8' and not has_set:
        aff.insert(0, Line(0, 'SET UTF-8', aff[0].end if aff else ''))
        changes.add('aff', 1, 'SET UTF-8 put in')
    dic_mending.mend(aff_mending.values.get('IGNORE', (None, ''))[1])
    shrinking = Shrinking(aff, dic, flags, changes)
    files = shrinking.shrink()
    aff = shrinking.aff
    if losses.effects:
        aff.insert(0, Line(0, LOSSY + '; '.join(losses.effects)))
        files['aff'] = bytes_of(aff)
    return Prepared(aff, shrinking, files, changes, losses.reasons)
