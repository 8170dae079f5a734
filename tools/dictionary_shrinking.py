"""Makes the files of a dictionary smaller, if they would be larger than may be read."""

import dictionary_grammar as grammar
from dictionary_grammar import Refused
from dictionary_lines import Line, bytes_of, flag_spans, roles_of


def has_blanks(text):
    return ' ' in text or '\t' in text


class Shrinking:
    """Makes files smaller that would be larger than may be read, without a change of the words that they accept."""

    def __init__(self, aff, dic, flags, changes):
        self.aff, self.flags, self.changes = aff, flags, changes
        # The .dic file as one text, and its lines if there was need of them.
        self.text, self.dic = dic, None

    def shrink(self):
        """Takes one step after the other, until the files are small enough or nothing is left to do. Both files come back."""
        dic = self.text.text().encode()
        if len(dic) > grammar.FILE_MOST:
            self.dic = self.text.lines()
        if len(bytes_of(self.aff)) > grammar.FILE_MOST:
            self.drop_passed_over()
        for step in (self.drop_morphology, self.drop_equal, self.fold, self.number_flags):
            if len(dic) > grammar.FILE_MOST:
                step()
                dic = bytes_of(self.dic)
        # Steps that make the .dic file smaller put lines into the .aff file.
        files = {'aff': bytes_of(self.aff), 'dic': dic}
        for file, data in files.items():
            if len(data) > grammar.FILE_MOST:
                raise Refused(f'the .{file} file has {len(data):,} bytes in UTF-8, and {grammar.FILE_MOST:,} may be read')
        return files

    def dic_lines(self):
        """The lines of the .dic file as it was written."""
        return self.text.lines() if self.dic is None else self.dic

    def drop_passed_over(self):
        before = len(self.aff)
        self.aff = [line for line, *_ in roles_of(self.aff)]
        self.changes.add('aff', 1, f'lines that are passed over left out: {before - len(self.aff)}')

    def drop_morphology(self):
        for line in self.dic[1:]:
            found = grammar.entry_of(line.text) if has_blanks(line.text) else None
            if found and line.text[found[2]:].strip(' \t'):
                line.text = line.text[:found[2]]
                self.changes.add('dic', line.number, 'fields of morphology left out, to make the file small enough')

    def drop_equal(self):
        seen, kept = set(), self.dic[:1]
        for line in self.dic[1:]:
            if line.text in seen:
                self.changes.add('dic', line.number, 'an entry left out that stands above, to make the file small enough')
            else:
                kept.append(line)
            seen.add(line.text)
        self.dic = kept

    def bare_words(self):
        """The entries that are a word alone, with their lines."""
        found = {}
        for line in self.dic[1:]:
            text = line.text
            if text and '/' not in text and '\\' not in text:
                if not has_blanks(text) or grammar.entry_of(text) == (0, len(text), len(text)):
                    found[text] = line
        return found

    def fold(self):
        """An entry that is another one with a character behind it becomes a form of that one, by a flag of its own."""
        if self.flags.aliases is not None:
            return
        words = self.bare_words()
        counts = {}
        # Only entries without flags, or further affixes would be lost.
        for word in words:
            if word[:-1] in words:
                counts[word[-1]] = counts.get(word[-1], 0) + 1
        ignored = {char for line in self.aff if line.text.startswith('IGNORE') for char in line.text}
        ends = sorted((end for end in counts if end not in ignored and end not in '0/\\#'), key=lambda end: (-counts[end], end))[:20]
        names = dict(zip(ends, grammar.free_flags(self.flags.used | set(self.flags.renamed.values()), self.flags.kind)))
        folded, gone = {}, set()
        for word in sorted(words, key=len):
            if word[-1] in names and word[:-1] in words and word[:-1] not in gone:
                folded.setdefault(word[:-1], []).append(names[word[-1]])
                gone.add(word)
        if folded:
            self.write_folded(words, folded, gone, names)

    def write_folded(self, words, folded, gone, names):
        lines = {words[word] for word in gone}
        for word, flags in folded.items():
            words[word].text = f'{word}/{grammar.join_flags(flags, self.flags.kind)}'
        for line in sorted(lines, key=lambda line: line.number):
            self.changes.add('dic', line.number, 'an entry written as a form of another, to make the file small enough')
        self.dic = [line for line in self.dic if line not in lines]
        for end, flag in names.items():
            self.aff += [Line(0, f'SFX {flag} N 1'), Line(0, f'SFX {flag} 0 {end} .')]
        self.changes.add('aff', len(self.aff), f'{len(names)} classes put in at the end, for forms of entries')

    def places_of_flags(self):
        """Each line with START and END of its flags, in both files."""
        for line, *role in roles_of(self.aff):
            for start, end, sort in flag_spans(line.text, *role):
                if sort == 'set':
                    yield line, start, end
        for line in self.dic[1:]:
            found = grammar.entry_of(line.text) if '/' in line.text else None
            if found and found[1] + 1 < found[2]:
                yield line, found[1] + 1, found[2]

    def number_flags(self):
        """Flag fields become numbers of rows of AF, the most frequent ones the shortest."""
        if self.flags.aliases is not None:
            return
        counts = {}
        for line, start, end in list(self.places_of_flags()):
            text = line.text[start:end]
            if ' ' in text:
                # Flags that the .aff file has not change nothing.
                flags = grammar.flags_of(text, self.flags.kind)
                text = grammar.join_flags([flag for flag in flags if flag in self.flags.known], self.flags.kind)
                line.text = (line.text[:start] + text if text else line.text[:start - 1]) + line.text[end:]
            if text:
                counts[text] = counts.get(text, 0) + 1
        if len(counts) > grammar.ROWS_MOST or any(' ' in text for text in counts):
            return
        rows = sorted(counts, key=lambda text: (-counts[text], text))
        numbers = {text: str(number) for number, text in enumerate(rows, 1)}
        for line, start, end in list(self.places_of_flags()):
            line.text = line.text[:start] + numbers[line.text[start:end]] + line.text[end:]
        self.aff += [Line(0, f'AF {len(rows)}')] + [Line(0, f'AF {text}') for text in rows]
        self.changes.add('aff', len(self.aff), f'a table AF of {len(rows)} rows put in at the end')
        self.changes.add('dic', 2, 'flags of entries written as numbers of rows of AF, to make the file small enough')
