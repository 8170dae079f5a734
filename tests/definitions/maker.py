"""Random small dictionaries. Each has a few topics, the options of which it mostly has; any other option it has now and then."""

from made import NAMES, Class, Entry, Made, Rule

# Those that stand here more than once come more often, since words that they decide are rare.
TOPICS = ('affixes', 'twofold', 'twofold', 'crossed', 'circumfix', 'circumfix', 'needaffix', 'onlyincompound', 'forbidden', 'warn',
          'keepcase', 'sharps', 'sharps', 'sharps', 'flags', 'places', 'rules', 'rules', 'checks', 'checks', 'triple', 'triple', 'patterns',
          'patterns', 'patterns', 'rep', 'rep', 'forceucase', 'break', 'iconv', 'ignore', 'wordchars', 'own', 'fullstrip', 'passed', 'long',
          'permit', 'permit')
# Topics that say nothing without others.
NEEDED = {'twofold': ('affixes', 'crossed'), 'crossed': ('affixes',), 'circumfix': ('affixes', 'crossed'), 'checks': ('flags',), 'triple': ('flags',),
          'patterns': ('flags',), 'rep': ('flags',), 'forceucase': ('flags',), 'permit': ('places', 'affixes', 'twofold'), 'fullstrip': ('affixes',),
          'onlyincompound': ('flags',), 'sharps': ('keepcase',)}
# Characters of which the words of a dictionary are made.
ALPHABETS = ('ab', 'ab', 'aB', 'abc', 'aAb', 'aßs', 'sß', 'aİi', 'abé', "ab'", "ab\u2019", 'ab-', 'ab-', 'abA-', 'ab.', 'a1b', '12a', 'ſsSK',
             'aẞß', 'ab\u0301', 'a\u0903b', 'ab/', 'ιΑα', 'aB-', 'ǅab')
EXTRA = ('', '', 'AB', '-', "'", 'ß', '1')
SIGNS = (('NEEDAFFIX', 'needaffix'), ('CIRCUMFIX', 'circumfix'), ('FORBIDDENWORD', 'forbidden'), ('KEEPCASE', 'keepcase'), ('WARN', 'warn'),
         ('ONLYINCOMPOUND', 'onlyincompound'), ('FORCEUCASE', 'forceucase'), ('COMPOUNDFLAG', 'flags'), ('COMPOUNDBEGIN', 'places'),
         ('COMPOUNDMIDDLE', 'places'), ('COMPOUNDLAST', 'places'), ('COMPOUNDPERMITFLAG', 'permit'), ('COMPOUNDFORBIDFLAG', 'permit'))
OTHER_NAMES = {'NEEDAFFIX': 'PSEUDOROOT', 'COMPOUNDLAST': 'COMPOUNDEND'}
SWITCHES = (('FULLSTRIP', 'fullstrip'), ('FORBIDWARN', 'warn'), ('CHECKSHARPS', 'sharps'), ('COMPOUNDMORESUFFIXES', 'permit'),
            ('CHECKCOMPOUNDDUP', 'checks'), ('CHECKCOMPOUNDCASE', 'checks'), ('CHECKCOMPOUNDTRIPLE', 'triple'), ('SIMPLIFIEDTRIPLE', 'triple'),
            ('CHECKCOMPOUNDREP', 'rep'))
# How often an entry, and what a rule carries, has each flag.
OF_ENTRIES = {'NEEDAFFIX': 0.3, 'CIRCUMFIX': 0.05, 'FORBIDDENWORD': 0.2, 'KEEPCASE': 0.4, 'WARN': 0.3, 'ONLYINCOMPOUND': 0.35,
              'FORCEUCASE': 0.4, 'COMPOUNDFLAG': 0.7, 'COMPOUNDBEGIN': 0.5, 'COMPOUNDMIDDLE': 0.5, 'COMPOUNDLAST': 0.5,
              'COMPOUNDPERMITFLAG': 0.05, 'COMPOUNDFORBIDFLAG': 0.25}
OF_RULES = {'NEEDAFFIX': 0.3, 'CIRCUMFIX': 0.5, 'FORBIDDENWORD': 0.05, 'KEEPCASE': 0.05, 'WARN': 0.05, 'ONLYINCOMPOUND': 0.2,
            'FORCEUCASE': 0.05, 'COMPOUNDFLAG': 0.2, 'COMPOUNDBEGIN': 0.2, 'COMPOUNDMIDDLE': 0.2, 'COMPOUNDLAST': 0.2,
            'COMPOUNDPERMITFLAG': 0.5, 'COMPOUNDFORBIDFLAG': 0.15}
# Options that are passed over, each with something to say.
PASSED = ('TRY abc', 'KEY ab|ba', 'NOSUGGEST {flag}', 'MAXCPDSUGS 1', 'MAXNGRAMSUGS 0', 'MAXDIFF 0', 'ONLYMAXDIFF', 'NOSPLITSUGS', 'SUGSWITHDOTS',
          'LEMMA_PRESENT {flag}', 'SUBSTANDARD {flag}', 'LANG tr_TR', 'COMPOUNDROOT {flag}', 'HOME a', '# BREAK 0', 'NAME b')
PASSED_TABLES = (('MAP', ('ab', '(ss)ß')), ('OCONV', ('a b', 'b ab')), ('AM', ('po:noun', 'st:a')), ('PHONE', ('A B', 'B _')))
LEFT_OUT = ('COMPLEXPREFIXES', 'COMPOUNDSYLLABLE 6 ab', 'SYLLABLENUM a')


class Maker:
    """Makes one dictionary of what is rolled."""

    def __init__(self, rolled):
        self.rolled = rolled
        self.topics = set(rolled.sample(TOPICS, rolled.randint(2, 4)))
        for _ in range(2):
            for topic in list(self.topics):
                self.topics |= set(NEEDED.get(topic, ()))
        if 'flags' in self.topics and rolled.random() < 0.3:
            self.topics.add('places')
        if 'sharps' in self.topics or self.is_rolled(0.05):
            self.alphabet = rolled.choice(('sß', 'sßa', 'Ssß', 'sẞß'))
        elif self.topics & {'break', 'wordchars'} and self.is_rolled(0.7):
            self.alphabet = rolled.choice(('ab-', 'a-', 'ab.', 'a1-', 'aB-', 'abA'))
        else:
            self.alphabet = rolled.choice(ALPHABETS) + rolled.choice(EXTRA)
        if 'triple' in self.topics and self.is_rolled(0.7):
            self.alphabet = rolled.choice(('aab', 'aaB', 'ab'))
        self.flags = list(range(len(NAMES[''][:24])))
        rolled.shuffle(self.flags)
        self.signs = {}

    def is_rolled(self, chance):
        """Whether something comes that has this chance."""
        return self.rolled.random() < chance

    def is_about(self, topic, otherwise=0.04):
        """Whether an option of a topic is there."""
        return self.is_rolled(0.85 if topic in self.topics else otherwise)

    def text(self, least, most):
        """Characters of the alphabet, so many of them."""
        return ''.join(self.rolled.choice(self.alphabet) for _ in range(self.rolled.randint(least, most)))

    # ---- What a dictionary is made of

    def made(self):
        """The dictionary."""
        rolled = self.rolled
        self.signs = {name: self.flags.pop() for name, topic in SIGNS if self.is_about(topic)}
        if len(self.signs) > 1 and self.is_rolled(0.05):
            # Two options may name one flag.
            one, two = rolled.sample(sorted(self.signs), 2)
            self.signs[one] = self.signs[two]
        options = [(OTHER_NAMES[name] if name in OTHER_NAMES and self.is_rolled(0.3) else name, flag) for name, flag in self.signs.items()]
        options += [(name, '') for name, topic in SWITCHES if self.is_about(topic)]
        is_compound = bool(self.topics & {'flags', 'places', 'rules'})
        if is_compound and self.is_rolled(0.9):
            options.append(('COMPOUNDMIN', rolled.choice('0111222')))
        if is_compound and self.is_rolled(0.2):
            options.append(('COMPOUNDWORDMAX', rolled.choice('012234')))
        if self.topics & {'wordchars', 'break'} or set(self.alphabet) & set("-./1'") or self.is_rolled(0.1):
            characters = set(self.alphabet) - set('abAB') | set(rolled.sample('-.1_', rolled.randint(0, 2)))
            if self.is_rolled(0.8) and characters:
                options.append(('WORDCHARS', ''.join(sorted(characters))))
        if self.is_about('ignore', 0.03):
            options.append(('IGNORE', ''.join(rolled.sample(sorted(set(self.alphabet + '-x')), rolled.randint(1, 2)))))
        if self.is_rolled(0.3):
            options.append(('SET', rolled.choice(('UTF-8', 'utf-8'))))
        self.ignored = dict(options).get('IGNORE', '')
        classes = self.classes()
        entries = self.entries(classes)
        tables = tuple(self.tables(entries, is_compound))
        if 'rep' in self.topics:
            entries, tables = self.with_misspelling(entries, tables)
        kind = '' if not self.is_rolled(0.3) else rolled.choice(('', 'UTF-8', 'long', 'num'))
        return self.with_passed(Made(kind=kind, has_aliases=self.is_rolled(0.2), options=tuple(options), tables=tables, classes=classes,
                                     entries=entries, own=self.own(entries), mixing=rolled.randint(0, 99)))

    def some_flags(self, chances, classes, chance):
        """Flags of options, and of classes."""
        return frozenset([flag for name, flag in self.signs.items() if self.is_rolled(chances[name])]
                         + [flag for flag in classes if self.is_rolled(chance)])

    def classes(self):
        """The affix classes."""
        rolled = self.rolled
        if not self.is_about('affixes', 0.5):
            return ()
        count = rolled.randint(2, 4) if self.topics & {'twofold', 'crossed', 'circumfix'} else rolled.randint(1, 3)
        sides = [rolled.random() < 0.4 for _ in range(count)]
        if self.topics & {'crossed', 'circumfix'}:
            sides[:2] = [True, False]
        flags = [self.flags.pop() for _ in range(count)]
        if count > 1 and self.is_rolled(0.1) and sides[0] != sides[1]:
            # Classes of both sides may have one flag.
            flags[1] = flags[0]
        carried = 0.6 if 'twofold' in self.topics else 0.15
        made = []
        for side, flag in zip(sides, flags):
            rules = tuple(self.rule(side, flags, carried) for _ in range(rolled.randint(1, 2)))
            made.append(Class(side, flag, self.is_rolled(0.8), rules))
        return tuple(made)

    def rule(self, is_prefix, flags, carried):
        """A rule of a class. Each flag of a class is carried with a chance."""
        is_full = 'fullstrip' in self.topics
        strip = self.text(1, 2) if self.is_rolled(0.8 if is_full else 0.45) else ''
        add = self.text(1, 2) if self.is_rolled(0.85) else ''
        if strip and add and self.is_rolled(0.1):
            add = strip
        condition = '' if self.is_rolled(0.2) else '.'
        if self.is_rolled(0.2 if is_full else 0.45):
            condition = ''.join(self.piece() for _ in range(self.rolled.randint(1, 2)))
            if strip and self.is_rolled(0.6):
                condition = strip if self.is_rolled(0.5) else strip + self.piece() if is_prefix else self.piece() + strip
        rest = self.rolled.choice(('po:x', '# b', '1')) if condition and self.is_rolled(0.1) else ''
        carries = self.some_flags(OF_RULES, flags, carried)
        if 'permit' in self.topics and 'COMPOUNDPERMITFLAG' in self.signs and self.is_rolled(0.5):
            carries |= {self.signs['COMPOUNDPERMITFLAG'], self.rolled.choice(flags)}
            strip, condition = '' if self.is_rolled(0.7) else strip, '.'
        return Rule(strip, add, carries, condition.replace('/', 'a'), rest)

    def piece(self):
        """A piece of a condition."""
        characters = ''.join(self.rolled.sample(sorted(set(self.alphabet + 'x')), self.rolled.randint(1, 2)))
        return self.rolled.choice((self.rolled.choice(self.alphabet), '.', f'[{characters}]', f'[^{characters}]',
                                   self.rolled.choice(('[^]', '[]', '[a^]', '[.]', '[a-b]', '[^^]')) if self.is_rolled(0.3) else '.'))

    def entries(self, classes):
        """The entries. Some end with what rules strip, some have a word that another one has."""
        rolled, made = self.rolled, []
        strips = [rule.strip for one in classes for rule in one.rules if rule.strip]
        for _ in range(rolled.randint(2, 6)):
            word = self.text(1, 3)
            if strips and self.is_rolled(0.8 if 'fullstrip' in self.topics else 0.3):
                word = rolled.choice((self.text(0, 2) + rolled.choice(strips), rolled.choice(strips), rolled.choice(strips)))
            if made and self.is_rolled(0.25):
                word = rolled.choice(made).word
            if made and 'break' in self.topics and self.is_rolled(0.2):
                word = word + rolled.choice('-ab') + rolled.choice(made).word
            if self.is_rolled(0.15):
                word = word[0].upper()[:1] + word[1:] if self.is_rolled(0.5) else word.upper()
            if 'long' in self.topics and self.is_rolled(0.3):
                word = rolled.choice('ab') * rolled.randint(97, 101)
            if 'rep' in self.topics and self.is_rolled(0.1):
                word = word[0] + ' ' + word
            if 'sharps' in self.topics and self.is_rolled(0.15):
                # Around as many pairs as count.
                word = ''.join(rolled.choice(('ß', 'ss')) for _ in range(rolled.randint(3, 7)))
            word = self.with_some(word)
            rest = rolled.choice(('\tpo:x', ' po:x', '\t1', ' ')) if self.is_rolled(0.1) else ''
            made.append(Entry(word, self.some_flags(OF_ENTRIES, [one.flag for one in classes], 0.55) | self.of_rules(), rest))
        return tuple(made)

    def with_some(self, text):
        """The text, or another one where all its characters are ignored."""
        return text if text.strip(self.ignored + ' ') else text + 'z'

    def of_rules(self):
        """Flags of which compound rules speak, which are the last two."""
        return frozenset(flag for flag in self.flags[:2] if 'rules' in self.topics and self.is_rolled(0.6))

    def tables(self, entries, is_compound):
        """The tables but AF."""
        rolled, made = self.rolled, []
        if self.is_about('break'):
            sources = ['-', '^-', '-$', '--', '^--', 'a', '^a', 'a$', '.', '^.', '.$', '^a$', 'ab', '-a', 'b', '^b', 'B', '^$', "'", 'ß']
            made.append(('BREAK', tuple(rolled.sample(sources, rolled.choice((0, 1, 2, 2, 3, 4))))))
        if self.is_about('iconv'):
            made.append(('ICONV', tuple((self.text(1, 2) if self.is_rolled(0.8) else rolled.choice('xy')) + ' ' + self.text(1, 2)
                                        for _ in range(rolled.randint(1, 4)))))
        if self.is_about('rep'):
            texts = [rolled.choice(('', '', '', '^')) + self.text(1, 2) + rolled.choice(('', '', '', '$')) for _ in range(rolled.randint(1, 4))]
            rights = [self.text(1, 2) if self.is_rolled(0.8) else self.text(1, 1) + '_' + self.text(0, 1) for _ in texts]
            made.append(('REP', tuple(f'{text} {right}' for text, right in zip(texts, rights))))
        if 'rules' in self.topics:
            made.append(('COMPOUNDRULE', tuple(tuple((rolled.choice(self.flags[:2]), rolled.choice(('', '', '?', '*')), self.is_rolled(0.2))
                                                     for _ in range(rolled.randint(1, 3))) for _ in range(rolled.randint(1, 2)))))
        if is_compound and self.is_about('patterns'):
            made.append(('CHECKCOMPOUNDPATTERN', tuple(self.pattern(entries) for _ in range(rolled.randint(1, 3)))))
        return made

    def with_misspelling(self, entries, tables):
        """The entries with one more, which a row of REP makes of two others that are written together."""
        rolled = self.rolled
        rows = dict(tables).get('REP', ())
        word = ''.join(rolled.choice(entries).word for _ in range(2)).replace(' ', 'a')
        place = rolled.randint(0, len(word) - 1)
        text, right = word[place:place + rolled.randint(1, 2)], rolled.choice((self.text(1, 2), self.text(1, 1), '_', 'z'))
        end = place + len(text)
        front = rolled.choice(('', '^')) if place == 0 else '^' if self.is_rolled(0.1) else ''
        back = rolled.choice(('', '$')) if end == len(word) else '$' if self.is_rolled(0.1) else ''
        flags = self.some_flags(OF_ENTRIES, [], 0) if self.is_rolled(0.3) else frozenset()
        entry = Entry(word[:place] + right.replace('_', ' ') + word[end:], flags, '')
        if entry.word.strip(' ') != entry.word or not entry.word.strip(self.ignored):
            return entries, tables
        return entries + (entry,), tuple(one for one in tables if one[0] != 'REP') + (('REP', rows + (f'{front}{text}{back} {right}',)),)

    def pattern(self, entries):
        """A row of CHECKCOMPOUNDPATTERN, mostly of the ends of words that there are."""
        rolled = self.rolled
        left, right = rolled.choice(entries).word.replace(' ', 'a'), rolled.choice(entries).word.replace(' ', 'a')
        left, right = left[-rolled.randint(1, 2):].replace('/', 'a'), right[:rolled.randint(1, 2)].replace('/', 'a')
        flags = [flag for entry in entries for flag in sorted(entry.flags)] + [self.flags[0]]
        left = '0' if self.is_rolled(0.2) else left
        left_flag, right_flag = (rolled.choice(flags) if self.is_rolled(0.2) else None for _ in range(2))
        if left_flag is not None and self.is_rolled(0.2):
            left = ''
        return ((left, left_flag), (right, right_flag), rolled.choice((self.text(1, 2), self.text(1, 1), '# b')) if self.is_rolled(0.75) else '')

    def own(self, entries):
        """The lines of a personal list, or None."""
        if not self.is_about('own', 0.02):
            return None
        rolled, lines = self.rolled, []
        for _ in range(rolled.randint(1, 4)):
            word = rolled.choice((self.text(1, 3), rolled.choice(entries).word)).strip(' ')
            model = rolled.choice((rolled.choice(entries).word, self.text(1, 2))).replace('/', 'a')
            word, model = self.with_some(word), self.with_some(model)
            word = word[:1] + word[1:].replace('/', '\\/')
            lines.append(rolled.choice((word, word, '*' + word, '*' + word, f'{word}/{model}', f'{word}/{model}', f' {word} ', '', f'*{word}/')))
        return tuple(lines)

    def with_passed(self, made):
        """The dictionary with options that are passed over, and rarely with one that is refused."""
        rolled = self.rolled
        if self.is_about('passed', 0.02):
            flag = self.flags[-1]
            for text in rolled.sample(PASSED, rolled.randint(1, 5)):
                made = made._replace(options=made.options + ((text.format(flag=made.flag(flag)), ''),))
            made = made._replace(tables=made.tables + tuple(rolled.sample(PASSED_TABLES, rolled.randint(0, 3))))
            if self.is_rolled(0.06):
                made = made._replace(options=made.options + ((rolled.choice(LEFT_OUT), ''),))
        return made
