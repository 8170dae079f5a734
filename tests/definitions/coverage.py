"""What was tried: how words are generated, and how many verdicts each option changes."""

import collections
import contextlib

from characters import begins_upper, holds_lower
from compounds import PLAIN, SIMPLIFIED, TooManyLists, follows_rule, stands_at, stands_in_rule
from derivations import is_licensed
from lines import Wrong
from trial import verdicts_of
from verdicts import MOST_CHARACTERS, SHARP, case_of, converted, covered_by, is_number, plain_spellings, ways_to_break

# The ways in which a word may be generated or be marked. A run of many dictionaries has words of each.
WAYS = ('no affix', 'a suffix', 'two suffixes', 'a prefix', 'a prefix and a suffix', 'a prefix and two suffixes', 'a circumfix',
        'a suffix allowed by a prefix', 'a prefix allowed by a suffix', 'a prefix allowed by the second suffix', 'stripped whole',
        'another case: a capital at the front', 'another case: capitals', 'another case: capitals for a capital at the front',
        'another case: SS for ß', 'KEEPCASE with ß in another case', 'compound by flags', 'compound by a rule', 'compound of three parts or more',
        'compound with affixes inside', 'compound in another case', 'joint: plain', 'joint: simplified', 'joint: replaced', 'broken in the middle',
        'broken at the front', 'broken at the end', 'number', 'number before dots', 'word before dots', 'empty', 'converted', 'ignored', 'barred',
        'barred beside another entry', 'only inside compounds', 'too long', 'long number', 'a common misspelling')
# Options whose verdicts are counted without them. Each has to change some.
OPTIONS = ('PFX', 'SFX', 'FULLSTRIP', 'CIRCUMFIX', 'NEEDAFFIX', 'FORBIDDENWORD', 'ONLYINCOMPOUND', 'WARN', 'FORBIDWARN', 'KEEPCASE',
           'CHECKSHARPS', 'ICONV', 'IGNORE', 'BREAK', 'WORDCHARS', 'COMPOUNDFLAG', 'COMPOUNDBEGIN', 'COMPOUNDMIDDLE', 'COMPOUNDLAST',
           'COMPOUNDPERMITFLAG', 'COMPOUNDFORBIDFLAG', 'COMPOUNDMORESUFFIXES', 'COMPOUNDMIN', 'COMPOUNDWORDMAX', 'COMPOUNDRULE',
           'CHECKCOMPOUNDDUP', 'CHECKCOMPOUNDCASE', 'CHECKCOMPOUNDTRIPLE', 'SIMPLIFIEDTRIPLE', 'CHECKCOMPOUNDPATTERN', 'REP',
           'CHECKCOMPOUNDREP', 'FORCEUCASE', '--own')
SAME_OPTION = {'PSEUDOROOT': 'NEEDAFFIX', 'COMPOUNDEND': 'COMPOUNDLAST'}


def derivation_ways(one):
    """How a derivation is made."""
    shape = (one.prefix is not None, len(one.suffixes()))
    yield {(False, 0): 'no affix', (False, 1): 'a suffix', (False, 2): 'two suffixes', (True, 0): 'a prefix', (True, 1): 'a prefix and a suffix',
           (True, 2): 'a prefix and two suffixes'}[shape]
    if one.first and one.first.flag not in one.entry.flags:
        yield 'a suffix allowed by a prefix'
    if one.prefix and one.prefix.flag not in one.entry.flags:
        yield 'a prefix allowed by a suffix'
        if one.second and not is_licensed(one.entry, one.prefix, one.first, one.second._replace(carries=frozenset())):
            yield 'a prefix allowed by the second suffix'
    if one.affixes() and any(rule.strip == one.entry.word for rule in one.affixes()):
        yield 'stripped whole'


def case_ways(word, spelling):
    """How a spelling is written otherwise."""
    if word == spelling:
        return
    if spelling not in plain_spellings(word):
        yield 'another case: SS for ß'
    elif holds_lower(word):
        yield 'another case: a capital at the front'
    elif spelling[0] == word[0] and len(word) > 1:
        yield 'another case: capitals for a capital at the front'
    else:
        yield 'another case: capitals'


def compound_ways(verdicts, spelling, is_other, has_capital):
    """How a compound is made up, by its first list of parts."""
    compounds, dictionary = verdicts.compounds, verdicts.dictionary
    parts = [one for one in compounds.long_enough if not (is_other and dictionary.is_in('KEEPCASE', one.entry.flags))]
    for how, name in ((stands_at, 'compound by flags'), (stands_in_rule, 'compound by a rule')):
        for chosen in compounds.lists_of_parts(spelling, parts, how):
            if not compounds.may_end(chosen, has_capital) or (how is stands_in_rule and not follows_rule(dictionary, chosen)):
                continue
            yield name
            if len(chosen) > 2:
                yield 'compound of three parts or more'
            if is_other:
                yield 'compound in another case'
            if any(one.affixes() for one in chosen[:-1]):
                yield 'compound with affixes inside'
            joints = [compounds.joints_between(*pair) for pair in zip(chosen, chosen[1:])]
            for kind, of_kind in (('plain', lambda joint: joint == PLAIN), ('simplified', lambda joint: joint == SIMPLIFIED),
                                  ('replaced', lambda joint: joint.put != '')):
                if any(all(map(of_kind, some)) for some in joints):
                    yield f'joint: {kind}'
            break


def base_ways(verdicts, word):
    """How a word is a base."""
    for spelling in covered_by(verdicts.dictionary, word):
        found = verdicts.derivations_as(word, spelling)
        for one in found:
            yield from derivation_ways(one)
            if one.prefix and verdicts.dictionary.is_in('CIRCUMFIX', one.prefix.carries):
                yield 'a circumfix'
        keeps = any(verdicts.dictionary.is_in('KEEPCASE', one.entry.flags) for one in found)
        if keeps and case_of(verdicts.dictionary, word, spelling) == SHARP:
            yield 'KEEPCASE with ß in another case'
        if verdicts.is_right_spelling(word, spelling):
            yield from case_ways(word, spelling)
            if not found:
                yield from compound_ways(verdicts, spelling, word != spelling, begins_upper(word))


def ways_of(verdicts, word):
    """How a word that is looked up is generated, or why it is marked, as far as that is told apart."""
    dictionary = verdicts.dictionary
    undotted = word.rstrip('.')
    if word == '':
        yield 'empty'
    elif is_number(word):
        yield 'number' if len(word) <= MOST_CHARACTERS else 'long number'
    elif len(word) > MOST_CHARACTERS:
        yield 'too long'
    elif verdicts.is_barred(word):
        yield 'barred'
        if word in verdicts.forms.alone:
            yield 'barred beside another entry'
    elif verdicts.is_base(word):
        yield from base_ways(verdicts, word)
    elif verdicts.is_broken(word):
        for pieces in ways_to_break(dictionary, word):
            if all(map(verdicts.is_broken, pieces)):
                at_end = word.startswith(pieces[0])
                yield 'broken in the middle' if len(pieces) > 1 else 'broken at the end' if at_end else 'broken at the front'
    elif '.' in dictionary.wordchars and undotted not in ('', word) and verdicts.accepts(word):
        yield 'number before dots' if is_number(undotted) else 'word before dots'
    elif word in {one.form for one in verdicts.forms.sound} and word not in verdicts.forms.alone:
        yield 'only inside compounds'
    elif dictionary.has('CHECKCOMPOUNDREP') and is_misspelling(verdicts, word):
        yield 'a common misspelling'


def is_misspelling(verdicts, word):
    """Whether a word is no compound only because of CHECKCOMPOUNDREP."""
    dictionary = verdicts.dictionary
    dictionary.switches.discard('CHECKCOMPOUNDREP')
    found = verdicts.compounds.is_compound(word, False, begins_upper(word))
    dictionary.switches.add('CHECKCOMPOUNDREP')
    return found


class Counts:
    """What a run has tried."""

    def __init__(self):
        self.words, self.ways, self.kinds = collections.Counter(), collections.Counter(), collections.Counter()
        self.looked_at = 0
        self.with_option, self.changing, self.accepting, self.marking = (collections.Counter() for _ in range(4))

    def add_words(self, trial):
        """Counts a dictionary and the words that it was asked."""
        self.kinds[f'FLAG {trial.made.kind or "none"}'] += 1
        self.kinds['AF'] += trial.made.has_aliases
        self.kinds['refused as LeftOut'] += trial.left_out is not None
        self.words['left out, with too many lists of parts'] += trial.hard
        for word in trial.cut:
            self.words['generated' if trial.verdicts.yields(word) else 'marked'] += 1

    def add_ways(self, trial):
        """Counts what was tried by one dictionary. That takes longer than the comparison."""
        if trial.left_out:
            return
        made, verdicts = trial.made, trial.verdicts
        self.looked_at += 1
        for word in trial.cut:
            looked_up = verdicts.looked_up(word)
            ways = set()
            with contextlib.suppress(TooManyLists):
                ways.update(ways_of(verdicts, looked_up))
            if converted(verdicts.dictionary, word) != word:
                ways.add('converted')
            if looked_up != converted(verdicts.dictionary, word):
                ways.add('ignored')
            self.ways.update(ways)
        names = made.names() | {'PFX' if one.is_prefix else 'SFX' for one in made.classes} | {'--own' for _ in (made.own or ())}
        for name in sorted(names):
            if SAME_OPTION.get(name, name) in OPTIONS:
                self.try_without(trial, name)

    def try_without(self, trial, name):
        """Counts the words that have another verdict without an option."""
        option = SAME_OPTION.get(name, name)
        try:
            other = verdicts_of(trial.made.without(name))
            accepting = sum(trial.verdicts.yields(word) and not other.yields(word) for word in trial.cut)
            marking = sum(not trial.verdicts.yields(word) and other.yields(word) for word in trial.cut)
        except (Wrong, TooManyLists):
            return
        self.with_option[option] += 1
        self.changing[option] += accepting + marking > 0
        self.accepting[option] += accepting
        self.marking[option] += marking

    def never(self):
        """What no word has shown."""
        return [way for way in WAYS if not self.ways[way]] + [option for option in OPTIONS if not self.changing[option]]

    def told(self):
        """The counts, by lines."""
        lines = ['words: ' + ', '.join(f'{count} {name}' for name, count in sorted(self.words.items()))]
        lines.append('dictionaries: ' + ', '.join(f'{count} {name}' for name, count in sorted(self.kinds.items())))
        lines += [f'words of {self.looked_at} dictionaries, by how they are generated, or why they are marked:']
        lines += [f'  {self.ways[way]:7} {way}' for way in WAYS]
        lines += ['options of these: dictionaries with it; those with another verdict without it; words generated, and marked, only with it:']
        lines += [f'  {self.with_option[one]:6} {self.changing[one]:6} {self.accepting[one]:7} {self.marking[one]:7} {one}' for one in OPTIONS]
        return '\n'.join(lines + [f'never seen: {one}' for one in self.never()])
