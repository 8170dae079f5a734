"""Compounds: all lists of parts that write a word, formed forwards, part by part."""

from typing import NamedTuple

from characters import is_upper
from derivations import is_forbidden_entry, is_rare_entry

FIRST, MIDDLE, LAST = 'first', 'middle', 'last'
# The flag that allows a part at each place.
ALLOWING = {FIRST: 'COMPOUNDBEGIN', MIDDLE: 'COMPOUNDMIDDLE', LAST: 'COMPOUNDLAST'}


class TooManyLists(Exception):
    """A word has more lists of parts than this program looks at."""


# ---- Parts

def has_right_entry(dictionary, part):
    """No part is of an entry with FORBIDDENWORD, nor, with FORBIDWARN, of one with WARN."""
    return not is_forbidden_entry(dictionary, part.entry) and not is_rare_entry(dictionary, part.entry)


def is_allowed_at(dictionary, part, place):
    """COMPOUNDFLAG allows a part at each place; COMPOUNDBEGIN, COMPOUNDMIDDLE and COMPOUNDLAST at one. The entry has it, or an affix."""
    return any(dictionary.is_in(name, flags) for name in ('COMPOUNDFLAG', ALLOWING[place])
               for flags in [part.entry.flags, *(rule.carries for rule in part.affixes())])


def is_not_forbidden_at(dictionary, part, place):
    """COMPOUNDFORBIDFLAG: no affix carries it, and an entry that has it stands at the last place alone."""
    if any(dictionary.is_in('COMPOUNDFORBIDFLAG', rule.carries) for rule in part.affixes()):
        return False
    return place == LAST or not dictionary.is_in('COMPOUNDFORBIDFLAG', part.entry.flags)


def are_affixes_permitted_at(dictionary, part, place):
    """A prefix at the first place and suffixes at the last stand freely. Any other affix carries COMPOUNDPERMITFLAG."""
    asked = [part.prefix] if part.prefix and place != FIRST else []
    asked += part.suffixes() if place != LAST else []
    return all(dictionary.is_in('COMPOUNDPERMITFLAG', rule.carries) for rule in asked)


def are_suffixes_few_at(dictionary, part, place):
    """Two suffixes stand at the last place, and elsewhere only with COMPOUNDMORESUFFIXES."""
    return len(part.suffixes()) < 2 or place == LAST or dictionary.has('COMPOUNDMORESUFFIXES')


def stands_at(dictionary, part, place):
    """Whether a derivation may stand at a place of a compound by its flags."""
    return (is_allowed_at(dictionary, part, place) and has_right_entry(dictionary, part) and is_not_forbidden_at(dictionary, part, place)
            and are_affixes_permitted_at(dictionary, part, place) and are_suffixes_few_at(dictionary, part, place))


def stands_in_rule(dictionary, part, place):
    """Whether a derivation may stand at a place of a compound that follows a compound rule: no prefix, and a suffix at the end alone."""
    return (has_right_entry(dictionary, part) and part.prefix is None and (place == LAST or part.first is None)
            and not any(dictionary.is_in('COMPOUNDFORBIDFLAG', rule.carries) for rule in part.affixes()))


# ---- Compound rules

def matches(steps, flag_sets):
    """Whether flag sets fall into stretches, one for each step: of one set, of one or none (`?`), or of any number (`*`). Each set of a
    stretch holds the flag of its step."""
    if not steps:
        return not flag_sets
    step, most = steps[0], len(flag_sets)
    sizes = {'': [1], '?': [0, 1], '*': range(most + 1)}[step.sign]
    return any(size <= most and all(step.flag in flags for flags in flag_sets[:size]) and matches(steps[1:], flag_sets[size:])
               for size in sizes)


def follows_rule(dictionary, parts):
    """Whether the flags of the entries of some parts match a compound rule."""
    return any(matches(steps, [part.entry.flags for part in parts]) for steps in dictionary.compound_rules)


# ---- Where two parts meet

class Joint(NamedTuple):
    """How two parts are written together. So many characters are taken off the end of the left one, and a text is put in their place.
    So many are taken off the front of the right one."""
    off_left: int
    put: str
    off_right: int


PLAIN, SIMPLIFIED = Joint(0, '', 0), Joint(1, '', 0)


def is_doubled(dictionary, left, right):
    """CHECKCOMPOUNDDUP: two neighbours are the same text."""
    return dictionary.has('CHECKCOMPOUNDDUP') and left == right


def is_capital_inside(dictionary, left, right):
    """CHECKCOMPOUNDCASE: a capital stands beside the place where they meet, and no dash does."""
    beside = (left[-1], right[0])
    return dictionary.has('CHECKCOMPOUNDCASE') and any(map(is_upper, beside)) and '-' not in beside


def is_tripled(dictionary, left, right):
    """CHECKCOMPOUNDTRIPLE: a character stands three times in a row, and not in one of the two alone."""
    three = (left[-2:] + right[:1], left[-1:] + right[:2])
    return dictionary.has('CHECKCOMPOUNDTRIPLE') and any(len(text) == 3 and len(set(text)) == 1 for text in three)


def fits_pattern(pattern, left, right):
    """Whether a row of CHECKCOMPOUNDPATTERN fits two neighbours. By `0` the left one is its entry's word as it is. Flags are of entries."""
    if pattern.end is None:
        if left.form != left.entry.word:
            return False
    elif not left.form.endswith(pattern.end):
        return False
    return (right.form.startswith(pattern.begin)
            and (pattern.end_flag is None or pattern.end_flag in left.entry.flags)
            and (pattern.begin_flag is None or pattern.begin_flag in right.entry.flags))


def joints_of(dictionary, left, right):
    """All joints by which two neighbours may be written together."""
    doubled = is_doubled(dictionary, left.form, right.form)
    capital = is_capital_inside(dictionary, left.form, right.form)
    tripled = is_tripled(dictionary, left.form, right.form)
    fitting = [pattern for pattern in dictionary.patterns if fits_pattern(pattern, left, right)]
    joints = []
    if not doubled and not capital and not tripled and not fitting:
        joints.append(PLAIN)
    if dictionary.has('SIMPLIFIEDTRIPLE') and tripled and not doubled and not capital and not fitting:
        joints.append(SIMPLIFIED)
    if not doubled and not capital and not tripled:
        joints += [Joint(len(pattern.end or ''), pattern.replacement, len(pattern.begin))
                   for pattern in fitting if pattern.replacement is not None]
    return joints


# ---- Common misspellings: CHECKCOMPOUNDREP

def rep_variants(dictionary, word):
    """The words that one row of REP makes of a word, applied at one place where its anchors allow."""
    for rep in dictionary.reps:
        text = rep.wrong.text
        for place in range(len(word) - len(text) + 1):
            end = place + len(text)
            if word[place:end] == text and (place == 0 or not rep.wrong.at_front) and (end == len(word) or not rep.wrong.at_end):
                yield word[:place] + rep.right + word[end:]


# ---- Lists of parts

class Compounds:
    """The compounds of a dictionary with these forms."""
    MOST_STEPS = 60_000

    def __init__(self, dictionary, forms):
        self.dictionary, self.forms = dictionary, forms
        self.long_enough = [one for one in forms.sound if len(one.form) >= dictionary.compound_min]
        self.joints, self.places, self.steps = {}, {}, 0

    def is_compound(self, word, is_other_case, begins_upper):
        """Whether some parts make up a spelling and, with CHECKCOMPOUNDREP, it is no common misspelling. The word may be written in
        another case than the spelling, and may begin with a capital."""
        if self.dictionary.has('CHECKCOMPOUNDREP') and any(variant in self.forms.alone for variant in rep_variants(self.dictionary, word)):
            return False
        # In another case no part is of an entry with KEEPCASE.
        parts = [one for one in self.long_enough if not (is_other_case and self.dictionary.is_in('KEEPCASE', one.entry.flags))]
        self.steps = 0
        if any(self.may_end(one, begins_upper) for one in self.lists_of_parts(word, parts, stands_at)):
            return True
        return bool(self.dictionary.compound_rules) and any(
            self.may_end(one, begins_upper) and follows_rule(self.dictionary, one) for one in self.lists_of_parts(word, parts, stands_in_rule))

    def may_end(self, parts, begins_upper):
        """A last part whose entry has FORCEUCASE stands only in a word that is written with a capital at its front."""
        return begins_upper or not self.dictionary.is_in('FORCEUCASE', parts[-1].entry.flags)

    def lists_of_parts(self, word, parts, stands):
        """All lists of two parts or more that write the word, each of which stands at its place, and any two neighbours of which are
        written together by some joint."""
        most = len(word) if self.dictionary.most_parts is None else self.dictionary.most_parts

        def grown(front, chosen, off):
            """The lists that go on from some chosen parts. All but the last of these write the front; so much is off the last's own front."""
            last = chosen[-1]
            if len(chosen) > 1 and len(last.form) > off and front + last.form[off:] == word and self.stands(stands, last, LAST):
                yield chosen
            if len(chosen) >= most or not self.stands(stands, last, FIRST if len(chosen) == 1 else MIDDLE):
                return
            for part in parts:
                for joint in self.joints_between(last, part):
                    self.steps += 1
                    if self.steps > self.MOST_STEPS:
                        raise TooManyLists
                    # Each part keeps a character of its own.
                    if off + joint.off_left < len(last.form) and joint.off_right < len(part.form):
                        behind = front + last.form[off:len(last.form) - joint.off_left] + joint.put
                        if word.startswith(behind + part.form[joint.off_right]):
                            yield from grown(behind, [*chosen, part], joint.off_right)

        for part in parts:
            if part.form[0] == word[0]:
                yield from grown('', [part], 0)

    def stands(self, how, part, place):
        """Whether a part may stand so at a place, asked once."""
        key = (how, part.places, place)
        if key not in self.places:
            self.places[key] = how(self.dictionary, part, place)
        return self.places[key]

    def joints_between(self, left, right):
        """The joints of two neighbours, looked for once."""
        key = (left.places, right.places)
        if key not in self.joints:
            self.joints[key] = joints_of(self.dictionary, left, right)
        return self.joints[key]
