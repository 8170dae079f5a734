"""Derivations: what affix rules make of entries, formed forwards. And which of them are sound, stand alone, or forbid their form."""

from typing import NamedTuple

from dictionary import Entry, Rule


class Derivation(NamedTuple):
    """An entry with at most a first suffix, a second one where there is a first, and a prefix. Its form is the word that comes of it.
    Derivations are in the order of their places: by entry, prefix, first and second suffix, with no affix before any."""
    places: tuple
    entry: Entry
    prefix: Rule
    first: Rule
    second: Rule
    form: str

    def suffixes(self):
        """The first and the second suffix, as far as they are there."""
        return [rule for rule in (self.first, self.second) if rule]

    def affixes(self):
        """The prefix and the suffixes, as far as they are there."""
        return [rule for rule in (self.prefix, self.first, self.second) if rule]


# ---- Attaching: PFX, SFX, FULLSTRIP

def attached(dictionary, rule, word):
    """The word with this rule attached, or None. A suffix rule is for words that end with what it strips, a prefix rule for those that
    begin with it. Its condition has to fit there before anything is stripped. Something has to be left of the word, unless FULLSTRIP
    is set."""
    if len(rule.strip) >= len(word) and not dictionary.has('FULLSTRIP'):
        return None
    size = len(rule.condition)
    if size > len(word):
        return None
    if rule.is_prefix:
        if not word.startswith(rule.strip) or not fits(rule.condition, word[:size]):
            return None
        return rule.add + word[len(rule.strip):]
    if not word.endswith(rule.strip) or not fits(rule.condition, word[len(word) - size:]):
        return None
    return word[:len(word) - len(rule.strip)] + rule.add


def fits(condition, characters):
    """Whether each piece of a condition accepts one of so many characters."""
    return all(piece.accepts(character) for piece, character in zip(condition, characters))


def form_of(dictionary, entry, prefix, first, second):
    """The entry's word with the first suffix attached, then the second, and last the prefix; None where one of them can't be."""
    form = entry.word
    for rule in (first, second, prefix):
        if rule and form is not None:
            form = attached(dictionary, rule, form)
    return form


# ---- Who allows which affix

def is_licensed(entry, prefix, first, second):
    """Whether each affix is allowed. The entry allows the first suffix, or a prefix does that the entry allows. The first suffix allows
    the second. The entry or a suffix allows the prefix. A prefix stands with suffixes only where the classes of all have a `Y`."""
    is_prefix_of_entry = prefix is not None and prefix.flag in entry.flags
    if first and not (first.flag in entry.flags or is_prefix_of_entry and first.flag in prefix.carries):
        return False
    if second and not (first and second.flag in first.carries):
        return False
    if prefix and not (is_prefix_of_entry or any(rule and prefix.flag in rule.carries for rule in (first, second))):
        return False
    if prefix and first and not all(rule.crosses for rule in (prefix, first, second) if rule):
        return False
    return True


def all_derivations(dictionary):
    """All licensed derivations over the entries and the rules that have a form, in their order."""
    prefixes = [(-1, None)] + [(place, rule) for place, rule in enumerate(dictionary.rules) if rule.is_prefix]
    suffixes = [(-1, None)] + [(place, rule) for place, rule in enumerate(dictionary.rules) if not rule.is_prefix]
    found = []
    for number, entry in enumerate(dictionary.entries):
        for prefix_place, prefix in prefixes:
            for first_place, first in suffixes:
                for second_place, second in suffixes if first else suffixes[:1]:
                    if is_licensed(entry, prefix, first, second):
                        form = form_of(dictionary, entry, prefix, first, second)
                        if form is not None:
                            places = (number, prefix_place, first_place, second_place)
                            found.append(Derivation(places, entry, prefix, first, second, form))
    return found


# ---- What a licensed derivation may be

def is_sound(dictionary, derivation):
    """NEEDAFFIX: some affix lacks it or, where there is none, the entry does. CIRCUMFIX: the prefix carries it exactly where a suffix
    does."""
    affixes = derivation.affixes()
    if affixes:
        has_enough = any(not dictionary.is_in('NEEDAFFIX', rule.carries) for rule in affixes)
    else:
        has_enough = not dictionary.is_in('NEEDAFFIX', derivation.entry.flags)
    in_front = derivation.prefix is not None and dictionary.is_in('CIRCUMFIX', derivation.prefix.carries)
    behind = any(dictionary.is_in('CIRCUMFIX', rule.carries) for rule in derivation.suffixes())
    return has_enough and in_front == behind


def is_forbidden_entry(dictionary, entry):
    """Whether an entry has FORBIDDENWORD."""
    return dictionary.is_in('FORBIDDENWORD', entry.flags)


def is_rare_entry(dictionary, entry):
    """Whether an entry has WARN, and FORBIDWARN is set."""
    return dictionary.has('FORBIDWARN') and dictionary.is_in('WARN', entry.flags)


def is_alone(dictionary, derivation):
    """Whether a sound derivation stands as a word by itself."""
    is_inside_only = any(dictionary.is_in('ONLYINCOMPOUND', flags)
                         for flags in [derivation.entry.flags, *(rule.carries for rule in derivation.affixes())])
    return not is_forbidden_entry(dictionary, derivation.entry) and not is_inside_only and not is_rare_entry(dictionary, derivation.entry)


class Forms:
    """The forms of a dictionary: its sound derivations, those that stand alone by their forms, and the forms that are forbidden."""

    def __init__(self, dictionary):
        self.derivations = all_derivations(dictionary)
        self.sound = [one for one in self.derivations if is_sound(dictionary, one)]
        self.alone = {}
        for one in self.sound:
            if is_alone(dictionary, one):
                self.alone.setdefault(one.form, []).append(one)
        # A word is barred if it is the form of a sound derivation from an entry with FORBIDDENWORD, whatever other entries say.
        self.barred = {one.form for one in self.sound if is_forbidden_entry(dictionary, one.entry)}

    def listed(self):
        """What `forms` lists: the words that stand alone and are not barred, by the numbers of their characters, each once."""
        return sorted(form for form in self.alone if form != '' and form not in self.barred)
