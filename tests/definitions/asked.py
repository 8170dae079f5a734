"""What a dictionary is asked: words that it generates and words that are nearly so, as a text of `check` and as lines of `pipe`."""

from compounds import PLAIN, SIMPLIFIED, Joint, joints_of

# Digits and what stands between them, dots at ends, and what stands between words.
NUMBERS = ('1', '12', '12.', '1.2..', '1.2', '1,2', '1-2', '1..2', '1.', '.1', '1-', '1.2.', '1,2-3', '2a', '1' * 101, '1.' * 60 + '1',
           '12..', '1' * 101 + '.')
BETWEEN = (' ', ' ', ' ', ' ', '\t', '. ', ', ', ' (', ') ', '-', '--', "'", "''", '\u2019', '/', '_', '\u00a0', '. . ', ' \u0301 ', '...')
OUTSIDE = 'xyABab-\'ßſİK12.'
MOST_CHARACTERS = 12


class Asker:
    """Makes words and texts for a dictionary that was made."""

    def __init__(self, rolled, made, verdicts):
        self.rolled, self.made, self.verdicts = rolled, made, verdicts
        dictionary, forms = verdicts.dictionary, verdicts.forms
        self.dictionary = dictionary
        # Also what is not sound, as a prefix without its circumfix, since it is to be marked.
        self.parts = [one for one in forms.derivations if one.form]
        self.forms = sorted({one.form for one in self.parts})
        pairs = [(rolled.choice(self.parts), rolled.choice(self.parts)) for _ in range(40) if self.parts]
        # Neighbours that are written together otherwise than one behind the other.
        self.joined = [pair for pair in pairs if any(joint != PLAIN for joint in joints_of(dictionary, *pair))]
        self.twofold = [one for one in self.parts if one.second]
        self.entry_words = [entry.word for entry in dictionary.entries]
        self.alphabet = sorted(set(''.join(self.entry_words + self.forms) + OUTSIDE[:1]))

    def words(self, count):
        """Words of all kinds. Forms and entries come first, so that each of a small dictionary is asked of."""
        rolled = self.rolled
        words = rolled.sample(self.forms, min(len(self.forms), count // 3))
        words += rolled.sample(self.entry_words, min(len(self.entry_words), 6))
        words += rolled.sample(self.misspelled(), min(len(self.misspelled()), 6))
        if self.dictionary.has('CHECKSHARPS'):
            words += [rolled.choice((word.upper(), word[0].upper() + word[1:]))
                      for word in rolled.sample(self.forms, min(len(self.forms), 4)) if 'ß' in word]
        while len(words) < count:
            words.append(self.changed(self.base()))
        return words

    def misspelled(self):
        """What a row of REP turns into the word of an entry."""
        return [word[:place] + rep.wrong.text + word[place + len(rep.right):] for word in self.entry_words for rep in self.dictionary.reps
                for place in range(len(word)) if word.startswith(rep.right, place)]

    def base(self):
        """A form, a compound, or characters at random."""
        rolled = self.rolled
        is_compound = self.made.names() & {'COMPOUNDFLAG', 'COMPOUNDBEGIN', 'COMPOUNDLAST', 'COMPOUNDEND', 'COMPOUNDRULE'}
        kind = rolled.random()
        if kind < (0.55 if is_compound else 0.1) and self.parts:
            return self.compound()
        if kind < 0.85 and self.forms:
            return rolled.choice(self.forms)
        if kind < 0.9:
            return rolled.choice(NUMBERS)
        return ''.join(rolled.choice(self.alphabet) for _ in range(rolled.randint(1, 5)))

    def compound(self):
        """Some forms, written together by joints that there are, and now and then by none that is allowed."""
        rolled = self.rolled
        parts = [rolled.choice(self.parts) for _ in range(rolled.choice((2, 2, 2, 2, 3, 3, 4)))]
        if self.joined and rolled.random() < 0.5:
            parts[:2] = rolled.choice(self.joined)
        elif self.twofold and rolled.random() < 0.4:
            parts[0] = rolled.choice(self.twofold)
        word, off = '', 0
        for left, right in zip(parts, parts[1:]):
            joints = joints_of(self.dictionary, left, right)
            is_allowed = joints and rolled.random() < 0.8
            joint = rolled.choice(joints if is_allowed else (PLAIN, PLAIN, SIMPLIFIED, Joint(0, '', 1)))
            word, off = word + left.form[off:len(left.form) - joint.off_left] + joint.put, joint.off_right
        return (word + parts[-1].form[off:])[:MOST_CHARACTERS]

    def changed(self, word):
        """The word as it may be written: in another case, broken, near, or as it is."""
        rolled = self.rolled
        kind = rolled.random()
        if 'BREAK' in self.made.names() or '-' in self.dictionary.wordchars:
            kind *= 1.4
        if kind < 0.25:
            return word
        if kind < 0.5:
            return self.near(word)
        if kind < 0.75:
            return rolled.choice((word.upper(), word.lower(), word[:1].upper() + word[1:], word[:1].upper() + word[1:].lower(),
                                  word.upper().replace('SS', 'ẞ', 1), word.title(), word.swapcase()))
        if kind < 0.8:
            return word + rolled.choice(('.', '.', '..', '-', "'", "'s", '1'))
        if kind < 0.85 and self.dictionary.conversions:
            wrong, right = rolled.choice(self.dictionary.conversions)
            return rolled.choice((word.replace(right, wrong, 1), word.replace(right, wrong), word + wrong, wrong + word))
        if kind < 0.9 and self.dictionary.ignored:
            place = rolled.randint(0, len(word))
            return word[:place] + rolled.choice(self.dictionary.ignored) + word[place:]
        if kind < 0.97 or not self.dictionary.breaks:
            return word
        return self.broken(word)

    def broken(self, word):
        """The word with break points in it and around it."""
        rolled = self.rolled
        for _ in range(rolled.choice((1, 1, 2))):
            pattern = rolled.choice(self.dictionary.breaks)
            other = rolled.choice(self.forms) if self.forms else 'a'
            if pattern.at_front or pattern.at_end or rolled.random() < 0.2:
                word = rolled.choice((pattern.text + word, word + pattern.text))
            else:
                word = rolled.choice((word + pattern.text + other, other + pattern.text + word))
        return word[:MOST_CHARACTERS + 6]

    def near(self, word):
        """The word with a character left out, put in, changed or moved."""
        rolled = self.rolled
        place = rolled.randint(0, max(len(word) - 1, 0))
        character = rolled.choice(self.alphabet) if rolled.random() < 0.8 else rolled.choice(OUTSIDE)
        return rolled.choice((word[:place] + word[place + 1:], word[:place] + character + word[place:], word[:place] + character + word[place + 1:],
                              word[:place] + word[place + 1:place + 2] + word[place:place + 1] + word[place + 2:])) or 'a'

    def text(self, words):
        """A text of some words, by lines, with other characters between and around them."""
        rolled, pieces = self.rolled, []
        for word in words:
            pieces += [word, '\n' if rolled.random() < 0.3 else rolled.choice(BETWEEN) if rolled.random() < 0.5 else ' ']
        text = ('\ufeff' if rolled.random() < 0.05 else '') + ''.join(pieces)
        return text.replace('\n', '\r\n') if rolled.random() < 0.05 else text

    def lines(self, words):
        """Lines for `pipe`: words behind a `^`, without one, and lines that ask for another way to answer."""
        rolled, lines = self.rolled, []
        while words:
            count = rolled.randint(1, 4)
            line = rolled.choice(('^', '^', '^', '', '', ' ', '^ ', '^^', '!', '%', '*', '&', '#', '@')) + rolled.choice(BETWEEN).join(words[:count])
            lines.append(line)
            words = words[count:]
        # A line that is not UTF-8 is answered by its number.
        return b''.join((b'\xff' if rolled.random() < 0.02 else b'') + line.encode() + (b'\xe4' if rolled.random() < 0.02 else b'') + b'\n'
                        for line in lines)
