"""Random scripts of `team`."""

import console_files as files
from console_model import is_edge

# How often a kind of line comes beside the others. Few put paragraphs in and take them out: see team_history.py.
KINDS = {'put': 10, 'sub': 12, 'ins': 4, 'del': 2, 'show': 9, 'settle': 3, 'stop': 4, 'ask': 4, 'load': 2, 'own': 0.5, 'no_place': 1,
         'bad_span': 1, 'long': 0.2, 'blank': 1, 'no_command': 1, 'quit': 0.1}
NO_COMMANDS = [b'show ', b' show', b'SHOW', b'ins', b'ins x', b'put', b'sub 1 0', b'del 1 ', b'stop', b'ask one', b'load a.aff',
               b'load  a.aff a.dic', b'own', b'own ', b'own wurk', b'own *hello', b'Own wurk', b'quit ', b'settle 1', b'1', b'\x0b', b'#']
WORDS = ['hello', 'tried', 'worked', 'foobar', 'bars', 'wurk', 'paris', 'Paris', 'straße', 'xx']


class Writer:
    """Writes the lines of sessions. It keeps the text that came of them if each was done where it stands in the script."""

    def __init__(self, random, count, pairs):
        self.random, self.count, self.texts, self.named = random, count, [], 0
        # The pairs that are loaded, of which there are four at most.
        self.pairs = pairs
        self.weights = [weight * random.choice((0.3, 1, 1, 2)) for weight in KINDS.values()]
        # A paragraph that sessions like to touch, and how many of the first ones they do.
        self.busy, self.few = random.choice((1, 2, 5, None)), random.choice((2, 4, 6, 30))

    def lines(self, most):
        """The lines of a script: for each session up to so many, in an order that mixes them."""
        rolled = self.random
        turns = [session for session in range(self.count) for _ in range(rolled.randint(1, most))]
        if rolled.random() < 0.8:
            rolled.shuffle(turns)
        numbers = rolled.sample(range(1, 17), self.count)
        fronts, begun = rolled.choices((0, 1, 2, 4), k=self.count), [0] * self.count
        for session in turns:
            if rolled.random() < 0.02:
                yield rolled.choice((b'', b' ', b'\t '))
            number = b'%0*d' % (rolled.choice((1, 1, 2)), numbers[session])
            text = self.line() if begun[session] >= fronts[session] else self.write_ins()
            begun[session] += 1
            yield number + (b' ' + text if text else rolled.choice((b'', b' ')))
        for number in numbers:
            if rolled.random() < 0.1:
                yield from (b'%d %s' % (number, text) for text in (b'quit', b'show', self.write_load())[:rolled.randint(1, 3)])
            elif rolled.random() < 0.3:
                yield from (b'%d %s' % (number, text) for text in (b'settle', b'show'))

    def line(self):
        return getattr(self, 'write_' + self.random.choices(list(KINDS), self.weights)[0])()

    def name(self):
        """A character that no other line has. It is a letter, and a word that no dictionary has."""
        self.named += 1
        return chr(0x4E00 + self.named)

    def text(self):
        rolled = self.random
        words = [self.name()] * (rolled.random() < 0.9) + rolled.choices(WORDS, k=rolled.choice((0, 1, 1, 2)))
        if rolled.random() < 0.1:
            # A word that takes the rules a while, so that others come between.
            words.append(''.join(rolled.choices(files.STEMS, k=3)))
        rolled.shuffle(words)
        return rolled.choice((' ', ' ', ' ', '  ', ', ')).join(words).encode()

    def place(self):
        count, near = max(min(len(self.texts), self.few), 1), self.random.random() < 0.3
        return min(self.busy, count) if self.busy and near else self.random.randint(1, count)

    def write_ins(self):
        text = self.text()
        place = self.random.randint(1, min(len(self.texts), self.few) + 1)
        self.texts.insert(place - 1, text)
        return b'ins %d' % place + (b' ' + text if text else b'')

    def write_put(self):
        place, text = self.place(), self.text()
        if place <= len(self.texts):
            self.texts[place - 1] = text
        return b'put %d %s' % (place, text)

    def write_sub(self):
        rolled, place = self.random, self.place()
        text = self.texts[place - 1] if place <= len(self.texts) else b''
        edges = [at for at in range(len(text) + 1) if is_edge(text, at)]
        start, end = sorted(rolled.choices(edges, k=2))
        start, end = rolled.choice(((0, 0), (0, 5), (0, 0), (start, end), (len(text), len(text))))
        put = rolled.choice((b'x', b'', *(self.name().encode() + end for end in (b'', b' ', b'', b' ', b'', b' '))))
        if place <= len(self.texts):
            self.texts[place - 1] = text[:start] + put + text[end:]
        return b'sub %d %d %d %s' % (place, start, end, put)

    def write_del(self):
        place = self.place()
        del self.texts[place - 1:place]
        return b'del %d' % place

    def write_show(self):
        return b'show'

    def write_settle(self):
        return b'settle'

    def write_stop(self):
        return b'stop %d' % self.place()

    def write_ask(self):
        return b'ask %d' % self.place()

    def write_load(self):
        return b'load %s %s' % self.random.choice(self.pairs)

    def write_own(self):
        return self.random.choice((b'own', b'own wurk', b'own  ', b'own *hello'))

    def write_no_place(self):
        line = self.random.choice((b'ins %d x', b'put %d x', b'sub %d 0 0 x', b'del %d', b'stop %d', b'ask %d'))
        return line % self.random.choice((0, len(self.texts) + 1, len(self.texts) + 2, 999_999_999))

    def write_bad_span(self):
        return b'sub %d %d %d x' % (self.place(), *self.random.choice(((1, 0), (0, 99), (3, 2), (60, 60))))

    def write_long(self):
        return b'%s %d %s' % (self.random.choice((b'ins', b'put', b'sub')), self.place(), b'0 0 ' + b'x' * 65_537)

    def write_blank(self):
        return self.random.choice((b'', b' ', b'\t'))

    def write_quit(self):
        return b'quit'

    def write_no_command(self):
        return self.random.choice(NO_COMMANDS)


def some_pairs(random):
    """Four pairs at most, of which some have a bad line."""
    bad = [(aff, dic) for aff in files.BAD_AFF for dic in (b'a.dic', b'bad.dic')] + [(b'a.aff', dic) for dic in files.BAD_DIC]
    return random.sample(files.GOOD, random.randint(1, 3)) + random.sample(bad, random.choice((0, 0, 1)))
