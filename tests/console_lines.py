"""Random lines of a dialogue, for a text that a model of the console has come to."""

import console_files as files
from console_model import MARK, MOST_BYTES, STOPPED, Dictionary, Model, is_edge

# How often a kind of line comes beside the others.
KINDS = {'ins': 14, 'put': 6, 'sub': 18, 'typed': 4, 'del': 4, 'show': 10, 'settle': 3, 'stop': 6, 'ask': 5, 'load': 3, 'own': 3,
         'bad_span': 4, 'no_place': 3, 'long': 0.3, 'blank': 2, 'no_command': 3, 'no_utf8': 2}
NO_COMMANDS = [
    b'show ', b' show', b'SHOW', b'\tshow', b'show x', b'ins', b'ins ', b'ins x', b'ins +1 x', b'ins -1 x', b'ins 1234567890 x',
    b'ins  1 x', b'put', b'put 0000000001 x', b'sub 1 0', b'sub 1 0 x', b'sub 1 0 1000000000 x', b'sub 1  0 0', b'del', b'del 1 ',
    b'del 1 1', b'del  1', b'stop', b'stop 1 ', b'ask one', b'load a.aff', b'load a.aff ', b'load  a.aff a.dic',
    b'load a.aff a.dic ', b'load a.aff a.dic a.dic', b'own\twurk', b'Own wurk', b'settle ', b'settle 1', b'quit ', b'quit 0',
    b'quitt', b'#', b'?', b'1', b'ok 1', b'.', b'show\x00', b'\x0b', b'\x0c', b'show\r\r', b'ins\r1', MARK + b'show',
    '１'.encode(), 'ins １ x'.encode(), '\u00a0'.encode()]
NO_UTF8 = [b'\xff', b'\xc3', b'\x80', b'\xc0\xaf', b'\xed\xa0\x80', b'\xf4\x90\x80\x80', b'\xe2\x82', b'\xf0\x9f\x98', b'\xef\xbb']
STARTS = [b'ins 1 ', b'put 1 x', b'own ', b'', b'load a.aff ', b'show', b'sub 1 0 0 ']


class Writer:
    """Writes lines, each with its end, and keeps what they have made of the text: where N is 0, exactly that."""

    def __init__(self, random, dictionary, items):
        self.random = random
        self.model = Model(dictionary, items, files.fault_of, False)
        # What `check` is to be asked, by dictionaries: the texts that are shown.
        self.shown = {}
        self.weights = [weight * random.choice((0.2, 1, 1, 3)) for weight in KINDS.values()]
        self.place = 1

    def lines(self, count):
        """About so many lines. Each comes with its end, and with whether it has a reply."""
        while count > 0:
            for line in getattr(self, 'write_' + self.random.choices(list(KINDS), self.weights)[0])():
                yield self.ended(line)
                count -= 1

    def ended(self, line):
        """The line with its end, once the model has taken it, and whether it has a reply."""
        line += self.random.choice((b'\n', b'\n', b'\n', b'\r\n'))
        return line, self.take(line[:-1].removesuffix(b'\r'))

    def take(self, line):
        replies = self.model.take(line)
        if replies is None:
            self.shown.setdefault(self.model.dictionary, set()).update(paragraph.text for paragraph in self.model.paragraphs)
        for told in (replies or {}).values():
            if told is not None:
                paragraph, state = told
                paragraph.state = state
        return replies is None or bool(replies)

    def number(self, value):
        """In nine digits at most, now and then with zeros in front."""
        return b'%0*d' % (self.random.choice((1, 1, 1, 1, 4, 9)), value)

    def some_place(self, more=0):
        """Mostly a place near the one before, as an editor has it; it is there, if any is."""
        count = len(self.model.paragraphs) + more
        near = self.place + self.random.choice((-1, 0, 0, 0, 1))
        self.place = near if 1 <= near <= count and self.random.random() < 0.7 else self.random.randint(1, max(count, 1))
        return self.place

    def text(self, most=8):
        """Words that dictionaries have or have not, and what stands between them."""
        random, words = self.random, files.WORDS
        count = random.choice((0, 1, 2, 3, most, random.randint(0, most)))
        many = random.random() < 0.03
        made = ''
        for _ in range(count * 25 if many else count):
            # A word of three stems takes the rules a while.
            word = random.choice(words) if random.random() < 0.8 else ''.join(random.choices(files.STEMS, k=3))
            made += word + random.choice(files.GAPS)
        return made.encode()

    def span(self):
        """A place with a span that fits: mostly at the end, or a word."""
        place = self.some_place()
        if not self.model.has(place):
            return place, 0, 0
        text = self.model.paragraphs[place - 1].text
        edges = [at for at in (self.random.randint(0, len(text)) for _ in range(8)) if is_edge(text, at)] + [len(text)]
        start, end = sorted((edges[0], self.random.choice(edges)))
        return place, start, end

    def sub(self, place, start, end, text):
        return b'sub %s %s %s %s' % (self.number(place), self.number(start), self.number(end), text)

    def write_ins(self):
        yield b'ins %s %s' % (self.number(self.some_place(1)), self.text())

    def write_put(self):
        text = self.text()
        yield b'put %s' % self.number(self.some_place()) + (b' ' + text if text else self.random.choice((b'', b' ')))

    def write_sub(self):
        yield self.sub(*self.span(), self.text(2))

    def write_typed(self):
        """A word typed letter by letter, some letters of it taken back."""
        place, start, _ = self.span()
        for letter in self.random.choice(files.WORDS):
            letter = letter.encode()
            yield self.sub(place, start, start, letter)
            if self.random.random() < 0.2:
                yield self.sub(place, start, start + len(letter), b'')
            else:
                start += len(letter)

    def write_del(self):
        yield b'del %s' % self.number(self.some_place())

    def write_stop(self):
        yield b'stop %s' % self.number(self.some_place())

    def write_ask(self):
        stopped = [place for place, paragraph in enumerate(self.model.paragraphs, 1) if paragraph.state == STOPPED]
        yield b'ask %s' % self.number(self.random.choice(stopped) if stopped and self.random.random() < 0.7 else self.some_place())

    def write_show(self):
        yield b'show'

    def write_settle(self):
        yield b'settle'

    def write_load(self):
        random = self.random
        aff, dic = random.choice(files.GOOD)
        if random.random() < 0.35:
            bad_aff, bad_dic = random.choice([*files.BAD_AFF, *files.BAD_FILES]), random.choice([*files.BAD_DIC, *files.BAD_FILES])
            aff, dic = random.choice(((bad_aff, dic), (bad_aff, bad_dic), (aff, bad_dic)))
        yield b'load %s %s' % (aff, dic)

    def write_own(self):
        yield b'own ' + self.random.choice(files.ITEMS * 2 + files.BLANK_ITEMS + files.EMPTY_ITEMS)

    def write_bad_span(self):
        """Bytes that a paragraph has not, the wrong way round, or with an end inside a character."""
        random, place = self.random, self.some_place()
        text = self.model.paragraphs[place - 1].text if self.model.has(place) else b''
        inside = [at for at in range(min(len(text), 5000)) if not is_edge(text, at)]
        end, most = len(text), 999_999_999
        spans = [(end + 1, end + 1), (0, end + 1), (end + 1, 0), (most, most), (end, most), (1, 0), (end, 0)]
        if inside:
            at = random.choice(inside)
            spans = random.choice((spans, [(at, at), (0, at), (at, end)]))
        yield self.sub(place, *random.choice(spans), self.text(2))

    def write_no_place(self):
        count = len(self.model.paragraphs)
        line = self.random.choice((b'ins %d x', b'put %d x', b'put %d', b'sub %d 0 0 x', b'sub %d 5 1', b'del %d', b'stop %d', b'ask %d'))
        yield line % self.random.choice((0, count + 1, count + 2, 999_999_999))

    def write_long(self):
        """A paragraph that is as long as it may be, or a little longer, by one line or by two."""
        random, place = self.random, self.some_place(1)
        word = random.choice((b'hello ', b'x', 'é'.encode(), b'wurk ' * 900 + b'x' * 30_000))
        length = MOST_BYTES + random.choice((-2, 0, 0, 1, 2, 60_000))
        text = word * (length // len(word))
        yield b'ins %d %s' % (place, text + b'-' * (length - len(text)))
        if self.model.has(place):
            length = len(self.model.paragraphs[place - 1].text)
            yield self.sub(place, length, length, b'x' * random.choice((0, 1, MOST_BYTES - length if length < MOST_BYTES else 1)))
            yield self.sub(place, 0, length, self.text())

    def write_blank(self):
        yield self.random.choice((b'', b'', b' ', b'\t', b' \t '))

    def write_no_command(self):
        yield self.random.choice(NO_COMMANDS)

    def write_no_utf8(self):
        line = self.random.choice(STARTS) + self.random.choice(NO_UTF8)
        yield line + self.random.choice((b'', b' hello'))


def opening(random, is_crowded):
    """The dictionary that a dialogue starts with, and how many personal words that has."""
    items = random.choice(([], [], [b'wurk', b'*hello', b'jig/work']))
    if random.random() < 0.03:
        items = [b'wurk'] * random.choice((9_998, 10_000))
    aff, dic = files.GOOD[0] if is_crowded else random.choice(files.GOOD)
    return Dictionary(aff, dic, b''.join(item + b'\r\n' for item in items)), len(items)
