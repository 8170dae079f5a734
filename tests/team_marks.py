"""The marks of texts: as `check` prints them, or by small lists of words in place of dictionaries."""

from console_model import Dictionary
from console_talk import Marks

# How many texts of a dictionary are kept.
MOST_KEPT = 20_000


class WordMarks:
    """Words are parted by spaces, and each is marked that the list of the dictionary has not."""
    WORDS = {b'a.dic': {b'hello', b'tried', b'worked', b'Paris'}, b'b.dic': {b'hello', b'work', b'foobar', b'bars', 'straße'.encode()},
             b'rules.dic': {b'hello'}, b'examples/sample.dic': {b'the', b'fox', b'who', b'reads'}}

    def of(self, pair, texts):
        return [tuple(self.marks(self.WORDS[pair[1]], text)) for text in texts]

    @staticmethod
    def marks(words, text):
        start = 0
        for word in text.split(b' '):
            if word and word not in words:
                yield b'%d %d %s' % (start, start + len(word), word)
            start += len(word) + 1


class ProgramMarks:
    """The program is asked for the marks of many texts at once, and of each once."""

    def __init__(self, program, folder):
        self.marks = Marks(program, folder)

    def of(self, pair, texts):
        dictionary = Dictionary(*pair)
        if len(self.marks.known.get(dictionary, ())) > MOST_KEPT:
            self.marks.known.clear()
        self.marks.learn(dictionary, dict.fromkeys(texts))
        return [tuple(self.marks.known[dictionary][text]) for text in texts]
