"""Texts: the words of a text with their bytes, and what `check`, `forms` and `pipe` print."""

from characters import is_letter, is_mark
from lines import lines_of, raw_lines_of

APOSTROPHES = "'\u2019"


def is_word_character(dictionary, character):
    """A letter, a combining mark or a character of WORDCHARS; never an apostrophe or a line feed."""
    return character not in APOSTROPHES + '\n' and (is_letter(character) or is_mark(character) or character in dictionary.wordchars)


def words_of(dictionary, text):
    """The words of a text, each with its first byte and the byte past its end. They are the longest runs of word characters, and of
    apostrophes between two of these. Runs without a letter or an ASCII digit are no words."""
    is_word = [is_word_character(dictionary, character) for character in text]
    belongs = [is_word[place] or (text[place] in APOSTROPHES and 0 < place < len(text) - 1 and is_word[place - 1] and is_word[place + 1])
               for place in range(len(text))]
    found, begin = [], None
    for place in range(len(text) + 1):
        if place < len(text) and belongs[place]:
            begin = place if begin is None else begin
        elif begin is not None:
            word = text[begin:place]
            if any(is_letter(character) or character in '0123456789' for character in word):
                start = len(text[:begin].encode())
                found.append((start, start + len(word.encode()), word))
            begin = None
    return found


def report(verdicts, text):
    """What `check` prints of a text, and its status. Each word that the dictionary does not generate has a line, with its paragraph
    from 1 and its bytes. The last line says how many these are, of how many words."""
    marks, count = [], 0
    for number, line in enumerate(lines_of(text), 1):
        for start, end, word in words_of(verdicts.dictionary, line):
            count += 1
            if not verdicts.yields(word):
                marks.append(f'{number} {start} {end} {word}')
    return '\n'.join([*marks, f'{len(marks)} of {count}', '']), 1 if marks else 0


def listing(verdicts):
    """What `forms` prints."""
    forms = verdicts.forms.listed()
    return '\n'.join([*forms, f'{len(forms)} forms', ''])


def word_answer(verdicts, start, word):
    """What `pipe` answers to a word that begins at a byte of its line."""
    if not verdicts.yields(word):
        return f'# {word} {start}'
    told = verdicts.told_derivation(verdicts.looked_up(word))
    if told is None:
        return '-'
    return f'+ {told.entry.word}' if told.affixes() else '*'


def pipe_answers(verdicts, data):
    """What `pipe` prints for all lines of an input. The first character of a line says what the line is."""
    answers, is_terse = [], False
    for number, line in enumerate(raw_lines_of(data), 1):
        if line.startswith((b'!', b'%')):
            is_terse = line.startswith(b'!')
        elif not line.startswith((b'*', b'&', b'@', b'+', b'-', b'~', b'#')):
            answers += line_answers(verdicts, line, number, is_terse) + ['']
    return ''.join(f'{answer}\n' for answer in answers)


def line_answers(verdicts, line, number, is_terse):
    """What a line of words is answered. A `^` at the front is not looked at for words, and counts in offsets. Terse answers are `#`
    alone. A line that is not UTF-8 is answered by its number."""
    begin = 1 if line.startswith(b'^') else 0
    try:
        text = line[begin:].decode('utf-8')
    except UnicodeDecodeError:
        return [f'bad {number}']
    answers = [word_answer(verdicts, start + begin, word) for start, _, word in words_of(verdicts.dictionary, text)]
    return [answer for answer in answers if answer.startswith('#') or not is_terse]
