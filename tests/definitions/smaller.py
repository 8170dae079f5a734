"""What is printed of a difference: which word it is about, and the smallest dictionary that still shows it."""

from compounds import TooManyLists
from dictionary import LeftOut
from lines import Wrong
from trial import Trial, verdicts_of


class Small(Trial):
    """A dictionary that is asked a few words alone."""

    def __init__(self, made, text, lines):
        self.made, self.text, self.lines, self.workers, self.left_out = made, text, lines, [], None
        try:
            self.verdicts = verdicts_of(made)
            self.plain = verdicts_of(made, False)
        except LeftOut as refused:
            self.left_out = refused.args[0]


def differs(made, text, lines, program):
    """What differs of a small dictionary, or None where nothing does, or where it is no dictionary any more."""
    try:
        found = Small(made, text, lines).difference(program)
    except (Wrong, TooManyLists, IndexError, ValueError):
        return None
    # A file that is refused shows another difference, and not this one.
    return None if found and found[2][1] == 3 and not found[1][1] == 3 else found


def told(trial, found, program, is_small):
    """The difference in words, and with the dictionary where it is to be made small."""
    name, wanted, printed = found
    if not is_small:
        return f'{name} differs: {first_line(wanted, printed)}'
    made, text, lines = trial.made, trial.text, trial.lines
    for word in trial.words:
        if name != 'forms' and differs(made, word + '\n', f'^{word}\n'.encode(), program):
            text, lines = word + '\n', f'^{word}\n'.encode()
            break
    while True:
        for smaller in made.smaller():
            if smaller != made and differs(smaller, text, lines, program):
                made = smaller
                break
        else:
            break
    name, wanted, printed = differs(made, text, lines, program) or found
    shown = lines.decode('utf-8', 'replace')
    return (f'{name} differs: {first_line(wanted, printed)}\n{made.shown()}--- text\n{text}--- lines of pipe\n{shown}'
            f'--- wanted, with status {wanted[1]}\n{wanted[0]}--- printed, with status {printed[1]}\n{printed[0]}---\n')


def first_line(wanted, printed):
    """The first line that is another one."""
    one, two = wanted[0].split('\n'), printed[0].split('\n')
    for left, right in zip(one, two):
        if left != right:
            return f'wanted {left!r}, printed {right!r}'
    return f'wanted {len(one) - 1} lines, printed {len(two) - 1}; status {wanted[1]} and {printed[1]}'
