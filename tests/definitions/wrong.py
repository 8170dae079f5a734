"""Wrong verdicts, each planted in a copy of the slow program. The comparison has to find it."""

import os
import re
import shutil
import subprocess
import sys
import tempfile
from typing import NamedTuple

HERE = os.path.dirname(os.path.realpath(__file__))
FOUND = re.compile(r'seed \d+, dictionary (\d+): (.*)')


class Planted(NamedTuple):
    """A text of one module, which stands there once, and what it becomes."""
    name: str
    module: str
    old: str
    new: str


PLANTED = (
    Planted('cross product: prefixes and suffixes of any classes go together', 'derivations.py',
            'if prefix and first and not all(rule.crosses for rule in (prefix, first, second) if rule):',
            'if False:'),
    Planted('NEEDAFFIX is passed over', 'derivations.py',
            'return has_enough and in_front == behind',
            'return in_front == behind'),
    Planted('CIRCUMFIX: a prefix stands without its suffix', 'derivations.py',
            'return has_enough and in_front == behind',
            'return has_enough and in_front >= behind'),
    Planted('CHECKCOMPOUNDDUP is passed over', 'compounds.py',
            "return dictionary.has('CHECKCOMPOUNDDUP') and left == right",
            'return False'),
    Planted('COMPOUNDMIN is one less', 'dictionary.py',
            "max(int(self.text('COMPOUNDMIN', '3')), 1)",
            "max(int(self.text('COMPOUNDMIN', '3')) - 1, 1)"),
    Planted('KEEPCASE is passed over', 'verdicts.py',
            "keeps = dictionary.is_in('KEEPCASE', derivation.entry.flags)",
            'keeps = False'),
    Planted('BREAK: an anchor at the front is passed over', 'lines.py',
            'return Anchored(text[:-1] if at_end else text, at_front, at_end)',
            'return Anchored(text[:-1] if at_end else text, False, at_end)'),
    Planted('ICONV: the shortest pattern is replaced', 'verdicts.py',
            'longest = max(fitting,',
            'longest = min(fitting,'),
    Planted('FORBIDDENWORD: another entry with the word makes it right', 'derivations.py',
            'self.barred = {one.form for one in self.sound if is_forbidden_entry(dictionary, one.entry)}',
            'self.barred = {one.form for one in self.sound if is_forbidden_entry(dictionary, one.entry)} - set(self.alone)'),
    Planted('FULLSTRIP: words are stripped whole without it', 'derivations.py',
            "if len(rule.strip) >= len(word) and not dictionary.has('FULLSTRIP'):",
            'if len(rule.strip) > len(word):'),
    Planted('ONLYINCOMPOUND is passed over', 'derivations.py',
            'and not is_inside_only and',
            'and'),
    Planted('numbers: two dots may stand between digits', 'verdicts.py',
            "'[0-9]+([.,-][0-9]+)*'",
            "'[0-9]+([.,-]+[0-9]+)*'"),
    Planted('a condition is asked of what is left behind the stripping', 'derivations.py',
            'fits(rule.condition, word[len(word) - size:])',
            'fits(rule.condition, word[:len(word) - len(rule.strip)][-size:])'),
    Planted('a second suffix allows no prefix', 'derivations.py',
            'prefix.flag in rule.carries for rule in (first, second))',
            'prefix.flag in rule.carries for rule in (first,))'),
    Planted('a prefix and a suffix allow each other', 'derivations.py',
            'or is_prefix_of_entry and first.flag in prefix.carries)',
            'or prefix is not None and first.flag in prefix.carries)'),
    Planted('SIMPLIFIEDTRIPLE: without CHECKCOMPOUNDTRIPLE too', 'compounds.py',
            "return dictionary.has('CHECKCOMPOUNDTRIPLE') and any(len(text) == 3",
            "return (dictionary.has('CHECKCOMPOUNDTRIPLE') or dictionary.has('SIMPLIFIEDTRIPLE')) and any(len(text) == 3"),
    Planted('CHECKCOMPOUNDPATTERN: a replacement stands where a switch refuses the parts', 'compounds.py',
            '    if not doubled and not capital and not tripled:\n        joints += [',
            '    if True:\n        joints += ['),
    Planted('COMPOUNDWORDMAX is one more', 'dictionary.py',
            'None if most is None else int(most)',
            'None if most is None else int(most) + 1'),
    Planted('COMPOUNDMORESUFFIXES is not asked for', 'compounds.py',
            'len(part.suffixes()) < 2 or place == LAST or',
            'True or'),
    Planted('CHECKCOMPOUNDREP: anchors are passed over', 'compounds.py',
            '(place == 0 or not rep.wrong.at_front) and',
            ''),
    Planted('FORCEUCASE: of any part', 'compounds.py',
            "not self.dictionary.is_in('FORCEUCASE', parts[-1].entry.flags)",
            "not any(self.dictionary.is_in('FORCEUCASE', part.entry.flags) for part in parts)"),
    Planted('CHECKSHARPS: a first character that is kept begins a pair', 'verdicts.py',
            "if not (word.startswith('SS') and way.startswith('ß'))]",
            ']'),
    Planted('CHECKSHARPS: four pairs count', 'verdicts.py',
            'MOST_PAIRS = 5',
            'MOST_PAIRS = 4'),
    Planted('an apostrophe at the end of a word belongs to it', 'texts.py',
            'is_word[place - 1] and is_word[place + 1])',
            'is_word[place - 1])'),
    Planted('offsets of `pipe` do not count the `^`', 'texts.py',
            'word_answer(verdicts, start + begin, word)',
            'word_answer(verdicts, start, word)'),
)


def copied(folder, planted):
    """A copy of the slow program with a wrong verdict in it."""
    for name in os.listdir(HERE):
        if name.endswith('.py'):
            shutil.copy(os.path.join(HERE, name), folder)
    path = os.path.join(folder, planted.module)
    with open(path, encoding='utf-8') as file:
        text = file.read()
    if text.count(planted.old) != 1:
        raise SystemExit(f'definitions: {planted.module} has {text.count(planted.old)} times: {planted.old}')
    with open(path, 'w', encoding='utf-8') as file:
        file.write(text.replace(planted.old, planted.new))


def plant_all(options, path):
    """Plants each wrong verdict in turn, and prints behind how many dictionaries it was found. Gives whether each was."""
    missing = 0
    for planted in PLANTED:
        if options.only and options.only not in planted.name:
            continue
        with tempfile.TemporaryDirectory(prefix='definitions-') as folder:
            copied(folder, planted)
            words = [sys.executable, os.path.join(folder, 'run.py'), str(options.dictionaries), '--seed', str(options.seed), '--stop']
            done = subprocess.run(words, env=dict(os.environ, PROGRAM=path), stdout=subprocess.PIPE, stderr=subprocess.PIPE, text=True, check=False)
        found = FOUND.match(done.stdout)
        missing += not found
        if found:
            print(f'{int(found[1]) + 1:6}  {planted.name}: {found[2]}', flush=True)
        else:
            print(f'  NONE  {planted.name}: not found in {options.dictionaries} dictionaries: {done.stdout}{done.stderr}', flush=True)
    return missing == 0
