"""What to do about a line that prepare-dictionary does not mend, with a command to copy."""

import os
import shlex

import dictionary_grammar as grammar

# Puts a bracket behind the fifth field of a line, the condition.
CLOSED = r's/[^ \t\r]\+/&]/5'
ROWS = f'{grammar.ROWS_MOST:,} rows of a table and {grammar.RULES_MOST:,} rules of all classes are the most: leave out rows, and lower the number'


class Place:
    """A line with a fault: its path, its number, the cause, the text of the line, and the lines of its file."""

    def __init__(self, path, number, cause, text, lines):
        self.path, self.number, self.cause, self.text, self.lines = path, number, cause, text, lines

    def sed(self, script):
        """A command that changes the file by a script for sed, whatever its encoding is."""
        return f'LC_ALL=C sed -i {shlex.quote(script)} {shlex.quote(self.path)}'


def of_own(place):
    """The lines of advice on a personal list."""
    path = shlex.quote(place.path)
    if place.cause == 'NotUtf8':
        return [f'mend it by:  iconv -f ISO-8859-1 -t UTF-8 {path} > {shlex.quote(place.path + "-utf8")}']
    if place.cause == 'TooMany':
        return [f'keep what is above it by:  {place.sed(f"{place.number - 1}q")}']
    return [f'leave it out by:  {place.sed(f"{place.number}d")}']


def of_pair(place, aff, check):
    """The lines of advice on a file of a dictionary. CHECK is the name of the command that takes two dictionaries."""
    fields = grammar.FIELD.findall(place.text)
    if place.path == aff and place.cause == 'TooMany':
        return [ROWS]
    if place.cause == 'TooMany':
        return in_two(place, aff, check)
    if place.cause == 'BadCondition' and len(fields) > 4 and fields[4].count('[') > fields[4].count(']'):
        return [f'close its bracket by:  {place.sed(f"{place.number}{CLOSED}")}']
    if place.cause == 'BadNumber' and len(fields) > 2 and fields[0] in grammar.CLASSES and fields[1].isascii():
        return header(place, fields)
    return [f'leave it out by:  {place.sed(f"{place.number}d")}']


def header(place, fields):
    """The advice on a rule that has no header of its class above it."""
    rules = sum(grammar.FIELD.findall(line)[:2] == fields[:2] for line in place.lines if line.lstrip().startswith(fields[0]))
    text = f'{fields[0]} {fields[1]} Y {rules}'.replace('\\', '\\\\')
    return [f'put the header of its class above it by:  {place.sed(f"{place.number}i {text}")}',
            f'With {fields[0]} {fields[1]} N these affixes do not go with those of the other side.']


def in_two(place, aff, check):
    """The advice on a .dic file that has too many entries."""
    base = os.path.basename(place.path).removesuffix('.dic')
    parts = [shlex.quote(f'{base}-{part}') for part in (1, 2)]
    dic = shlex.quote(place.path)
    return [f'make two dictionaries of it by:  head -n {place.number - 1} {dic} > {parts[0]}.dic'
            f' && {{ echo 1; tail -n +{place.number} {dic}; }} > {parts[1]}.dic'
            f' && cp {shlex.quote(aff)} {parts[0]}.aff && cp {shlex.quote(aff)} {parts[1]}.aff',
            f'check texts by both with:  {check} -d ./{parts[0]},./{parts[1]} TEXT']
