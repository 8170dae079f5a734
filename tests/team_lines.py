"""The lines of a script of `team`, and what is printed of them: which session each line is for, and which reply each line has."""

import re
from typing import NamedTuple

from console_model import NO_COMMAND, Command, Wrong, is_blank, is_utf8, lines_of, read_command
from console_talk import shortened

MOST_SESSIONS = 16
MOST_PAIRS = 4
MOST_LINE = 131_072
MOST_SCRIPT = 16_777_216

SAID = re.compile(rb'([0-9]{1,2})(?: (.*))?', re.DOTALL)
NUMBER = rb'(0|[1-9][0-9]*)'
SESSION = re.compile(rb'session ' + NUMBER)
TOTAL = re.compile(rb'total text ' + NUMBER + rb' dict ' + NUMBER)
SHOWN = re.compile(rb'text ' + NUMBER + rb' dict ' + NUMBER)
OK = re.compile(rb'ok ' + NUMBER)
DICT = re.compile(rb'dict ' + NUMBER)
REFUSED = re.compile(rb'no ([A-Za-z]+)(?: ' + NUMBER + rb')?')
ROW = re.compile(NUMBER + rb' (\?|[0-9]+ [0-9]+ .*)', re.DOTALL)

# What a command may be refused with.
REFUSALS = {
    b'ins': {'Place', 'Gone', 'TooLong', 'Full'}, b'put': {'Place', 'Gone', 'Behind', 'TooLong'},
    b'sub': {'Place', 'Gone', 'Behind', 'BadSpan', 'TooLong'}, b'del': {'Place', 'Gone', 'Behind'},
    b'stop': {'Place', 'Gone', 'Finished', 'Parked'}, b'ask': {'Place', 'Gone', 'NotParked'}}
WITH_NUMBER = {'Place', 'Behind', 'BadSpan', 'TooLong', 'Full'}
# What a reply `ok T` says of a command.
DONE = {b'ins': 'edit', b'put': 'edit', b'sub': 'edit', b'del': 'edit', b'stop': 'stop', b'ask': 'ask', b'settle': 'settle'}
UNCHECKED = (b'?',)


class Line(NamedTuple):
    """A line of a session: its number in the script, and its text, which is a line of a console."""
    number: int
    text: bytes


class Call(NamedTuple):
    """A line with its reply. A reply tells the version of the text, or that of the dictionary, or both, or a number of its own."""
    session: int
    line: Line
    command: Command
    kind: str
    text: int = None
    dict: int = None
    number: int = None
    shown: dict = None

    def told(self):
        reply = f'no {self.kind}' + (f' {self.number}' if self.number is not None else '')
        if self.number is None and self.kind[0].islower():
            reply = ' '.join(f'{name} {value}' for name, value in (('text', self.text), ('dict', self.dict)) if value is not None)
        return f'session {self.session}, line {self.line.number}, {shortened(self.line.text)}: {reply}'


def read_line(text):
    """The session that a line of a script is for and what it is told; None for a line of no form. The line is not blank."""
    said = SAID.fullmatch(text)
    if not said or not is_utf8(text) or not 1 <= int(said[1]) <= MOST_SESSIONS:
        return None
    return int(said[1]), said[2] or b''


def sessions_of(data):
    """The lines of each session of a script that is of the form, by rising number."""
    sessions = {}
    for number, text in enumerate(lines_of(data), 1):
        if not is_blank(text):
            session, told = read_line(text)
            sessions.setdefault(session, []).append(Line(number, told))
    return dict(sorted(sessions.items()))


def command_of(text):
    """The command that a line of a session is, or None. There are no personal words."""
    command = read_command(text)
    return None if command and command.name == b'own' else command


def pairs_of(data):
    """The pairs that the lines of a script load, in the order of their first naming."""
    commands = [command_of(text) for said in map(read_line, (text for text in lines_of(data) if not is_blank(text))) if said
                for text in said[1:] if not is_blank(text)]
    return list(dict.fromkeys(command.texts for command in commands if command and command.name == b'load'))


def asked(lines):
    """The lines of a session that have a reply: up to `quit`, and without blank ones."""
    for line in lines:
        if not is_blank(line.text):
            command = command_of(line.text)
            if command and command.name == b'quit':
                return
            yield line, command


def sections_of(output):
    """What is printed of each session, and the versions of the last line."""
    if not output.endswith(b'\n'):
        raise Wrong('the last line of the output has no line feed')
    *lines, last = output[:-1].split(b'\n')
    total = TOTAL.fullmatch(last)
    if not total:
        raise Wrong(f'the last line of the output is {shortened(last)}')
    sections = []
    for line in lines:
        header = SESSION.fullmatch(line)
        if header:
            sections.append((int(header[1]), []))
        elif sections:
            sections[-1][1].append(line)
        else:
            raise Wrong(f'the output begins with {shortened(line)}')
    return sections, (int(total[1]), int(total[2]))


def calls_of(sessions, output, faults):
    """The calls of each session with their replies, and the versions of the last line. `faults` is asked for the reply to a pair that
    has a bad line."""
    sections, total = sections_of(output)
    if [session for session, _ in sections] != list(sessions):
        raise Wrong(f'the sessions are {[*sessions]}, and printed are {[session for session, _ in sections]}')
    calls = []
    for session, replies in sections:
        replies = iter(replies)
        calls.append([])
        for line, command in asked(sessions[session]):
            said = next(replies, None)
            call = None if said is None else read_reply(session, line, command, said, replies, faults)
            if call is None:
                came = 'nothing' if said is None else shortened(said)
                raise Wrong(f'session {session}, line {line.number}, {shortened(line.text)}: what came is {came}')
            calls[-1].append(call)
        if (said := next(replies, None)) is not None:
            raise Wrong(f'session {session}: behind its last reply came {shortened(said)}')
    return calls, total


def read_reply(session, line, command, said, replies, faults):
    """The call with this reply; None where the command has no such reply."""
    def call(kind, **values):
        return Call(session, line, command, kind, **values)
    if command is None:
        return call('Command') if said == NO_COMMAND else None
    if command.name == b'show':
        return read_shown(call, said, replies)
    if command.name == b'load':
        fault, loaded = faults(*command.texts), DICT.fullmatch(said)
        if fault is not None:
            return call('Fault') if said == fault else None
        return call('load', dict=int(loaded[1])) if loaded else None
    if done := OK.fullmatch(said):
        return call(DONE[command.name], text=int(done[1]))
    refused = REFUSED.fullmatch(said)
    kind = refused and refused[1].decode()
    if not refused or kind not in REFUSALS.get(command.name, ()) or (kind in WITH_NUMBER) != (refused[2] is not None):
        return None
    return call(kind, number=refused[2] and int(refused[2]))


def read_shown(call, said, replies):
    """A look with its rows up to the dot: the marks by paragraphs, `?` where there are none yet."""
    header, rows, line = SHOWN.fullmatch(said), {}, None
    for line in replies:
        row = ROW.fullmatch(line)
        if not row:
            break
        rows.setdefault(int(row[1]), []).append(row[2])
    shown = {place: tuple(marks) for place, marks in rows.items()}
    if not header or line != b'.' or list(rows) != sorted(rows) or any(b'?' in marks and marks != UNCHECKED for marks in shown.values()):
        return None
    return call('show', text=int(header[1]), dict=int(header[2]), shown=shown)
