"""A simulator of `team`: sessions and workers take steps by turns, which are chosen, and what is printed comes of that.

It is written from docs/CONSOLE.md and docs/TEAM.md beside the checker, and shares only the reading of lines with it. Each command that
names a paragraph looks in one step, and is done or refused in another. A `settle` looks, and checks what waited there a paragraph in a
step.
"""

from console_model import CHECKED, MOST_BYTES, MOST_PARAGRAPHS, NO_COMMAND, STOPPED, WAITING, is_edge
from team_lines import asked


class Kept:
    """A paragraph."""
    __slots__ = ('id', 'rev', 'text', 'state')

    def __init__(self, id, rev, text):
        self.id, self.rev, self.text, self.state = id, rev, text, WAITING


class Simulator:
    """One run. `choose` is asked which of so many turns is next, with their names, and gives its number."""

    def __init__(self, sessions, pair, has_workers, faults, marks, choose):
        self.sessions, self.pairs, self.has_workers = sessions, [pair], has_workers
        self.faults, self.marks, self.choose = faults, marks, choose
        self.paragraphs, self.ids, self.version = [], 0, 0
        self.replies = {session: [] for session in sessions}

    def run(self):
        """What is printed."""
        live = {session: self.session(lines, self.replies[session].append) for session, lines in self.sessions.items()}
        while live:
            turns = [*live] + [kept for kept in self.paragraphs if kept.state == WAITING and self.has_workers]
            turn = turns[self.choose(len(turns), turns)]
            if isinstance(turn, Kept):
                turn.state = CHECKED
            elif next(live[turn], self) is self:
                del live[turn]
        sections = [b''.join([b'session %d\n' % session, *replies]) for session, replies in self.replies.items()]
        return b''.join(sections) + b'total text %d dict %d\n' % (self.version, len(self.pairs) - 1)

    def session(self, lines, reply):
        """The steps of a session. Between two of them others may have theirs."""
        for line, command in asked(lines):
            if command is None:
                reply(NO_COMMAND + b'\n')
                continue
            yield
            if command.name == b'show':
                reply(self.show())
            elif command.name == b'load':
                reply(self.load(command.texts) + b'\n')
            elif command.name == b'settle':
                yield from self.settle()
                reply(b'ok %d\n' % self.version)
            elif (named := self.named(command)) is None:
                reply(b'no Place %d\n' % len(self.paragraphs))
            else:
                yield
                reply(self.done(command, *named) + b'\n')

    def show(self):
        rows = [b'text %d dict %d' % (self.version, len(self.pairs) - 1)]
        for place, kept in enumerate(self.paragraphs, 1):
            marks = self.marks(self.pairs[-1], [kept.text])[0] if kept.state == CHECKED else [b'?']
            rows += [b'%d %s' % (place, mark) for mark in marks]
        return b'\n'.join([*rows, b'.\n'])

    def load(self, pair):
        fault = self.faults(*pair)
        if fault is not None:
            return fault
        self.pairs.append(pair)
        for kept in self.paragraphs:
            if kept.state == CHECKED:
                kept.state = WAITING
        return b'dict %d' % (len(self.pairs) - 1)

    def settle(self):
        """Checks what waits now, in any order, unless something else was done to it before."""
        seen, version = [(kept, kept.rev) for kept in self.paragraphs if kept.state == WAITING], len(self.pairs)
        while seen:
            yield
            kept, rev = seen.pop(self.choose(len(seen), seen))
            if kept in self.paragraphs and (kept.rev, len(self.pairs), kept.state) == (rev, version, WAITING):
                kept.state = CHECKED
        yield

    def named(self, command):
        """The paragraph that a command names, and its rev; of `ins`, the one before which it puts one in, or none at the end."""
        place, count = command.numbers[0], len(self.paragraphs)
        if 1 <= place <= count:
            return self.paragraphs[place - 1], self.paragraphs[place - 1].rev
        return (None, None) if command.name == b'ins' and place == count + 1 else None

    def done(self, command, kept, rev):
        """The reply to a command that named this paragraph, which is done now."""
        if kept is not None and kept not in self.paragraphs:
            return b'no Gone'
        if command.name in (b'stop', b'ask'):
            return self.stop(kept) if command.name == b'stop' else self.ask(kept)
        if command.name != b'ins' and kept.rev != rev:
            return b'no Behind %d' % kept.rev
        if command.name == b'del':
            self.paragraphs.remove(kept)
        elif (refusal := self.put(command, kept)) is not None:
            return refusal
        self.version += 1
        return b'ok %d' % self.version

    def put(self, command, kept):
        """Puts a text in, or changes one; or the refusal."""
        new = command.texts[0]
        if command.name == b'sub':
            (_, start, end), old = command.numbers, kept.text
            if not (start <= end <= len(old) and is_edge(old, start) and is_edge(old, end)):
                return b'no BadSpan %d' % len(old)
            new = old[:start] + new + old[end:]
        if len(new) > MOST_BYTES:
            return b'no TooLong %d' % len(new)
        if command.name != b'ins':
            kept.text, kept.rev, kept.state = new, self.version + 1, WAITING
            return None
        if len(self.paragraphs) >= MOST_PARAGRAPHS:
            return b'no Full %d' % len(self.paragraphs)
        self.ids += 1
        place = len(self.paragraphs) if kept is None else self.paragraphs.index(kept)
        self.paragraphs.insert(place, Kept(self.ids, self.version + 1, new))
        return None

    def stop(self, kept):
        if kept.state != WAITING:
            return b'no Finished' if kept.state == CHECKED else b'no Parked'
        kept.state = STOPPED
        return b'ok %d' % self.version

    def ask(self, kept):
        if kept.state != STOPPED:
            return b'no NotParked'
        kept.state = WAITING
        return b'ok %d' % self.version
