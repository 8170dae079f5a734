"""Simulators of `team` that go wrong, each in one way, for `team.py --wrong --simulated`. Some of what each prints has to be refused."""

from console_model import CHECKED, STOPPED, WAITING
from team_simulator import Simulator


class LostUpdate(Simulator):
    """An edit is made of the text that was looked at, whatever came between."""

    def named(self, command):
        found = super().named(command)
        if found and found[0] is not None:
            self.texts = {**getattr(self, 'texts', {}), command: found[0].text}
        return found

    def done(self, command, kept, rev):
        if kept is not None and kept in self.paragraphs and command.name in (b'put', b'sub'):
            kept.text, rev = self.texts[command], kept.rev
        return super().done(command, kept, rev)


class GoneIsTaken(Simulator):
    """An edit of a paragraph that was taken out is counted."""

    def done(self, command, kept, rev):
        if kept is not None and kept not in self.paragraphs and command.name in (b'put', b'sub'):
            self.version += 1
            return b'ok %d' % self.version
        return super().done(command, kept, rev)


class LateVersion(Simulator):
    """The version that a reply tells is read when others may have made the next one."""

    def session(self, lines, reply):
        def late(said):
            pending.append(said if not said.startswith(b'ok ') else None)
        pending = []
        for _ in super().session(lines, late):
            yield
            for said in pending:
                reply(said or b'ok %d\n' % self.version)
            pending.clear()
        for said in pending:
            reply(said or b'ok %d\n' % self.version)


class OldMarks(Simulator):
    """What is checked stays so where a dictionary is loaded, with its marks by the one before."""

    def load(self, pair):
        checked = {kept.id: self.marks(self.pairs[-1], [kept.text])[0] for kept in self.paragraphs if kept.state == CHECKED}
        reply = super().load(pair)
        for kept in self.paragraphs:
            if kept.id in checked and reply.startswith(b'dict'):
                kept.state = CHECKED
                self.old = {**getattr(self, 'old', {}), (kept.id, kept.rev): checked[kept.id]}
        return reply

    def show(self):
        rows = [b'text %d dict %d' % (self.version, len(self.pairs) - 1)]
        for place, kept in enumerate(self.paragraphs, 1):
            old = getattr(self, 'old', {}).get((kept.id, kept.rev))
            marks = [b'?'] if kept.state != CHECKED else self.marks(self.pairs[-1], [kept.text])[0] if old is None else old
            rows += [b'%d %s' % (place, mark) for mark in marks]
        return b'\n'.join([*rows, b'.\n'])


class OldShow(Simulator):
    """A look shows the board as it was before the last edit."""

    def done(self, command, kept, rev):
        self.before = super().show()
        return super().done(command, kept, rev)

    def show(self):
        return getattr(self, 'before', None) or super().show()


class MixedShow(Simulator):
    """A look tells the version of the text from before the last edit."""

    def done(self, command, kept, rev):
        self.before = self.version
        return super().done(command, kept, rev)

    def show(self):
        first, rest = super().show().split(b'\n', 1)
        return b'text %d %s\n' % (getattr(self, 'before', 0), first.split(b' ', 2)[2]) + rest


class CheckedIsStopped(Simulator):
    """A paragraph is stopped though it is checked."""

    def stop(self, kept):
        if kept.state == CHECKED:
            kept.state = WAITING
        return super().stop(kept)


class SettleLeaves(Simulator):
    """A `settle` leaves the last paragraph that waits."""

    def settle(self):
        last = next((kept for kept in reversed(self.paragraphs) if kept.state == WAITING), None)
        for _ in super().settle():
            yield
        if last is not None and last.state == CHECKED:
            last.state = WAITING


class SettleTakesAll(Simulator):
    """A `settle` checks what is stopped too."""

    def settle(self):
        for kept in self.paragraphs:
            if kept.state == STOPPED:
                kept.state = WAITING
        yield from super().settle()


class AskIsLost(Simulator):
    """An `ask` is told to be done, and the paragraph is left as it was."""

    def ask(self, kept):
        reply = super().ask(kept)
        if reply.startswith(b'ok'):
            kept.state = STOPPED
        return reply


class CheckedOnceMore(Simulator):
    """A check of the text that was there before finishes a paragraph: it has the marks of that text."""

    def put(self, command, kept):
        old = kept and (kept.text, kept.state)
        refusal = super().put(command, kept)
        if refusal is None and old and old[1] == CHECKED:
            self.old = {**getattr(self, 'old', {}), kept.id: (kept.rev, old[0])}
            kept.state = CHECKED
        return refusal

    def show(self):
        texts = [kept.text for kept in self.paragraphs]
        for kept in self.paragraphs:
            rev, text = getattr(self, 'old', {}).get(kept.id, (None, None))
            if rev == kept.rev:
                kept.text = text
        shown = super().show()
        for kept, text in zip(self.paragraphs, texts):
            kept.text = text
        return shown


class BehindItself(Simulator):
    """An edit is refused as behind though nothing came between."""

    def done(self, command, kept, rev):
        is_current = command.name in (b'put', b'sub', b'del') and kept in self.paragraphs and kept.rev == rev
        if is_current and self.choose(5, range(5)) == 0:
            return b'no Behind %d' % rev
        return super().done(command, kept, rev)


class PutInBehind(Simulator):
    """A paragraph is put in behind the one before which it belongs."""

    def put(self, command, kept):
        refusal = super().put(command, kept)
        if refusal is None and command.name == b'ins' and kept is not None:
            place = self.paragraphs.index(kept)
            self.paragraphs[place - 1], self.paragraphs[place] = self.paragraphs[place], self.paragraphs[place - 1]
        return refusal


FAULTY = [LostUpdate, GoneIsTaken, LateVersion, OldMarks, OldShow, MixedShow, CheckedIsStopped, SettleLeaves, SettleTakesAll, AskIsLost,
          CheckedOnceMore, BehindItself, PutInBehind]
