"""Decides whether one history explains all that is printed of a script of `team`.

A history is a list of events, each of which makes the next board. Ok edits and loads are numbered by their replies; where stops, asks and
loads stand between edits, where checks do, and at which boards commands look, is searched for, from the first event to the last.

- A reply without an event is explained as early as it can be. That loses nothing: what its session does later may look at more boards then.
- A paragraph that waits is checked as late as it can be: where a look shows its marks, where a `stop` is refused, or where a `settle` ends.
  Without workers only a `settle` that is under way checks it, if it waited at the board that this one looked at.
- A `settle` looked as early as it can have: then the fewest paragraphs have to be checked where it ends. Without workers it is a choice
  when it looked, and which of the paragraphs that waited then it has checked though they were stopped and asked for since.
- What is left are choices: which of the paragraphs that stood at its place a command named, and which event or check comes first. They
  are tried one after another, and none is tried again from a board and seats that were come to before.

The choices are many where sessions put in and take out paragraphs between two looks of another one, and no look shows what came of it.
Random scripts have few `ins` and `del` therefore, many `show`, and signs by which paragraphs are told from each other (team_signs.py).
A search that takes more steps than it is given is given up, and that is said: it has decided nothing then.
"""

import itertools
from math import inf

from console_model import STOPPED, WAITING, Wrong
from team_board import END
from team_walk import Walk


# How an edit changes the number of paragraphs.
COUNTED = {b'ins': 1, b'del': -1}


class Undecided(Exception):
    """The search took too many steps."""


class Search:
    """A search for a history that is walked along, and that ends with these versions."""

    def __init__(self, walk, total, most_steps):
        self.walk, self.calls, self.total, self.most_steps = walk, walk.calls, total, most_steps
        # Up to which versions the calls of a session have their places, from each call on.
        changes = {call.text: call.command.name for mine in self.calls for call in mine if call.kind == 'edit'}
        self.last_texts = [self.lasts([self.last_text(call, changes) for call in mine]) for mine in self.calls]
        self.last_dicts = [self.lasts([inf if call.dict is None else call.dict for call in mine]) for mine in self.calls]
        self.visited, self.numbers, self.steps = set(), {}, 0
        # The state with the most calls explained, of those that were come to.
        self.furthest, self.most = None, -1

    @staticmethod
    def lasts(versions):
        """The least of the versions from each on, and no bound behind the last."""
        lasts = [inf]
        for version in reversed(versions):
            lasts.append(min(lasts[-1], version))
        return lasts[::-1]

    @staticmethod
    def last_text(call, changes):
        """The last version of the text at which a reply can be explained, for it is explained as early as it can be."""
        if call.text is not None:
            return call.text
        if call.kind == 'Behind':
            # The edit of this number is the one that the session came behind.
            return call.number
        if call.kind == 'Gone':
            return max((version for version, name in changes.items() if name == b'del'), default=-1)
        if call.kind == 'Place':
            counts = itertools.accumulate((COUNTED.get(changes.get(version), 0) for version in range(1, len(changes) + 1)), initial=0)
            return max((version for version, count in enumerate(counts) if count == call.number), default=-1)
        return inf

    def run(self):
        """Whether there is such a history."""
        stack = [iter([self.walk.start()])]
        while stack:
            state = next(stack[-1], None)
            if state is None:
                stack.pop()
                continue
            explained = sum(seat.next for seat in state.seats)
            if explained > self.most:
                self.furthest, self.most = state, explained
            if not self.walk.left(state) and (state.text, state.dict) == self.total:
                return True
            stack.append(self.following(state))
        return False

    def following(self, state):
        """The states that may come next, one for each choice."""
        moves = self.moves(state)
        if len(moves) > 1:
            key = self.key(state)
            if key in self.visited:
                return
            self.visited.add(key)
        for move, *words in moves:
            self.steps += 1
            if self.steps > self.most_steps:
                raise Undecided(f'more than {self.most_steps} steps')
            made = move(state.copy(), *words)
            if made is not None:
                yield self.walk.closed(made)

    def moves(self, state):
        """What may be done next: a function that makes the next state of a copy of this one, with what it is told."""
        walk, moves, later, last = self.walk, [], [], []
        states = {paragraph.id: paragraph.state for paragraph in state.paragraphs}
        for session, call in walk.left(state):
            seat, is_now = state.seats[session], call.text == state.text
            if call.kind == 'stop' and is_now:
                moves += [(walk.stop, session, named) for named in seat.named if states[named] == WAITING]
            elif call.kind == 'ask' and is_now:
                moves += [(walk.ask, session, named) for named in seat.named if states[named] == STOPPED]
            elif call.kind == 'show' and (needs := walk.needs_of(state, call)):
                later += [(walk.check, session, needs, way) for way in walk.ways_to_check(state, needs)]
            elif call.kind == 'settle' and is_now:
                later += [(walk.settle, session, *look) for look in walk.looks_of_settle(state, seat)]
            elif call.kind == 'Finished':
                waiting = [[named] for named in seat.named if states[named] == WAITING]
                later += [(walk.check, session, needs, way) for needs in waiting for way in walk.ways_to_check(state, needs)]
            elif call.kind == 'load' and call.dict == state.dict + 1 and self.may_pass(state, self.last_dicts, call.dict):
                last.append((walk.load, session))
            elif call.kind == 'edit' and call.text == state.text + 1 and self.may_pass(state, self.last_texts, call.text):
                last += [(walk.edit, session, named) for named in seat.named]
        return moves + later + last

    @staticmethod
    def may_pass(state, lasts, version):
        """Whether no call has to have its place before this version that has none yet."""
        return all(mine[seat.next] >= version for seat, mine in zip(state.seats, lasts))

    def key(self, state):
        """What decides what may come: no ids, and no times but for what settles have to check. Its parts are numbered."""
        place = {paragraph.id: place for place, paragraph in enumerate(state.paragraphs)} | {END: END}
        parts = [tuple((each.text, each.state) for each in state.paragraphs)]
        settling = []
        for session, (seat, mine) in enumerate(zip(state.seats, self.calls)):
            if seat.next < len(mine) and mine[seat.next].kind == 'settle':
                settling.append(seat)
            parts.append((session, seat.next, frozenset(map(place.get, seat.named)), frozenset(map(place.get, seat.changed))))
        if self.walk.has_workers:
            parts.append(tuple(frozenset(place[id] for id in self.walk.open_since(state, seat.since)) for seat in settling))
        else:
            parts.append(self.ranks(state, settling))
        return state.text, state.dict, *(self.numbers.setdefault(part, len(self.numbers)) for part in parts)

    @staticmethod
    def ranks(state, settling):
        """All times that matter where only settles check, by their order."""
        times = [[each.opened if each.state == WAITING else None, *(time for span in each.before for time in span)]
                 for each in state.paragraphs]
        times += [[seat.since, seat.latest] for seat in settling]
        ranks = {time: rank for rank, time in enumerate(sorted({time for row in times for time in row if time is not None}))}
        return tuple(tuple(map(ranks.get, row)) for row in times)


def explain(calls, total, pairs, has_workers, marks, most_steps):
    """Ends well where a history explains the calls. Gives how many steps that took."""
    search = Search(Walk(calls, pairs, has_workers, marks), total, most_steps)
    if not search.run():
        state = search.furthest
        left = '; '.join(call.told() for _, call in search.walk.left(state)) or 'nothing'
        raise Wrong(f'no history explains it; at best text {state.text} dict {state.dict} was come to, and not explained is: {left}')
    return search.steps
