"""A walk along a history of `team`: the board that it has come to, where each session stands, and what comes of the next event or check."""

import collections
import itertools
from math import inf

import team_board as boards
from console_model import CHECKED, STOPPED, WAITING
from team_board import END, Paragraph, Seat
from team_signs import Signs

# Replies that every board explains.
ALWAYS = {'Command', 'Fault'}


class State:
    """A board of a history with its versions, where each session stands, and how many events there were."""
    __slots__ = ('text', 'dict', 'time', 'paragraphs', 'seats')

    def __init__(self, text, dict, time, paragraphs, seats):
        self.text, self.dict, self.time, self.paragraphs, self.seats = text, dict, time, paragraphs, seats

    def copy(self):
        return State(self.text, self.dict, self.time, self.paragraphs[:], self.seats[:])


class Walk:
    """What states come of each other for these calls, one list for each session. `pairs` are the dictionaries by their versions, and
    `marks` is asked for the marks of texts by one of them."""

    def __init__(self, calls, pairs, has_workers, marks):
        self.calls = [[call for call in mine if call.kind not in ALWAYS] for mine in calls]
        self.pairs, self.has_workers, self.marks = pairs, has_workers, marks
        # By versions the calls that came behind them: their sessions, and their places there.
        self.behind = collections.defaultdict(list)
        for session, mine in enumerate(self.calls):
            for place, call in enumerate(mine):
                if call.kind == 'Behind':
                    self.behind[call.number].append((session, place))
        # The marks of texts that are known, by versions of the dictionary.
        self.known = {version: {} for version in pairs}
        self.signs = Signs([call for mine in self.calls for call in mine])

    def start(self):
        state = State(0, 0, 0, [], [Seat()] * len(self.calls))
        for session in range(len(self.calls)):
            self.sit(state, session, 0)
        return self.closed(state)

    def left(self, state):
        """The sessions that have a call left, each with its next one."""
        return [(session, mine[seat.next]) for session, (seat, mine) in enumerate(zip(state.seats, self.calls)) if seat.next < len(mine)]

    # ---- where sessions stand

    def sit(self, state, session, place):
        """The session goes on to the call at this place of its own, and may look at this board and all behind it."""
        mine = self.calls[session]
        state.seats[session] = Seat(place, state.time, self.look(mine[place], state.paragraphs) if place < len(mine) else ())

    def gone_on(self, state, session):
        self.sit(state, session, state.seats[session].next + 1)
        return state

    @staticmethod
    def look(call, paragraphs):
        """What a command names that looks at a board, if its event may be as it is replied."""
        if not boards.names_place(call) or (named := boards.named_by(call, paragraphs)) is None:
            return ()
        if call.kind == 'edit' and boards.has_rev(call) and boards.text_refusal(call.command, boards.text_of(call, paragraphs), 0):
            return ()
        return (named,)

    def seen(self, version, paragraphs, seat, call, event, touched):
        """What an edit makes of a seat: what its command may have named, and whether its reply is explained."""
        named, changed, met = seat.named, seat.changed, seat.met
        if event == b'del':
            met = met or call.kind == 'Gone' and touched in named
            changed -= {touched}
        elif event != b'ins' and call.kind == 'Behind':
            changed |= {touched} & {*named}
            met = met or touched in changed and version == call.number
        if event == b'del' or (event != b'ins' and boards.has_rev(call) and call.kind in ('edit', 'Behind')):
            named = tuple(id for id in named if id != touched)
        looked = tuple(id for id in self.look(call, paragraphs) if id not in changed)
        return seat._replace(named=looked + tuple(id for id in named if id not in looked), changed=changed, met=met)

    # ---- what is explained as early as it can be

    def closed(self, state):
        """The state with all explained that its board explains, and that asks for no check."""
        session, quiet = 0, 0
        while quiet < len(self.calls):
            mine, place = self.calls[session], state.seats[session].next
            if place < len(mine) and self.is_explained(state, state.seats[session], mine[place]):
                self.sit(state, session, place + 1)
                quiet = 0
            else:
                session, quiet = (session + 1) % len(self.calls), quiet + 1
        return state

    def is_explained(self, state, seat, call):
        """Whether a board explains a call, whatever else is done on it."""
        paragraphs, kind = state.paragraphs, call.kind
        if kind == 'show':
            return self.needs_of(state, call) == []
        if kind == 'settle':
            # Without workers a `settle` that has not ended may be what has checked a paragraph, so when it ends is a choice.
            return self.has_workers and state.text == call.text and not self.open_since(state, seat.since)
        if kind in ('Gone', 'Behind'):
            return seat.met
        if kind in ('Finished', 'Parked', 'NotParked'):
            states = {paragraph.state for paragraph in paragraphs if paragraph.id in seat.named}
            return bool(states - {STOPPED}) if kind == 'NotParked' else {'Finished': CHECKED, 'Parked': STOPPED}[kind] in states
        if kind == 'Place':
            return len(paragraphs) == call.number and boards.named_by(call, paragraphs) is None
        # A text is refused on the board of the look, if at all: there is no other text of this revision. What is full may be so later.
        if kind == 'Full' and seat.named or kind in ('BadSpan', 'TooLong') and boards.named_by(call, paragraphs) is not None:
            return boards.text_refusal(call.command, boards.text_of(call, paragraphs), len(paragraphs)) == (kind, call.number)
        return False

    def needs_of(self, state, call):
        """The paragraphs that have to be checked for a look to be as it is replied; None where it cannot be so on this board."""
        if (state.text, state.dict) != (call.text, call.dict):
            return None
        return boards.shown_needs(call, state.paragraphs, lambda texts: self.marks_by(state.dict, texts))

    def marks_by(self, version, texts):
        """The marks of texts by the dictionary of a version."""
        known = self.known[version]
        if missing := [text for text in dict.fromkeys(texts) if text not in known]:
            known.update(zip(missing, self.marks(self.pairs[version], missing)))
        return [known[text] for text in texts]

    @staticmethod
    def open_since(state, time):
        """The paragraphs that have waited from this time on."""
        return [paragraph.id for paragraph in state.paragraphs if paragraph.state == WAITING and paragraph.opened <= time]

    # ---- how paragraphs are checked

    def ways_to_check(self, state, needs):
        """How paragraphs may be checked that wait: by workers; or by sessions that settle and looked when they waited, each of which is
        given with the first and the last time when it looked. Of those that have waited from their time on to now one session does for all:
        that which checks the last one could have checked the others too."""
        if self.has_workers:
            return [()]
        rows = [paragraph for paragraph in state.paragraphs if paragraph.id in needs]
        settling = {session: state.seats[session] for session, call in self.left(state) if call.kind == 'settle'}
        ways = set()
        for chosen in itertools.product(*((None, *row.before) for row in rows)):
            since = max((row.opened for row, times in zip(rows, chosen) if times is None), default=None)
            spans = {times for times in chosen if times is not None} | ({(since, state.time)} if since is not None else set())
            for sessions in itertools.product(settling, repeat=len(spans)):
                bounds = {session: (seat.since, state.time if seat.latest is None else seat.latest) for session, seat in settling.items()}
                for session, (first, last) in zip(sessions, spans):
                    bounds[session] = max(bounds[session][0], first), min(bounds[session][1], last)
                if all(bounds[session][0] <= bounds[session][1] for session in sessions):
                    ways.add(tuple((session, *bounds[session]) for session in sorted({*sessions})))
        return sorted(ways)

    def looks_of_settle(self, state, seat):
        """When a `settle` that ends here may have looked, and what it may have checked of the paragraphs that waited then, and were stopped
        and asked for since: each choice. With workers the first time does for all others, and they may have checked what they like."""
        if self.has_workers:
            return [(seat.since, ())]
        latest = inf if seat.latest is None else seat.latest
        waiting = [paragraph for paragraph in state.paragraphs if paragraph.state == WAITING]
        times = {time for each in waiting for time in (each.opened, *(first for first, _ in each.before)) if seat.since < time <= latest}
        choices = []
        for time in sorted({seat.since, *times}):
            again = [each.id for each in waiting if each.opened > time and any(first <= time <= last for first, last in each.before)]
            choices += [(time, chosen) for count in range(len(again) + 1) for chosen in itertools.combinations(again, count)]
        return choices

    # ---- what may come next; each makes the next state of one that it may change

    @staticmethod
    def become(state, id, change):
        place = boards.place_of(state.paragraphs, id)
        state.paragraphs[place] = state.paragraphs[place]._replace(**change)

    def check(self, state, session, needs, way):
        """The paragraphs that a call needs are checked."""
        for by, first, last in way:
            state.seats[by] = state.seats[by]._replace(since=first, latest=last)
        for id in needs:
            self.become(state, id, {'state': CHECKED})
        return self.gone_on(state, session)

    def settle(self, state, session, time, again):
        """A `settle` ends that looked at this time, and has checked these paragraphs beside those that have waited since."""
        for id in (*self.open_since(state, time), *again):
            self.become(state, id, {'state': CHECKED})
        return self.gone_on(state, session)

    def stop(self, state, session, named):
        place = boards.place_of(state.paragraphs, named)
        kept = state.paragraphs[place]
        before = () if self.has_workers else (*kept.before, (kept.opened, state.time))
        state.paragraphs[place] = kept._replace(state=STOPPED, before=before)
        state.time += 1
        return self.gone_on(state, session)

    def ask(self, state, session, named):
        state.time += 1
        self.become(state, named, {'state': WAITING, 'opened': state.time})
        return self.gone_on(state, session)

    def load(self, state, session):
        state.time += 1
        state.dict += 1
        state.paragraphs = [paragraph._replace(before=()) if paragraph.state == STOPPED else
                            paragraph._replace(state=WAITING, opened=state.time, before=()) for paragraph in state.paragraphs]
        return self.gone_on(state, session)

    def edit(self, state, session, named):
        """The next edit, of this paragraph, or before it; None where a later look tells otherwise."""
        call, paragraphs = self.calls[session][state.seats[session].next], state.paragraphs
        state.time += 1
        state.text += 1
        place = len(paragraphs) if named == END else boards.place_of(paragraphs, named)
        old = None if call.command.name == b'ins' else paragraphs.pop(place).text
        new = None if call.command.name == b'del' else boards.changed_text(call.command, old)
        if new is not None:
            # A paragraph that is put in has the number of its edit as its id.
            paragraphs.insert(place, Paragraph(state.text if old is None else named, new, WAITING, state.time))
        if self.signs.forbid(state.text, place, old, new, paragraphs):
            return None
        self.gone_on(state, session)
        for other, their in self.left(state):
            if other != session and boards.names_place(their):
                state.seats[other] = self.seen(state.text, paragraphs, state.seats[other], their, call.command.name, named)
        # Who came behind this edit looked before it.
        behind = self.behind.get(state.text, ())
        return state if all(state.seats[other].next == next and state.seats[other].met for other, next in behind) else None
