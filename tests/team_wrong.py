"""Ways to turn what `team` printed into something that it may not print, for `team.py --wrong`. The checker has to refuse each."""

import re

from team_lines import sections_of

NUMBER = re.compile(rb'[0-9]+')


class Printed:
    """An output by its parts: sessions with their replies, each a list of lines, and the two versions of the last line."""

    def __init__(self, output):
        sections, total = sections_of(output)
        self.sections = [(session, list(replies_in(lines))) for session, lines in sections]
        self.total, self.last = list(total), b''

    def output(self):
        lines = []
        for session, replies in self.sections:
            lines += [b'session %d' % session, *(line for reply in replies for line in reply)]
        return b''.join(line + b'\n' for line in [*lines, b'total text %d dict %d' % tuple(self.total)]) + self.last

    def those(self, front, also=lambda reply: True):
        """The replies that begin so: each with the section and the place of it."""
        return [(section, place) for section, (_, replies) in enumerate(self.sections) for place, reply in enumerate(replies)
                if reply[0].startswith(front) and also(reply)]

    def get(self, where):
        return self.sections[where[0]][1][where[1]]

    def put(self, where, reply):
        self.sections[where[0]][1][where[1]] = reply

    def edits(self, calls):
        """The Ok edits by their versions: where the reply to each stands."""
        return {call.text: (section, place) for section, mine in enumerate(calls) for place, call in enumerate(mine) if call.kind == 'edit'}

    def move_text(self, least, change):
        """Changes all versions of the text from one on."""
        for section, (_, replies) in enumerate(self.sections):
            for place, reply in enumerate(replies):
                words = reply[0].split(b' ')
                if words[0] in (b'ok', b'text') and int(words[1]) >= least:
                    self.put((section, place), [b' '.join([words[0], b'%d' % (int(words[1]) + change), *words[2:]]), *reply[1:]])
        self.total[0] += change


def replies_in(lines):
    """The replies that lines are: one line each, or a look with all up to its dot."""
    lines = iter(lines)
    for line in lines:
        reply = [line]
        if line.startswith(b'text '):
            for more in lines:
                reply.append(more)
                if more == b'.':
                    break
        yield reply


def number_changed(line, change, which=-1):
    """The line with one of its numbers changed, the last one where nothing else is said."""
    found = list(NUMBER.finditer(line))[which]
    return line[:found.start()] + b'%d' % max(int(found[0]) + change, 0) + line[found.end():]


# ---- Each way takes an output by its parts, its calls, and what chooses. It turns the parts, or gives False where that cannot be.

def nothing(printed, calls, rolled):
    """All stays as it is."""


def versions_swapped(printed, calls, rolled):
    edits = printed.edits(calls)
    pairs = [(one, two) for one in edits for two in edits if one < two and edits[one][0] != edits[two][0]]
    if not pairs:
        return False
    one, two = rolled.choice(pairs)
    printed.put(edits[one], [b'ok %d' % two])
    printed.put(edits[two], [b'ok %d' % one])


def loads_swapped(printed, calls, rolled):
    loads = printed.those(b'dict ')
    pairs = [(one, two) for one in loads for two in loads if one[0] < two[0]]
    if not pairs:
        return False
    one, two = rolled.choice(pairs)
    first, second = printed.get(one), printed.get(two)
    printed.put(one, second)
    printed.put(two, first)


def edit_lost(printed, calls, rolled):
    """An Ok edit is told to be refused, and all later versions are one less."""
    edits = printed.edits(calls)
    if not edits:
        return False
    version = rolled.choice([*edits])
    call = calls[edits[version][0]][edits[version][1]]
    is_gone = call.command.name == b'ins' or rolled.random() < 0.5
    printed.put(edits[version], [b'no Gone' if is_gone else b'no Behind %d' % rolled.randint(1, version)])
    printed.move_text(version, -1)


def refused_edits(printed, calls):
    return [where for where in printed.those(b'no ') if calls[where[0]][where[1]].kind in ('Gone', 'Behind', 'Place', 'BadSpan')
            and calls[where[0]][where[1]].command.name in (b'ins', b'put', b'sub', b'del')]


def edit_made(printed, calls, rolled):
    """A refusal is told to be Ok, and all later versions are one more."""
    refused = refused_edits(printed, calls)
    if not refused:
        return False
    where, version = rolled.choice(refused), rolled.randint(1, printed.total[0] + 1)
    printed.move_text(version, 1)
    printed.put(where, [b'ok %d' % version])


def edit_refused(printed, calls, rolled):
    edits = printed.edits(calls)
    if not edits:
        return False
    printed.put(rolled.choice([*edits.values()]), [b'no Gone'])


def refusal_taken(printed, calls, rolled):
    refused = refused_edits(printed, calls)
    if not refused:
        return False
    printed.put(rolled.choice(refused), [b'ok %d' % rolled.randint(0, printed.total[0] + 1)])


def reply_changed(front, change, which=-1):
    """A way that changes a number of the first line of a reply that begins so."""
    def way(printed, calls, rolled):
        those = printed.those(front)
        if not those:
            return False
        where = rolled.choice(those)
        first, *rest = printed.get(where)
        changed = [number_changed(first, change, which), *rest]
        if changed == [first, *rest]:
            return False
        printed.put(where, changed)
    return way


def reply_exchanged(one, others):
    """A way that puts another reply in place of this one."""
    def way(printed, calls, rolled):
        those = printed.those(one)
        if not those:
            return False
        printed.put(rolled.choice(those), [rolled.choice(others)])
    return way


def stop_done(printed, calls, rolled):
    """A `stop` or an `ask` that was refused is told to be done."""
    refused = [where for where in printed.those(b'no ') if calls[where[0]][where[1]].kind in ('Finished', 'Parked', 'NotParked')]
    if not refused:
        return False
    printed.put(rolled.choice(refused), [b'ok %d' % rolled.randint(0, printed.total[0])])


def stop_turned(printed, calls, rolled):
    """A `stop` or an `ask` that was done is told to be refused."""
    done = [where for where in printed.those(b'ok ') if calls[where[0]][where[1]].kind in ('stop', 'ask')]
    if not done:
        return False
    where = rolled.choice(done)
    printed.put(where, [rolled.choice((b'no Finished', b'no Parked')) if calls[where[0]][where[1]].kind == 'stop' else b'no NotParked'])


def settle_moved(printed, calls, rolled):
    settles = [where for where in printed.those(b'ok ') if calls[where[0]][where[1]].kind == 'settle']
    if not settles:
        return False
    where = rolled.choice(settles)
    before = calls[where[0]][where[1]].text
    other = rolled.choice([version for version in range(printed.total[0] + 2) if version != before])
    printed.put(where, [b'ok %d' % other])


def place_fallen(printed, calls, rolled):
    """A reply tells a version of the text below one that its session was told before."""
    behind = []
    for section, mine in enumerate(calls):
        seen = 0
        for place, call in enumerate(mine):
            if call.text is not None:
                if seen > 0 and call.kind in ('stop', 'ask', 'settle', 'show'):
                    behind.append((section, place, seen))
                seen = max(seen, call.text)
    if not behind:
        return False
    section, place, seen = rolled.choice(behind)
    first, *rest = printed.get((section, place))
    words = first.split(b' ')
    printed.put((section, place), [b' '.join([words[0], b'%d' % rolled.randrange(seen), *words[2:]]), *rest])


def replies_in_other_order(printed, calls, rolled):
    """Two Ok edits of one session have each other's reply."""
    edits = printed.edits(calls)
    pairs = [(one, two) for one in edits for two in edits if one < two and edits[one][0] == edits[two][0]]
    if not pairs:
        return False
    one, two = rolled.choice(pairs)
    printed.put(edits[one], [b'ok %d' % two])
    printed.put(edits[two], [b'ok %d' % one])


def load_doubled(printed, calls, rolled):
    """A load tells the version that another one told."""
    loads = printed.those(b'dict ')
    if len(loads) < 2:
        return False
    one, two = rolled.sample(loads, 2)
    printed.put(one, printed.get(two))


# By their names: the way, and whether nothing that it makes can be explained. Of the others some output has to be refused at least.
WAYS = {
    'two sessions tell each other\'s version of an edit': (versions_swapped, False),
    'two sessions tell each other\'s version of a load': (loads_swapped, False),
    'two edits of a session tell each other\'s version': (replies_in_other_order, True),
    'an Ok edit is told to be refused': (edit_refused, True),
    'an Ok edit is told to be refused, and those behind it are renumbered': (edit_lost, False),
    'a refused edit is told to be Ok': (refusal_taken, True),
    'a refused edit is told to be Ok, and those behind it are renumbered': (edit_made, False),
    'an Ok reply tells one version more': (reply_changed(b'ok ', 1), False),
    'an Ok reply tells one version less': (reply_changed(b'ok ', -1), False),
    'a `stop` or `ask` that was refused is told to be done': (stop_done, False),
    'a `stop` or `ask` that was done is told to be refused': (stop_turned, False),
    'a `settle` tells another version': (settle_moved, False),
    'a place falls': (place_fallen, True),
    'a `no Gone` in place of a `no Behind`': (reply_exchanged(b'no Behind', [b'no Gone']), False),
    'a `no Behind` in place of a `no Gone`': (reply_exchanged(b'no Gone', [b'no Behind 1', b'no Behind 2']), False),
    'a `no Behind` tells one revision more': (reply_changed(b'no Behind ', 1), False),
    'a `no Behind` tells one revision less': (reply_changed(b'no Behind ', -1), False),
    'a `no Place` counts one more': (reply_changed(b'no Place ', 1), False),
    'a `no Place` counts one less': (reply_changed(b'no Place ', -1), False),
    'a `no BadSpan` tells one byte more': (reply_changed(b'no BadSpan ', 1), False),
    'a `no TooLong` tells one byte more': (reply_changed(b'no TooLong ', 1), False),
    'a `no Parked` in place of a `no Finished`': (reply_exchanged(b'no Finished', [b'no Parked']), False),
    'a `no Finished` in place of a `no Parked`': (reply_exchanged(b'no Parked', [b'no Finished']), False),
    'a line that is no command is told to be done': (reply_exchanged(b'no Command', [b'ok 0', b'ok 1', b'dict 1']), True),
    'a load tells the version of another one': (load_doubled, True),
    'a load tells one version more': (reply_changed(b'dict ', 1), True),
    'a fault is told in place of a load': (reply_exchanged(b'dict ', [b'no Missing', b'no aff 1 OtherEncoding']), True),
}
