"""Ways to turn what looks show in an output of `team`; beside those of team_wrong.py."""

from team_wrong import number_changed, reply_changed


def old_show(printed, calls, rolled):
    """A look shows what an earlier one of any session showed, under its own versions."""
    shows = printed.those(b'text ')
    pairs = [(one, two) for one in shows for two in shows if printed.get(one)[1:] != printed.get(two)[1:]
             and number_of(printed.get(one)) < number_of(printed.get(two))]
    if not pairs:
        return False
    one, two = rolled.choice(pairs)
    printed.put(two, [printed.get(two)[0], *printed.get(one)[1:]])


def older_show(printed, calls, rolled):
    """A look shows a board that its session had seen left before."""
    shows = printed.those(b'text ')
    pairs = [(one, two) for one in shows for two in shows if one[0] == two[0] and printed.get(one)[0] != printed.get(two)[0]
             and any(call.kind in ('edit', 'load') for call in calls[one[0]][one[1]:two[1]])]
    if not pairs:
        return False
    one, two = rolled.choice(pairs)
    printed.put(two, printed.get(one))


def number_of(reply):
    return int(reply[0].split(b' ')[1])


def rows_turned(turn, is_meant=lambda row: True):
    """A way that turns one row of a look."""
    def way(printed, calls, rolled):
        shows = printed.those(b'text ', lambda reply: any(is_meant(row) for row in reply[1:-1]))
        if not shows:
            return False
        where = rolled.choice(shows)
        first, *rows, dot = printed.get(where)
        place = rolled.choice([place for place, row in enumerate(rows) if is_meant(row)])
        rows[place:place + 1] = turn(rows[place], rolled)
        printed.put(where, [first, *rows, dot])
    return way


def is_marked(row):
    return not row.endswith(b' ?')


def is_unmarked(row):
    return row.endswith(b' ?')


def row_moved(row, rolled):
    return [number_changed(row, 1, 2)]


def row_renumbered(row, rolled):
    return [number_changed(row, 1, 0)]


def row_unchecked(row, rolled):
    return [row.split(b' ')[0] + b' ?']


def row_checked(row, rolled):
    return [row[:-1] + rolled.choice((b'0 5 wrong', b'0 1 x'))]


def unchecked_left_out(printed, calls, rolled):
    """A paragraph that is shown unchecked is shown as one without marks."""
    return rows_turned(lambda row, rolled: [], is_unmarked)(printed, calls, rolled)


def rows_exchanged(printed, calls, rolled):
    """Two paragraphs of a look are shown at each other's place."""
    shows = printed.those(b'text ', lambda reply: len({row.partition(b' ')[2] for row in reply[1:-1]}) > 1)
    if not shows:
        return False
    where = rolled.choice(shows)
    first, *rows, dot = printed.get(where)
    places = sorted({int(row.split(b' ')[0]) for row in rows})
    if len(places) < 2:
        return False
    one, two = rolled.sample(places, 2)
    to = {one: two, two: one}
    moved = [(int(place), rest) for place, _, rest in (row.partition(b' ') for row in rows)]
    moved = sorted(((to.get(place, place), rest) for place, rest in moved), key=lambda row: row[0])
    printed.put(where, [first, *(b'%d %s' % row for row in moved), dot])


WAYS = {
    'a look shows what an earlier one did, under its own versions': (old_show, False),
    'a look shows a board that its session has left': (older_show, True),
    'a look tells one edit more': (reply_changed(b'text ', 1, 0), False),
    'a look tells one edit less': (reply_changed(b'text ', -1, 0), False),
    'a look tells one load more': (reply_changed(b'text ', 1), False),
    'a look tells one load less': (reply_changed(b'text ', -1), False),
    'a mark is missing': (rows_turned(lambda row, rolled: [], is_marked), False),
    'a mark is doubled': (rows_turned(lambda row, rolled: [row, row], is_marked), True),
    'a mark ends a byte later': (rows_turned(row_moved, is_marked), True),
    'a mark is shown a paragraph later': (rows_turned(row_renumbered, is_marked), False),
    'marks of a paragraph are shown as missing': (rows_turned(row_unchecked, is_marked), False),
    'a paragraph without marks yet is shown with one': (rows_turned(row_checked, is_unmarked), False),
    'a paragraph without marks yet is shown as one that has none': (unchecked_left_out, False),
    'two paragraphs are shown at each other\'s place': (rows_exchanged, False),
}
