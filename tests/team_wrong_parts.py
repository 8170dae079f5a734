"""Ways to turn which parts an output of `team` has, and its last line; beside those of team_wrong.py."""


def other_session(printed, calls, rolled):
    """The replies of two sessions are printed under each other's number."""
    if len(printed.sections) < 2:
        return False
    one, two = rolled.sample(range(len(printed.sections)), 2)
    (first, its), (second, theirs) = printed.sections[one], printed.sections[two]
    if its == theirs:
        return False
    printed.sections[one], printed.sections[two] = (first, theirs), (second, its)


def one_of(printed, rolled):
    """Where some reply stands."""
    places = [(section, place) for section, (_, replies) in enumerate(printed.sections) for place in range(len(replies))]
    return rolled.choice(places) if places else None


def reply_missing(printed, calls, rolled):
    if (where := one_of(printed, rolled)) is None:
        return False
    del printed.sections[where[0]][1][where[1]]


def reply_doubled(printed, calls, rolled):
    if (where := one_of(printed, rolled)) is None:
        return False
    printed.sections[where[0]][1].insert(where[1], printed.get(where))


def total_moved(which, change):
    def way(printed, calls, rolled):
        printed.total[which] += change
        return printed.total[which] >= 0
    return way


def session_missing(printed, calls, rolled):
    del printed.sections[rolled.randrange(len(printed.sections))]


def session_renumbered(printed, calls, rolled):
    place = rolled.randrange(len(printed.sections))
    printed.sections[place] = (printed.sections[place][0] % 16 + 1, printed.sections[place][1])


def sessions_in_other_order(printed, calls, rolled):
    if len(printed.sections) < 2:
        return False
    printed.sections.reverse()


def line_behind(printed, calls, rolled):
    printed.last = b'total text %d dict %d\n' % tuple(printed.total)


WAYS = {
    'the replies of two sessions are exchanged': (other_session, False),
    'a reply is missing': (reply_missing, True),
    'a reply is doubled': (reply_doubled, True),
    'the total tells one edit more': (total_moved(0, 1), True),
    'the total tells one edit less': (total_moved(0, -1), True),
    'the total tells one load more': (total_moved(1, 1), True),
    'the total tells one load less': (total_moved(1, -1), True),
    'a session is missing': (session_missing, True),
    'a session has another number': (session_renumbered, True),
    'sessions fall by number': (sessions_in_other_order, True),
    'the last line is doubled': (line_behind, True),
}
