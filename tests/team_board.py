"""The boards of a history of `team`, and what a command of a session finds on them."""

from typing import NamedTuple

from console_model import CHECKED, MOST_BYTES, MOST_PARAGRAPHS, STOPPED, WAITING, is_edge
from team_lines import UNCHECKED

# Before which paragraph a text is put in at the end.
END = -1


class Paragraph(NamedTuple):
    """Its id is its own for ever. `opened` is the time since which it waits; `before` are the times from and to which it waited with this
    text and under this dictionary before it was stopped."""
    id: int
    text: bytes
    state: str
    opened: int
    before: tuple = ()


class Seat(NamedTuple):
    """Where a session stands: how many of its calls have their place, the time of the last one, and which paragraphs its next command may
    have named since, the latest first: those that it may name still, and those that were changed since. Where a reply is explained by the
    last edit, it is `met`. A `settle` that has checked a paragraph looked at the board before this was seen, at `latest`."""
    next: int = 0
    since: int = 0
    named: tuple = ()
    changed: frozenset = frozenset()
    met: bool = False
    latest: int = None


def place_of(paragraphs, id):
    """Where the paragraph with an id stands, from 0; None where it is not there."""
    for place, paragraph in enumerate(paragraphs):
        if paragraph.id == id:
            return place
    return None


def named_by(call, paragraphs):
    """The paragraph that a command names on a board, or before which it puts one in; None where there is no such place."""
    place = call.command.numbers[0]
    if 1 <= place <= len(paragraphs):
        return paragraphs[place - 1].id
    return END if call.command.name == b'ins' and place == len(paragraphs) + 1 else None


def text_of(call, paragraphs):
    """The text that a command changes which looks at a board; none, if it puts one in."""
    return b'' if call.command.name == b'ins' else paragraphs[call.command.numbers[0] - 1].text


def names_place(call):
    return call.command is not None and bool(call.command.numbers)


def has_rev(call):
    """Whether the event of a command names a rev beside the id."""
    return call.command.name in (b'put', b'sub', b'del')


def text_refusal(command, text, count):
    """The refusal, with its number, of an edit for the text of the paragraph that it changes, beside so many paragraphs; or None."""
    if command.name == b'del':
        return None
    if command.name == b'sub':
        _, start, end = command.numbers
        if not (start <= end <= len(text) and is_edge(text, start) and is_edge(text, end)):
            return 'BadSpan', len(text)
    size = len(changed_text(command, text))
    if size > MOST_BYTES:
        return 'TooLong', size
    return ('Full', count) if command.name == b'ins' and count >= MOST_PARAGRAPHS else None


def changed_text(command, text):
    """The text that a command makes of another one."""
    if command.name == b'sub':
        _, start, end = command.numbers
        return text[:start] + command.texts[0] + text[end:]
    return command.texts[0]


def shown_needs(call, paragraphs, marks):
    """Which paragraphs have to be checked, that wait, so that a look shows the board as it did; None where it cannot. `marks` is asked for
    the marks of texts, where all else is as it is shown."""
    shown, checked = call.shown, []
    if shown and max(shown) > len(paragraphs):
        return None
    for place, paragraph in enumerate(paragraphs, 1):
        if shown.get(place) == UNCHECKED:
            if paragraph.state == CHECKED:
                return None
        elif paragraph.state == STOPPED:
            return None
        else:
            checked.append((place, paragraph))
    found = marks([paragraph.text for _, paragraph in checked])
    if any(shown.get(place, ()) != came for (place, _), came in zip(checked, found)):
        return None
    return [paragraph.id for _, paragraph in checked if paragraph.state == WAITING]
