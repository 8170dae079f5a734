"""What looks tell of edits before they are come to. It prunes the search of team_history.py.

A character that stands in the text of one Ok edit alone, and there once, is a sign of it: spans end between characters, so where the
character is seen, the paragraph of that edit is. Paragraphs never change their order. So a look that shows two signs says which of two
edits was of the paragraph that stands first, or that both were of one; and none of what it shows was taken out before. And how many
paragraphs stand before one that is shown bounds how many may stand before it now, by how many are put in and taken out until then.
"""

import bisect
import collections

# How many of the next looks are asked how many paragraphs stand before one.
NEXT_LOOKS = 3


class Signs:
    """The signs of these calls, and what looks tell of them. Edits are named by the versions that they made."""

    def __init__(self, calls):
        made, edits = collections.Counter(), {}
        changes = {call.text: call.command.name for call in calls if call.kind == 'edit'}
        for call in calls:
            if call.kind == 'edit' and call.command.texts:
                text = call.command.texts[0].decode()
                made.update(text)
                edits.update(dict.fromkeys(text, call.text))
        self.edits = {sign: edit for sign, edit in edits.items() if made[sign] == 1}
        self.inserts = sorted(edit for edit, name in changes.items() if name == b'ins')
        self.removals = sorted(edit for edit, name in changes.items() if name == b'del')
        # Up to which version each sign is shown; and for each edit those before it that are shown beside it, each with whether it is
        # of a paragraph behind (1), before (-1), or of the same one (0).
        self.until, self.beside, self.known = {}, collections.defaultdict(dict), {}
        # By their versions the looks that show signs, each with the places and edits of these.
        self.looks = []
        for call in calls:
            if call.kind == 'show':
                self.take(call)
        self.looks.sort()
        self.versions = [version for version, _ in self.looks]

    def take(self, call):
        seen = [(place, self.edits[sign], sign) for place, marks in call.shown.items() for mark in marks
                for sign in mark.split(b' ', 2)[-1].decode(errors='replace') if sign in self.edits]
        for place, edit, sign in seen:
            self.until[sign] = max(self.until.get(sign, 0), call.text)
            for other_place, other, _ in seen:
                if other < edit:
                    self.beside[edit].setdefault(other, set()).add((other_place > place) - (other_place < place))
        if seen:
            self.looks.append((call.text, sorted({(place, edit) for place, edit, _ in seen})))

    def of(self, text):
        """The signs of a text."""
        if text not in self.known:
            self.known[text] = {sign for sign in text.decode() if sign in self.edits}
        return self.known[text]

    def forbid(self, version, place, old, new, paragraphs):
        """Whether some look tells that the edit that made this version is not of the paragraph at this place, which had one text before and
        has another one now, among these paragraphs. One that was taken out has no text now, and one that was put in had none."""
        kept = self.of(new) if new is not None else set()
        if old is not None and any(self.until.get(sign, 0) >= version for sign in self.of(old) - kept):
            return True
        found = {self.edits[sign]: other for other, paragraph in enumerate(paragraphs) for sign in self.of(paragraph.text)}
        wanted = self.beside.get(version, {})
        if any(other not in found or ways != {(found[other] > place) - (found[other] < place)} for other, ways in wanted.items()):
            return True
        start = bisect.bisect_left(self.versions, version)
        return any(self.is_displaced(version, found, *look) for look in self.looks[start:start + NEXT_LOOKS])

    def is_displaced(self, now, found, version, seen):
        """Whether paragraphs cannot come to where a look at this version shows them."""
        inserts, removals = (bisect.bisect_right(made, version) - bisect.bisect_right(made, now) for made in (self.inserts, self.removals))
        later = [edit for _, edit in seen if edit > now and self.is_insert(edit)]
        staying = sorted({found[edit] for _, edit in seen if edit in found})
        before = 0
        for shown, edit in seen:
            if edit > now:
                before += self.is_insert(edit)
            elif edit not in found:
                return True
            else:
                place = found[edit]
                leaving = min(removals, place - bisect.bisect_left(staying, place))
                if not place + before - leaving < shown <= place + 1 + inserts - (len(later) - before):
                    return True
        return False

    def is_insert(self, edit):
        place = bisect.bisect_left(self.inserts, edit)
        return place < len(self.inserts) and self.inserts[place] == edit
