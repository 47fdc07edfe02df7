"""Follows a member's journals: its lives one after another, and its view in each.

`Story` takes lines in order, of one journal or of several, and gives what changes. What it holds then is the node as its
journals show it: the view, the notes, the accusations that are kept, the certificates, the leaves that were spent.
"""

from dataclasses import dataclass, field
from typing import Dict, List, Optional, Tuple

from lines import Accusation, Certificate, Ending, Event, LineError, Note, Turn, begins_life


@dataclass
class Life:
    """One life. Moments are those of this life."""

    number: int
    member: int
    moment: int = 0
    # since when each member is in the view
    view: Dict[int, int] = field(default_factory=dict)
    notes: Dict[int, Note] = field(default_factory=dict)
    # since when each accusation is kept
    kept: Dict[Accusation, int] = field(default_factory=dict)
    removed: Dict[int, int] = field(default_factory=dict)
    # what expired last, and at which moment
    expired: List[Accusation] = field(default_factory=list)
    expired_at: int = 0
    changed: int = 0
    over: Optional[str] = None

    def accused_since(self, member):
        return min((since for one, since in self.kept.items() if one.accused == member), default=None)


@dataclass(frozen=True)
class Change:
    """`life`: a life begins, and the view is empty; `entered`, `removed`; `over`: the life is over, `how` its last words.
    A removal rests on `accusation`, or the member left by its note `left`."""

    event: str
    life: int
    moment: int
    member: int
    accusation: Optional[Accusation] = None
    left: Optional[Note] = None
    how: Optional[str] = None
    view: Tuple[int, ...] = ()


class Story:
    """`member` is whose journals these must be, if that is known; `ports` the certificates that the kit gives it."""

    def __init__(self, member=None, ports=()):
        self.member = member
        self.kit_ports = dict(ports)
        self.ports = dict(ports)
        self.life: Optional[Life] = None
        self.lives = 0
        self.next_index: Optional[int] = None
        self.waiting: Optional[Event] = None
        # how the last run ended, where its journal says so
        self.ending: Optional[str] = None

    # A life begins with two lines, so the first of them waits for the line behind it.
    def take(self, line):
        """The changes that this line brings."""
        found = []
        first, self.waiting = self.waiting, None
        if first is not None:
            if begins_life(first, line):
                found += self.begin(first)
            found += self.step(first)
        if isinstance(line, Event) and (line.kind, line.moment) == ("spent", 0) and isinstance(line.body, Note):
            self.waiting = line
            return found
        return found + self.step(line)

    def end_journal(self):
        """No line follows in this journal. One that ends behind the first note of a life tells that its leaf is spent."""
        if self.waiting is not None:
            self.next_index = self.waiting.index + 1
            self.waiting = None

    def begin(self, line):
        if self.member is None:
            self.member = line.body.member
        if line.body.member != self.member:
            raise LineError(line.line, f"the first note of a life of member {self.member}, and not of {line.body.member}")
        self.lives += 1
        self.ending = None
        self.ports = dict(self.kit_ports)
        self.life = Life(self.lives, self.member)
        return [self.change("life", 0, self.member)]

    def change(self, event, moment, member, **more):
        return Change(event, self.life.number, moment, member, view=tuple(sorted(self.life.view)), **more)

    def step(self, line):
        if isinstance(line, Turn):
            self.require_life(line)
            return []
        if isinstance(line, Ending):
            return self.end(line)
        self.require_life(line)
        self.life.moment = line.moment
        return HANDLERS.get(line.kind, nothing)(self, line) or []

    def require_life(self, line):
        if self.life is None or self.life.over is not None:
            raise LineError(line.line, "the first note of a life, `at 0 spent Q note M EPOCH MASK`")

    def end(self, line):
        self.ending = line.text
        if line.word == "exhausted":
            self.next_index = int(line.words[0])
        return self.finish(line.text)

    def finish(self, how):
        if self.life is None or self.life.over is not None:
            return []
        self.life.over = how
        return [self.change("over", self.life.moment, self.member, how=how)]

    # ---- events

    def spent(self, line):
        self.next_index = line.index + 1
        self.accept(line.body, line.moment)

    def took(self, line):
        if line.fault is None:
            self.accept(line.body, line.moment)

    def accept(self, body, moment):
        if isinstance(body, Certificate):
            self.ports[body.member] = body.port
        elif isinstance(body, Note):
            self.life.notes[body.member] = body
        else:
            self.life.kept[body] = moment

    def entered(self, line):
        self.life.view[line.member] = line.moment
        self.life.removed.pop(line.member, None)
        self.life.changed = line.moment
        return [self.change("entered", line.moment, line.member)]

    def expired(self, line):
        if self.life.expired_at != line.moment:
            self.life.expired, self.life.expired_at = [], line.moment
        self.life.kept.pop(line.body, None)
        self.life.expired.append(line.body)

    def removed(self, line):
        self.life.view.pop(line.member, None)
        self.life.removed[line.member] = line.moment
        self.life.changed = line.moment
        note = self.life.notes.get(line.member)
        if note is not None and note.is_leaving():
            return [self.change("removed", line.moment, line.member, left=note)]
        expired = self.life.expired if self.life.expired_at == line.moment else ()
        cause = next((one for one in expired if one.accused == line.member), None)
        if cause is None:
            raise LineError(line.line, f"a note by which {line.member} left, or an expired accusation of it, above its removal")
        return [self.change("removed", line.moment, line.member, accusation=cause)]

    def fell(self, line):
        self.life.kept.pop(line.body, None)

    def exhausted(self, line):
        self.next_index = line.index

    def stopped(self, line):
        return self.finish("stopped")


def nothing(story, line):
    return None


HANDLERS = {
    kind: getattr(Story, kind)
    for kind in ("spent", "took", "entered", "expired", "removed", "fell", "exhausted", "stopped")
}
