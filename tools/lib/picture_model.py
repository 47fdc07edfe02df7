"""What a picture shows: bands of observers with a lane for each member, marks, arrows and the axis, from the lines of a trace.

A position is (ticks, slots): the layout gives each tick and each slot its room, so that what happens at one moment lies side
by side. Each mark keeps its source line, and its kind is the class that it has in the picture.
"""

from dataclasses import dataclass, field
from typing import Dict, List, Optional, Tuple

from lines import Accusation, Certificate, Ending, Event, LineError, Note, Step
from picture_datagrams import datagram_kind, describe_datagram

Position = Tuple[float, float]
ABSENT, IN_VIEW, ACCUSED, REMOVED = "absent", "view", "accused", "removed"


@dataclass
class Mark:
    kind: str
    at: Position
    line: int
    title: str
    label: str = ""
    priority: int = 1


@dataclass
class Segment:
    """A member's state in a view from one line to another."""

    state: str
    start: Position
    end: Position
    first: int
    last: int
    title: str = ""


@dataclass
class Lane:
    member: int
    segments: List[Segment] = field(default_factory=list)
    marks: List[Mark] = field(default_factory=list)


@dataclass
class Band:
    """An observer: `wire` are the marks of the observer itself, `runs` from where to where it runs."""

    key: Optional[int]
    title: str
    lanes: Dict[int, Lane] = field(default_factory=dict)
    wire: List[Mark] = field(default_factory=list)
    runs: List[List[Position]] = field(default_factory=list)
    moments: List[Tuple[Position, int]] = field(default_factory=list)
    has_wire: bool = True


@dataclass
class Arrow:
    kind: str
    sender: Optional[int]
    start: Position
    receiver: int
    end: Optional[Position]
    line: int
    title: str
    is_lost: bool = False


@dataclass
class Panel:
    """Bands over one axis. `axis` is what it counts; `stands` are the moments of a schedule, from where to where."""

    axis: str
    bands: List[Band] = field(default_factory=list)
    arrows: List[Arrow] = field(default_factory=list)
    stands: List[Tuple[Position, Position, int]] = field(default_factory=list)
    ticks: List[Tuple[Position, str]] = field(default_factory=list)
    start: Position = (0.0, 0.0)
    end: Position = (0.0, 0.0)
    caption: str = ""


@dataclass
class Group:
    t: int = 0
    timeout: int = 0
    tag: Optional[bytes] = None
    places: Dict[int, List[int]] = field(default_factory=dict)


@dataclass
class Picture:
    title: str
    panels: List[Panel]
    group: Group
    watches: Dict[Optional[int], "Watch"]
    notices: List[str] = field(default_factory=list)


class Clock:
    """The position that the lines have come to."""

    def __init__(self):
        self.ticks = 0.0
        self.slots = 0.0

    def now(self):
        return (self.ticks, self.slots)

    def slot(self, width):
        """Takes so much room, and gives its middle."""
        self.slots += width / 2
        middle = self.now()
        self.slots += width / 2
        return middle

    def pass_ticks(self, ticks):
        self.ticks += ticks


def shortened(text, most=140):
    """A source line for hovering: long runs of digits are cut."""
    words = [word if len(word) <= 48 else f"{word[:32]}..({len(word) // 2} bytes)" for word in text.split(" ")]
    text = " ".join(words)
    return text if len(text) <= most else text[: most - 2] + ".."


def source(line, prefix=""):
    return f"{prefix}line {line.line}: {shortened(line.text)}"


def said_of(body):
    """The label of a record."""
    if isinstance(body, Note):
        return f"e{body.epoch} m{body.mask}"
    return f"by {body.accuser} r{body.ring}" if isinstance(body, Accusation) else "cert"


class Watch:
    """A view as its observer comes to know it, event by event, and what of it is drawn into the band."""

    def __init__(self, band, prefix=""):
        self.band = band
        self.prefix = prefix
        self.is_running = False
        self.life = 0
        self.states = {}
        self.since = {}
        self.kept = {}
        self.notes = {}
        self.moment = None

    # ---- lives

    def begin(self, line, at, label=None):
        if self.is_running:
            self.halt(line, at)
        self.life += 1
        self.is_running = True
        self.kept, self.notes, self.moment = {}, {}, None
        self.band.runs.append([at, at])
        for member in sorted(self.band.lanes):
            self.enter_state(member, ABSENT, line, at)
        if label:
            self.put_wire("life", line, at, label, 0)

    def halt(self, line, at):
        """The life is over: its lanes end here."""
        if not self.is_running:
            return
        for member in sorted(self.states):
            self.close(member, line, at)
        self.states, self.since = {}, {}
        self.is_running = False
        self.band.runs[-1][1] = at

    def finish(self, line, at):
        """The end of what is drawn."""
        self.halt(line, at)

    def know(self, member, line, at):
        """Gives the member a lane, from here on."""
        if member not in self.band.lanes:
            self.band.lanes[member] = Lane(member)
        if self.is_running and member not in self.states:
            self.enter_state(member, ABSENT, line, at)

    def enter_state(self, member, state, line, at):
        if self.states.get(member) == state:
            return
        self.close(member, line, at)
        self.states[member] = state
        self.since[member] = (at, line.line)

    def close(self, member, line, at):
        if member in self.states:
            start, first = self.since[member]
            self.band.lanes[member].segments.append(Segment(self.states[member], start, at, first, line.line))

    def settle(self, member, line, at):
        """In the view, or accused while an accusation is kept."""
        if self.states.get(member) in (IN_VIEW, ACCUSED):
            kept = any(accusation.accused == member for accusation in self.kept)
            self.enter_state(member, ACCUSED if kept else IN_VIEW, line, at)

    # ---- marks

    def put(self, kind, member, line, at, label="", priority=1):
        self.know(member, line, at)
        self.band.lanes[member].marks.append(Mark(kind, at, line.line, source(line, self.prefix), label, priority))

    def put_wire(self, kind, line, at, label="", priority=1):
        self.band.wire.append(Mark(kind, at, line.line, source(line, self.prefix), label, priority))

    def see_moment(self, moment, at):
        if moment != self.moment:
            self.moment = moment
            self.band.moments.append((at, moment))

    # ---- what happens

    def record(self, body, fault, line, at, is_own=False):
        """A record was delivered, or signed by the observer itself."""
        if fault is not None:
            member = body.accused if isinstance(body, Accusation) else body.member
            self.put("refused", member, line, at, f"{said_of(body)}: {' '.join(fault[:2])}", 3)
        elif isinstance(body, Note):
            self.notes[body.member] = body
            self.put("own note" if is_own else "note", body.member, line, at, said_of(body))
        elif isinstance(body, Accusation):
            self.put("accusation", body.accused, line, at, said_of(body), 0)
            self.kept[body] = line.line
            self.settle(body.accused, line, at)
        elif isinstance(body, Certificate):
            self.put("certificate", body.member, line, at, said_of(body), 4)

    def event(self, event, at):
        kind = event.kind
        self.see_moment(event.moment, at)
        if kind == "entered":
            self.put("entered", event.member, event, at)
            self.enter_state(event.member, IN_VIEW, event, at)
        elif kind == "removed":
            note = self.notes.get(event.member)
            has_left = note is not None and note.is_leaving()
            self.put("removed", event.member, event, at, "left" if has_left else "removed", 0)
            self.enter_state(event.member, REMOVED, event, at)
        elif kind in ("expired", "fell"):
            self.kept.pop(event.body, None)
            label = f"r{event.body.ring} {kind}" if kind == "fell" else ""
            self.put(kind, event.body.accused, event, at, label, 2)
            if kind == "fell":
                self.settle(event.body.accused, event, at)
        elif kind == "spent":
            self.record(event.body, None, event, at, is_own=True)
        elif kind == "took":
            self.record(event.body, event.fault, event, at)
        elif kind == "silent":
            self.put("silent", event.member, event, at, "silent", 2)
        elif kind == "exhausted":
            self.put_wire("exhausted", event, at, "key used up", 0)
        elif kind == "bad-form":
            self.put_wire("bad-form", event, at, "no datagram", 3)
        elif kind == "stopped":
            self.put_wire("stop", event, at, "stopped", 0)
            self.halt(event, at)


# The room that an event takes of a world's or a journal's axis, in slots.
ROOM = {
    "entered": 0.4, "removed": 0.8, "expired": 0.8, "fell": 0.8, "spent": 1.0, "took": 1.0, "silent": 0.6,
    "exhausted": 1.0, "bad-form": 0.3, "stopped": 1.0,
}  # fmt: skip
# What comes of a record, or of a tick: it lies where its cause lies, where that is the line before.
EFFECTS = {
    "entered": ("took", "spent"),
    "fell": ("took", "spent", "entered", "expired", "removed", "fell"),
    "removed": ("took", "spent", "expired", "removed"),
    "expired": ("expired",),
}


class Places:
    """Where the events of a world or of journals lie."""

    def __init__(self, clock):
        self.clock = clock
        self.before = (None, None, 0)
        self.at = clock.now()

    def place(self, node, event, room):
        kind, moment = event.kind, event.moment
        is_effect = self.before[0] in EFFECTS.get(kind, ()) and self.before[1:] == (node, moment)
        self.before = (kind, node, moment)
        if not is_effect:
            self.at = self.clock.slot(room)
        return self.at

    def leave(self):
        self.before = (None, None, 0)


def room_of(event, draws_all, hidden):
    """The room of an event: datagrams that draw no arrow take only what hidden lines take."""
    if event.kind == "sent":
        return 0.4 if draws_all or datagram_kind(event.hex) == "records" else hidden
    if event.kind in ("got", "ping", "pong", "summary", "lost"):
        return hidden
    if event.kind == "took" and event.fault is not None:
        return 0.5
    return ROOM[event.kind]


# ---- a direct trace

SHADED = "Time runs to the right. What is recorded at one moment lies on one ground."
OWN_MOMENTS = "Time runs to the right, over the lines of the trace. Below each node's line stand its own moments, in ticks."


class DirectPicture:
    """Plays a direct trace: one band, whose axis is the moments of the schedule."""

    def __init__(self):
        self.clock = Clock()
        self.band = Band(None, "the view", has_wire=False)
        self.panel = Panel("moment", [self.band])
        self.watch = Watch(self.band)
        self.group = Group()
        self.moment = 0
        self.life = 1
        self.stand = None
        self.at = self.clock.now()
        self.notices = []

    def leave_moment(self):
        start, moment = self.stand
        self.panel.stands.append((start, self.clock.now(), moment))

    def stand_at(self, moment):
        self.moment = moment
        self.stand = (self.clock.now(), moment)

    def pass_to(self, moment):
        if moment > self.moment:
            self.leave_moment()
            self.clock.pass_ticks(moment - self.moment)
            self.stand_at(moment)

    def step(self, step):
        word, words = step.word, step.words
        accepted = step.verdict == ("accepted",)
        if (word == "group") != (step.line == 2):
            raise LineError(step.line, "`group T TIMEOUT` as line 2 and nowhere else")
        if word == "group":
            self.group.t, self.group.timeout = words
            self.stand_at(0)
            self.watch.begin(step, self.clock.now())
            self.clock.slot(0.3)
        elif word == "member":
            at = self.at = self.clock.slot(0.3)
            if len(words) != 2 * self.group.t + 2:
                raise LineError(step.line, f"{2 * self.group.t + 1} places")
            if step.verdict == ("joined",):
                self.group.places[words[0]] = list(words[1:])
                self.watch.know(words[0], step, at)
            else:
                self.watch.put("refused", words[0], step, at, step.verdict[1], 3)
        elif word in ("note", "accuse"):
            body = (Note if word == "note" else Accusation)(*words)
            self.at = self.clock.slot(1.0)
            self.watch.record(body, None if accepted else step.verdict[1:], step, self.at)
        elif word == "life":
            self.begin_life(step)
        elif word in ("view", "monitor"):
            self.clock.slot(0.3)

    def begin_life(self, step):
        self.leave_moment()
        at = self.clock.slot(0.6)
        lanes = list(self.watch.states)
        self.watch.halt(step, at)
        self.watch.begin(step, at)
        for member in lanes:
            self.watch.know(member, step, at)
        self.watch.put_wire("life", step, at, f"life {step.verdict[0]}", 0)
        self.stand_at(0)

    def events_below(self, step, events):
        """The events under a line lie where it lies; those of a `tick` at their moments."""
        target = self.moment + step.words[0] if step.word == "tick" else self.moment
        at, moment = self.at, None
        for event in events:
            if step.word == "tick" and event.moment != moment:
                self.pass_to(event.moment)
                at, moment = self.clock.slot(0.8), event.moment
            self.panel.ticks.append((at, str(event.line)))
            self.watch.event(event, at)
        self.pass_to(target)

    def build(self, lines, until=None):
        index, last = 0, lines[0]
        while index < len(lines) and (until is None or lines[index].line <= until):
            line = last = lines[index]
            index += 1
            self.panel.ticks.append((self.clock.now(), str(line.line)))
            if isinstance(line, Step):
                events = []
                while index < len(lines) and isinstance(lines[index], Event) and (until is None or lines[index].line <= until):
                    events.append(lines[index])
                    index += 1
                self.step(line)
                self.events_below(line, events)
                last = events[-1] if events else line
            elif isinstance(line, Ending) and line.word != "end":
                self.notices.append(f"The run ends with `{shortened(line.text)}`.")
        self.clock.slot(0.3)
        if self.stand:
            self.leave_moment()
        self.panel.end = self.clock.now()
        return last

    def picture(self, lines, until=None):
        last = self.build(lines, until)
        watches = {None: self.watch}
        if until is None:
            self.watch.finish(last, self.clock.now())
        group = self.group
        title = f"A group with t {group.t} (so {2 * group.t + 1} rings) and timeout {group.timeout}"
        return Picture(title, [self.panel], group, watches, [SHADED] + self.notices)


# ---- the trace of a world


class WorldPicture:
    """Plays the trace of a world: a band for each node and liar, over the lines."""

    HIDDEN = 0.08

    def __init__(self, draws_all=False):
        self.draws_all = draws_all
        self.clock = Clock()
        self.places = Places(self.clock)
        self.wires = {}
        self.panel = Panel("line")
        self.group = Group()
        self.nodes = {}
        self.liars = {}
        self.watches = {}
        self.sent = {}
        self.signed = {}
        self.pending = None
        self.notices = []

    def roster(self):
        members = sorted(list(self.nodes) + list(self.liars))
        self.group.places = {member: [] for member in members}
        for member in members:
            if member in self.nodes:
                band = Band(member, f"node {member}", {m: Lane(m) for m in members})
                self.watches[member] = Watch(band)
            else:
                band = Band(member, f"liar {member}")
            self.panel.bands.append(band)
        self.wires = {band.key: band for band in self.panel.bands}

    def step(self, step):
        word, words = step.word, step.words
        self.places.leave()
        self.end_ticks()
        if word == "group":
            self.group.t, self.group.timeout, self.group.tag = words[0], words[1], bytes.fromhex(words[4])
        elif word in ("node", "liar"):
            (self.nodes if word == "node" else self.liars)[words[0]] = True
        elif word == "begin":
            self.roster()
        elif word == "start":
            self.start(step)
        elif word == "stop" and step.verdict is None:
            at = self.clock.slot(1.0)
            self.running(words[0], step).put_wire("stop", step, at, "stop", 0)
            self.watches[words[0]].halt(step, at)
        elif word == "tick" and step.verdict is None:
            self.pending = (words[0], self.running(words[0], step).moment + words[1])
            self.clock.slot(0.15)
        elif word in ("sign-note", "sign-accusation"):
            self.sign(step)
        elif word in ("give", "give-all") and step.verdict is None:
            self.give(step)
        elif word == "raw" and step.verdict is None:
            self.running(words[0], step).put_wire("raw", step, self.clock.slot(0.4), "raw", 3)
        else:
            self.clock.slot(self.HIDDEN)

    def running(self, member, line):
        watch = self.watches.get(member)
        if watch is None or not watch.is_running:
            raise LineError(line.line, f"a node that runs, and {member} is none")
        return watch

    def start(self, step):
        verdict, member = step.verdict, step.words[0]
        watch = self.watches.get(member)
        if watch is None:
            return
        at = self.clock.slot(0.8)
        if verdict[0] == "life":
            watch.begin(step, at, f"life {verdict[1]}")
            watch.see_moment(0, at)
        elif verdict[0] == "stopped":
            watch.put_wire("stop", step, at, "stopped", 0)
        elif verdict[:2] == ("refused", "exhausted"):
            watch.put_wire("exhausted", step, at, "key used up", 0)

    def sign(self, step):
        at = self.clock.slot(0.8)
        if step.words[0] not in self.liars:
            return
        if step.verdict[0] != "signed":
            if step.verdict[:2] == ("refused", "exhausted"):
                self.mark_liar("exhausted", step, at, "key used up", 0)
            return
        words, key = step.words, step.words[0]
        self.signed[words[-1]] = key
        label = f"{words[1]}: e{words[2]} m{words[3]}" if step.word == "sign-note" else f"{words[2]} by {words[1]} r{words[4]}"
        self.mark_liar("signed", step, at, label, 1)

    def mark_liar(self, kind, step, at, label, priority):
        self.wires[step.words[0]].wire.append(Mark(kind, at, step.line, source(step), label, priority))

    def give(self, step):
        at = self.clock.slot(0.4)
        if step.words[0] not in self.signed:
            raise LineError(step.line, "the name of a record that is kept")
        if step.word == "give":
            receivers = [step.words[1]]
        else:
            receivers = [member for member in sorted(self.watches) if self.watches[member].is_running]
        for receiver in receivers:
            self.panel.arrows.append(Arrow("given", self.signed[step.words[0]], at, receiver, at, step.line, source(step)))

    def end_ticks(self):
        """A node's moment behind its `tick` line, where no event told it."""
        if self.pending:
            member, moment = self.pending
            self.pending = None
            if self.watches[member].is_running:
                self.watches[member].see_moment(moment, self.clock.now())

    def event(self, event):
        watch = self.watches.get(event.node)
        if watch is None:
            raise LineError(event.line, f"a node of this world, and {event.node} is none")
        at = self.places.place(event.node, event, room_of(event, self.draws_all, self.HIDDEN))
        if event.kind == "sent":
            self.sent[event.datagram] = [event, at, False]
        elif event.kind == "got" and event.datagram in self.sent:
            self.arrive(event, at)
        if self.pending and event.kind == "stopped" and self.pending[0] == event.node:
            self.pending = None
        watch.event(event, at)

    def arrive(self, event, at):
        entry = self.sent[event.datagram]
        entry[2] = True
        self.put_arrow(entry[0], entry[1], event.node, at, False)

    def put_arrow(self, event, start, receiver, end, is_lost):
        kind = datagram_kind(event.hex)
        if kind == "records" or self.draws_all:
            title = f"{source(event)} ({describe_datagram(event.hex)})"
            self.panel.arrows.append(Arrow(kind, event.node, start, receiver, end, event.line, title, is_lost))

    def build(self, lines, until=None):
        last = lines[0]
        for line in lines:
            if until is not None and line.line > until:
                break
            last = line
            self.panel.ticks.append((self.clock.now(), str(line.line)))
            if isinstance(line, Event):
                self.event(line)
            elif isinstance(line, Step):
                self.step(line)
            elif isinstance(line, Ending) and line.word != "end":
                self.notices.append(f"The run ends with `{shortened(line.text)}`.")
        self.clock.slot(0.3)
        self.panel.end = self.clock.now()
        for event, at, has_come in self.sent.values():
            if not has_come:
                self.put_arrow(event, at, event.member, None, True)
        return last

    def picture(self, lines, until=None):
        last = self.build(lines, until)
        if until is None:
            for watch in self.watches.values():
                watch.finish(last, self.clock.now())
        group = self.group
        counts = f"{len(self.nodes)} node{'s' * (len(self.nodes) != 1)}"
        if self.liars:
            counts += f" and {len(self.liars)} liar{'s' * (len(self.liars) != 1)}"
        title = f"A world of {counts}, with t {group.t} (so {2 * group.t + 1} rings) and timeout {group.timeout}"
        return Picture(title, [self.panel], group, self.watches, [OWN_MOMENTS] + self.notices)
