"""Reads what the program writes: the lines of a journal, and of a direct trace and a trace of a world.

`read(data)` gives the form of a whole text and its lines; `JournalReader` takes a journal as it comes, piece by piece. A last
line without its feed is left out. A line that is no line of its form raises LineError with its number and what was wanted.
"""

import re
from dataclasses import dataclass
from typing import Optional, Tuple, Union

MEMBERS = 1024
U32 = 2**32 - 1
U64 = 2**64 - 1
MOST_BYTES = 32768


class LineError(Exception):
    """A line that is no line of its form: its number, from 1, and what was wanted there."""

    def __init__(self, number, wanted):
        super().__init__(f"line {number}: wanted {wanted}")
        self.number = number
        self.wanted = wanted


# ---- what the lines say


@dataclass(frozen=True)
class Certificate:
    member: int
    port: int
    key: str

    word = "cert"


@dataclass(frozen=True)
class Note:
    member: int
    epoch: int
    mask: int

    word = "note"

    def is_leaving(self):
        """By this note its member leaves: it enables no ring."""
        return self.mask == 0


@dataclass(frozen=True)
class Accusation:
    accuser: int
    accused: int
    epoch: int
    ring: int

    word = "accuse"


Body = Union[Certificate, Note, Accusation]


@dataclass
class Header:
    """`fireflies 1 direct` or `fireflies 1 world`."""

    line: int
    form: str
    text: str


@dataclass
class Event:
    """`at NOW ..`, in a world with `@M ` before it. Only the fields of its kind are set.

    kind       fields
    entered    member            removed, silent likewise
    expired    body              fell likewise (an Accusation)
    spent      index, body
    took       body, fault (the words of the fault, or None where it was accepted)
    bad-form   place
    ping       member, nonce
    pong       member, nonce, counted
    summary    member, page, flag
    exhausted  index
    sent       datagram, member (to whom), hex
    lost, got  datagram
    stopped
    """

    line: int
    text: str
    node: Optional[int]
    moment: int
    kind: str
    member: Optional[int] = None
    body: Optional[Body] = None
    index: Optional[int] = None
    fault: Optional[Tuple[str, ...]] = None
    place: Optional[int] = None
    nonce: Optional[int] = None
    counted: Optional[bool] = None
    page: Optional[int] = None
    flag: Optional[int] = None
    datagram: Optional[int] = None
    hex: Optional[str] = None


@dataclass
class Turn:
    """`turn T got HEX ticks N`, `turn T nothing ticks N`, `turn T failed ticks N`; hex is "" for no bytes."""

    line: int
    text: str
    number: int
    heard: str
    hex: Optional[str]
    ticks: int


@dataclass
class Step:
    """A line of a schedule as its trace writes it back. Words are numbers where the schedule has numbers.

    verdict: the words after ` : `, or None where the line has none. `signed Q`, `life L`, `refused ..` and so on.
    """

    line: int
    text: str
    word: str
    words: Tuple[Union[int, str], ...]
    verdict: Optional[Tuple[str, ...]]


@dataclass
class Ending:
    """The last line of a run: `end`, `exhausted NEXT`, `store fault`, `bad LINE WORD` and so on."""

    line: int
    text: str
    word: str
    words: Tuple[str, ...]


Line = Union[Header, Event, Turn, Step, Ending]

# ---- words

NUMBER = re.compile(r"(?:0|[1-9][0-9]{0,19})\Z")
# Of one level, or of two behind the number of levels.
KEY = re.compile(r"(?:00000002)?[0-9a-f]{112}\Z")
DIGITS = re.compile(r"(?:[0-9a-f]{2})+\Z")
NAME = re.compile(r"[a-z0-9-]{1,32}\Z")
WORDS = re.compile(r"[!-~]+(?: [!-~]+)*\Z")


class Words:
    """The words of one line, from left to right."""

    def __init__(self, number, text):
        self.number = number
        self.text = text
        self.words = text.split(" ")
        self.at = 0

    def fail(self, wanted):
        raise LineError(self.number, f"{wanted} as word {self.at + 1}")

    def word(self, wanted):
        if self.at >= len(self.words):
            self.fail(wanted)
        self.at += 1
        return self.words[self.at - 1]

    def one_of(self, *choices):
        wanted = "`" + "`, `".join(choices) + "`"
        found = self.word(wanted)
        if found not in choices:
            self.at -= 1
            self.fail(wanted)
        return found

    def number_in(self, least, most, what):
        wanted = f"{what}, {least} to {most},"
        found = self.word(wanted)
        if NUMBER.match(found) is None or not least <= int(found) <= most:
            self.at -= 1
            self.fail(wanted)
        return int(found)

    def member(self):
        return self.number_in(0, MEMBERS - 1, "a member")

    def epoch(self):
        return self.number_in(1, U64, "an epoch")

    def mask(self):
        return self.number_in(0, U64, "a mask")

    def ring(self):
        return self.number_in(0, 255, "a ring")

    def any(self, what):
        return self.number_in(0, U64, what)

    def matching(self, pattern, wanted):
        found = self.word(wanted)
        if pattern.match(found) is None:
            self.at -= 1
            self.fail(wanted)
        return found

    def bytes_or_dash(self):
        if self.at < len(self.words) and self.words[self.at] == "-":
            self.at += 1
            return ""
        return self.matching(DIGITS, "bytes in lower case digits")

    def key(self):
        return self.matching(KEY, "a key of 112 digits, or one of 120 that begin with 00000002,")

    def rest(self):
        rest = tuple(self.words[self.at :])
        self.at = len(self.words)
        return rest

    def is_over(self):
        return self.at == len(self.words)

    def end(self):
        if not self.is_over():
            self.fail("the end of the line")


# ---- kinds of keys

WIDTHS = ("1", "2", "4", "8")
HEIGHTS = ("5", "10")


def kinds_of_key(words, heights=HEIGHTS):
    """W and H, and where a third word stands H1."""
    width, height = int(words.one_of(*WIDTHS)), int(words.one_of(*heights))
    return [width, height] if words.is_over() else [width, height, bottom_height(words, width, height)]


def bottom_height(words, width, height):
    """H1, the height of the bottom trees of a key of two levels: it has W4 or W8, and 15 levels at most in all."""
    wanted = "H1, 5 or 10, with W 4 or 8 and H + H1 at most 15,"
    found = words.word(wanted)
    if found not in HEIGHTS or width not in (4, 8) or height + int(found) > 15:
        words.at -= 1
        words.fail(wanted)
    return int(found)


# ---- records and faults


def accusation(words):
    return Accusation(words.member(), words.member(), words.epoch(), words.ring())


def body(words):
    word = words.one_of("cert", "note", "accuse")
    if word == "cert":
        return Certificate(words.member(), words.number_in(1, 65535, "a port"), words.key())
    if word == "note":
        return Note(words.member(), words.epoch(), words.mask())
    return accusation(words)


PLAIN_FAULTS = (
    "already-member", "unknown-member", "bad-mask", "known", "bad-signature", "self-accusation", "bad-ring", "no-note",
    "not-in-view", "ring-disabled", "standing",
)  # fmt: skip
WIDE_FAULTS = ("older", "own-ahead", "other-certificate", "other-epoch", "not-monitor")


def fault(words):
    start = words.at
    word = words.one_of(*PLAIN_FAULTS, *WIDE_FAULTS)
    if word == "older":
        words.epoch(), words.mask()
    elif word == "own-ahead":
        words.epoch(), words.mask(), words.epoch(), words.mask()
    elif word == "other-certificate":
        words.number_in(1, 65535, "a port"), words.key()
    elif word == "other-epoch":
        words.epoch()
    elif word == "not-monitor" and not (not words.is_over() and words.words[words.at] == "none"):
        words.member()
    elif word == "not-monitor":
        words.at += 1
    return tuple(words.words[start : words.at])


def accepted_or_fault(words):
    """None where it was accepted, or the words of the fault."""
    return None if words.one_of("accepted", "refused") == "accepted" else fault(words)


# ---- events


def spent(words):
    return {"index": words.number_in(0, U32, "an index"), "body": body(words)}


def took(words):
    record = body(words)
    words.one_of(":")
    return {"body": record, "fault": accepted_or_fault(words)}


def pong(words):
    found = {"member": words.member(), "nonce": words.any("a nonce")}
    found["counted"] = words.one_of("counted", "stray") == "counted"
    return found


def summary(words):
    found = {"member": words.member(), "page": words.number_in(0, 31, "a page")}
    found["flag"] = int(words.one_of("0", "1"))
    return found


EVENTS = {
    "entered": lambda words: {"member": words.member()},
    "expired": lambda words: {"body": accusation(words)},
    "removed": lambda words: {"member": words.member()},
    "fell": lambda words: {"body": accusation(words)},
    "spent": spent,
    "took": took,
    "bad-form": lambda words: {"place": words.any("a place")},
    "ping": lambda words: {"member": words.member(), "nonce": words.any("a nonce")},
    "pong": pong,
    "summary": summary,
    "silent": lambda words: {"member": words.member()},
    "exhausted": lambda words: {"index": words.number_in(0, U32, "an index")},
    "sent": lambda words: {
        "datagram": words.any("a datagram"),
        "member": words.member(),
        "hex": words.matching(DIGITS, "bytes in lower case digits"),
    },
    "lost": lambda words: {"datagram": words.any("a datagram")},
    "got": lambda words: {"datagram": words.any("a datagram")},
    "stopped": lambda words: {},
}
DIRECT_EVENTS = ("entered", "expired", "removed", "fell")


def event(words, node, kinds):
    words.one_of("at")
    moment = words.any("a moment")
    kind = words.one_of(*kinds)
    fields = EVENTS[kind](words)
    words.end()
    return Event(words.number, words.text, node, moment, kind, **fields)


# ---- journals


def turn(words):
    words.one_of("turn")
    number = words.number_in(1, U32, "a turn")
    heard = words.one_of("got", "nothing", "failed")
    got = words.bytes_or_dash() if heard == "got" else None
    words.one_of("ticks")
    ticks = words.number_in(0, 64, "ticks")
    words.end()
    return Turn(words.number, words.text, number, heard, got, ticks)


ENDINGS = {
    "end": lambda words: None,
    "bad": lambda words: (words.number_in(1, U64, "a line"), words.matching(NAME, "a word that says why")),
    "read": lambda words: words.one_of("fault"),
    "link": lambda words: words.one_of("fault"),
    "store": lambda words: broken(words) if words.one_of("fault", "broken", "taken") == "broken" else words.rest(),
    "exhausted": lambda words: words.any("an index"),
    "forged": lambda words: forged(words),
}


def broken(words):
    words.any("a place")
    if words.is_over() or words.words[words.at] != "none":
        words.number_in(0, 255, "a byte")
    else:
        words.at += 1


def forged(words):
    words.number_in(1, U64, "a line")
    if words.is_over() or words.words[words.at] != "authority":
        words.member()
    else:
        words.at += 1
    body(words)


def ending(words):
    word = words.one_of(*ENDINGS)
    ENDINGS[word](words)
    words.end()
    return Ending(words.number, words.text, word, tuple(words.words[1:]))


JOURNAL_ENDINGS = ("end", "bad", "read", "link", "store", "exhausted")


def journal_line(number, text):
    """One line of a journal, without its feed."""
    words = of_words(number, text)
    first = words.words[0]
    if first == "at":
        return event(words, None, EVENTS)
    if first == "turn":
        return turn(words)
    if first in JOURNAL_ENDINGS:
        return ending(words)
    raise LineError(number, "a line of a journal: `at ..`, `turn ..` or how the run ended")


# ---- traces


def places(words):
    found = [words.number_in(0, U32, "a place")]
    while not words.is_over() and words.words[words.at] != ":":
        found.append(words.number_in(0, U32, "a place"))
    return found


def epoch_or_now(words):
    if not words.is_over() and words.words[words.at] == "now":
        words.at += 1
        return "now"
    return words.epoch()


def tag(words):
    return words.matching(re.compile(r"[0-9a-fA-F]{32}\Z"), "a tag of 32 digits").lower()


def any_bytes(words):
    if not words.is_over() and words.words[words.at] == "-":
        words.at += 1
        return ""
    return words.matching(re.compile(r"(?:[0-9a-fA-F]{2})+\Z"), "bytes in digits, or `-`").lower()


def name(words):
    return words.matching(NAME, "a name")


MEMBER, EPOCH, MASK, RING = Words.member, Words.epoch, Words.mask, Words.ring


def ranged(least, most, what):
    return lambda words: words.number_in(least, most, what)


RECORD = ("accepted", "refused")
# The first word of each line, what its words are, and how its verdict begins; None where it has no verdict, () where any.
DIRECT_STEPS = {
    "group": ((ranged(1, 31, "t"), ranged(1, 10000, "a timeout")), None),
    "member": ((MEMBER, places), ("joined", "refused")),
    "note": ((MEMBER, EPOCH, MASK), RECORD),
    "accuse": ((MEMBER, MEMBER, EPOCH, RING), RECORD),
    "tick": ((ranged(1, 10000, "ticks"),), None),
    "view": ((), ()),
    "monitor": ((RING, MEMBER), ()),
    "life": ((), ()),
}
NODE_LINE = ("refused",)
WORLD_STEPS = {
    "group": (
        (ranged(1, 31, "t"), ranged(1, 10000, "a timeout"), ranged(1, 1000, "a period"), ranged(1, 16, "misses"), tag),
        None,
    ),
    "kinds": ((kinds_of_key,), None),
    "heal": ((ranged(2, 1000, "N"), ranged(0, 1000, "A")), None),
    "node": ((MEMBER,), None),
    "liar": ((MEMBER,), None),
    "begin": ((), None),
    "start": ((MEMBER,), ("life", "stopped", "refused")),
    "view": ((MEMBER,), ()),
    "stop": ((MEMBER, ranged(0, 65535, "an outcome")), NODE_LINE),
    "arm": ((MEMBER, ranged(0, 1000, "calls"), ranged(0, 65535, "an outcome")), NODE_LINE),
    "tick": ((MEMBER, ranged(1, 10000, "ticks")), NODE_LINE),
    "leave": ((MEMBER,), NODE_LINE),
    "deliver": ((ranged(0, U64, "a datagram"), MEMBER), NODE_LINE),
    "flow": ((ranged(1, 100000, "datagrams"),), None),
    "raw": ((MEMBER, any_bytes), NODE_LINE),
    "sign-note": ((MEMBER, MEMBER, EPOCH, MASK, name), ("signed", "refused")),
    "sign-accusation": ((MEMBER, MEMBER, MEMBER, epoch_or_now, RING, name), ("signed", "refused")),
    "give": ((name, MEMBER), NODE_LINE),
    "give-all": ((name,), NODE_LINE),
    "monitor": ((MEMBER, RING, MEMBER), ()),
}
# Lines that have a verdict in any case; the others have one only where they are refused.
ALWAYS = ("member", "note", "accuse", "view", "monitor", "life", "start", "sign-note", "sign-accusation")
TRACE_ENDINGS = ("end", "bad", "read", "forged")


def step(words, steps):
    word = words.word("a word")
    kinds, verdicts = steps[word]
    found = []
    for kind in kinds:
        one = kind(words)
        found.extend(one) if isinstance(one, list) else found.append(one)
    if words.is_over():
        if word in ALWAYS:
            words.fail("` : ` and the verdict")
        return Step(words.number, words.text, word, tuple(found), None)
    if verdicts is None:
        words.end()
    words.one_of(":")
    start = words.at
    verdict(words, word, verdicts)
    return Step(words.number, words.text, word, tuple(found), tuple(words.words[start:]))


def verdict(words, word, verdicts):
    """Reads a verdict to the end of the line."""
    first = words.one_of(*verdicts) if verdicts else words.word("a verdict")
    if first == "refused" and word in ("note", "accuse"):
        fault(words)
    elif first == "refused":
        words.matching(NAME, "a word that says why")
        if words.words[-2] == "exhausted":
            words.number_in(0, U32, "an index")
    elif first in ("life", "signed"):
        words.any("a number")
    elif word in ("view", "monitor", "life") and first not in ("nobody", "none"):
        words.at -= 1
        words.any("a number")
        while word == "view" and not words.is_over():
            words.member()
    words.end()


def trace_line(number, text, form, steps, kinds):
    words = of_words(number, text)
    first = words.words[0]
    if number == 1:
        if text != f"fireflies 1 {form}":
            raise LineError(number, f"`fireflies 1 {form}`")
        return Header(number, form, text)
    if first == "at" and form == "direct":
        return event(words, None, kinds)
    if first.startswith("@") and form == "world":
        node = Words(number, first[1:]).member()
        words.at = 1
        return event(words, node, kinds)
    if first in steps:
        return step(words, steps)
    if first in TRACE_ENDINGS:
        return ending(words)
    raise LineError(number, f"a line of a {form} trace")


def direct_line(number, text):
    """One line of a direct trace, without its feed."""
    return trace_line(number, text, "direct", DIRECT_STEPS, DIRECT_EVENTS)


def world_line(number, text):
    """One line of the trace of a world, without its feed."""
    return trace_line(number, text, "world", WORLD_STEPS, EVENTS)


# ---- texts


def of_words(number, text):
    if WORDS.match(text) is None:
        raise LineError(number, "words of visible characters with one space between two")
    return Words(number, text)


def lines_of(data):
    """The number and text of each line of these bytes; a last line without its feed is left out."""
    parts = data.decode("latin-1").split("\n")
    return enumerate(parts[:-1], 1)


READERS = {"direct": direct_line, "world": world_line, "journal": journal_line}


def form_of(data):
    """`direct` or `world` by the first line, else `journal`."""
    first = data.split(b"\n", 1)[0]
    for form in ("direct", "world"):
        if first == b"fireflies 1 " + form.encode():
            return form
    return "journal"


def read(data, form=None):
    """The form of the bytes of a text, by its first line unless it is given, and its lines."""
    form = form or form_of(data)
    one = READERS[form]
    return form, [one(number, text) for number, text in lines_of(data)]


class JournalReader:
    """Takes a journal piece by piece, as it is written, and gives its lines as soon as they have their feed."""

    def __init__(self):
        self.number = 0
        self.left = b""

    def feed(self, data):
        *whole, self.left = (self.left + data).split(b"\n")
        for line in whole:
            self.number += 1
            yield journal_line(self.number, line.decode("latin-1"))


def begins_life(line, after):
    """Whether a life of a node begins with this line of a journal: it signs a note and, with the line after, enters its
    own view at moment 0. Within a life that can't come: a node that has left its own view signs no note to return."""
    return (
        isinstance(line, Event)
        and isinstance(after, Event)
        and (line.kind, line.moment, after.kind, after.moment) == ("spent", 0, "entered", 0)
        and isinstance(line.body, Note)
        and line.body.member == after.member
    )
