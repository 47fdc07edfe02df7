"""Reads the texts of a group: kits, rosters, and the lines `cert M PORT KEY SIGNATURE` that an authority writes.

A secret is passed over: nothing here keeps it or shows it. A line that is no line of the text raises LineError.
"""

import re
from dataclasses import dataclass, field
from typing import Dict, Optional

from lines import LineError, kinds_of_key, lines_of, of_words
from lms import types_in

HEIGHTS = {"5": 5, "10": 6, "15": 7}
WIDTHS = {"1": 1, "2": 2, "4": 3, "8": 4}
# How many bytes a public key has: of one level, and of two.
ONE_LEVEL, TWO_LEVELS = 56, 60
# How a key of so many bytes begins, and the types of its trees and of its one-time signatures.
KEYS = {ONE_LEVEL: (b"", (5, 6, 7), (1, 2, 3, 4)), TWO_LEVELS: (b"\0\0\0\2", (5, 6, 7), (3, 4))}
SIGNATURES = range(1, 9005)


@dataclass(frozen=True)
class Group:
    """`group T TIMEOUT PERIOD MISSES TAG`"""

    t: int
    timeout: int
    period: int
    misses: int
    tag: bytes

    @property
    def rings(self):
        return 2 * self.t + 1


@dataclass(frozen=True)
class Kinds:
    """`kinds W H`; of keys of two levels `kinds W H H1`."""

    width: int
    height: int
    bottom: Optional[int] = None

    def __str__(self):
        return f"{self.width} {self.height}{'' if self.bottom is None else f' {self.bottom}'}"

    @property
    def leaves(self):
        return 2 ** (self.height + (self.bottom or 0))

    @property
    def shown(self):
        """What a public key shows of these: of H1 only that there is one."""
        return f"{self.width} {self.height}{'' if self.bottom is None else ' H1'}"


@dataclass(frozen=True)
class Heal:
    """`heal N A`"""

    every: int
    most: int

    def __str__(self):
        return f"{self.every} {self.most}"


@dataclass(frozen=True)
class Certified:
    """`cert M PORT KEY SIGNATURE`; in a roster without the signature. Key and signature are bytes."""

    member: int
    port: int
    key: bytes
    signature: Optional[bytes]
    line: int

    @property
    def shown(self):
        """What the key shows of its kinds, as of `Kinds`."""
        tree, ots = types_in(self.key[-ONE_LEVEL:])
        width = next(width for width, number in WIDTHS.items() if number == ots)
        height = next(height for height, number in HEIGHTS.items() if number == tree)
        return f"{width} {height}{' H1' if len(self.key) == TWO_LEVELS else ''}"


@dataclass
class Text:
    """A kit or a roster. Of a roster `member`, `authority` and `tick` are None, and `heal` is where a kit has no such line."""

    form: str
    group: Group
    kinds: Kinds
    heal: Optional[Heal] = None
    member: Optional[int] = None
    authority: Optional[bytes] = None
    tick: Optional[int] = None
    certificates: Dict[int, Certified] = field(default_factory=dict)

    @property
    def ports(self):
        return {member: one.port for member, one in self.certificates.items()}


# ---- words


def hexadecimal(words, sizes, what):
    """So many bytes, of which `sizes` has the number."""
    told = " or ".join(map(str, sizes)) if len(sizes) <= 2 else f"{sizes[0]} to {sizes[-1]}"
    wanted = f"{what}, {told} bytes in hexadecimal digits,"
    found = words.matching(re.compile(r"(?:[0-9a-fA-F]{2})+\Z"), wanted)
    if len(found) // 2 not in sizes:
        words.at -= 1
        words.fail(wanted)
    return bytes.fromhex(found)


def key_of(words, *sizes):
    """A public key of one of these sizes."""
    found = hexadecimal(words, sizes, "a key")
    front, trees, otses = KEYS[len(found)]
    tree, ots = types_in(found[-ONE_LEVEL:])
    if found[:-ONE_LEVEL] != front or tree not in trees or ots not in otses:
        words.at -= 1
        words.fail(f"a key {f'behind {front.hex()} ' if front else ''}of the types 5 to 7 and {otses[0]} to {otses[-1]}")
    return found


def group_of(words):
    words.one_of("group")
    t = words.number_in(1, 31, "T")
    timeout, period = words.number_in(1, 10000, "TIMEOUT"), words.number_in(1, 1000, "PERIOD")
    return Group(t, timeout, period, words.number_in(1, 16, "MISSES"), hexadecimal(words, (16,), "TAG"))


def kinds_of(words):
    words.one_of("kinds")
    return Kinds(*kinds_of_key(words, HEIGHTS))


def one_level_kinds_of(words):
    """Those of an authority's key, which has one level."""
    found = kinds_of(words)
    if found.bottom is not None:
        words.at -= 1
        words.end()
    return found


def heal_of(words):
    words.one_of("heal")
    return Heal(words.number_in(2, 1000, "N"), words.number_in(0, 1000, "A"))


def certified(words, is_signed):
    words.one_of("cert")
    member, port = words.member(), words.number_in(1, 65535, "PORT")
    key = key_of(words, ONE_LEVEL, TWO_LEVELS)
    signature = hexadecimal(words, SIGNATURES, "SIGNATURE") if is_signed else None
    words.end()
    return Certified(member, port, key, signature, words.number)


def secret(words):
    """A secret, which is read and dropped."""
    words.one_of("secret")
    hexadecimal(words, (32,), "a secret")


def own_member(words):
    """The member of `self M SECRET`. The secret is read and dropped."""
    words.one_of("self")
    member = words.member()
    hexadecimal(words, (32,), "SECRET")
    return member


def authority_of(words):
    words.one_of("authority")
    return key_of(words, ONE_LEVEL)


def tick_of(words):
    words.one_of("tick")
    return words.number_in(1, 60000, "MILLIS")


HEADS = {
    "kit": (
        ("group", group_of),
        ("kinds", kinds_of),
        ("heal", heal_of),
        ("member", own_member),
        ("authority", authority_of),
        ("tick", tick_of),
    ),
    "roster": (("group", group_of), ("kinds", one_level_kinds_of), (None, secret)),
}


# The lines that a text may do without.
MAY_LACK = {"heal"}


# ---- texts


def read_text(data, form):
    """The kit or the roster (`form`) in these bytes."""
    lines = list(lines_of(data))
    number = len(lines) + 1

    def line(index, wanted):
        if index >= len(lines):
            raise LineError(number, wanted)
        return lines[index]

    if line(0, f"`fireflies 1 {form}`")[1] != f"fireflies 1 {form}":
        raise LineError(1, f"`fireflies 1 {form}`")
    found, index = {}, 1
    for name, reads in HEADS[form]:
        numbered = line(index, f"line {index + 1} of a {form}")
        if name in MAY_LACK and numbered[1].split(" ")[0] != name:
            continue
        words = of_words(*numbered)
        value = reads(words)
        words.end()
        index += 1
        if name:
            found[name] = value
    text = Text(form, **found)
    for index in range(index, len(lines)):
        number, written = lines[index]
        if written == "end":
            return finished(text, lines, index)
        add(text.certificates, certified(of_words(number, written), form == "kit"))
    raise LineError(len(lines) + 1, "`cert ..` or `end`")


def finished(text, lines, index):
    """The text, at its line `end`."""
    if index + 1 < len(lines):
        raise LineError(lines[index + 1][0], "nothing behind `end`")
    if text.form == "kit" and text.member not in text.certificates:
        raise LineError(lines[index][0], f"a certificate of the kit's own number {text.member} above `end`")
    return text


def add(certificates, one):
    if one.member in certificates:
        raise LineError(one.line, f"no second certificate of member {one.member}")
    certificates[one.member] = one


def read_kit(data):
    return read_text(data, "kit")


def read_roster(data):
    return read_text(data, "roster")


def read_certificates(data):
    """The lines `cert M PORT KEY SIGNATURE`, as `enroll` writes them, by member."""
    found = {}
    for number, written in lines_of(data):
        add(found, certified(of_words(number, written), True))
    return found
