"""A group of real nodes on 127.0.0.1: its keys and kits in a folder, a node for each member, and what their journals tell.

Each process that is started here ends with the one that started it, however that ends."""

import ctypes
import hashlib
import itertools
import os
import random
import signal
import socket
import subprocess
import time
from collections import Counter
from dataclasses import dataclass
from typing import Optional, Tuple

from lines import Event, JournalReader, Turn
from lives import Story
from rings import Rings

LOOPBACK = "127.0.0.1"
MOST_TURNS = 1_000_000
# How long a group that is not attacked may take to do what it does in a few seconds.
PATIENCE = 60
SYSTEM = ctypes.CDLL(None)
PR_SET_PDEATHSIG = 1
# How a datagram begins, up to its kind, in a journal.
KINDS = {"46460101": "ping", "46460102": "pong", "46460103": "summary", "46460104": "records", "46460105": "summary"}


class Trouble(Exception):
    """The group could not be brought to where a scenario begins."""


def end_with_parent():
    """In a new process: it is killed when the one that made it is gone."""
    SYSTEM.prctl(PR_SET_PDEATHSIG, signal.SIGKILL)


@dataclass(frozen=True)
class Numbers:
    """The numbers of a group; a tick in milliseconds. With `bottom` the keys of members have two levels, of `height` above
    trees of so many; the authority's has `above`, where that is given. With `heal` the kits have that line."""

    timeout: int = 40
    period: int = 5
    misses: int = 2
    tick: int = 50
    width: int = 8
    height: int = 5
    t: int = 1
    bottom: Optional[int] = None
    heal: Optional[Tuple[int, int]] = None
    above: Optional[int] = None

    @property
    def timeout_seconds(self):
        return self.timeout * self.tick / 1000

    @property
    def round_seconds(self):
        return self.period * self.tick / 1000


# ---- ports and tags


def bound(port=0):
    """A socket at this port, or at one that the system hands out."""
    link = socket.socket(socket.AF_INET, socket.SOCK_DGRAM)
    try:
        link.bind((LOOPBACK, port))
    except OSError:
        link.close()
        raise
    return link


def is_free(port):
    try:
        bound(port).close()
    except OSError:
        return False
    return True


def free_ports(count):
    """So many ports that are free now, below those that the system hands out by itself."""
    while True:
        base = random.randrange(10_000, 30_000)
        ports = range(base, base + count)
        if all(is_free(port) for port in ports):
            return list(ports)


def first_tag(is_wanted):
    """The first tag of a fixed row that is wanted: so each run has the same rings."""
    for number in itertools.count():
        tag = hashlib.sha256(b"hostile" + number.to_bytes(4, "big")).digest()[:16]
        if is_wanted(tag):
            return tag


def good_tag(t, *groups):
    """A tag under which nobody holds more than t of another's places, in each of these groups. In a group of four there is
    none for a t of 1."""
    wanted = [members for members in groups if len(members) > 4]
    return first_tag(lambda tag: not any(Rings.hashed(tag, t, members).over(t) for members in wanted))


def dropped_at(port):
    """How many datagrams the system has dropped at the socket of this port, since there was no room."""
    with open("/proc/net/udp") as table:
        for row in itertools.islice(table, 1, None):
            fields = row.split()
            if int(fields[1].split(":")[1], 16) == port:
                return int(fields[-1])
    return 0


# ---- nodes


class Node:
    """A member's lives. Its journals are read as they are written; a line that is none of a journal raises LineError. Lines are
    kept until they are taken."""

    def __init__(self, program, folder, member):
        self.words = [program, "node", os.path.join(folder, f"{member}.store"), str(MOST_TURNS)]
        self.folder = folder
        self.member = member
        self.lives = 0
        self.process = None
        self.journal = None
        self.left = []

    def begin(self):
        self.close()
        self.lives += 1
        path = os.path.join(self.folder, f"{self.member}.journal.{self.lives}")
        with open(os.path.join(self.folder, f"{self.member}.kit")) as kit, open(path, "w") as out:
            self.process = subprocess.Popen(self.words, stdin=kit, stdout=out, preexec_fn=end_with_parent)
        self.journal = open(path, "rb")
        self.reader = JournalReader()
        self.story = Story(self.member)

    def read(self):
        """Takes in what was written since the last call."""
        found = list(self.reader.feed(self.journal.read())) if self.journal else []
        for line in found:
            self.story.take(line)
        self.left += found

    def take(self):
        """The lines that were written since they were taken last."""
        self.read()
        found, self.left = self.left, []
        return found

    def view(self):
        """Whom it sees now; nobody where its life is over."""
        if not self.is_running():
            return ()
        self.read()
        return tuple(sorted(self.story.life.view)) if self.story.life else ()

    def note(self):
        """Its newest note."""
        self.read()
        return self.story.life.notes[self.member]

    def is_running(self):
        return self.process is not None and self.process.poll() is None

    def pause(self):
        self.process.send_signal(signal.SIGSTOP)

    def go_on(self):
        self.process.send_signal(signal.SIGCONT)

    def kill(self):
        """Ends the life as a crash does."""
        if self.process is not None:
            self.process.kill()
            self.process.wait()
            self.process = None

    def close(self):
        """Ends the life, and reads its journal to the end."""
        self.kill()
        self.read()
        if self.journal:
            self.journal.close()
            self.journal = None


def kind_of(sent):
    """The kind of the datagram in a line `sent`."""
    return KINDS[sent.hex[:8]]


def tally(lines):
    """How many lines of each kind: turns, the kinds of events, and of what was sent the kinds of datagrams."""
    counts = Counter()
    for line in lines:
        if isinstance(line, Turn):
            counts["turns"] += 1
        elif isinstance(line, Event):
            counts[line.kind] += 1
            if line.kind == "sent":
                counts["sent " + kind_of(line)] += 1
    return counts


# ---- groups


class Group:
    """Nodes with a certificate and a kit each. The members in `outside` are certified too and run no node: their ports are
    the caller's, and their keys are those given here, of either kind, or the program's.

    `seen_ports` gives, for the members' own ports and a node, the ports that its kit names; without it the members' own."""

    a_node = Node

    def __init__(self, program, folder, numbers, members, outside=None, tag=None, seen_ports=None):
        self.program = program
        self.folder = folder
        self.numbers = numbers
        self.outside = dict(outside or {})
        self.everybody = sorted([*members, *self.outside])
        self.tag = tag or good_tag(numbers.t, list(members), self.everybody)
        self.ports = dict(zip(self.everybody, free_ports(len(self.everybody))))
        self.nodes = {member: self.a_node(program, folder, member) for member in members}
        self.make(seen_ports)

    def __enter__(self):
        return self

    def __exit__(self, *_):
        for node in self.nodes.values():
            node.kill()

    # ---- keys, certificates and kits

    def text(self, form, *rest, of_authority=False):
        """A text with the kinds of a member's key, or of the authority's."""
        n = self.numbers
        group = f"group {n.t} {n.timeout} {n.period} {n.misses} {self.tag.hex()}"
        height = f"{n.above or n.height}" if of_authority else f"{n.height}{'' if n.bottom is None else f' {n.bottom}'}"
        kinds = f"kinds {n.width} {height}"
        return "\n".join([f"fireflies 1 {form}", group, kinds, *rest, "end", ""])

    def run(self, word, store, given):
        words = [self.program, word, os.path.join(self.folder, f"{store}.store")]
        ended = subprocess.run(words, input=given, capture_output=True, text=True, preexec_fn=end_with_parent)
        if ended.returncode != 0:
            raise Trouble(f"{word} of {store} ended with {ended.returncode}: {ended.stdout[-200:]}")
        return ended.stdout

    def make_store(self, name, of_authority=False):
        """The secret and the public key of a new store."""
        secret = os.urandom(32).hex()
        text = self.text("secret", f"secret {secret}", of_authority=of_authority)
        return secret, self.run("store", name, text).split()[1]

    def make(self, seen_ports):
        authority, self.authority_key = self.make_store("authority", True)
        own = [member for member in self.everybody if self.outside.get(member) is None]
        made = {member: self.make_store(member) for member in own}
        keys = {member: key for member, (_, key) in made.items()}
        keys.update({member: key.hex() for member, key in self.outside.items() if key is not None})

        def certificates(ports):
            lines = [f"cert {member} {ports[member]} {keys[member]}" for member in self.everybody]
            text = self.text("roster", f"secret {authority}", *lines, of_authority=True)
            return self.run("enroll", "authority", text).splitlines()

        shared = None if seen_ports else certificates(self.ports)
        for member in self.nodes:
            self.write_kit(member, made[member][0], shared or certificates(seen_ports(self.ports, member)))

    def write_kit(self, member, secret, certificates):
        heal = [] if self.numbers.heal is None else ["heal {} {}".format(*self.numbers.heal)]
        head = [*heal, f"self {member} {secret}", f"authority {self.authority_key}", f"tick {self.numbers.tick}"]
        with open(os.path.join(self.folder, f"{member}.kit"), "w") as kit:
            kit.write(self.text("kit", *head, *certificates))

    # ---- lives

    def begin(self, *members):
        for member in members:
            self.nodes[member].begin()

    def begin_in_turn(self, members=None):
        """Ends those that run, and begins these one after another, each once the ones before see each other."""
        self.end(*self.nodes)
        started = []
        for member in members or self.nodes:
            self.begin(member)
            started.append(member)
            if self.together(started, PATIENCE) is None:
                raise Trouble(f"{names(started)} don't come together: {told_views(self.views(started))}")

    def end(self, *members):
        """Ends these at once."""
        for member in members:
            self.nodes[member].kill()
        for member in members:
            self.nodes[member].close()

    # ---- what they tell

    def views(self, members=None):
        return {member: self.nodes[member].view() for member in members or self.nodes}

    def all_see(self, members, by):
        return all(view == tuple(sorted(members)) for view in self.views(by).values())

    def together(self, members=None, seconds=0):
        """How long it took until these all see these and nobody else; None where it takes longer than so many seconds, or
        one of them is over."""
        members = list(members or self.nodes)
        took = awaited(lambda: self.all_see(members, members) or not self.all_run(members), seconds)
        return took if self.all_run(members) else None

    def all_run(self, members):
        return all(self.nodes[member].is_running() for member in members)

    def take(self):
        """The lines that each node has written since it was last asked."""
        return {member: node.take() for member, node in self.nodes.items()}


def awaited(condition, seconds):
    """After how many seconds the condition held; None where it did not in time."""
    start = time.monotonic()
    while not condition():
        if time.monotonic() - start >= seconds:
            return None
        time.sleep(0.1)
    return time.monotonic() - start


def told_views(views):
    """`1 2 see 1 2; 3 sees 1 2 3`, or that all see all."""
    everybody = tuple(sorted(views))
    if all(view == everybody for view in views.values()):
        return "all see all"
    sides = {}
    for member, view in sorted(views.items()):
        sides.setdefault(view, []).append(member)
    return "; ".join(
        f"{names(by)} {'sees' if len(by) == 1 else 'see'} {names(view) or 'nobody'}" for view, by in sides.items()
    )


def names(members):
    return " ".join(map(str, members))
