"""A crowd of nodes, whose journals are too long to be read whole: of their lines those alone are read that tell a view, an
own note, or what is sent."""

from dataclasses import dataclass

from group import Group, Node

# No word before the bytes of a datagram lies behind this place of a line.
HEAD = 60


@dataclass(frozen=True)
class Sent:
    """How many datagrams and bytes so far."""

    datagrams: int = 0
    bytes: int = 0

    def and_one(self, length):
        return Sent(self.datagrams + 1, self.bytes + length)


class Glimpsed(Node):
    """A member of a crowd."""

    def begin(self):
        super().begin()
        self.rest, self.seen, self.own, self.removals, self.sent, self.entered_at = b"", set(), None, [], Sent(), 0

    def read(self):
        if not self.journal:
            return
        *lines, self.rest = (self.rest + self.journal.read()).split(b"\n")
        for line in lines:
            words = line[:HEAD].split(b" ")
            if words[0] == b"at":
                self.take_in(int(words[1]), words[2], words[3:], len(line) - len(b" ".join(words[:5])) - 1)

    def take_in(self, moment, kind, words, digits):
        """One event. Behind its first five words stand so many digits, where it tells what is sent."""
        if kind == b"entered":
            self.seen.add(int(words[0]))
            self.entered_at = moment
        elif kind == b"removed":
            self.seen.discard(int(words[0]))
            self.removals.append(int(words[0]))
        elif kind == b"spent" and words[1] == b"note":
            self.own = int(words[3])
        elif kind == b"sent":
            self.sent = self.sent.and_one(digits // 2)

    def view(self):
        if not self.is_running():
            return ()
        self.read()
        return tuple(sorted(self.seen))

    def epoch(self):
        """Of its newest note."""
        self.read()
        return self.own


class Crowd(Group):
    """A group of such nodes."""

    a_node = Glimpsed

    def entered_within(self):
        """How many seconds each has ticked at most when the last entered its view."""
        return max(node.entered_at for node in self.nodes.values()) * self.numbers.tick / 1000

    def sent(self):
        """What all have sent so far."""
        for node in self.nodes.values():
            node.read()
        each = [node.sent for node in self.nodes.values()]
        return Sent(sum(sent.datagrams for sent in each), sum(sent.bytes for sent in each))

    def removals(self):
        """Whom its members have removed so far, once for each view that did."""
        for node in self.nodes.values():
            node.read()
        return [member for node in self.nodes.values() for member in node.removals]
