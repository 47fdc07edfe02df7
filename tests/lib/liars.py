"""A member that lies: a key that signs anything, and a port of 127.0.0.1 from which anything is sent."""

import os
import threading

from floods import HEAD, PING, PONG, SUMMARY, accusation_body, datagram, note_body, records
from group import LOOPBACK, bound
from kit import HEIGHTS, WIDTHS
from lms import OTS, digits, sha, u16, u32


class Key:
    """A key of RFC 8554. Each signature takes the next leaf."""

    def __init__(self, numbers):
        self.ots, self.tree, self.height = WIDTHS[str(numbers.width)], HEIGHTS[str(numbers.height)], numbers.height
        self.identity, self.seed = os.urandom(16), os.urandom(32)
        self.next = 0
        leaves = 2**self.height
        self.values = [b""] * leaves + [self.leaf(leaves, index) for index in range(leaves)]
        for node in range(leaves - 1, 0, -1):
            self.values[node] = sha(self.identity, u32(node), u16(0x8383), self.values[2 * node], self.values[2 * node + 1])
        self.public = u32(self.tree) + u32(self.ots) + self.identity + self.values[1]

    def chain(self, index, number, steps):
        """A chain of a one-time key after so many steps."""
        head = self.identity + u32(index) + u16(number)
        value = sha(head, b"\xff", self.seed)
        for step in range(steps):
            value = sha(head, bytes([step]), value)
        return value

    def leaf(self, leaves, index):
        width, chains, _ = OTS[self.ots]
        ends = [self.chain(index, number, 2**width - 1) for number in range(chains)]
        public = sha(self.identity, u32(index), u16(0x8080), *ends)
        return sha(self.identity, u32(leaves + index), u16(0x8282), public)

    def sign(self, message):
        index, self.next = self.next, self.next + 1
        width, chains, shift = OTS[self.ots]
        blind = os.urandom(32)
        value = sha(self.identity, u32(index), u16(0x8181), blind, message)
        checksum = sum(2**width - 1 - digit for digit in digits(value, width)) << shift
        steps = digits(value + u16(checksum), width)[:chains]
        one_time = b"".join(self.chain(index, number, digit) for number, digit in enumerate(steps))
        place, path = 2**self.height + index, b""
        for _ in range(self.height):
            path += self.values[place ^ 1]
            place //= 2
        return u32(index) + u32(self.ots) + blind + one_time + u32(self.tree) + path


class Liar(threading.Thread):
    """Holds the port of a certified member of the group, and there answers the pings of all, but gossips with nobody. To
    those whom it courts it sends its note until a summary comes from there."""

    def __init__(self, group, member, key, courted=()):
        super().__init__(daemon=True)
        self.group, self.member, self.key = group, member, key
        all_rings = 2 ** (2 * group.numbers.t + 1) - 1
        self.note = records(member, [self.signed(note_body(member, 1, all_rings))])
        self.courted = set(courted)
        self.over = threading.Event()
        self.link = bound(group.ports[member])
        self.link.settimeout(0.05)

    def __enter__(self):
        self.start()
        return self

    def __exit__(self, *_):
        self.over.set()
        self.join()
        self.link.close()

    def signed(self, body):
        """The body with its signature."""
        return body, self.key.sign(b"FFSIGN" + self.group.tag + bytes([self.group.numbers.t]) + body)

    def send(self, member, data):
        self.link.sendto(data, (LOOPBACK, self.group.ports[member]))

    def accuse(self, member, epoch, rings, others=()):
        """Accuses it in one datagram on each of these rings, each time at the epoch of its answer to the one before. These
        others are told it too."""
        bodies = [accusation_body(self.member, member, epoch + place, ring) for place, ring in enumerate(rings)]
        told = records(self.member, [self.signed(body) for body in bodies])
        for to in (*others, member):
            self.send(to, told)

    def run(self):
        while not self.over.is_set():
            for member in self.courted:
                self.send(member, self.note)
            try:
                heard = self.link.recv(65_536)
            except OSError:
                continue
            self.hear(heard)

    def hear(self, heard):
        if heard[:3] != HEAD:
            return
        kind, sender = heard[3], int.from_bytes(heard[4:6], "big")
        if kind == PING:
            self.send(sender, datagram(PONG, self.member, heard[6:]))
        elif kind == SUMMARY:
            self.courted.discard(sender)
