"""Relays between nodes, which forward what comes or drop it: so a group can be parted and made whole again.

Each node's kit names, for each other member, a port of the relays. What a node sends there reaches that member from the port
which its own kit names for the sender."""

import selectors
import threading

from group import LOOPBACK, bound, free_ports


class Relays(threading.Thread):
    def __init__(self, members):
        super().__init__(daemon=True)
        pairs = [(one, other) for one in members for other in members if one != other]
        self.at = dict(zip(pairs, free_ports(len(pairs))))
        self.links = {pair: bound(port) for pair, port in self.at.items()}
        for link in self.links.values():
            link.setblocking(False)
        self.sides = None
        self.ports = {}
        self.over = threading.Event()

    def seen_ports(self, own, member):
        """Which ports the kit of a member names, where these are the members' own."""
        self.ports = own
        return {other: own[other] if other == member else self.at[member, other] for other in own}

    def __enter__(self):
        self.start()
        return self

    def __exit__(self, *_):
        self.over.set()
        if self.is_alive():
            self.join()
        for link in self.links.values():
            link.close()

    def part(self, *sides):
        """From now on nothing passes between these sides."""
        self.sides = [set(side) for side in sides]

    def join_sides(self):
        self.sides = None

    def passes(self, one, other):
        return self.sides is None or any(one in side and other in side for side in self.sides)

    def run(self):
        with selectors.DefaultSelector() as ready:
            for pair, link in self.links.items():
                ready.register(link, selectors.EVENT_READ, pair)
            while not self.over.is_set():
                for key, _ in ready.select(0.1):
                    self.forward(*key.data)

    def forward(self, sender, to):
        try:
            heard = self.links[sender, to].recv(65_536)
            if self.passes(sender, to):
                self.links[to, sender].sendto(heard, (LOOPBACK, self.ports[to]))
        except OSError:
            pass
