"""The order of members on the rings, and who monitors whom: the places of a group by SHA-256, or places that are given."""

import hashlib


def place(tag, ring, member):
    """The place of the member on the ring, in the group with this tag of 16 bytes."""
    return hashlib.sha256(b"FFRING" + tag + bytes([ring]) + member.to_bytes(2, "big")).digest()


class Rings:
    """Members on 2t+1 rings. `places` has a list for each member: its place on each ring, as bytes or as a number."""

    def __init__(self, places):
        self.places = places
        self.count = max((len(row) for row in places.values()), default=0)

    @classmethod
    def hashed(cls, tag, t, members):
        return cls({member: [place(tag, ring, member) for ring in range(2 * t + 1)] for member in members})

    def spot(self, ring, member):
        return self.places[member][ring], member

    def order(self, ring, view=None):
        """The members of the view as they follow each other on the ring: by place, and at one place by number."""
        return sorted(self.places if view is None else view, key=lambda member: self.spot(ring, member))

    def monitor(self, ring, member, view=None):
        """The nearest before the member, going round, among the others of the view, or None where it has no others. The
        member itself need not be in the view."""
        return self._nearest(ring, member, view, -1)

    def successor(self, ring, member, view=None):
        """The nearest after the member, likewise."""
        return self._nearest(ring, member, view, 0)

    def _nearest(self, ring, member, view, step):
        others = [other for other in self.order(ring, view) if other != member]
        if not others:
            return None
        before = sum(self.spot(ring, other) < self.spot(ring, member) for other in others)
        return others[(before + step) % len(others)]

    def held(self, view=None):
        """The rings on which one member monitors another, for each two of which one does: {(monitor, member): [ring, ..]}."""
        found = {}
        for ring in range(self.count):
            order = self.order(ring, view)
            for index, member in enumerate(order if len(order) > 1 else ()):
                found.setdefault((order[index - 1], member), []).append(ring)
        return found

    def over(self, t, view=None):
        """Those of `held` that are more than t rings: such a monitor can keep accusing on rings that an answer needs again."""
        return {pair: rings for pair, rings in sorted(self.held(view).items()) if len(rings) > t}


def is_hopeless(t, count):
    """Whether no tag can be good for so many members: the others are too few for 2t+1 rings, t each."""
    return (count - 1) * t < 2 * t + 1
