"""Where things lie: the room of ticks and slots, and labels that are put only where none is yet."""

from bisect import bisect_left, insort

# The width of a character of a fixed pitch, as a part of its height; of the fonts in use none is wider.
PITCH = 0.61


def text_width(text, size):
    return len(text) * size * PITCH


def wrap(text, width, size):
    """The text in lines that are no wider."""
    most = max(int(width / (size * PITCH)), 8)
    lines = [""]
    for word in text.split(" "):
        if lines[-1] and len(lines[-1]) + 1 + len(word) > most:
            lines.append(word)
        else:
            lines[-1] = f"{lines[-1]} {word}".strip()
    return lines


class Scale:
    """From positions to places across. Ticks get up to half of the room, and no tick more than two slots."""

    def __init__(self, start, end, left, right):
        self.start, self.left, self.right = start, left, right
        ticks, slots = end[0] - start[0], end[1] - start[1]
        room = right - left
        share = 0.0 if ticks <= 0 else 1.0 if slots <= 0 else min(0.5, 2 * ticks / (2 * ticks + slots))
        self.per_tick = room * share / ticks if ticks > 0 else 0.0
        self.per_slot = room * (1 - share) / slots if slots > 0 else 0.0

    def across(self, position):
        place = self.left + (position[0] - self.start[0]) * self.per_tick + (position[1] - self.start[1]) * self.per_slot
        return min(max(place, self.left), self.right)


class Shelf:
    """A row in which nothing lies over another."""

    def __init__(self):
        self.taken = []

    def is_free(self, start, end):
        at = bisect_left(self.taken, (start, end))
        return (at == 0 or self.taken[at - 1][1] <= start) and (at == len(self.taken) or self.taken[at][0] >= end)

    def take(self, start, end):
        if not self.is_free(start, end):
            return False
        insort(self.taken, (start, end))
        return True


class Label:
    def __init__(self, text, x, row, leader):
        self.text, self.x, self.row, self.leader = text, x, row, leader


def place_labels(wanted, left, right, size, most_rows=3, gap=5):
    """Labels (x, text, priority, order) into rows, the most important first; where there is no room there is none.

    Row 0 is the lowest. A label begins above its mark, or ends at the right border. Of two that want one place the right one
    is lower, so that the leader of the other goes down to the left of it.
    """
    shelves, labels = [], []
    for x, text, _, _ in sorted(wanted, key=lambda one: (one[2], -one[0], one[3])):
        width = text_width(text, size)
        start = min(x - 4, right - width)
        if start < left - 4:
            continue
        for row in range(most_rows):
            if row == len(shelves):
                shelves.append(Shelf())
            if shelves[row].take(start - gap / 2, start + width + gap / 2):
                labels.append(Label(text, start, row, x - 6 if start >= x - 5 else x))
                break
    labels.sort(key=lambda label: (label.row, label.x))
    return labels


def pick_ticks(ticks, scale, size, gap=14):
    """Of the counted places those whose numbers are multiples of 1, 2, 5, 10 .. and lie apart, and the first."""

    def is_apart(one, other):
        return one[0] + text_width(one[1], size) / 2 + gap <= other[0] - text_width(other[1], size) / 2

    places = [(scale.across(position), text) for position, text in ticks]
    step, factors = 1, (2, 2.5, 2)
    for turn in range(60):
        chosen = [place for place in places if int(place[1]) % step == 0]
        if all(is_apart(one, other) for one, other in zip(chosen, chosen[1:])):
            break
        step = int(step * factors[turn % 3])
    if places and places[0] not in chosen and (not chosen or is_apart(places[0], chosen[0])):
        chosen.insert(0, places[0])
    return chosen
