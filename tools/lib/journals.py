"""Reads journals: files in order, or standard input (`-`), whole or as they are written."""

import os
import sys
import time

from lines import JournalReader

PIECE = 1 << 20
# How often a journal that is followed is looked at, in seconds.
PATIENCE = 0.1


class Journals:
    """The lines of these journals in order, and None behind the last line of each. `name` is the one that is being read."""

    def __init__(self, paths, follow=False):
        self.paths = list(paths) or ["-"]
        self.follow = follow
        self.name = self.paths[0]

    def __iter__(self):
        for place, path in enumerate(self.paths):
            self.name = "standard input" if path == "-" else path
            if path == "-":
                yield from pieces_of(sys.stdin.fileno(), JournalReader())
            elif self.follow and place + 1 == len(self.paths):
                yield from followed(path)
            else:
                with open(path, "rb") as file:
                    yield from pieces_of(file.fileno(), JournalReader())
            yield None


def pieces_of(descriptor, reader):
    """The lines up to the end of what is there now."""
    while True:
        piece = os.read(descriptor, PIECE)
        if not piece:
            return
        yield from reader.feed(piece)


def followed(path):
    """The lines of a journal that is being written, for ever. A file that is put in its place, or that begins anew, is
    another journal."""
    while True:
        with open_when_there(path) as file:
            yield from written(path, file.fileno())
        yield None


def open_when_there(path):
    while True:
        try:
            return open(path, "rb")
        except FileNotFoundError:
            time.sleep(PATIENCE)


def written(path, descriptor):
    """The lines of this file until another one stands at the path, or it begins anew."""
    reader, head = JournalReader(), b""
    while True:
        is_other = is_replaced(path, descriptor)
        yield from pieces_of(descriptor, reader)
        if is_other:
            return
        # The first line tells a life from another, by its epoch.
        head = head or os.pread(descriptor, 64, 0)
        time.sleep(PATIENCE)
        if os.pread(descriptor, len(head), 0) != head:
            return


def is_replaced(path, descriptor):
    try:
        now = os.stat(path)
    except FileNotFoundError:
        return False
    then = os.fstat(descriptor)
    return (now.st_dev, now.st_ino) != (then.st_dev, then.st_ino)
