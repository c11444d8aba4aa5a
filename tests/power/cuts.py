"""What a loss of power may leave of a disk, by its log. A flush lasts once it is answered: so do the writes that were answered
before the disk received it. Of each other write that was received nothing may be there, all of it, or some of its sectors.
"""
import pathlib
import random
import typing

from disk import Entry, Log, copy

# How a cut takes the writes that no flush covers.
HOWS = ("none", "all", "some", "torn")


class Part(typing.NamedTuple):
    """A part of a write that is there, from one place in it to another."""
    entry: Entry
    start: int
    end: int


class Cut(typing.NamedTuple):
    """A cut behind the entry of that number."""
    at: int
    how: str


class Covers:
    """Goes through a log. `stable` are the writes that last, in the order in which a flush covered them; `waiting` are the others."""

    def __init__(self, entries: list[Entry]):
        self.entries, self.at = entries, 0
        self.stable: list[Entry] = []
        self.waiting: list[Entry] = []
        self._answered: set[int] = set()
        self._asked: dict[int, set[int]] = {}

    def to(self, cut: int):
        """Goes on to just behind the entry of that number."""
        for entry in self.entries[self.at:cut + 1]:
            if entry.kind in "WZ":
                self.waiting.append(entry)
            elif entry.kind == "A":
                self._answered.add(entry.id)
            elif entry.kind == "S":
                self._asked[entry.id] = {one.id for one in self.waiting if one.id in self._answered}
            elif entry.kind == "E":
                covered = self._asked.pop(entry.id)
                self.stable += [one for one in self.waiting if one.id in covered]
                self.waiting = [one for one in self.waiting if one.id not in covered]
        self.at = max(self.at, cut + 1)

    def chosen(self, how: str, numbers: random.Random, sector: int) -> list[Part]:
        """Of the writes that no flush covers what is there."""
        parts, likely = [], {"none": 0.0, "all": 1.0}.get(how, numbers.choice((0.1, 0.5, 0.9)))
        for one in self.waiting:
            if numbers.random() < likely:
                parts.append(Part(one, 0, one.size))
            elif how == "torn" and numbers.random() < 0.5:
                parts += [Part(one, at, min(at + sector, one.size)) for at in range(0, one.size, sector) if numbers.random() < 0.5]
        return parts


class Images:
    """The images of cuts of a log, in the order of the cuts."""

    def __init__(self, log: Log, begun: pathlib.Path, folder: pathlib.Path, sector: int):
        self.log, self.covers, self.sector = log, Covers(log.entries), sector
        self._lasting, self._placed = folder / "lasting", 0
        self._seen: set[str] = set()
        copy(begun, self._lasting)

    def make(self, cut: Cut, seed: str, due: int, image: pathlib.Path) -> typing.Optional[int]:
        """Makes the image of a cut, and gives how many writes no flush covered. None if there was the same already, with as
        much that is due."""
        self.covers.to(cut.at)
        parts = self.covers.chosen(cut.how, random.Random(repr((seed, cut))), self.sector)
        about = repr((len(self.covers.stable), due, parts))
        if about in self._seen:
            return None
        self._seen.add(about)
        self._put(self._lasting, [Part(one, 0, one.size) for one in self.covers.stable[self._placed:]])
        self._placed = len(self.covers.stable)
        copy(self._lasting, image)
        self._put(image, parts)
        return len(self.covers.waiting)

    def _put(self, image: pathlib.Path, parts: list[Part]):
        with open(image, "r+b", buffering=0) as file:
            for entry, start, end in parts:
                file.seek(entry.at + start)
                file.write(self.log.data(entry, start, end))


def drawn(entries: list[Entry], marks: dict[str, int], most: int, numbers: random.Random) -> list[Cut]:
    """So many cuts at most: just behind the answers of closes, behind flushes, and anywhere. The disk was ready before them."""
    ready = marks["ready"]
    closes = [Cut(at, "none") for mark, at in marks.items() if mark.startswith("closed")]
    flushes = [Cut(at, "none") for at, one in enumerate(entries) if at > ready and one.kind == "E"]
    anywhere = [Cut(at, numbers.choice(HOWS)) for at, one in enumerate(entries) if at > ready and one.kind in "WAS"]
    chosen: set[Cut] = set()
    for cuts, share in ((closes, most // 3), (flushes, most // 3), (anywhere, most - 2 * (most // 3))):
        chosen.update(numbers.sample(cuts, min(len(cuts), share)))
    return sorted(chosen)


# Of a log the letters of its entries, with the number of the write or the flush; a cut; and which writes last then, and which wait.
KNOWN = (
    ("a write that was answered before the flush", "W1 A1 S9 E9", 3, [1], []),
    ("the flush isn't answered", "W1 A1 S9", 2, [], [1]),
    ("a write that wasn't answered before the flush", "W1 S9 A1 E9", 3, [], [1]),
    ("it was received behind the flush", "W1 A1 S9 W2 A2 E9", 5, [1], [2]),
    ("the next flush covers it", "W1 S8 A1 E8 S9 E9", 5, [1], []),
    ("two flushes at once", "W1 A1 S8 W2 A2 S9 E9", 6, [1, 2], []),
    ("the earlier of them is answered first", "W1 A1 S8 W2 A2 S9 E8", 6, [1], [2]),
    ("a cut before all", "W1 A1 S9 E9", 0, [], [1]),
    ("zeros", "Z1 A1 S9 E9 W2", 4, [1], [2]),
)


def known_of(text: str) -> list[Entry]:
    return [Entry(word[0], 8, int(word[1:]), 0, 0) for word in text.split()]
