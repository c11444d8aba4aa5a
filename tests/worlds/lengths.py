"""Sessions of 1, of 100 and of 10,000 blocks, one on each of two drives: written, closed, read back whole, and read again
after a restart by what their closes printed. Then other volumes are in the place of theirs, whose last blocks are
longer: the damage is found after all that is whole. What is printed is told here from the layout of a block alone, and
never that memory is wanting.
"""
import volumes
from device import REFUSALS
from model import Settings

LENGTHS = (1, 100, 10_000)
BLOCK, ROOM, JOB = 1024, 2**26, 7
# The bytes of a record that fills the first body after the start label, and those that fill each later one.
FILLS_BODY = BLOCK - volumes.BLOCK_HEADER - volumes.RECORD_HEADER
FILLS_FIRST = FILLS_BODY - len(volumes.start(JOB))
MOST_BODIES = volumes.MOST_DATA // FILLS_BODY
LAST, LONGER = 5, 6
VOLUMES = ("Vol-A", "Vol-B")
# Where the first block of a session begins.
LABEL = len(volumes.label(VOLUMES[0].encode()))


def sizes_of(blocks, last):
    """The sizes of the records of a session of so many blocks. Its last one has the last record and the end label."""
    if blocks == 1:
        return [last]
    whole, rest = divmod(blocks - 2, MOST_BODIES)
    return [FILLS_FIRST, *[MOST_BODIES * FILLS_BODY] * whole, *[rest * FILLS_BODY] * (rest > 0), last]


def bodies_of(size):
    """How many bodies a record completes."""
    return 1 if size == FILLS_FIRST else size // FILLS_BODY


class Lengths:
    """A script with what it prints. The session of ticket T has records of the stream T."""

    def __init__(self, blocks):
        self.blocks = blocks
        self.settings = Settings(block=BLOCK, drives=[("File", 1)] * 2, capacity={1: ROOM, 2: ROOM})
        self.lines, self.answers = [], []
        self.add("at 0")
        self.write((1, 2), LAST)
        self.close()
        for ticket in (1, 2):
            self.add(f"read {ticket}", *self.read(ticket))
        self.take_over()
        self.add("restart 1000", "ok restarted")
        self.write((2, 1), LONGER)
        for ticket in (1, 2):
            self.add(f"again 1000 {ticket}", *self.read(ticket)[:-2], f"3950 {REFUSALS[3950]}")

    def add(self, line, *printed):
        self.lines.append(line)
        self.answers.append(list(printed))

    def end(self, last):
        """Where the last block ends on a volume."""
        start = len(volumes.start(JOB)) if self.blocks == 1 else 0
        body = start + volumes.RECORD_HEADER + last + len(volumes.end(JOB, 1, last))
        return LABEL + BLOCK * (self.blocks - 1) + volumes.BLOCK_HEADER + body

    def write(self, drives, last):
        """Writes both sessions, each on the drive of its place, from the labels of the volumes to the last block."""
        for drive, volume in zip(drives, VOLUMES):
            self.add(f"label {drive} {volume} Default File", "ok labelled")
        self.add(f"mount {drives[0]} {VOLUMES[0]}", "ok mounted")
        for ticket, drive in enumerate(drives, 1):
            self.add(f"open {JOB} Default File", f"ok ticket {ticket} drive {drive}")
        self.add(f"open {JOB} Default File", f"3911 {REFUSALS[3911]}")
        sizes, placed = sizes_of(self.blocks, last), 0
        for index, size in enumerate(sizes, 1):
            for ticket in (1, 2):
                self.add(f"fill {ticket} {index} {ticket} {size}", f"ok taken {index}")
            # A body that a record fills goes out once something comes after it.
            whole = self.blocks - 1 if index == len(sizes) else sum(map(bodies_of, sizes[:index])) - 1
            self.add("drain", f"ok drained {2 * (whole - placed)}")
            placed = whole
        for ticket in (1, 2):
            self.add(f"end {ticket}", "ok ended")
        self.add("drain", "ok drained 2")
        there = sorted(zip(drives, VOLUMES))
        self.add("status", *(f"drive {drive} File {volume} 1" for drive, volume in there),
                 *(f"volume {volume} Default File append {self.end(last)}" for _, volume in there),
                 *(f"session {ticket} ended {len(sizes)}" for ticket in (1, 2)), "ok status")

    def close(self):
        records, end = len(sizes_of(self.blocks, LAST)), self.end(LAST)
        for ticket, volume in enumerate(VOLUMES, 1):
            self.add(f"close {ticket}", "ok closed 1", f"session 1000 {ticket}",
                     f"span {volume} 1 1 {records} {LABEL} {end}")

    def read(self, ticket):
        """What a reading prints."""
        sizes = sizes_of(self.blocks, LAST)
        return [*(f"rec {index} {ticket} {size} {(b'x' * min(size, 16)).hex()}" for index, size in enumerate(sizes, 1)),
                f"ok read {len(sizes)} {sum(sizes)} ended"]

    def take_over(self):
        """A later run takes the volumes over, and reads all of the earlier one."""
        self.add("restart 1001", "ok restarted")
        for drive, volume in enumerate(VOLUMES, 1):
            self.add(f"adopt {drive} {volume}", f"ok adopted {self.end(LAST)} {self.blocks + 1}")
        for ticket in (1, 2):
            self.add(f"again 1000 {ticket}", *self.read(ticket))
