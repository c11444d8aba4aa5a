"""The phases of a talk in which packets follow one another without answers, as they pass: only lengths are looked at, and
payloads go on in whatever pieces they come. Each walks over bytes, and says how far it came and why it stopped."""
import collections.abc
import enum

from relay.packets import END_OF_DATA, LENGTH, MOST_BYTES, TERMINATE


class Stop(enum.Enum):
    """Why a walk stopped. In the first two cases the bytes that stopped it are passed, otherwise they aren't."""

    MORE = "more bytes must come"
    END = "the phase is over"
    TERMINATE = "-4"
    TOO_LONG = "a packet is too long"
    LIMIT = "this packet may not go on"


class DataPhase:
    """A data phase. Whether a header can be read is nothing here: after a refused one the daemon drops the rest of the
    phase by the same rule, a packet for a header and packets for records up to -1."""

    def __init__(self) -> None:
        # The size of the last packet, and what is left of it.
        self.in_records, self.size, self.left = False, 0, 0
        self.records = self.bytes = 0

    def walk(self, store: bytearray, at: int, end: int, may_go: collections.abc.Callable[[int], bool]) -> tuple[int, Stop]:
        """Walks over the bytes of `store` from `at` to `end`. `may_go` is asked for each record, with its size, before
        anything of it is passed."""
        while True:
            step = min(self.left, end - at)
            at, self.left = at + step, self.left - step
            if end - at < 4:
                return at, Stop.MORE
            (length,) = LENGTH.unpack_from(store, at)
            if length >= 0:
                if stop := self.packet(length, may_go):
                    return at, stop
            elif length == TERMINATE:
                return at, Stop.TERMINATE
            elif length == END_OF_DATA:
                if not self.in_records:
                    return at + 4, Stop.END
                self.in_records = False
            at += 4

    def packet(self, length: int, may_go: collections.abc.Callable[[int], bool]) -> Stop | None:
        """A packet of this length begins, unless something stops the walk before it."""
        if length > MOST_BYTES:
            return Stop.TOO_LONG
        if self.in_records:
            if not may_go(length):
                return Stop.LIMIT
            self.records += 1
            self.bytes += length
        self.in_records, self.size, self.left = True, length, length
        return None


class SpanPhase:
    """The spans of a read, up to -1."""

    # A session has a span for each volume that it lies on. The daemon keeps them all until the last has come.
    MOST_SPANS = 65_536

    def __init__(self) -> None:
        self.spans = self.left = 0

    def walk(self, store: bytearray, at: int, end: int) -> tuple[int, Stop]:
        while True:
            step = min(self.left, end - at)
            at, self.left = at + step, self.left - step
            if end - at < 4:
                return at, Stop.MORE
            (length,) = LENGTH.unpack_from(store, at)
            if length > MOST_BYTES:
                return at, Stop.TOO_LONG
            if length == TERMINATE:
                return at, Stop.TERMINATE
            if length == END_OF_DATA:
                return at + 4, Stop.END
            if length >= 0:
                self.spans, self.left = self.spans + 1, length
                if self.spans > self.MOST_SPANS:
                    return at, Stop.LIMIT
            at += 4


class ReadPhase:
    """What the daemon sends for a read: for each record a header, its data and -1; after the last one another -1, which
    ends the walk, and then a line."""

    def __init__(self) -> None:
        # What is due: the header of a record or -1; its data; its -1. The last packet's size, and what is left of it.
        self.due, self.size, self.left = "header", 0, 0
        self.records = self.bytes = 0

    def walk(self, store: bytearray, at: int, end: int) -> tuple[int, Stop]:
        """Stops at TOO_LONG where the daemon sends anything else."""
        while True:
            step = min(self.left, end - at)
            at, self.left = at + step, self.left - step
            if end - at < 4:
                return at, Stop.MORE
            (length,) = LENGTH.unpack_from(store, at)
            if length == END_OF_DATA and self.due == "header":
                return at + 4, Stop.END
            if length == END_OF_DATA and self.due == "end":
                self.due = "header"
            elif 0 <= length <= MOST_BYTES and self.due == "header":
                self.due, self.size, self.left = "data", length, length
            elif 0 <= length <= MOST_BYTES and self.due == "data":
                self.due, self.size, self.left = "end", length, length
                self.records += 1
                self.bytes += length
            else:
                return at, Stop.TOO_LONG
            at += 4
