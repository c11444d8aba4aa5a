"""The record of all that was acknowledged in a soak: each session whose close was answered, and what was lost of them."""
import collections
import dataclasses
import pathlib
import random
import threading
import typing

from acknowledged import Session


@dataclasses.dataclass(frozen=True)
class Closed(Session):
    """A session whose close was answered, with how many bytes its records have."""
    bytes: int

    def volumes(self) -> set[str]:
        return {name for name, _ in self.spans()}


class Kept:
    """All sessions that were closed, those apart of which a volume has been taken away meanwhile, once they were read."""

    def __init__(self):
        self.sessions: list[Closed] = []
        self.counts: collections.Counter = collections.Counter()
        self.faults: list[str] = []
        self._lock = threading.Lock()

    def add(self, one: Closed):
        with self._lock:
            self.sessions.append(one)
        self.count("jobs closed")
        self.count("bytes closed", one.bytes)
        self.count("jobs over volumes", len(one.lines) > 2)

    def count(self, what: str, times: int = 1):
        with self._lock:
            self.counts[what] += times

    def fault(self, *words: object):
        with self._lock:
            self.faults.append(" ".join(map(str, words)))

    def drawn(self, numbers: random.Random) -> typing.Optional[Closed]:
        with self._lock:
            return numbers.choice(self.sessions) if self.sessions else None

    def read_all(self, folder_of: typing.Callable[[Closed], pathlib.Path], sessions: list[Closed]):
        """Reads these sessions by the tool. What isn't whole is lost."""
        for one in sessions:
            if said := one.by_tool(folder_of(one)):
                self.fault("lost:", said)
            self.count("read by the tool")

    def take_away(self, volumes: set[str], folder_of: typing.Callable[[Closed], pathlib.Path]):
        """Volumes are taken away, while no client is there: the sessions on them are read first, and are no longer drawn."""
        self.read_all(folder_of, [one for one in self.sessions if one.volumes() & volumes])
        self.sessions = [one for one in self.sessions if not one.volumes() & volumes]
