"""Operators and clients at once at the daemon of a soak, while all others rest: whether their answers have an order that explains
them (tests/serve/order.py). Each episode has pools and volumes of its own, and begins with no volume loaded.
"""
import contextlib
import random
import threading
import time
import typing

import order
from clients import client
from daemon import WAIT
from order import Drive, Line, Setting, State
from soaked import DRIVES, LANES, Site

OPERATORS, CLIENTS, LINES = 3, 3, 4
DRIVES_USED = 2


class Episode:
    """Some lines of each at once: what was said, and what was answered. They name only the first two drives' volumes."""

    def __init__(self, site: Site, number: int, seed: int):
        self.site, self.number = site, number
        self.numbers = random.Random(repr((seed, number)))
        self.pools = (f"Red{number}", f"Blue{number}")
        self.names = [f"E{number}-{at}" for at in range(3)]
        self.lines: list[Line] = []
        self.faults: list[str] = []
        self._lock, self._together = threading.Lock(), threading.Barrier(OPERATORS + CLIENTS)

    def held(self) -> bool:
        """Holds it. Whether there is an order that explains all answers."""
        begin = self._begins()
        acts = [(act, random.Random(self.numbers.random())) for act, count in ((self._operator, OPERATORS), (self._client, CLIENTS))
                for _ in range(count)]
        threads = [threading.Thread(target=self._guarded, args=one) for one in acts]
        for thread in threads:
            thread.start()
        for thread in threads:
            thread.join()
        setting = Setting(("File",) * DRIVES, LANES, tuple({} for _ in range(DRIVES)))
        return not self.faults and order.is_explained(setting, begin, self.lines)

    def _begins(self) -> State:
        """Each drive has a volume of each pool of the episode, none is loaded, and each serves the first pool."""
        volumes: list[list[tuple[str, str]]] = [[] for _ in range(DRIVES)]
        with self.site.talk() as talk:
            for at in range(DRIVES):
                talk.console(f"unmount {at + 1}")
                for pool in self.pools:
                    talk.console(f"label {at + 1} {(name := self._base(at, pool))} {pool} File")
                    volumes[at].append((name, pool))
        talks = [self.site.talk() for _ in range(DRIVES * LANES)]
        opened = [client.open_session(talk, 1, self.pools[0], "File") for talk in talks]
        for talk, ticket in zip(talks, opened):
            talk.console(f"cancel {ticket}")
            talk.__exit__()
        self.site.tickets += opened
        drives = tuple(Drive(None, self.pools[0], (), tuple(one)) for one in volumes)
        return State(drives, len(self.site.tickets) + 1, frozenset())

    def _base(self, at: int, pool: str) -> str:
        return f"B{at + 1}-{pool}"

    def _guarded(self, act: typing.Callable[[random.Random], None], numbers: random.Random):
        try:
            act(numbers)
        except (client.Failed, OSError, ValueError, threading.BrokenBarrierError) as why:
            self.faults.append(repr(why))
            self._together.abort()

    def _tell(self, kind: str, words: tuple, act: typing.Callable[[], typing.Any], opened: int = -1) -> tuple[int, typing.Any]:
        """Does a line, and keeps it. Gives its place and its answer."""
        begun = time.monotonic_ns()
        try:
            answer = act()
        except client.Refused as why:
            answer = str(why)
        with self._lock:
            self.lines.append(Line(kind, words, begun, time.monotonic_ns(), answer, opened))
            return len(self.lines) - 1, answer

    def _operator(self, numbers: random.Random):
        with self.site.talk() as talk:
            self._together.wait(timeout=WAIT)
            for _ in range(LINES):
                at, pool, name = numbers.randrange(DRIVES_USED), numbers.choice(self.pools), numbers.choice(self.names)
                kind = numbers.choice(("label", "label", "mount", "unmount", "requests"))
                base = self._base(at, pool)
                words, line = {"label": ((at, name, pool, "File"), f"label {at + 1} {name} {pool} File"),
                               "mount": ((at, base), f"mount {at + 1} {base}"), "unmount": ((at,), f"unmount {at + 1}"),
                               "requests": ((), "requests")}[kind]
                self._tell(kind, words, lambda: talk.console(line)[-1])

    def _client(self, numbers: random.Random):
        with self.site.talk() as talk:
            self._together.wait(timeout=WAIT)
            for _ in range(LINES // 2):
                pool, media = numbers.choice(self.pools), numbers.choice(("File", "File", "File", "Disc"))
                place, answer = self._tell("open", (pool, media), lambda: ("ticket", client.open_session(talk, 1, pool, media)))
                if answer[0] != "ticket":
                    continue
                self.site.tickets.append(answer[1])
                if numbers.random() < 0.5:
                    self._tell("cancel", (), lambda: talk.console(f"cancel {answer[1]}")[0], place)
                    # The talk learns of it by a command of the session.
                    with contextlib.suppress(client.Refused):
                        talk.ask(f"append end session {answer[1]}")
                else:
                    self._tell("close", (), lambda: self._closed(talk, answer[1]), place)

    def _closed(self, talk: client.Talk, ticket: int) -> tuple[str, str]:
        """Closes a session with a record, and gives the volume that has it."""
        client.append_packets(talk, ticket, [client.packet(b"hello")])
        lines = client.close_session(talk, ticket)
        return "closed", lines[1].split()[1]
