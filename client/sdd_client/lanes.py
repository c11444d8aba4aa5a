"""Lanes: each sends sessions, one after another, over a connection of its own, beside whoever fills its buffers."""
from __future__ import annotations

import contextlib
import itertools
import os
import queue
import select
import threading
import time
import typing

from .connection import HEARTBEAT, Address, Buffer, Connection, connect, signal
from .dialogue import NO_LANE, Appending, Target, terminate
from .errors import Failed, Lost, Refused, complain
from .stages import Chain, Feeder, words_of

# Records have so many bytes, the last one of a session what is left. It is a multiple of tar's blocks.
RECORD = 1 << 18
BUFFERS = 32
# After so many seconds without anything to send the daemon is told that the client is still there.
IDLE = 60
# So often, in seconds, whoever waits looks whether it is to end, or has been silent for long.
LOOK = 1
# So many seconds pass between two tries for a lane.
PAUSE = 2
# The Stream of data.
DATA_STREAM = 2


class Way(typing.NamedTuple):
    """How sessions go to the daemon: for how many seconds a lane or a close is asked for again, and by which stages."""

    address: Address
    target: Target
    patience: float = 600
    stages: tuple[str, ...] = ()
    record: int = RECORD


def opened(talk: Connection, way: Way) -> Appending:
    """Opens a session. If there is no free lane it tries again, as long as the way says."""
    until, is_told = time.monotonic() + way.patience, False
    while True:
        try:
            return Appending(talk, way.target)
        except Refused as why:
            if why.number() != NO_LANE or time.monotonic() > until:
                raise
            if not is_told:
                complain(f"{why}; it is tried again for {way.patience:g} seconds")
            is_told = True
        time.sleep(min(PAUSE, way.patience))


def reached(way: Way) -> tuple[Connection, Appending]:
    """A session over a connection of its own. If no daemon takes it, as while one is restarted, it tries again, as long as the
    way says."""
    until, is_told = time.monotonic() + way.patience, False
    while True:
        try:
            with contextlib.ExitStack() as kept:
                talk = kept.enter_context(connect(way.address))
                appending = opened(talk, way)
                kept.pop_all()
                return talk, appending
        except Lost as why:
            if time.monotonic() >= until:
                raise
            if not is_told:
                complain(f"{why}; it is tried again for {way.patience:g} seconds")
            is_told = True
        time.sleep(min(PAUSE, way.patience))


def pieces_of(pipe: int, sizes: list[int], alive: typing.Callable[[], None]) -> typing.Iterator[memoryview]:
    """What comes of a pipe or a file, in pieces of these sizes, again and again, the last one of what is left. Each is good
    until the next is asked for. While nothing comes, `alive` is called now and then."""
    buffer = memoryview(bytearray(max(sizes)))
    poll = select.poll()
    poll.register(pipe, select.POLLIN)
    for size in itertools.cycle(sizes):
        filled = 0
        while filled < size:
            while not poll.poll(1000 * LOOK):
                alive()
            if not (count := os.readv(pipe, [buffer[filled:size]])):
                break
            filled += count
        if filled:
            yield buffer[:filled]
        if filled < size:
            return


class Session:
    """A session of a job: its number there, the bytes of its stream before and after the stages, and once it is closed
    its lines."""

    def __init__(self, number: int):
        self.number, self.raw, self.stored, self.lines = number, 0, 0, []
        self.opened = threading.Event()


class Stopped(Exception):
    """The lane is to end at once."""


class Alive:
    """Says to the daemon now and then that the client is still there, while it has nothing to send."""

    def __init__(self, say: typing.Callable[[], None]):
        self.say, self.last = say, time.monotonic()

    def __call__(self) -> None:
        if time.monotonic() - self.last >= IDLE:
            self.say()
            self.last = time.monotonic()


class Lane(threading.Thread):
    """A lane. The caller gets room by `room`, says by `advance` how much of it is filled, and begins and ends sessions."""

    def __init__(self, way: Way):
        super().__init__(daemon=True)
        self.way, self.why, self.talk, self.is_stopping = way, None, None, False
        self.free: queue.SimpleQueue[bytearray] = queue.SimpleQueue()
        self.full: queue.SimpleQueue[typing.Any] = queue.SimpleQueue()
        for _ in range(BUFFERS):
            self.free.put(bytearray(way.record))
        self.session: Session | None = None
        self.buffer, self.view, self.filled = None, memoryview(b""), 0
        self.start()

    # What the caller calls.

    def begin(self, session: Session) -> None:
        self.session = session
        self.full.put(session)

    def room(self) -> memoryview:
        """Where the next bytes of the session go."""
        if self.buffer is None:
            self.buffer, self.filled = self._spare(), 0
            self.view = memoryview(self.buffer)
        return self.view[self.filled:]

    def _spare(self) -> bytearray:
        while True:
            with contextlib.suppress(queue.Empty):
                return self.free.get(timeout=1)
            self.check()

    def advance(self, count: int) -> None:
        """So many bytes of the room are filled."""
        self.filled += count
        self.session.raw += count
        if self.filled == len(self.view):
            self._hand_over()

    def _hand_over(self) -> None:
        self.full.put((self.buffer, self.view[:self.filled]))
        self.buffer = None

    def put(self, data: bytes) -> None:
        """Adds these bytes to the session."""
        at = 0
        while at < len(data):
            room = self.room()
            part = min(len(room), len(data) - at)
            room[:part] = data[at:at + part]
            at += part
            self.advance(part)

    def end(self) -> None:
        """The session has all its bytes."""
        if self.buffer is not None and self.filled:
            self._hand_over()
        self.session = None
        self.full.put(None)

    def check(self) -> None:
        """Raises what went wrong in the lane."""
        if self.why:
            raise self.why

    def finish(self) -> None:
        """Waits until all of it is closed."""
        self.full.put(Stopped)
        while self.is_alive():
            self.join(timeout=1)
        self.check()

    def stop(self) -> None:
        """Ends it at once. Its open session is given up."""
        self.is_stopping = True
        self.full.put(Stopped)
        if self.talk:
            self.talk.transport.end()
        self.join()

    # What the lane's thread does.

    def run(self) -> None:
        try:
            with connect(self.way.address) as self.talk:
                while (session := self._taken(self._waits(self._greet))) is not Stopped:
                    self._send(session)
                terminate(self.talk)
        except Stopped:
            pass
        except (Failed, OSError) as why:
            self.why = why
        except BaseException as why:
            self.why = Failed(f"a lane broke off: {why!r}")

    def _taken(self, alive: typing.Callable[[], None]) -> typing.Any:
        while True:
            try:
                return self.full.get(timeout=LOOK)
            except queue.Empty:
                alive()

    def _greet(self) -> None:
        self.talk.send(signal(HEARTBEAT))

    def _waits(self, say: typing.Callable[[], None]) -> typing.Callable[[], None]:
        """What is done while it waits."""
        alive = Alive(say)

        def look() -> None:
            if self.is_stopping:
                raise Stopped
            alive()

        return look

    def _pieces(self, alive: typing.Callable[[], None]) -> typing.Iterator[memoryview]:
        """The filled buffers up to the session's end."""
        while (one := self._taken(alive)) is not None:
            if one is Stopped:
                raise Stopped
            buffer, view = one
            yield view
            self.free.put(buffer)

    def _send(self, session: Session) -> None:
        appending = opened(self.talk, self.way)
        session.opened.set()
        if not self.way.stages:
            append_all(appending, self._pieces(self._waits(appending.keep_alive)), session)
        else:
            self._send_through(appending, session)
        session.lines = appending.close(self.way.patience)

    def _send_through(self, appending: Appending, session: Session) -> None:
        """Appends what comes of the way's stages."""
        chain = Chain([words_of(stage) for stage in self.way.stages])
        try:
            feeder = Feeder(chain, self._pieces(self._waits(lambda: None)))
            pieces = pieces_of(chain.output, [self.way.record], self._waits(appending.keep_alive))
            append_all(appending, pieces, session)
            feeder.ended()
            chain.wait()
        finally:
            chain.kill()


def append_all(appending: Appending, pieces: typing.Iterable[Buffer], session: Session) -> None:
    """Appends a record for each piece: its FileIndex is its number."""
    for index, piece in enumerate(pieces, 1):
        appending.append(piece, index, DATA_STREAM)
        session.stored += len(piece)
    appending.end_phase()
