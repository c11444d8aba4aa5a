"""A connection to the daemon: packets over a pair of byte streams, whatever carries them.

`connect` makes the one that the options ask for. A transport (`transports`) is a pair of file descriptors, one to read from
and one to write to: a socket's twice, or those of the pipes of a process. `Connection` knows nothing else of it.
"""
from __future__ import annotations

import contextlib
import os
import select
import struct
import typing

from .errors import Lost, Misused
from .transports import Transport, transport

END_OF_DATA, TERMINATE, HEARTBEAT, HEARTBEAT_RESPONSE = -1, -4, -6, -7
MOST_BYTES, PORT = 4_000_000, 9103
# So much is read from the system at once, where a record isn't longer: four of a backup's with what stands around them.
READ_AHEAD = (1 << 20) + (1 << 16)
LENGTH = struct.Struct(">i")

Buffer = bytes | bytearray | memoryview


class Connection:
    """Packets to and from the daemon. A packet is bytes; a signal is a negative number. What is sent or waited for longer
    than the time-out, in seconds, is `Lost`; without one it may take for ever."""

    def __init__(self, transport: Transport, timeout: float | None = None):
        self.transport, self.timeout = transport, timeout
        # What was read, of which what lies between start and end is still to be taken.
        self.store = memoryview(bytearray(READ_AHEAD))
        self.start = self.end = 0
        self.waits_for = select.poll()
        self.waits_to = select.poll()
        self.waits_for.register(transport.reads(), select.POLLIN)
        self.waits_to.register(transport.writes(), select.POLLOUT)
        os.set_blocking(transport.writes(), False)

    def __enter__(self) -> Connection:
        return self

    def __exit__(self, *_: object) -> None:
        self.close()

    def close(self) -> None:
        self.transport.close()

    @contextlib.contextmanager
    def _told(self) -> typing.Iterator[None]:
        """In words, what the system says of the connection."""
        try:
            yield
        except OSError as why:
            raise Lost(f"the daemon ended the talk: {why.strerror or why}") from why

    def _wait(self, poll: select.poll) -> None:
        if not poll.poll(None if self.timeout is None else 1000 * self.timeout):
            raise Lost(f"the daemon gave no answer for {self.timeout} seconds")

    def send(self, *pieces: Buffer) -> None:
        """Sends packets or parts of them one after the other, without joining them."""
        left = [memoryview(piece) for piece in pieces if len(piece)]
        with self._told():
            while left:
                try:
                    count = os.writev(self.transport.writes(), left[:64])
                except BlockingIOError:
                    self._wait(self.waits_to)
                    continue
                while left and count >= len(left[0]):
                    count -= len(left.pop(0))
                if count:
                    left[0] = left[0][count:]

    def send_record(self, data: Buffer, before: bytes = b"") -> None:
        """Sends a packet with these bytes, and what comes before it, at once."""
        self.send(before + LENGTH.pack(len(data)), data)

    def receive(self) -> int | bytes:
        """The next packet, or the next signal. A heartbeat's response is passed over."""
        length, at = self._next(0)
        if length < 0:
            self.start += at
            return length
        self._fill(at + length)
        begin, self.start = self.start + at, self.start + at + length
        return bytes(self.store[begin:self.start])

    def receive_record(self) -> memoryview | None:
        """The next packet, if the end of data is behind it, and otherwise nothing. Its bytes are good until more is received."""
        length, at = self._next(0)
        if length < 0:
            return None
        end, behind = self._next(at + length)
        if end != END_OF_DATA:
            return None
        begin, self.start = self.start + at, self.start + behind
        return self.store[begin:begin + length]

    def _next(self, place: int) -> tuple[int, int]:
        """What the packet or signal begins with that is so many bytes from here, and where that ends."""
        length = HEARTBEAT_RESPONSE
        while length == HEARTBEAT_RESPONSE:
            self._fill(place + LENGTH.size)
            (length,) = LENGTH.unpack_from(self.store, self.start + place)
            place += LENGTH.size
        if length > MOST_BYTES:
            raise Lost(f"a packet of {length} bytes, which is none of the daemon's")
        return length, place

    def _fill(self, count: int) -> None:
        """Reads until so many bytes are there, and what has come with them."""
        if self.end - self.start >= count:
            return
        room = self.store if count <= len(self.store) else memoryview(bytearray(count))
        if self.start or room is not self.store:
            left = self.end - self.start
            room[:left] = self.store[self.start:self.end]
            self.store, self.start, self.end = room, 0, left
        while self.end < count:
            self.end += self._read_into(self.store[self.end:])

    def line(self) -> str:
        """The text of a packet, without its newline."""
        packet = self.receive()
        if isinstance(packet, int):
            raise Lost(f"a signal {packet} in place of a line")
        return text_of(packet)

    def _read_into(self, room: memoryview) -> int:
        with self._told():
            while True:
                try:
                    self._wait(self.waits_for)
                    count = os.readv(self.transport.reads(), [room])
                    break
                except BlockingIOError:
                    continue
        if not count:
            raise Lost("the daemon ended the talk")
        return count


def text_of(packet: bytes | memoryview) -> str:
    return bytes(packet).decode(errors="replace").rstrip("\n")


def signal(number: int) -> bytes:
    return LENGTH.pack(number)


def packet(payload: Buffer) -> bytes:
    return LENGTH.pack(len(payload)) + payload


def text_packet(text: str) -> bytes:
    return packet(text.encode() + b"\n")


class Address(typing.NamedTuple):
    """Where the daemon is, and how long it may take to answer. Without a port, and without a way to another machine, it is
    the one of this machine: by its socket, if there is one, and else by the usual port."""

    port: int | None = None
    timeout: float | None = None
    rsh: str | None = None
    tls: str | None = None
    cert: str | None = None


def connect(address: Address) -> Connection:
    """A connection to the daemon there."""
    port, timeout, *way = address
    try:
        return Connection(transport(port, *way, timeout), timeout)
    except TimeoutError as why:
        raise Lost(f"the daemon gave no answer for {timeout} seconds") from why
    except ConnectionRefusedError as why:
        raise Lost("no daemon listens on this port") from why
    except OSError as why:
        raise Lost(f"there is no connection to the daemon: {why.strerror or why}") from why
    except ValueError as why:
        raise Misused(str(why)) from why
