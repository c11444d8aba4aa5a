"""The dialogue of docs/use/PROTOCOL.md over a connection: sessions are appended, closed and read back, lines of the operator
are answered."""
from __future__ import annotations

import re
import time
import typing

from .connection import END_OF_DATA, HEARTBEAT, TERMINATE, Buffer, Connection, signal, text_of, text_packet
from .errors import Lost, Refused, Unfit

# A refusal in a phase is told at its end: after so many bytes a phase ends, and the next one goes on.
PHASE = 64_000_000
# So many seconds pass before a close that was answered as not yet possible is asked for again.
PAUSE = 0.1
VOLUME_NAME = re.compile(r"[A-Za-z0-9_:.-]{1,127}")
HEADER = re.compile(rb"(\d+) (\d+) 0\n?")
READ_WHOLE = re.compile(r"3000 OK read Records=(\d+) Bytes=(\d+) Ended=([01])")
SPAN = re.compile(rf"span ({VOLUME_NAME.pattern}) (\d+) (\d+) (\d+) (\d+) (\d+)")

NO_HEADER = 0, 0
NOT_YET, BUSY, NO_LANE, SEVERAL = "3907", "3908", "3911", "3935"


class Record(typing.NamedTuple):
    """A record of a session. Its data is good until the next record is asked for."""

    index: int
    stream: int
    data: bytes | memoryview


def answered(talk: Connection) -> str:
    """The next line. A refusal is raised."""
    text = talk.line()
    if text.startswith("39"):
        raise Refused(text)
    return text


def ask(talk: Connection, command: str) -> str:
    """Sends a command, and gives the line that answers it."""
    talk.send(text_packet(command))
    return answered(talk)


def lines_to_end(talk: Connection) -> list[str]:
    """The lines up to the end of data."""
    lines = []
    while not isinstance(one := talk.receive(), int):
        lines.append(text_of(one))
    return lines


def console(talk: Connection, line: str) -> list[str]:
    """The lines that answer a line of the operator. A refusal, after which there is no end of data, is raised."""
    return [ask(talk, f"console {line}"), *lines_to_end(talk)]


def terminate(talk: Connection) -> None:
    talk.send(signal(TERMINATE))


class Target(typing.NamedTuple):
    """What a session is opened with."""

    job: int = 1
    pool: str = "Default"
    media: str = "File"


class Appending:
    """A session that is being appended. Its phases are begun and ended as its records come."""

    def __init__(self, talk: Connection, target: Target):
        said = ask(talk, f"append open session JobId={target.job} Pool={target.pool} Media={target.media}")
        if not (ticket := re.fullmatch(r"3000 OK open ticket = (\d+)", said)):
            raise Lost(f"{said} in place of a ticket")
        self.talk, self.ticket = talk, int(ticket[1])
        self.in_phase, self.header, self.sent = False, NO_HEADER, 0

    def append(self, data: Buffer, index: int, stream: int) -> None:
        """Appends a record. A refusal comes at the end of its phase."""
        if self.sent >= PHASE:
            self.end_phase()
        if not self.in_phase:
            # Nothing is sent before the phase is accepted: what follows would be taken for commands.
            ask(self.talk, f"append data {self.ticket}")
            self.in_phase = True
        before = b""
        if self.header != (index, stream):
            before = self._header_end() + text_packet(f"{index} {stream} 0")
            self.header = index, stream
        self.talk.send_record(data, before)
        self.sent += len(data)

    def _header_end(self) -> bytes:
        """What ends the header that goes on, if there is one."""
        return signal(END_OF_DATA) if self.header != NO_HEADER else b""

    def end_phase(self) -> None:
        """Ends the phase that goes on, if there is one. What was refused in it is raised."""
        if not self.in_phase:
            return
        ends = self._header_end() + signal(END_OF_DATA)
        self.in_phase, self.sent, self.header = False, 0, NO_HEADER
        self.talk.send(ends)
        answered(self.talk)

    def keep_alive(self) -> None:
        """Says that the client is still there."""
        self.talk.send(signal(HEARTBEAT))

    def close(self, patience: float) -> list[str]:
        """Ends the session and closes it. Gives its lines, by which it is read back. A close that isn't possible yet is
        asked for again, for so many seconds."""
        self.end_phase()
        ask(self.talk, f"append end session {self.ticket}")
        until = time.monotonic() + patience
        while True:
            try:
                ask(self.talk, f"append close session {self.ticket}")
                return lines_to_end(self.talk)
            except Refused as why:
                if why.number() != NOT_YET or time.monotonic() > until:
                    raise
            time.sleep(PAUSE)

    def cancel(self) -> None:
        """Gives the session up."""
        self.end_phase()
        console(self.talk, f"cancel {self.ticket}")


def read_records(talk: Connection, lines: list[str]) -> typing.Generator[Record, None, str]:
    """The records of the session with these lines, those of its close, and then what the daemon says of them. A session
    without an end is raised as `Refused` after its records."""
    (seconds, number), spans = fields_of(lines)
    talk.send(text_packet(f"read session Time={seconds} Id={number}"))
    talk.send(*map(text_packet, spans), signal(END_OF_DATA))
    while (header := talk.receive()) != END_OF_DATA:
        # There may be a refusal here. Its number alone doesn't tell it: a FileIndex may be 3901.
        if isinstance(header, int):
            raise Lost(f"a signal {header} in place of a header")
        if not (fields := HEADER.fullmatch(header)):
            raise Refused(text_of(header))
        if (data := talk.receive_record()) is None:
            raise Lost("a record is broken off")
        yield Record(int(fields[1]), int(fields[2]), data)
    said = answered(talk)
    if not (whole := READ_WHOLE.fullmatch(said)):
        raise Lost(f"{said} in place of the read's end")
    if whole[3] == "0":
        raise Refused(f"the session was given up before its end: {said}")
    return said


def fields_of(lines: list[str]) -> tuple[tuple[int, int], list[str]]:
    """The time and the number of the session with these lines, and its lines of spans."""
    first = re.fullmatch(r"session (\d+) (\d+)", lines[0] if lines else "")
    if not first or not all(SPAN.fullmatch(line) for line in lines[1:]):
        raise Unfit("these are not the lines of a session: one 'session TIME ID', and then 'span ..'")
    return (int(first[1]), int(first[2])), lines[1:]
