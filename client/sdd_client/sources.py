"""Where sessions are read back from: the daemon, or the volumes in a folder by sdtool."""
from __future__ import annotations

import contextlib
import io
import itertools
import re
import subprocess
import typing

from .connection import Address, Buffer, connect
from .dialogue import Record, fields_of, read_records
from .errors import Failed, Lost, Refused, Unfit
from .lanes import RECORD, pieces_of
from .stages import Chain, Feeder, words_of


class Source(typing.Protocol):
    """Gives the records of a session, by the lines of its close. At the end of one it has said so."""

    said: str

    def records(self, lines: list[str]) -> typing.Generator[Record, None, None]:
        """Its records in order. What is wrong with them is raised after those before it."""


class DaemonSource:
    """The daemon. Each reading has a connection of its own, so that it can be given up."""

    def __init__(self, address: Address):
        self.address, self.said = address, ""

    def records(self, lines: list[str]) -> typing.Generator[Record, None, None]:
        with connect(self.address) as talk:
            self.said = yield from read_records(talk, lines)


class VolumesSource:
    """The volumes in a folder, by `sdtool read`, without the daemon."""

    def __init__(self, folder: str):
        self.folder, self.said = folder, ""

    def records(self, lines: list[str]) -> typing.Generator[Record, None, None]:
        said = ""
        for one in told_by("read", lines, self.folder):
            if isinstance(one, Record):
                yield one
            else:
                said = one
        if not said.startswith("ok read "):
            raise Refused(said or "sdtool broke off")
        if not said.endswith(" ended"):
            raise Refused(f"the session was given up before its end: {said}")
        self.said = said


def told_by(word: str, lines: list[str], folder: str) -> typing.Generator[Record | str, None, None]:
    """What sdtool tells of a session by that word, on the volumes in a folder: its records, and lines of text."""
    fields_of(lines)
    try:
        tool = subprocess.Popen(["sdtool", word, "/dev/stdin", folder], stdin=subprocess.PIPE, stdout=subprocess.PIPE)
    except OSError as why:
        raise Unfit(f"sdtool: {why.strerror}") from why
    with contextlib.ExitStack() as leaving:
        leaving.callback(given_up, tool)
        with contextlib.suppress(BrokenPipeError):
            tool.stdin.write("".join(f"{line}\n" for line in lines).encode())
            tool.stdin.close()
        while line := tool.stdout.readline():
            if head := re.fullmatch(rb"rec (\d+) (\d+) (\d+)\n", line):
                data = tool.stdout.read(int(head[3]))
                if tool.stdout.read(1) != b"\n":
                    return
                yield Record(int(head[1]), int(head[2]), data)
            else:
                yield line.decode(errors="replace").rstrip("\n")


def given_up(tool: subprocess.Popen[bytes]) -> None:
    tool.kill()
    with contextlib.suppress(OSError):
        tool.stdin.close()
    tool.stdout.close()
    tool.wait()


class Reader:
    """A session's stream as it was before the stages, read from its beginning on. If the daemon gives up a reading that
    was left waiting, it begins anew where it was. Of its records those of one Stream count, or all."""

    def __init__(self, source: Source, lines: list[str], inverse: list[str], stream: int | None):
        self.source, self.lines, self.inverse, self.stream = source, lines, inverse, stream
        self.position, self.rest = 0, memoryview(b"")
        self.chain: Chain | None = None
        self.records: typing.Generator[Record, None, None] | None = None
        self.pieces = self._opened()

    def __enter__(self) -> Reader:
        return self

    def __exit__(self, *_: object) -> None:
        self.close()

    def close(self) -> None:
        """Gives the reading up."""
        self.pieces.close()

    def _opened(self) -> typing.Generator[Buffer, None, None]:
        with contextlib.closing(self.source.records(self.lines)) as records:
            data = (one.data for one in records if self.stream in (None, one.stream))
            if not self.inverse:
                yield from data
            else:
                yield from self._through(data)

    def _through(self, data: typing.Iterator[Buffer]) -> typing.Generator[Buffer, None, None]:
        """What comes of the stages of the way back. A session without such records gives nothing, and no stage is run."""
        first = next(data, None)
        if first is None:
            return
        chain = Chain([words_of(stage) for stage in self.inverse])
        feeder = Feeder(chain, itertools.chain([first], data))
        try:
            yield from pieces_of(chain.output, [RECORD], lambda: None)
            feeder.ended()
            chain.wait()
        finally:
            chain.kill()
            feeder.join()

    def _next(self) -> memoryview | None:
        """The next piece, or nothing at the end."""
        piece = next(self.pieces, None)
        return None if piece is None else memoryview(piece)

    def take(self, most: int) -> memoryview | None:
        """The next bytes, so many at most, or nothing at the session's end."""
        while not self.rest:
            try:
                piece = self._next()
            except Lost:
                piece = self._again()
            if piece is None:
                return None
            self.rest = piece
        taken, self.rest = self.rest[:most], self.rest[most:]
        self.position += len(taken)
        return taken

    def _again(self) -> memoryview | None:
        """Begins anew, up to where it was."""
        self.pieces = self._opened()
        left = self.position
        while (piece := self._next()) is not None:
            if len(piece) > left:
                return piece[left:]
            left -= len(piece)
        return None

    def skip_to(self, start: int) -> None:
        while self.position < start:
            if self.take(start - self.position) is None:
                raise Failed("a session is shorter than the catalogue says")

    def copy(self, start: int, length: int, write: typing.Callable[[Buffer], object]) -> None:
        """Gives the bytes from there on to `write`."""
        self.skip_to(start)
        left = length
        while left:
            if (piece := self.take(left)) is None:
                raise Failed("a session is shorter than the catalogue says")
            write(piece)
            left -= len(piece)

    def drain(self) -> None:
        """Reads to the end, where the daemon says whether the session is whole."""
        while self.take(1 << 30) is not None:
            pass


class ReaderStream(io.RawIOBase):
    """A reader as a stream."""

    def __init__(self, reader: Reader):
        self.reader = reader

    def readable(self) -> bool:
        return True

    def readinto(self, buffer: typing.Any) -> int:
        taken = self.reader.take(len(buffer))
        if taken is None:
            return 0
        buffer[:len(taken)] = taken
        return len(taken)
