"""The list of a job's files, as its last session and the catalogue keep it: gzip of one row for each member of its streams,
in their order, and of each path that was asked for and each name that tar spoke of (docs/use/FORMATS.md, 'A job of sdd-client').

A row is `KIND SIZE MTIME SESSION OFFSET LENGTH PATH`, a zero byte, then the target of a link or what was said, and a zero
byte. The list is in pieces, each of whole rows and a file of gzip by itself; one after another they are one file of gzip.
"""
from __future__ import annotations

import os
import typing
import zlib

from .connection import Buffer
from .errors import Failed
from .holes import is_hidden, may_be_one_hole
from .tarcut import Member
from .tarrun import Said

# A path that was asked for, a name with a fault, and one that was left out knowingly; any other kind is a member's.
ASKED, FAULT, LEFT_OUT = "@", "!", "-"
NO_MEMBERS = frozenset(kind.encode() for kind in (ASKED, FAULT, LEFT_OUT))
# Where a member lies: its session's number, its first byte there, and how many.
Extent = tuple[int, int, int]
Kind = typing.TypeVar("Kind")
LEVEL, GZIP = 3, 31
# A piece has so many bytes of rows, and so many are compressed at once: what fills the pipe of tar meanwhile is little.
PIECE, PORTION = 1 << 20, 1 << 15


class Row(typing.NamedTuple):
    """A file: its kind (f, d, l, h, c, b, p), its size, its last change in nanoseconds since 1970, and where its member
    lies: the session's number, the first byte and how many, in the session's tar stream. For other rows kind, path and text
    alone count."""

    kind: str
    size: int
    mtime: int
    session: int
    offset: int
    length: int
    path: bytes
    text: bytes

    def is_member(self) -> bool:
        return self.kind not in (ASKED, FAULT, LEFT_OUT)


def plain(path: bytes) -> bytes:
    """A member's path from the root on, without a slash at its end."""
    path = path.removeprefix(b"./").strip(b"/")
    return b"/" + (b"" if path == b"." else path)


class Piece(typing.NamedTuple):
    """A piece of a list, and the least and the greatest number of the sessions of its members."""

    data: bytes
    first: int
    last: int


class Writer:
    """Writes a list, and gives its pieces away as they are filled. `hidden` has the paths of files whose bytes tar didn't see."""

    def __init__(self, give: typing.Callable[[Piece], object]):
        self.give = give
        self.files = self.bytes = self.faults = 0
        self.hidden: list[bytes] = []
        self._begin()

    def _begin(self) -> None:
        """Begins a piece: what of it is compressed, and the rows that aren't yet."""
        self.gzip, self.data = zlib.compressobj(LEVEL, zlib.DEFLATED, GZIP), bytearray()
        self.rows: list[bytes] = []
        self.sessions: set[int] = set()
        self.size = self.waiting = 0

    def add(self, member: Member, session: int, offset: int, length: int) -> None:
        path, kind, size, mtime, link, _, _ = member
        self.files += 1
        self.bytes += size
        self.sessions.add(session)
        self._add(b"%c %d %d %d %d %d %b\0%b\0" % (ord(kind), size, mtime, session, offset, length, plain(path), link))
        if may_be_one_hole(member) and is_hidden(plain(path)):
            self.hidden.append(path)

    def add_usual(self, members: typing.Iterator[tuple[bytes, int, bytes, int]], session: int, offset: int, most: int) -> int:
        """Adds the first members of some as `usual` gives them, which follow one another there, as long as they have so many
        bytes at most. Gives how many bytes these are."""
        at, end, size, rows = offset, offset + most, 0, []
        for path, count, moment, length in members:
            if at + length > end:
                break
            rows.append(b"f %d %b %d %d %d %b\0\0" % (count, moment, session, at, length, plain(path)))
            size += count
            at += length
        if rows:
            self.files += len(rows)
            self.bytes += size
            self.sessions.add(session)
            self._add(b"".join(rows))
        return at - offset

    def ask(self, path: str) -> None:
        self._add(b"%c 0 0 0 0 0 %b\0\0" % (ord(ASKED), os.fsencode(path)))

    def say(self, said: Said) -> None:
        self.faults += said.is_fault
        kind = FAULT if said.is_fault else LEFT_OUT
        path = plain(said.path) if said.path else b""
        self._add(b"%c 0 0 0 0 0 %b\0%b\0" % (ord(kind), path, said.text.replace("\0", " ").encode()))

    def put(self, row: Row) -> None:
        """Adds a row that is there already."""
        if row.is_member():
            self.sessions.add(row.session)
        self._add(b"%c %d %d %d %d %d %b\0%b\0" % (ord(row.kind), *row[1:]))

    def _add(self, rows: bytes) -> None:
        self.rows.append(rows)
        self.size += len(rows)
        self.waiting += len(rows)
        if self.size >= PIECE:
            self.finish()
        elif self.waiting >= PORTION:
            self._compress()

    def _compress(self) -> None:
        self.data += self.gzip.compress(b"".join(self.rows))
        self.rows, self.waiting = [], 0

    def finish(self) -> None:
        """Gives away what is left."""
        if self.size:
            self._compress()
            self.data += self.gzip.flush()
            self.give(Piece(bytes(self.data), min(self.sessions, default=0), max(self.sessions, default=0)))
        self._begin()


def rows_of_texts(texts: list[bytes]) -> typing.Iterator[Row]:
    for head, text in zip(texts[::2], texts[1::2]):
        kind, size, mtime, session, offset, length, path = head.split(b" ", 6)
        yield Row(kind.decode(), int(size), int(mtime), int(session), int(offset), int(length), path, text)


def extents_of_texts(texts: list[bytes]) -> typing.Iterator[Extent]:
    for head in texts[::2]:
        kind, _, _, session, offset, length, _ = head.split(b" ", 6)
        if kind not in NO_MEMBERS:
            yield int(session), int(offset), int(length)


def rows_of(pieces: typing.Iterable[Buffer]) -> typing.Iterator[Row]:
    """The rows of a list that comes in pieces of any size."""
    return read_of(pieces, rows_of_texts)


def extents_of(pieces: typing.Iterable[Buffer]) -> typing.Iterator[Extent]:
    """Where the members of such a list lie, in their order. It is what the rows say, in half of the time."""
    return read_of(pieces, extents_of_texts)


def read_of(pieces: typing.Iterable[Buffer], read: typing.Callable[[list[bytes]], typing.Iterator[Kind]]) -> typing.Iterator[Kind]:
    """What is read of a list's texts, of which each row has two."""
    try:
        gzip, rest = zlib.decompressobj(GZIP), b""
        for piece in pieces:
            while piece:
                if gzip.eof:
                    gzip = zlib.decompressobj(GZIP)
                *texts, last = (rest + gzip.decompress(piece)).split(b"\0")
                if len(texts) % 2:
                    last = texts.pop() + b"\0" + last
                yield from read(texts)
                rest, piece = last, gzip.unused_data
    except (ValueError, TypeError, zlib.error) as why:
        raise Failed(f"the list of files can't be read: {why}") from why
    if rest or not gzip.eof:
        raise Failed("the list of files is broken off")
