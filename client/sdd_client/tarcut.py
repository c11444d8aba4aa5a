"""Members of a tar archive (POSIX.1-2001, with GNU tar's pax records of sparse files).

A member is its extended headers, its header and its payload, in blocks of 512 bytes. `Parser` reads the headers of one where
they are in a buffer, so that nothing else of an archive is looked at or copied.
"""
from __future__ import annotations

import re
import struct
import typing

from .connection import Buffer
from .errors import Failed

BLOCK = 512
END = bytes(2 * BLOCK)
# An extended header longer than this is none that tar made.
MOST_EXTENDED = 64 << 20
# Where a header has its type, and the types of extended headers, of which one counts for all members behind it.
TYPE, EXTENDED, COMMON = 156, frozenset(b"xgLK"), ord("g")
# How a member's type is named in the catalogue; whatever else is a plain file.
KINDS = {b"1": "h", b"2": "l", b"3": "c", b"4": "b", b"5": "d", b"6": "p"}
# Of a header size and what ends it, and type; name, size, time, type, link, magic, prefix.
SIZE_AND_TYPE = struct.Struct("124x11sB20xB355x")
FIELDS = struct.Struct("100s24x11sB12s8xs100s6s82x155s12x")
# Nearly all members: a plain file behind an extended header of one block, which has a time alone. Of the first header the
# size and the type; of the second name, size and what ends it, type, the first byte of the prefix.
USUAL = struct.Struct("124x11s21xB355x512x100s24x11sB20xB188xB154x12x")
SMALL = {b"%011o" % size: size for size in range(1, BLOCK + 1)}
MTIME = re.compile(rb"(\d\d) mtime=([1-9]\d{0,17})\.(\d{1,9})\n")


class Damaged(Failed):
    """The stream is no tar archive, or is broken off."""


class Member(typing.NamedTuple):
    """A member. The sizes are in bytes: that of the file, which may have holes, of all its headers, and of the payload that
    follows them, without its padding. The time is in nanoseconds since 1970. The link is a link's target, or what an increment
    tells of the names in a folder."""

    path: bytes
    kind: str
    size: int
    mtime: int
    link: bytes
    headers: int
    payload: int

    def length(self) -> int:
        """Its bytes in the archive."""
        return self.headers + padded(self.payload)


def padded(size: int) -> int:
    return -(-size // BLOCK) * BLOCK


def number(field: bytes) -> int:
    """A number of a header: octal, or binary if its first bit is set, which is less than zero if the second is set too."""
    if field[0] & 0x80:
        binary = int.from_bytes(field, "big", signed=True)
        return binary if field[0] & 0x40 else binary + (1 << (8 * len(field) - 1))
    try:
        return int(field.strip(b" \0") or b"0", 8)
    except ValueError as why:
        raise Damaged("the stream of tar has a header that can't be read") from why


def sized(digits: bytes, last: int) -> int:
    """The size in a header: eleven digits of it and what ends them."""
    try:
        return int(digits, 8) if not last and digits.isdigit() else number(digits + bytes([last]))
    except ValueError as why:
        raise Damaged("the stream of tar has a header that can't be read") from why


def pax_records(data: bytes) -> dict[bytes, bytes]:
    """The records of an extended header: each is its length, a blank, key=value and a newline."""
    records, at = {}, 0
    while at < len(data):
        blank = data.find(b" ", at, at + 20)
        length = int(data[at:blank]) if blank > at and data[at:blank].isdigit() else 0
        if length < 5 or at + length > len(data):
            raise Damaged("the stream of tar has an extended header that can't be read")
        key, _, value = data[blank + 1:at + length - 1].partition(b"=")
        records[key] = value
        at += length
    return records


def nanoseconds(text: bytes) -> int:
    """A moment of a pax record in nanoseconds."""
    whole, _, part = text.partition(b".")
    moment = abs(int(whole or b"0")) * 10**9 + int((part + b"000000000")[:9])
    return -moment if whole.startswith(b"-") else moment


def is_sound(header: bytes) -> bool:
    """Whether a header has its checksum."""
    said = header[148:156].strip(b" \0")
    return said.isdigit() and int(said, 8) == sum(header) - sum(header[148:156]) + 8 * 32


class Parser:
    """Reads the headers of an archive's members, in the order of the archive. The checksums of headers are looked at where
    that is asked for. `common` is what counts for all members behind it."""

    def __init__(self, are_summed: bool = False):
        self.are_summed, self.common = are_summed, b""

    def parsed(self, buffer: Buffer, start: int, end: int) -> Member | int | None:
        """The member whose headers begin at `start` in the buffer, which is filled up to `end`; or how many bytes from there
        on are needed at least, if they aren't all there; or nothing at the archive's end."""
        said: dict[bytes, bytes] = {}
        at = start
        while end - at >= BLOCK:
            if self.are_summed and any(buffer[at:at + BLOCK]) and not is_sound(bytes(buffer[at:at + BLOCK])):
                raise Damaged("the stream of tar has a damaged header")
            digits, last, kind = SIZE_AND_TYPE.unpack_from(buffer, at)
            if kind not in EXTENDED:
                return self._member(buffer, at, start, said)
            size = sized(digits, last)
            if size > MOST_EXTENDED:
                raise Damaged("the stream of tar has too long an extended header")
            behind = at + BLOCK + padded(size)
            if behind > end:
                return behind + BLOCK - start
            if kind == COMMON:
                self.common = bytes(buffer[at:behind])
            else:
                self._extend(said, kind, bytes(buffer[at + BLOCK:at + BLOCK + size]))
            at = behind
        return at + BLOCK - start

    @staticmethod
    def _extend(said: dict[bytes, bytes], kind: int, data: bytes) -> None:
        if kind == ord("x"):
            said.update(pax_records(data))
        elif kind == ord("L"):
            said[b"path"] = data.rstrip(b"\0")
        elif kind == ord("K"):
            said[b"linkpath"] = data.rstrip(b"\0")

    @staticmethod
    def _member(buffer: Buffer, at: int, start: int, said: dict[bytes, bytes]) -> Member | None:
        """The member of the header there, with what its extended headers say."""
        name, digits, last, time, kind, link, magic, prefix = FIELDS.unpack_from(buffer, at)
        if not name[0] and not any(buffer[at:at + BLOCK]):
            if at > start:
                raise Damaged("the stream of tar ends after an extended header")
            return None
        path = name.partition(b"\0")[0]
        if prefix[0] and magic == b"ustar\0" and kind != b"S":
            path = prefix.partition(b"\0")[0] + b"/" + path
        kind = KINDS.get(kind, "f")
        path = said.get(b"GNU.sparse.name") or said.get(b"path") or path
        size = int(said[b"size"]) if b"size" in said else sized(digits, last)
        mtime = nanoseconds(said[b"mtime"]) if b"mtime" in said else number(time) * 10**9
        payload = size if kind == "f" else 0
        link = said.get(b"linkpath", link.partition(b"\0")[0]) if kind in "hl" else names(said) if kind == "d" else b""
        return Member(path, kind, int(said.get(b"GNU.sparse.realsize", payload)), mtime, link, at + BLOCK - start, payload)


def names(said: dict[bytes, bytes]) -> bytes:
    """The names in a folder as an increment tells them, each behind a letter, with slashes between."""
    told = said.get(b"GNU.dumpdir", b"").strip(b"\0").replace(b"\0", b"/")
    if any(one[:1] in (b"R", b"T", b"X") for one in told.split(b"/")):
        raise Failed("a folder was renamed while the job began: it is to be run again")
    return told


def usual(buffer: Buffer, start: int, end: int) -> typing.Iterator[tuple[bytes, int, bytes, int]]:
    """The members that begin at `start` and follow one another, as long as they are as nearly all are and their headers are
    in the buffer, which is filled up to `end`. Of each its path, its size, the digits of its time in nanoseconds, and its bytes
    in the archive. It is what `Parser` says of these, in a third of the time."""
    at = start
    while end - at >= USUAL.size:
        extended, before, name, digits, last, kind, prefix = USUAL.unpack_from(buffer, at)
        if before != 0x78 or kind != 0x30 or prefix or last or extended not in SMALL or not digits.isdigit():
            return
        length = SMALL[extended]
        found = MTIME.fullmatch(buffer, at + BLOCK, at + BLOCK + length)
        if not found or int(found[1]) != length:
            return
        size = int(digits, 8)
        length = USUAL.size + padded(size)
        yield name.partition(b"\0")[0], size, found[2] + found[3].ljust(9, b"0"), length
        at += length


class Members:
    """The members of an archive that comes as a stream. After each the caller reads its payload and padding from it. The
    archive must end with its two empty blocks."""

    def __init__(self, stream: typing.BinaryIO, are_summed: bool = False):
        self.stream, self.parser = stream, Parser(are_summed)

    def __iter__(self) -> typing.Iterator[Member]:
        while (member := self._next()) is not None:
            yield member
        while self.stream.read(1 << 16):
            pass

    def _next(self) -> Member | None:
        headers = b""
        found: Member | int | None = BLOCK
        while isinstance(found, int):
            more = self.stream.read(found - len(headers))
            headers += more
            if len(headers) < found:
                raise Damaged("the stream of tar is broken off")
            found = self.parser.parsed(headers, 0, len(headers))
        return found
