"""GNU tar's snapshot of a listed-incremental run: which folders it found, and which names in them. An increment stands on the
one of the job before.

Before a snapshot is used, what must be sent anew is taken out of it, since tar takes what it doesn't know as new: folders
that were renamed, with all that is in them, and names that weren't kept as they were. What tar tells of renames by codes of
its own then never comes.
"""
from __future__ import annotations

import contextlib
import dataclasses
import json
import os
import typing
import zlib

from .errors import Failed
from .filelist import GZIP, LEVEL

# Of a folder's record: whether it is on NFS, the seconds and nanoseconds of its time, its device, its number, its name.
FIELDS, NUMBER, NAME = 6, 4, 5


class Unknown(Failed):
    """A snapshot that can't be read."""


@dataclasses.dataclass
class Snapshot:
    """A snapshot, and the options of the run that it is of: another run with other ones can't stand on it."""

    options: list[typing.Any]
    text: bytes

    def encoded(self) -> bytes:
        """As it is kept: gzip of a line of JSON and the snapshot."""
        gzip = zlib.compressobj(LEVEL, zlib.DEFLATED, GZIP)
        return gzip.compress(json.dumps(self.options).encode() + b"\n" + self.text) + gzip.flush()


def decoded(data: bytes) -> Snapshot:
    try:
        line, _, text = zlib.decompress(data, GZIP).partition(b"\n")
        return Snapshot(json.loads(line), text)
    except (ValueError, zlib.error) as why:
        raise Unknown(f"the snapshot can't be read: {why}") from why


class Folder(typing.NamedTuple):
    """A folder's record: its path, its number in its file system, its fields as they are, and the names in it, each behind a
    letter and before a zero byte."""

    path: bytes
    number: int
    fields: bytes
    names: bytes

    def without(self, paths: set[bytes]) -> bytes:
        """The record without some names."""
        above = self.path.rstrip(b"/") + b"/"
        kept = [one for one in self.names.split(b"\0")[:-1] if above + one[1:] not in paths]
        return self.fields + b"".join(one + b"\0" for one in kept) + b"\0\0"


def folders_of(text: bytes) -> tuple[bytes, list[Folder]]:
    """What a snapshot begins with, and its folders."""
    try:
        at = text.index(b"\0", text.index(b"\0", text.index(b"\n")) + 1) + 1
        start, found = text[:at], []
        while at < len(text):
            begin, fields = at, []
            for _ in range(FIELDS):
                end = text.index(b"\0", at)
                fields.append(text[at:end])
                at = end + 1
            # An empty name ends the names in it, and a zero byte the record.
            end = at if text.startswith(b"\0\0", at) else text.index(b"\0\0\0", at) + 1
            found.append(Folder(b"/" + fields[NAME].removeprefix(b"./"), int(fields[NUMBER]), text[begin:at], text[at:end]))
            at = end + 2
        return start, found
    except ValueError as why:
        raise Unknown("the snapshot of tar can't be read") from why


def is_below(path: bytes, folders: set[bytes]) -> bool:
    """Whether a path is in one of the folders or below."""
    while path not in (b"/", b""):
        path = os.path.dirname(path)
        if path in folders:
            return True
    return False


def usable(text: bytes, faults: set[bytes], links: typing.Callable[[], typing.Iterable[tuple[bytes, bytes]]]) -> bytes:
    """The snapshot without what must be sent anew. `faults` has the names that weren't kept as they were; `links` gives hard
    links with their targets: all names of a file are sent in one run, or they would be several files."""
    start, folders = folders_of(text)
    anew = {folder.path for folder in folders if folder.path in faults or not is_same(folder)}
    names = set(faults)
    if not anew and not names:
        return text
    pairs, before = list(links()), -1
    while before != len(names):
        before = len(names)
        for pair in pairs:
            if any(path in names or is_below(path, anew) for path in pair):
                names.update(pair)
    return start + b"".join(folder.without(names) for folder in folders if folder.path not in anew)


def is_same(folder: Folder) -> bool:
    """Whether that folder is still there."""
    with contextlib.suppress(OSError):
        return os.lstat(folder.path).st_ino == folder.number
    return False
