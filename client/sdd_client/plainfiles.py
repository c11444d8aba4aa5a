"""`backup --spans` and `restore SPANS FOLDER`: plain files without tar, each a record of its name and mode, and those of
its data (docs/use/PROTOCOL.md). What is no plain file is left out, and told."""
from __future__ import annotations

import contextlib
import os
import pathlib
import re
import stat
import typing

from .connection import Connection
from .dialogue import NOT_YET, Appending, Record, console
from .errors import Refused, Unfit, complain
from .lanes import Alive, Way, opened, pieces_of
from .newfile import NewFile, Spans

# The Streams: what a file is called, and what it holds.
NAME_STREAM, DATA_STREAM = 1, 2
HEAD = re.compile(rb"([0-7]{1,4}) (-?\d{1,20}) (.+)", re.DOTALL)


class LeftOut:
    """Counts what is left out of a backup, and tells it."""

    def __init__(self) -> None:
        self.count = 0

    def add(self, why: object) -> None:
        self.count += 1
        complain(f"left out: {why}")


def files_below(paths: list[str], left_out: LeftOut) -> typing.Iterator[str]:
    """The files at these paths and below them, each folder's in the order of their names. A link to a folder is left out,
    and so is a folder without anything in it."""
    for path in paths:
        if not os.path.isdir(path):
            yield path
            continue
        for folder, folders, files in os.walk(path, onerror=left_out.add):
            folders.sort()
            if not folders and not files:
                left_out.add(f"{folder} is an empty folder")
            for name in folders:
                if os.path.islink(whole := os.path.join(folder, name)):
                    left_out.add(f"{whole} is a link to a folder")
            yield from (os.path.join(folder, name) for name in sorted(files))


def name_of(path: str) -> str:
    """The name under which a file is restored: its path, from the root or the current folder on."""
    name = os.path.normpath(path).lstrip("/")
    if name.split("/")[0] in ("..", "."):
        raise Unfit(f"{path} leads above the current folder; give the whole path")
    return name


def plain_file(path: str, left_out: LeftOut) -> typing.BinaryIO | None:
    """A plain file, open to be read. What is none, or can't be read, is left out."""
    try:
        file = open(os.open(path, os.O_RDONLY | os.O_NONBLOCK | os.O_NOFOLLOW), "rb")
    except OSError as why:
        left_out.add(why)
        return None
    if stat.S_ISREG(os.fstat(file.fileno()).st_mode):
        return file
    file.close()
    left_out.add(f"{path} is no plain file")
    return None


def closed(talk: Connection, appending: Appending, patience: float) -> list[str]:
    """Closes a job. If that waits for a volume, the volume is reported to those who may ask for it."""
    try:
        return appending.close(patience)
    except Refused as why:
        if why.number() == NOT_YET:
            with contextlib.suppress(Refused):
                for line in console(talk, "requests"):
                    complain(f"the daemon says: {line}")
        raise


def append_file(appending: Appending, file: typing.BinaryIO, index: int, head: bytes, sizes: list[int]) -> None:
    """Appends a file: in phases of its own, so that what is refused is told with it."""
    appending.append(head, index, NAME_STREAM)
    appending.end_phase()
    for piece in pieces_of(file.fileno(), sizes, Alive(appending.keep_alive)):
        appending.append(piece, index, DATA_STREAM)
    appending.end_phase()


def backup(talk: Connection, way: Way, spans_file: str, wanted: list[str], sizes: list[int]) -> None:
    """Backs up files, each under a FileIndex of its own: a record of its name, and those of its data."""
    left_out, count = LeftOut(), 0
    # A file that is named twice is backed up once.
    paths = {name_of(path): path for path in files_below(wanted, left_out)}
    with Spans(spans_file) as spans:
        appending = opened(talk, way)
        for name, path in paths.items():
            if not (file := plain_file(path, left_out)):
                continue
            count += 1
            with file:
                found = os.fstat(file.fileno())
                head = f"{stat.S_IMODE(found.st_mode):o} {found.st_mtime_ns} ".encode() + os.fsencode(name)
                append_file(appending, file, count, head, sizes)
        if not count:
            raise Unfit("there is no file to back up")
        spans.keep(closed(talk, appending, way.patience))
    complain(f"{count} files are backed up")
    if left_out.count:
        raise Unfit(f"{left_out.count} left out; the lines of the others are kept")


class Restored:
    """The files of a session, made below a folder one after another as their records come. Each gets its name once the
    next one begins or the session ends: so a file is whole, or isn't there."""

    def __init__(self, folder: str):
        self.folder, self.index, self.count = pathlib.Path(folder), 0, 0
        self.file: NewFile | None = None
        self.mode = self.moment = 0

    def __enter__(self) -> Restored:
        return self

    def __exit__(self, *why: object) -> None:
        if self.file:
            self.file.__exit__(*why)

    def take(self, record: Record) -> None:
        if record.stream == NAME_STREAM and record.index == self.index + 1:
            self.finish()
            self.index = record.index
            self.begin(bytes(record.data))
        elif record.stream == DATA_STREAM and record.index == self.index and self.file:
            self.file.write(record.data)
        else:
            raise Unfit("the session is no backup of files; 'read' gives its data as they are")

    def begin(self, head: bytes) -> None:
        fields = HEAD.fullmatch(head)
        if not fields or b"\0" in head or {b"", b".", b".."} & set(fields[3].split(b"/")):
            raise Unfit(f"a record names no file: {head[:80]!r}")
        path = self.folder / os.fsdecode(fields[3])
        for above in path.relative_to(self.folder).parents:
            if os.path.islink(self.folder / above) and above != pathlib.Path("."):
                raise Unfit(f"{self.folder / above} is a link, and a file would be restored through it")
        path.parent.mkdir(parents=True, exist_ok=True)
        self.file, self.mode, self.moment = NewFile(path), int(fields[1], 8) & 0o777, int(fields[2])

    def finish(self) -> None:
        """The last file is whole."""
        if not self.file:
            return
        self.file.file.flush()
        os.fchmod(self.file.file.fileno(), self.mode)
        os.utime(self.file.file.fileno(), ns=(self.moment, self.moment))
        self.file.finish()
        self.file, self.count = None, self.count + 1


def restore(records: typing.Iterable[Record], folder: str) -> None:
    """Makes the files of a session below a folder."""
    pathlib.Path(folder).mkdir(parents=True, exist_ok=True)
    with Restored(folder) as files, contextlib.ExitStack() as leaving:
        leaving.callback(lambda: complain(f"{files.count} files are restored"))
        for record in records:
            files.take(record)
        files.finish()
