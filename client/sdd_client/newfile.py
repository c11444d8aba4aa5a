"""Files that are written here: new ones, which have their name only once they are whole, and what is there already."""
from __future__ import annotations

import contextlib
import os
import pathlib
import stat
import sys
import typing

from .connection import Buffer
from .errors import Unfit


class NewFile:
    """A file of its owner's alone, which has its name once it is finished: whole, and synced. Until then it has none, where
    the file system can do that, so that nothing of it stays however the client ends."""

    def __init__(self, path: str | os.PathLike[str], may_replace: bool = True):
        self.path, self.may_replace = pathlib.Path(path), may_replace
        self.part = self.path.with_name(f".sdd-client-{os.getpid()}.part")
        self.is_named = False
        self.file = open(self._unnamed(), "wb")

    def _unnamed(self) -> int:
        try:
            return os.open(self.path.parent, os.O_WRONLY | os.O_TMPFILE, 0o600)
        except (OSError, AttributeError):
            self.is_named = True
            return os.open(self.part, os.O_WRONLY | os.O_CREAT | os.O_EXCL, 0o600)

    def __enter__(self) -> NewFile:
        return self

    def __exit__(self, *_: object) -> None:
        with contextlib.suppress(OSError):
            self.file.close()
        if self.is_named:
            self.part.unlink(missing_ok=True)

    def write(self, data: Buffer) -> None:
        self.file.write(data)

    def finish(self) -> None:
        self.file.flush()
        os.fsync(self.file.fileno())
        if not self.is_named:
            self._name()
        self.file.close()
        if self.may_replace:
            self.part.replace(self.path)
        else:
            os.link(self.part, self.path)
            self.part.unlink()
        self.is_named = False
        sync_folder(self.path.parent)

    def _name(self) -> None:
        folder = os.open("/proc/self/fd", os.O_RDONLY | os.O_DIRECTORY)
        try:
            os.link(str(self.file.fileno()), self.part, src_dir_fd=folder, follow_symlinks=True)
        finally:
            os.close(folder)
        self.is_named = True


def sync_folder(path: pathlib.Path) -> None:
    folder = os.open(path, os.O_RDONLY | os.O_DIRECTORY)
    try:
        os.fsync(folder)
    finally:
        os.close(folder)


class There:
    """What is there and no plain file, as a device or a pipe: it is written to as it is."""

    def __init__(self, path: str | os.PathLike[str]):
        self.file = open(os.open(path, os.O_WRONLY), "wb")

    def __enter__(self) -> There:
        return self

    def __exit__(self, *_: object) -> None:
        with contextlib.suppress(OSError):
            self.file.close()

    def write(self, data: Buffer) -> None:
        self.file.write(data)

    def finish(self) -> None:
        self.file.flush()
        self.file.close()


class Standard(There):
    """The standard output."""

    def __init__(self) -> None:
        self.file = sys.stdout.buffer

    def __exit__(self, *_: object) -> None:
        pass

    def finish(self) -> None:
        self.file.flush()


def output(path: str) -> NewFile | There:
    """What a stream is written to: the standard output for `-`, a new file, or what is there, through links."""
    if path == "-":
        return Standard()
    try:
        kind = os.stat(path).st_mode
    except FileNotFoundError:
        return NewFile(os.path.realpath(path))
    if stat.S_ISREG(kind):
        return NewFile(os.path.realpath(path))
    return There(path)


class Spans:
    """The file that is to have the lines of a job's close. It is made before the job, which is no good without them;
    with `-` they are printed."""

    def __init__(self, path: str):
        if path != "-" and os.path.lexists(path):
            raise Unfit(f"{path} is there already; each job has lines of its own")
        self.file = None if path == "-" else NewFile(path, may_replace=False)

    def __enter__(self) -> Spans:
        return self

    def __exit__(self, *why: object) -> None:
        if self.file:
            self.file.__exit__(*why)

    def keep(self, lines: list[str]) -> None:
        if not self.file:
            print_lines(lines)
            return
        try:
            self.file.write("".join(f"{line}\n" for line in lines).encode())
            self.file.finish()
        except OSError:
            # The job is closed, and these lines are all that it is read back by.
            print_lines(lines)
            raise


def print_lines(lines: typing.Iterable[str]) -> None:
    print("".join(f"{line}\n" for line in lines), end="", flush=True)


def opened(path: str) -> contextlib.AbstractContextManager[typing.BinaryIO]:
    """A file to be read, or the standard input for `-`."""
    return contextlib.nullcontext(sys.stdin.buffer) if path == "-" else open(path, "rb")


def lines_in(path: str) -> list[str]:
    """The lines that were kept in a file."""
    with opened(path) as file:
        return file.read().decode(errors="replace").splitlines()


