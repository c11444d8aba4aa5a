"""What is in the folders of volumes: the volumes, and what goes with each under a name of its own and `~`."""
from __future__ import annotations

import os
import pathlib
import re
import struct
import typing

from sdd_client.dialogue import VOLUME_NAME
from sdd_client.errors import Failed

GONE = "~gone"
# The daemon's, in each folder that it serves; and the folder in which a volume is alone while it is read.
LOCK, ALONE = ".lock~", ".verify~"
NO_NOTE = re.compile(rf"{re.escape(LOCK)}|{re.escape(ALONE)}|spool~\d+~\d+|.*{GONE}")
# The first bytes of a volume (docs/use/FORMATS.md, 'Labels'): its header up to the mark of blocks, then the profile of the label,
# the moment, and the name with a zero byte after it.
LABEL = struct.Struct(">12x 4s 20x 12s 4x q 128s")
MARK, PROFILE = b"BB02", b"sd-profile\n\0"


class Identity(typing.NamedTuple):
    """What tells that a file is the one that it was, with the same bytes."""

    inode: int
    size: int
    changed: int


def identity_of(path: pathlib.Path) -> Identity:
    found = os.lstat(path)
    return Identity(found.st_ino, found.st_size, found.st_mtime_ns)


def is_as(path: pathlib.Path, known: Identity) -> bool:
    """Whether a file is there, and is the one that is known."""
    try:
        return identity_of(path) == known
    except OSError:
        return False


def volumes_in(folder: pathlib.Path) -> dict[str, Identity]:
    """The plain files that may be volumes."""
    found = {}
    try:
        with os.scandir(folder) as entries:
            for one in entries:
                if VOLUME_NAME.fullmatch(one.name) and one.is_file(follow_symlinks=False):
                    found[one.name] = identity_of(folder / one.name)
    except FileNotFoundError as why:
        raise Failed(f"{why.filename} has gone") from why
    except OSError as why:
        raise Failed(f"{folder}: {why.strerror}") from why
    return found


def beside(folder: pathlib.Path, name: str) -> list[pathlib.Path]:
    """The files that go with a volume: its name, `~`, and anything."""
    with os.scandir(folder) as entries:
        return sorted(folder / one.name for one in entries if one.name.startswith(f"{name}~"))


def lonely_in(folder: pathlib.Path) -> list[str]:
    """The files that go with volumes that aren't there."""
    with os.scandir(folder) as entries:
        names = {one.name for one in entries}
    return sorted(name for name in names if "~" in name and not NO_NOTE.fullmatch(name) and name.partition("~")[0] not in names)


def gone_in(folder: pathlib.Path) -> list[str]:
    """The volumes whose file has been renamed to be removed."""
    with os.scandir(folder) as entries:
        return sorted(one.name.removesuffix(GONE) for one in entries if one.name.endswith(GONE))


class Label(typing.NamedTuple):
    """When a volume was labelled, and with which name."""

    moment: int
    name: str


def label_of(path: pathlib.Path) -> Label | None:
    """A volume's label, if one begins the file. Whether it is whole, and can be read, is found by a scan."""
    try:
        with open(path, "rb") as file:
            mark, profile, moment, text = LABEL.unpack(file.read(LABEL.size).ljust(LABEL.size, b"\0"))
    except OSError:
        return None
    if (mark, profile) != (MARK, PROFILE):
        return None
    return Label(moment, text.partition(b"\0")[0].decode(errors="replace"))


def is_named_so(path: pathlib.Path) -> bool:
    """Whether a file begins with a label of its name."""
    label = label_of(path)
    return label is not None and label.name == path.name


def is_named_otherwise(path: pathlib.Path) -> bool:
    """Whether a file is a volume of another name, as a copy of one."""
    label = label_of(path)
    return label is not None and label.name != path.name


def free_in(folder: pathlib.Path) -> int:
    """The bytes that a user may still write to the folder's file system."""
    found = os.statvfs(folder)
    return found.f_bavail * found.f_frsize


def sync_folder(folder: pathlib.Path) -> None:
    file = os.open(folder, os.O_RDONLY | os.O_DIRECTORY)
    try:
        os.fsync(file)
    finally:
        os.close(file)
