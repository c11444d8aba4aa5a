"""What the daemon says of drives and volumes, and what it is told."""
from __future__ import annotations

import contextlib
import re
import typing

from sdd_client.connection import Address, Connection, connect
from sdd_client.dialogue import VOLUME_NAME, console, terminate
from sdd_client.errors import Lost

NAME = VOLUME_NAME.pattern
DRIVE = re.compile(rf"drive ([1-8]) ({NAME}) (-|offline|{NAME}) (\d+)")
VOLUME = re.compile(rf"volume ({NAME}) ({NAME}) ({NAME}) (append|full|error) (\d+)")
SESSION = re.compile(r"session (\d+) ([a-z]+) (\d+)")
REQUEST = re.compile(rf"request ([1-8]) ({NAME}) ({NAME})")
TIMEOUT = 300.0


class DriveNow(typing.NamedTuple):
    """A drive: the volume that it has loaded, if any, and how many of its lanes are taken."""

    number: int
    loaded: str | None
    sessions: int
    is_offline: bool


class VolumeNow(typing.NamedTuple):
    """A volume that the daemon knows: `append`, `full` or `error`, and where its blocks end."""

    name: str
    pool: str
    status: str
    end: int


class Now(typing.NamedTuple):
    """How things are: the drives and volumes by number and name, and the pool that each drive asks for."""

    drives: dict[int, DriveNow]
    volumes: dict[str, VolumeNow]
    requests: dict[int, str]

    def loaded(self) -> set[str]:
        return {drive.loaded for drive in self.drives.values() if drive.loaded}


class Daemon:
    """The daemon at an address. Each question has a connection of its own, so that none is held."""

    def __init__(self, port: int | None):
        self.address = Address(port=port, timeout=TIMEOUT)

    @contextlib.contextmanager
    def _talk(self) -> typing.Iterator[Connection]:
        with connect(self.address) as talk:
            yield talk
            terminate(talk)

    def now(self) -> Now:
        """Raises Lost if there is no daemon, or it says what this doesn't know."""
        with self._talk() as talk:
            return now_of(console(talk, "status"), console(talk, "requests"))

    def tell(self, line: str) -> None:
        """Gives a line of the operator. A refusal is raised."""
        with self._talk() as talk:
            console(talk, line)


def now_of(status: list[str], requests: list[str]) -> Now:
    drives, volumes = {}, {}
    for line in status:
        if found := DRIVE.fullmatch(line):
            loaded = None if found[3] in ("-", "offline") else found[3]
            drives[int(found[1])] = DriveNow(int(found[1]), loaded, int(found[4]), found[3] == "offline")
        elif found := VOLUME.fullmatch(line):
            volumes[found[1]] = VolumeNow(found[1], found[2], found[4], int(found[5]))
        elif not SESSION.fullmatch(line) and line != "ok status":
            raise Lost(f"the daemon's status has {line!r}")
    asked = {int(found[1]): found[2] for line in requests if (found := REQUEST.fullmatch(line))}
    return Now(drives, volumes, asked)
