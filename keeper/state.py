"""What outlasts a stop: one SQLite file. All of it but the numbers of names and the removals that are under way can be found
anew on the volumes."""
from __future__ import annotations

import contextlib
import fcntl
import json
import os
import pathlib
import sqlite3
import time
import typing

from sdd_client.errors import Failed

from keeper.folders import Identity

VERSION = 1
# How long a round of another keeper may take, in seconds.
PATIENCE = 60
SCHEMA = """
CREATE TABLE IF NOT EXISTS names(pool TEXT PRIMARY KEY, last INTEGER NOT NULL) WITHOUT ROWID;
CREATE TABLE IF NOT EXISTS removals(name TEXT PRIMARY KEY, folder TEXT NOT NULL) WITHOUT ROWID;
CREATE TABLE IF NOT EXISTS given_back(name TEXT PRIMARY KEY, pool TEXT NOT NULL, bytes INTEGER NOT NULL, at REAL NOT NULL)
    WITHOUT ROWID;
CREATE TABLE IF NOT EXISTS volumes(
    name TEXT PRIMARY KEY, folder TEXT NOT NULL, inode INTEGER NOT NULL, size INTEGER NOT NULL, changed INTEGER NOT NULL,
    scanned REAL NOT NULL, since REAL NOT NULL, damage TEXT NOT NULL) WITHOUT ROWID;
CREATE TABLE IF NOT EXISTS sessions(
    volume TEXT NOT NULL, time INTEGER NOT NULL, id INTEGER NOT NULL, ended INTEGER NOT NULL, lines TEXT NOT NULL,
    PRIMARY KEY(volume, time, id)) WITHOUT ROWID;
CREATE TABLE IF NOT EXISTS heads(
    time INTEGER NOT NULL, id INTEGER NOT NULL, head TEXT NOT NULL, seen REAL NOT NULL, PRIMARY KEY(time, id)) WITHOUT ROWID;
"""
Key = tuple[int, int]


class Session(typing.NamedTuple):
    """A session as a scan found it: its lines, and whether it came to its end."""

    key: Key
    ended: bool
    lines: list[str]

    def volumes(self) -> list[str]:
        return list(dict.fromkeys(line.split(" ")[1] for line in self.lines[1:]))


class Volume(typing.NamedTuple):
    """A volume as it was when it was scanned, and since when it has been as it is."""

    name: str
    folder: pathlib.Path
    identity: Identity
    scanned: float
    since: float
    damage: list[str]


def lock(file: typing.BinaryIO) -> None:
    """Locks a file. A round of another keeper is waited for; longer than that is BlockingIOError."""
    end = time.monotonic() + PATIENCE
    while True:
        try:
            return fcntl.flock(file, fcntl.LOCK_EX | fcntl.LOCK_NB)
        except BlockingIOError:
            if time.monotonic() > end:
                raise
        time.sleep(0.05)


class State:
    """The file in a folder, for one keeper at a time."""

    def __init__(self, folder: pathlib.Path):
        try:
            folder.mkdir(parents=True, exist_ok=True, mode=0o700)
            self.lock = open(folder / "lock", "ab")
            lock(self.lock)
            self.base = sqlite3.connect(folder / "keeper.sqlite", isolation_level=None)
            self.base.execute("PRAGMA synchronous = FULL")
            self.base.executescript(SCHEMA)
            if self.base.execute("PRAGMA user_version").fetchone()[0] not in (0, VERSION):
                raise Failed(f"what is kept in {folder} is of another version")
            self.base.execute(f"PRAGMA user_version = {VERSION}")
        except BlockingIOError as why:
            raise Failed(f"another keeper has {folder}") from why
        except (OSError, sqlite3.Error) as why:
            raise Failed(f"{folder}: {why}") from why

    def close(self) -> None:
        self.base.close()
        self.lock.close()

    @contextlib.contextmanager
    def change(self) -> typing.Iterator[sqlite3.Connection]:
        """A change, whole or not at all, and synced."""
        try:
            self.base.execute("BEGIN IMMEDIATE")
            try:
                yield self.base
                self.base.execute("COMMIT")
            except BaseException:
                if self.base.in_transaction:
                    self.base.execute("ROLLBACK")
                raise
        except sqlite3.Error as why:
            raise Failed(f"what the keeper keeps: {why}") from why

    # Names.

    def last_number(self, pool: str) -> int:
        found = self.base.execute("SELECT last FROM names WHERE pool = ?", (pool,)).fetchone()
        return int(found[0]) if found else 0

    def take_number(self, pool: str, number: int) -> None:
        """Notes that this number is given to a name of the pool, so that it is given to no other."""
        with self.change() as base:
            base.execute("INSERT OR REPLACE INTO names VALUES (?, max(?, ?))", (pool, number, self.last_number(pool)))

    # Volumes and what is on them.

    def volumes(self, folder: pathlib.Path | None = None) -> dict[str, Volume]:
        found = self.base.execute("SELECT * FROM volumes WHERE ?1 IS NULL OR folder = ?1", (folder and os.fspath(folder),))
        return {name: Volume(name, pathlib.Path(at), Identity(inode, size, changed), scanned, since, json.loads(damage))
                for name, at, inode, size, changed, scanned, since, damage in found}

    def sessions(self) -> dict[Key, Session]:
        """The sessions that were found, each once: as it ended, if a scan saw that."""
        found: dict[Key, Session] = {}
        for time, number, ended, lines in self.base.execute("SELECT time, id, ended, lines FROM sessions ORDER BY ended"):
            found[time, number] = Session((time, number), bool(ended), lines.splitlines())
        return found

    def keys_on(self) -> dict[str, set[Key]]:
        """For each volume the sessions that have a block on it."""
        found: dict[str, set[Key]] = {}
        for volume, time, number in self.base.execute("SELECT volume, time, id FROM sessions"):
            found.setdefault(volume, set()).add((time, number))
        return found

    def put_scan(self, volumes: list[Volume], sessions: list[Session]) -> None:
        """Keeps what a scan of these volumes found, in place of what was known of them."""
        names = {volume.name for volume in volumes}
        with self.change() as base:
            for name in names:
                base.execute("DELETE FROM sessions WHERE volume = ?", (name,))
            base.executemany("INSERT OR REPLACE INTO volumes VALUES (?, ?, ?, ?, ?, ?, ?, ?)", (
                (one.name, os.fspath(one.folder), *one.identity, one.scanned, one.since, json.dumps(one.damage))
                for one in volumes))
            # Of a session that is there twice, as before and behind damage, the one that ended counts.
            base.executemany("INSERT OR REPLACE INTO sessions VALUES (?, ?, ?, ?, ?)", (
                (volume, *one.key, one.ended, "\n".join(one.lines))
                for one in sorted(sessions, key=lambda one: one.ended) for volume in one.volumes() if volume in names))

    def put_verified(self, name: str, now: float, damage: list[str]) -> None:
        """Keeps that a volume was read anew, with the damage that was found."""
        with self.change() as base:
            base.execute("UPDATE volumes SET scanned = ?, damage = ? WHERE name = ?", (now, json.dumps(damage), name))

    def forget(self, names: typing.Iterable[str]) -> None:
        """Forgets volumes that aren't there any more."""
        with self.change() as base:
            for name in names:
                base.execute("DELETE FROM volumes WHERE name = ?", (name,))
                base.execute("DELETE FROM sessions WHERE volume = ?", (name,))

    # Heads.

    def heads(self) -> dict[Key, tuple[str, float]]:
        """For each session that was looked into its head, or an empty text, and when that was."""
        return {(time, number): (head, seen) for time, number, head, seen in self.base.execute("SELECT * FROM heads")}

    def put_head(self, key: Key, head: str, seen: float) -> None:
        with self.change() as base:
            base.execute("INSERT OR REPLACE INTO heads VALUES (?, ?, ?, ?)", (*key, head, seen))

    # Removals.

    def removals(self) -> dict[str, pathlib.Path]:
        """The volumes whose removal is under way, with their folders."""
        return {name: pathlib.Path(folder) for name, folder in self.base.execute("SELECT * FROM removals")}

    def begin_removal(self, name: str, folder: pathlib.Path) -> None:
        with self.change() as base:
            base.execute("INSERT OR REPLACE INTO removals VALUES (?, ?)", (name, os.fspath(folder)))

    def end_removal(self, name: str, pool: str, size: int | None, now: float) -> None:
        """Notes that a removal is over; with a size that so many bytes are given back."""
        with self.change() as base:
            base.execute("DELETE FROM removals WHERE name = ?", (name,))
            if size is not None:
                base.execute("INSERT OR REPLACE INTO given_back VALUES (?, ?, ?, ?)", (name, pool, size, now))
                base.execute("DELETE FROM volumes WHERE name = ?", (name,))
                base.execute("DELETE FROM sessions WHERE volume = ?", (name,))

    def given_back(self) -> dict[str, tuple[str, int]]:
        """The volumes that were given back, with their pools and bytes."""
        return {name: (pool, size) for name, pool, size in self.base.execute("SELECT name, pool, bytes FROM given_back")}
