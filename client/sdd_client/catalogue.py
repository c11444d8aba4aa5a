"""The catalogue: an SQLite database of the jobs that were kept, their sessions with the JobMedia lines, and their files."""
from __future__ import annotations

import contextlib
import json
import os
import pathlib
import sqlite3
import typing

from .errors import Failed
from .filelist import ASKED, Extent, Piece, Row, Writer, extents_of, rows_of
from .head import Head, Place

VERSION = 2
# For so many seconds another client may hold it.
PATIENCE = 300
SCHEMA = """
CREATE TABLE IF NOT EXISTS jobs(
    id INTEGER PRIMARY KEY AUTOINCREMENT, number INTEGER, client TEXT NOT NULL, name TEXT NOT NULL, level TEXT,
    began INTEGER, ended INTEGER, status TEXT NOT NULL, pool TEXT, media TEXT, files INTEGER, bytes INTEGER,
    faults INTEGER, stages TEXT, paths TEXT, chain TEXT, retention TEXT, copy_of TEXT, has_list INTEGER,
    time INTEGER, session INTEGER);
CREATE INDEX IF NOT EXISTS last_session ON jobs(time, session);
CREATE INDEX IF NOT EXISTS by_name ON jobs(name, client, began);
CREATE TABLE IF NOT EXISTS sessions(
    job INTEGER NOT NULL, number INTEGER NOT NULL, time INTEGER NOT NULL, session INTEGER NOT NULL,
    raw INTEGER NOT NULL, stored INTEGER NOT NULL, lines TEXT NOT NULL, PRIMARY KEY(job, number)) WITHOUT ROWID;
CREATE TABLE IF NOT EXISTS lists(
    id INTEGER PRIMARY KEY, job INTEGER NOT NULL, first INTEGER NOT NULL, last INTEGER NOT NULL, data BLOB NOT NULL);
CREATE INDEX IF NOT EXISTS by_job ON lists(job);
CREATE TABLE IF NOT EXISTS snapshots(job INTEGER PRIMARY KEY, data BLOB NOT NULL);
"""
# How a job stands: it goes on or was broken off, is kept whole or but for faults, nobody knows, or it needn't be kept any more.
RUNNING, FAILED, KEPT, PARTLY, UNKNOWN, FORGOTTEN = "running", "failed", "kept", "partly", "unknown", "forgotten"
# The number of a job's last session among its sessions.
LAST = 0


def usual_place() -> pathlib.Path:
    """Where the catalogue is if nothing else is said."""
    if said := os.environ.get("SDD_CATALOGUE"):
        return pathlib.Path(said)
    if os.geteuid() == 0:
        return pathlib.Path("/var/lib/sdd-client/catalogue")
    state = os.environ.get("XDG_STATE_HOME") or os.path.expanduser("~/.local/state")
    return pathlib.Path(state) / "sdd-client" / "catalogue"


class Job(typing.NamedTuple):
    """A row of the jobs."""

    id: int
    number: int
    client: str
    name: str
    level: str
    began: int
    ended: int
    status: str
    pool: str
    media: str
    files: int
    bytes: int
    faults: int
    stages: list[str]
    paths: list[str]
    chain: list[list[int]]
    retention: typing.Any
    copy_of: list[int] | None
    has_list: bool
    time: int | None
    session: int | None

    def key(self) -> list[int] | None:
        return None if self.time is None else [self.time, self.session]


COLUMNS = ", ".join(Job._fields)


def job_of(row: tuple[typing.Any, ...]) -> Job:
    job = Job(*row)
    texts = {name: json.loads(getattr(job, name) or "null") for name in ("retention", "copy_of")}
    lists = {name: json.loads(getattr(job, name) or "[]") for name in ("stages", "paths", "chain")}
    return job._replace(has_list=bool(job.has_list), **texts, **lists)


# Two daemons may number their sessions alike, and a copy has its job's beginning.
SAME_START = "(client, name, began) = (?3, ?4, ?5) AND time IS NULL AND ?6 = 'null'"
SAME_JOB = "(time, session, client, name, began) = (?1, ?2, ?3, ?4, ?5) AND copy_of = ?6"


def same_job(head: Head, last: Place) -> tuple[typing.Any, ...]:
    """What tells a job from all others."""
    return (*last.key(), head.client, head.job, head.began, json.dumps(head.copy_of))


class Listed(typing.NamedTuple):
    """A job's list of files: the paths that were asked for, and its pieces. Both are known once all pieces were taken."""

    paths: list[str]
    pieces: typing.Iterable[Piece]


def listed(rows: typing.Iterable[Row]) -> Listed:
    """The list of these rows."""
    paths: list[str] = []

    def pieces() -> typing.Iterator[Piece]:
        ready: list[Piece] = []
        writer = Writer(ready.append)
        for row in rows:
            writer.put(row)
            if row.kind == ASKED:
                paths.append(os.fsdecode(row.path))
            while ready:
                yield ready.pop()
        writer.finish()
        yield from ready

    return Listed(paths, pieces())


class Catalogue:
    """The catalogue in a file, made where there is none."""

    def __init__(self, path: pathlib.Path):
        self.path = path
        try:
            path.parent.mkdir(parents=True, exist_ok=True, mode=0o700)
            if not path.exists():
                os.close(os.open(path, os.O_CREAT | os.O_RDWR, 0o600))
            self.base = sqlite3.connect(path, timeout=PATIENCE, isolation_level=None)
            self.base.executescript(SCHEMA)
            version = self.base.execute("PRAGMA user_version").fetchone()[0]
            if version not in (0, VERSION):
                raise Failed(f"the catalogue {path} is of version {version}, and this client knows {VERSION}: 'rebuild' makes "
                             "another")
            if not version:
                # Each time that it is set costs some syncs, also where it was set before.
                self.base.execute(f"PRAGMA user_version = {VERSION}")
        except (OSError, sqlite3.Error) as why:
            raise Failed(f"the catalogue {path} can't be used: {why}") from why

    def __enter__(self) -> Catalogue:
        return self

    def __exit__(self, *_: object) -> None:
        self.base.close()

    @contextlib.contextmanager
    def change(self) -> typing.Iterator[sqlite3.Connection]:
        """A change of it, whole or not at all."""
        try:
            self.base.execute("BEGIN IMMEDIATE")
            try:
                yield self.base
                self.base.execute("COMMIT")
            except BaseException:
                self.base.execute("ROLLBACK")
                raise
        except sqlite3.Error as why:
            raise Failed(f"the catalogue {self.path}: {why}") from why

    def begin(self, client: str, name: str, began: int, paths: list[str]) -> int:
        """Notes that a job begins, and gives its number."""
        with self.change() as base:
            put = "INSERT INTO jobs(client, name, began, status, paths) VALUES (?, ?, ?, ?, ?)"
            number = base.execute(put, (client, name, began, RUNNING, json.dumps(paths))).lastrowid
            base.execute("UPDATE jobs SET number = id WHERE id = ?", (number,))
        return number

    def end(self, number: int, ended: int, status: str) -> None:
        """Notes how a job ended that has nothing more to be noted."""
        with self.change() as base:
            base.execute("UPDATE jobs SET ended = ?, status = ? WHERE id = ?", (ended, status, number))

    def has(self, head: Head, last: Place) -> bool:
        """Whether that job is in it, with its files."""
        found = self.base.execute(f"SELECT has_list FROM jobs WHERE {SAME_JOB}", same_job(head, last)).fetchone()
        return bool(found and found[0])

    def keep(self, head: Head, last: Place, files: Listed | None, number: int | None = None) -> int:
        """Notes a job that is kept, in place of what was noted of it: by its head, its last session and its list of
        files. Without a list its files aren't known."""
        with self.change() as base:
            for (old,) in base.execute(f"SELECT id FROM jobs WHERE {SAME_JOB} OR {SAME_START}",
                                       same_job(head, last)).fetchall():
                number = number or old
                for table, column in (("jobs", "id"), ("sessions", "job"), ("lists", "job"), ("snapshots", "job")):
                    base.execute(f"DELETE FROM {table} WHERE {column} = ?", (old,))
            number = number or self._free_id(head.number)
            status = PARTLY if head.faults else KEPT
            values = (number, head.number, head.client, head.job, head.level, head.began, head.ended, status, head.pool,
                      head.media, head.files, head.bytes, head.faults, *map(json.dumps, (
                          head.stages, [], head.chain, head.retention, head.copy_of)), files is not None, *last.key())
            number = base.execute(f"INSERT INTO jobs({COLUMNS}) VALUES ({', '.join('?' * len(values))})", values).lastrowid
            base.executemany("INSERT INTO sessions VALUES (?, ?, ?, ?, ?, ?, ?)", (
                (number, at, *place.key(), place.raw, place.stored, "\n".join(place.lines))
                for at, place in enumerate([last, *head.sessions], LAST)))
            if files:
                put = "INSERT INTO lists(job, first, last, data) VALUES (?, ?, ?, ?)"
                base.executemany(put, ((number, one.first, one.last, one.data) for one in files.pieces))
                base.execute("UPDATE jobs SET paths = ? WHERE id = ?", (json.dumps(files.paths), number))
        return number

    def _free_id(self, wanted: int) -> int | None:
        """That number, if no other job has it."""
        return None if self.base.execute("SELECT 1 FROM jobs WHERE id = ?", (wanted,)).fetchone() else wanted

    def jobs(self, name: str | None = None, client: str | None = None) -> list[Job]:
        """The jobs, or those of a name or a client, by their begin."""
        where, values = [], []
        for column, value in (("name", name), ("client", client)):
            if value is not None:
                where.append(f"{column} = ?")
                values.append(value)
        text = f" WHERE {' AND '.join(where)}" if where else ""
        found = self.base.execute(f"SELECT {COLUMNS} FROM jobs{text} ORDER BY began, id", values)
        return [job_of(row) for row in found]

    def places(self, job: int) -> dict[int, Place]:
        """The sessions of a job by their numbers. The last one has number 0."""
        found = self.base.execute("SELECT number, lines, raw, stored FROM sessions WHERE job = ? ORDER BY number", (job,))
        return {number: Place(lines.splitlines(), raw, stored) for number, lines, raw, stored in found}

    def pieces(self, job: int, session: int | None = None) -> typing.Iterator[bytes]:
        """The pieces of a job's list, or those that may have files of one of its sessions."""
        text = "SELECT data FROM lists WHERE job = ?1 AND (?2 IS NULL OR ?2 BETWEEN first AND last) ORDER BY id"
        return (data for (data,) in self.base.execute(text, (job, session)))

    def keep_snapshot(self, job: int, data: bytes) -> None:
        """Keeps the snapshot of a job's tar. Those of earlier runs are of no use any more."""
        same = "SELECT id FROM jobs WHERE (client, name) = (SELECT client, name FROM jobs WHERE id = ?1)"
        with self.change() as base:
            base.execute(f"DELETE FROM snapshots WHERE job IN ({same})", (job,))
            base.execute("INSERT INTO snapshots VALUES (?, ?)", (job, data))

    def snapshot(self, job: int) -> bytes | None:
        found = self.base.execute("SELECT data FROM snapshots WHERE job = ?", (job,)).fetchone()
        return found and found[0]

    def job_of(self, key: list[int], client: str, name: str) -> Job | None:
        """The job of that client and name with that last session."""
        text = f"SELECT {COLUMNS} FROM jobs WHERE (time, session, client, name) = (?, ?, ?, ?)"
        found = self.base.execute(text, (*key, client, name)).fetchone()
        return found and job_of(found)

    def rows(self, job: int, session: int | None = None) -> typing.Iterator[Row]:
        """The files of a job, or of one of its sessions, in the order of its streams; and with all of them the names that
        tar spoke of, after them."""
        for piece in self.pieces(job, session):
            for row in rows_of([piece]):
                if row.kind != ASKED and (session is None or row.session == session):
                    yield row

    def extents(self, job: int) -> typing.Iterator[Extent]:
        """Where the files of a job lie, in the order of its streams."""
        return extents_of(self.pieces(job))
