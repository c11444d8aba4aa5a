"""What outlasts a talk: which session is whose, and how many bytes and sessions each name had in a day. One SQLite file,
shared by the relays of all names; each change is synced before anything is answered for it."""
import collections.abc
import contextlib
import datetime
import fcntl
import os
import pathlib
import sqlite3
import time

from relay.errors import NotAdmitted, StoreFault

# How long one relay waits for another's change, in seconds.
BUSY = 30
# So many bytes are set aside at once at most, so that not each record costs a sync.
PIECE = 64_000_000
# Of days so long ago no count is kept.
KEPT_DAYS = 400
TABLES = """
CREATE TABLE IF NOT EXISTS session (
    name TEXT NOT NULL, time INTEGER NOT NULL, id INTEGER NOT NULL, ticket INTEGER, job INTEGER, pool TEXT, media TEXT,
    opened INTEGER NOT NULL, PRIMARY KEY (name, time, id)) WITHOUT ROWID;
CREATE INDEX IF NOT EXISTS by_key ON session (time, id);
CREATE TABLE IF NOT EXISTS day (
    name TEXT NOT NULL, day TEXT NOT NULL, bytes INTEGER NOT NULL, sessions INTEGER NOT NULL,
    PRIMARY KEY (name, day)) WITHOUT ROWID;
"""


def today() -> str:
    return datetime.datetime.now(datetime.timezone.utc).date().isoformat()


@contextlib.contextmanager
def told() -> collections.abc.Iterator[None]:
    """What the system says of the folder, as StoreFault."""
    try:
        yield
    except (OSError, sqlite3.Error) as why:
        raise StoreFault(f"what the relay keeps: {why}") from why


def folder_of(path: pathlib.Path) -> pathlib.Path:
    path.mkdir(mode=0o700, parents=True, exist_ok=True)
    return path


class Store:
    """The file in a folder."""

    def __init__(self, folder: pathlib.Path):
        with told():
            # The first one of two relays makes the tables, and the second finds them.
            with open(folder_of(folder) / "lock", "ab") as lock:
                fcntl.flock(lock, fcntl.LOCK_EX)
                self.sql = sqlite3.connect(folder / "relay.sqlite", timeout=BUSY, isolation_level=None)
                self.sql.execute("PRAGMA journal_mode = WAL")
                self.sql.execute("PRAGMA synchronous = FULL")
                self.sql.executescript(TABLES)

    def close(self) -> None:
        self.sql.close()

    @contextlib.contextmanager
    def _change(self) -> collections.abc.Iterator[None]:
        """A change that no other relay's comes between, synced at its end; nothing of one that fails stays."""
        with told():
            self.sql.execute("BEGIN IMMEDIATE")
            try:
                yield
                self.sql.execute("COMMIT")
            except BaseException:
                # A COMMIT that failed may have ended the transaction.
                if self.sql.in_transaction:
                    self.sql.execute("ROLLBACK")
                raise

    def add_session(self, name: str, key: tuple[int, int], ticket: int, job: int, pool: str, media: str) -> None:
        """Keeps that this session is the name's. A key that is there already is of another run with the same time, so
        whoever may read the one would read the other: that is StoreFault."""
        with self._change():
            if self.sql.execute("SELECT 1 FROM session WHERE time = ? AND id = ?", key).fetchone():
                raise StoreFault(f"session {key[0]} {key[1]} was there before; no two runs may have the same time")
            self.sql.execute("INSERT INTO session VALUES (?, ?, ?, ?, ?, ?, ?, ?)",
                             (name, *key, ticket, job, pool, media, int(time.time())))

    def grant(self, name: str, key: tuple[int, int]) -> None:
        """Lets the name read a session that it didn't append."""
        with self._change():
            self.sql.execute("INSERT OR IGNORE INTO session (name, time, id, opened) VALUES (?, ?, ?, ?)",
                             (name, *key, int(time.time())))

    def is_own(self, name: str, key: tuple[int, int]) -> bool:
        with told():
            asked = self.sql.execute("SELECT 1 FROM session WHERE name = ? AND time = ? AND id = ?", (name, *key))
            return asked.fetchone() is not None

    def tickets(self, name: str, run: int) -> set[int]:
        """The name's sessions of the run of that time, as the operator numbers them."""
        with told():
            asked = self.sql.execute(
                "SELECT ticket FROM session WHERE name = ? AND time = ? AND ticket IS NOT NULL", (name, run))
            return {ticket for ticket, in asked}

    def counted(self, name: str, day: str) -> tuple[int, int]:
        """How many bytes and sessions the name had that day."""
        with told():
            asked = self.sql.execute("SELECT bytes, sessions FROM day WHERE name = ? AND day = ?", (name, day))
            return asked.fetchone() or (0, 0)

    def _add(self, name: str, day: str, size: int, sessions: int) -> None:
        self.sql.execute("DELETE FROM day WHERE day < date(?, ?)", (day, f"-{KEPT_DAYS} days"))
        self.sql.execute("INSERT INTO day VALUES (?, ?, ?, ?) ON CONFLICT (name, day) DO UPDATE"
                         " SET bytes = bytes + excluded.bytes, sessions = sessions + excluded.sessions",
                         (name, day, size, sessions))

    def set_aside(self, name: str, day: str, least: int, limit: int | None) -> int:
        """Counts bytes for the name ahead of their coming: so many at least, or none and 0 if the day's limit leaves
        fewer. Near the limit it is little more than needed, so that another relay of the name finds the rest."""
        with self._change():
            used, _ = self.counted(name, day)
            room = least + 16 * PIECE if limit is None else limit - used
            if room < least:
                return 0
            size = max(least, min(PIECE, room // 16))
            self._add(name, day, size, 0)
            return size

    def give_back(self, name: str, day: str, size: int) -> None:
        with self._change():
            self._add(name, day, -size, 0)

    def count_session(self, name: str, day: str, limit: int | None) -> bool:
        """Counts one more session, or says that the day's limit has no more."""
        with self._change():
            _, sessions = self.counted(name, day)
            if limit is not None and sessions >= limit:
                return False
            self._add(name, day, 0, 1)
            return True

    def uncount_session(self, name: str, day: str) -> None:
        with self._change():
            self._add(name, day, 0, -1)


@contextlib.contextmanager
def place_taken(folder: pathlib.Path, name: str, talks: int) -> collections.abc.Iterator[None]:
    """One of the places for so many talks of a name at once: a locked file, free again however the relay ends."""
    with told():
        places = folder_of(folder_of(folder) / "talks")
        tried = (locked(places / f"{name}~{number}") for number in range(1, talks + 1))
        place = next((file for file in tried if file is not None), None)
    if place is None:
        raise NotAdmitted(f"{talks} talks of this name are held already")
    try:
        yield
    finally:
        os.close(place)


def locked(path: pathlib.Path) -> int | None:
    """The file, locked, unless another process has locked it."""
    file = os.open(path, os.O_RDWR | os.O_CREAT | os.O_CLOEXEC, 0o600)
    try:
        fcntl.flock(file, fcntl.LOCK_EX | fcntl.LOCK_NB)
        return file
    except BlockingIOError:
        os.close(file)
        return None
