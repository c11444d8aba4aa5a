"""Which job, and which of its files, a command speaks of."""
from __future__ import annotations

import datetime
import os
import typing

from .backup import this_client
from .catalogue import KEPT, PARTLY, Catalogue, Job
from .errors import Failed, Misused
from .filelist import Extent, Row
from .head import Head
from .stages import inverse_of
from .state import State


def moment_of(text: str) -> int:
    """A moment in microseconds since 1970: a date, or a date and a time, of this machine's zone where it names none. A date
    alone is the end of its day."""
    try:
        moment = datetime.datetime.fromisoformat(text)
    except ValueError as why:
        raise Misused(f"'{text}' is no date as 2026-11-28 or 2026-11-28T17:30") from why
    if len(text) <= 10:
        moment += datetime.timedelta(days=1, microseconds=-1)
    return int(moment.timestamp() * 1_000_000)


def dated(moment: int | None) -> str:
    """A moment in words, in this machine's zone."""
    if moment is None:
        return "-"
    return datetime.datetime.fromtimestamp(moment // 1_000_000).isoformat()


def job_at(catalogue: Catalogue, name: str, client: str | None, at: int | None, is_copy: bool = False) -> Job:
    """The last job of that name that was kept, up to a moment. A copy counts where it is asked for or there is no other."""
    jobs = [job for job in catalogue.jobs(name) if job.status in (KEPT, PARTLY)]
    if not jobs:
        raise Failed(f"the catalogue has no job {name} that is kept")
    own = [job for job in jobs if job.client == (client or this_client())]
    if not own and client is None and len({job.client for job in jobs}) == 1:
        own = jobs
    if not own:
        raise Failed(f"job {name} is of the clients {', '.join(sorted({job.client for job in jobs}))}: --client says which")
    fitting = [job for job in own if at is None or job.began <= at]
    if is_copy:
        fitting = [job for job in fitting if job.copy_of]
    if not fitting:
        raise Failed(f"no {'copy of ' if is_copy else ''}job {name} is kept from then or before")
    return max(fitting, key=lambda job: (job.began, job.copy_of is None, job.id))


class Undo(typing.NamedTuple):
    """How stages are undone."""

    stages: list[str]
    identity: str | None

    def inverse(self, job: Job | Head) -> list[str]:
        """The stages of the way back of a job, the last one first."""
        return inverse_of(job.stages, self.stages if job.stages else [], self.identity)


class Choice:
    """The files of a job that are wanted: all, or those at some paths and below them. With a hard link comes the member
    that has its bytes, and with a file the folders that it is in."""

    def __init__(self, state: State, paths: list[str]):
        self.state, self.job = state, state.job
        self.paths = [os.fsencode(os.path.abspath(path)) for path in paths]
        self.is_all = not paths or b"/" in self.paths
        self.below = tuple(path + b"/" for path in self.paths)
        self.exact = set(self.paths)
        self.also: set[bytes] = set()
        self.above: set[bytes] = set()
        if not self.is_all:
            self._complete()

    def _complete(self) -> None:
        """Finds the first members of links, and that each path is there."""
        found, targets = set(), set()
        for row in self.state.rows():
            if not row.is_member() or not self.names(row.path):
                continue
            found.update(path for path in self.exact if row.path == path or row.path.startswith(path + b"/"))
            if row.kind == "h" and not self.names(target := target_of(row)):
                targets.add(target)
        if missing := self.exact - found:
            raise Failed(f"{', '.join(sorted(map(os.fsdecode, missing)))}: not in the backup of job {self.job.name}")
        self.also = targets
        self.above = {above for path in self.exact | targets for above in folders_of(path)}

    def names(self, path: bytes) -> bool:
        """Whether that path was asked for."""
        return self.is_all or path in self.exact or path.startswith(self.below)

    def rows(self) -> typing.Iterator[Row]:
        """The rows of the members, in their order."""
        for row in self.state.rows():
            if row.is_member() and (self.names(row.path) or row.path in self.also or row.kind == "d" and row.path in self.above):
                yield row

    def extents(self) -> typing.Iterator[Extent]:
        """Where the members lie, in their order."""
        if self.is_all and not self.job.chain:
            return self.state.catalogue.extents(self.job.id)
        return ((row.session, row.offset, row.length) for row in self.rows())


def target_of(row: Row) -> bytes:
    """The path to which a hard link leads."""
    return b"/" + row.text.removeprefix(b"./").strip(b"/")


def folders_of(path: bytes) -> list[bytes]:
    """The folders that a path is in, the root first."""
    parts = path.strip(b"/").split(b"/")
    return [b"/" + b"/".join(parts[:count]) for count in range(len(parts))]


# A run has so many bytes, or is one member.
MOST = 1 << 20


class Run(typing.NamedTuple):
    """Bytes of a session's stream, and how many members they are."""

    session: int
    start: int
    length: int
    members: int


def runs_of(extents: typing.Iterable[Extent]) -> typing.Iterator[Run]:
    """Members that follow one another in a session, taken together; not too many at once, so that tar has work while further
    ones are looked for."""
    session = start = end = members = 0
    for number, offset, length in extents:
        if number != session or offset != end or end - start >= MOST:
            if members:
                yield Run(session, start, end - start, members)
            session, start, end, members = number, offset, offset, 0
        end += length
        members += 1
    if members:
        yield Run(session, start, end - start, members)
