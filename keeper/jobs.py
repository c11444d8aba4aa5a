"""The catalogue: the jobs that the heads on the volumes tell of, and which of them are kept."""
from __future__ import annotations

import datetime
import typing

from sdd_client.dialogue import SPAN
from sdd_client.errors import Failed
from sdd_client.head import Head, head_in
from sdd_client.retention import reasons
from sdd_client.sources import VolumesSource
from sdd_client.verify import head_of

from keeper.configuration import Pool
from keeper.state import Key, Session, State

Look = typing.Callable[[Session, str], "Head | None"]


class Span(typing.NamedTuple):
    """Where blocks of a session are."""

    volume: str
    begin: int
    end: int


class Job(typing.NamedTuple):
    """A job: its head, the key of its last session, when it was first seen, the sessions that aren't whole, and where all of
    its sessions are."""

    head: Head
    key: Key
    seen: float
    lacks: list[Session]
    spans: list[Span]

    def volumes(self) -> set[str]:
        return {one.volume for one in self.spans}

    def lost(self, changing: set[str]) -> list[Session]:
        """The sessions that aren't whole, whatever is found on the volumes that have changed since they were read."""
        return [one for one in self.lacks if changing.isdisjoint(one.volumes())]

    def keys(self) -> set[Key]:
        """Those of all its sessions."""
        return {self.key, *(place.key() for place in self.head.sessions)}

    def began(self) -> float:
        return self.head.began / 1_000_000

    def name(self) -> str:
        began = datetime.datetime.fromtimestamp(int(self.began()), datetime.timezone.utc)
        return f"{self.head.client}/{self.head.job} of {began:%Y-%m-%d %H:%M:%S}"

    def group(self) -> tuple[str, str, str, bool]:
        """Jobs of one group are one after another of the same files. A copy is one of another group."""
        return self.head.pool, self.head.client, self.head.job, self.head.copy_of is not None


def head_on(session: Session, folder: str) -> Head | None:
    found: Head | None = head_of(VolumesSource(folder), session.lines)
    return found


def find_heads(state: State, now: float, look: Look = head_on) -> list[str]:
    """Looks into each session that ended and wasn't looked into, and gives what couldn't be read. The last one comes first:
    so those that its head names needn't be looked into."""
    volumes, known, faults = state.volumes(), state.heads(), []
    named: set[Key] = set()
    for key, session in sorted(state.sessions().items(), reverse=True):
        if not session.ended or key in known or any(name not in volumes for name in session.volumes()):
            continue
        if key in named:
            state.put_head(key, "", now)
            continue
        try:
            head = look(session, str(volumes[session.volumes()[0]].folder))
        except Failed as why:
            faults.append(f"{session.lines[0]}: {why}")
            continue
        state.put_head(key, head.encoded().decode() if head else "", now)
        named.update(place.key() for place in head.sessions) if head else None
    return faults


def jobs_of(state: State) -> list[Job]:
    """The jobs whose last session is on the volumes."""
    sessions, found = state.sessions(), []
    for key, (text, seen) in state.heads().items():
        last = sessions.get(key)
        head = head_in(text.encode()) if text and last else None
        if not head or not last:
            continue
        places = [last, *(Session(place.key(), True, place.lines) for place in head.sessions)]
        lacks = [one for one in places if sessions.get(one.key) != one]
        found.append(Job(head, key, seen, lacks, [span for one in places for span in spans_of(one)]))
    return found


def spans_of(session: Session) -> list[Span]:
    matches = filter(None, map(SPAN.fullmatch, session.lines))
    return [Span(one[1], int(one[5]), int(one[6])) for one in matches]


def kept_of(jobs: list[Job], pools: dict[str, Pool], now: float) -> dict[Key, str]:
    """The jobs that are kept, each with the reason. What a job stands on is kept with it."""
    groups: dict[tuple[str, str, str, bool], list[Job]] = {}
    for job in jobs:
        groups.setdefault(job.group(), []).append(job)
    kept: dict[Key, str] = {}
    for (pool, *_), group in groups.items():
        for key, why in kept_of_group(group, pools.get(pool), now).items():
            kept[key] = why
    for job in jobs:
        if job.key in kept:
            for one in job.head.chain:
                kept.setdefault((one[0], one[1]), f"{job.name()} stands on it")
    return kept


def kept_of_group(group: list[Job], pool: Pool | None, now: float) -> dict[Key, str]:
    if pool is None:
        return {job.key: "its pool isn't the keeper's" for job in group}
    whole = [job for job in group if not job.lacks]
    kept: dict[Key, str] = {}
    # A job that isn't whole takes the place of no other.
    for some in (whole, group):
        # A clock that is ahead puts no other job behind.
        moments = [min(job.head.began, int(job.seen * 1_000_000)) for job in some]
        for job, words in zip(some, reasons(moments, pool.rules)):
            if words:
                kept.setdefault(job.key, ", ".join(words))
    for job in sorted(whole, key=Job.began)[-pool.min_good:]:
        kept.setdefault(job.key, "one of the last good ones")
    for job in group:
        # What a client says of its clock makes no job old.
        if now - max(job.began(), job.seen) < pool.min_age:
            kept.setdefault(job.key, "younger than min_age")
    return kept
