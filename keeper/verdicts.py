"""Which volumes stay and which may go, and why."""
from __future__ import annotations

import pathlib
import typing

from keeper.configuration import Pool
from keeper.daemon import Now
from keeper.folders import identity_of
from keeper.jobs import Job
from keeper.state import Key, State, Volume


TAKES_BLOCKS = "it takes blocks"


class Verdict(typing.NamedTuple):
    """A volume of a pool, whether it goes, and why."""

    name: str
    pool: Pool
    folder: pathlib.Path | None
    goes: bool
    why: str


def verdicts(state: State, pools: dict[str, Pool], now_there: Now, jobs: list[Job], kept: dict[Key, str],
             moment: float) -> list[Verdict]:
    """What is to be done with each volume that the daemon has of these pools."""
    volumes, keys_on, gone = state.volumes(), state.keys_on(), state.given_back()
    needed = needed_by(jobs, kept)
    of_jobs = {key for job in jobs for key in job.keys()}
    found = []
    for one in now_there.volumes.values():
        if not (pool := pools.get(one.pool)) or one.name in gone:
            continue
        volume = volumes.get(one.name)
        why = (why_daemon_needs(one.name, now_there) or why_unread(volume) or needed.get(one.name)
               or why_unknown(volume, pool, keys_on.get(one.name, set()) - of_jobs, moment))
        found.append(Verdict(one.name, pool, volume and volume.folder, not why, why or "no kept job needs it"))
    return found


def why_daemon_needs(name: str, now_there: Now) -> str | None:
    if name in now_there.loaded():
        return "it is loaded"
    if now_there.volumes[name].status == "append":
        return TAKES_BLOCKS
    return None


def why_unread(volume: Volume | None) -> str | None:
    """Why what is on it isn't known."""
    if volume is None:
        return "its file isn't there, or can't be read"
    if any(line.startswith("unreadable ") for line in volume.damage):
        return "it couldn't be read"
    try:
        same = identity_of(volume.folder / volume.name) == volume.identity
    except OSError:
        return "its file has gone"
    return None if same else "it has changed since it was read"


def why_unknown(volume: Volume | None, pool: Pool, unknown: set[Key], moment: float) -> str | None:
    """Why sessions that are of no job hold it."""
    if not unknown:
        return None
    what = f"{len(unknown)} sessions on it are of no job, as session {' '.join(map(str, min(unknown)))}"
    if pool.unknown is None:
        return what
    assert volume
    return f"{what}; it has been so for less than 'unknown'" if moment - volume.since < pool.unknown else None


def needed_by(jobs: list[Job], kept: dict[Key, str]) -> dict[str, str]:
    """For each volume that a kept job needs one that needs it, the last one, and by what that is kept."""
    needed: dict[str, str] = {}
    for job in sorted(jobs, key=Job.began):
        if why := kept.get(job.key):
            needed.update({name: f"{job.name()} needs it ({why})" for name in job.volumes()})
    return needed
