"""When a volume is labelled, and under which name."""
from __future__ import annotations

import pathlib
import typing

from sdd_client.errors import Refused

from keeper.configuration import Configuration, Drive, Pool
from keeper.daemon import Daemon, Now
from keeper.folders import free_in, is_named_so, volumes_in
from keeper.journal import tell
from keeper.state import State

Free = typing.Callable[..., int]


class Wanted(typing.NamedTuple):
    """A drive that is to have one more volume of a pool; it asks for it now, or is to have one ready."""

    pool: Pool
    drive: Drive
    asks: bool


def wanted(configuration: Configuration, there: Now) -> list[Wanted]:
    """The drives that ask for a volume of a pool first, and then those that have too few ready and no job."""
    # The daemon chooses a job's drive by its media: so it may ask on one that isn't the pool's.
    ask = [Wanted(pool, drive, True) for pool in configuration.pools for drive in configuration.drives
           if there.requests.get(drive.number) == pool.name]
    ahead = []
    for pool in configuration.pools:
        for drive in pool.drives:
            now = there.drives.get(drive.number)
            if now and not now.is_offline and not now.sessions and drive.number not in there.requests:
                ahead += [Wanted(pool, drive, False)] * missing_on(configuration, pool, drive, there)
    return ask + ahead


def ready_on(configuration: Configuration, pool: Pool, drive: Drive, there: Now) -> int:
    """How many volumes of the pool take blocks in the drive's folder."""
    names = set(volumes_in(drive.folder))
    return sum(one.status == "append" and one.pool == pool.name and one.name in names
               and configuration.volume - one.end >= configuration.block for one in there.volumes.values())


def coming(configuration: Configuration, folder: pathlib.Path, there: Now) -> dict[str, int]:
    """The volumes of a folder that the daemon hasn't adopted, as while it starts, and how much each may get once it has."""
    return {name: room for name, one in volumes_in(folder).items()
            if name not in there.volumes and (room := configuration.volume - one.size) > 0 and is_named_so(folder / name)}


def missing_on(configuration: Configuration, pool: Pool, drive: Drive, there: Now) -> int:
    """How many volumes lack there. One that comes needs no other in its place: where it doesn't, the drive asks."""
    come = sum(room >= configuration.block and pool.number_in(name) is not None
               for name, room in coming(configuration, drive.folder, there).items())
    return pool.ready - ready_on(configuration, pool, drive, there) - come


def why_no_room(configuration: Configuration, pool: Pool, drive: Drive, there: Now, free: Free = free_in) -> str | None:
    """Why one more volume may not be made there: they all may grow to their limit, and the reserve must stay."""
    if pool.most is not None and (count := count_of(configuration, pool, there)) >= pool.most:
        return f"{count} volumes are there, and 'most' is {pool.most}"
    growth = growth_of(configuration, drive, there)
    left = free(drive.folder) - growth - configuration.volume
    if left < pool.reserve:
        return (f"{free(drive.folder)} bytes are free in {drive.folder}: those of {growth} more may be taken by volumes that "
                f"are there, {configuration.volume} by one more, and {pool.reserve} are the reserve")
    return None


def count_of(configuration: Configuration, pool: Pool, there: Now) -> int:
    """How many volumes of the pool have a file. What the daemon hasn't adopted is known by its name."""
    names = {name for folder in configuration.folders() for name in volumes_in(folder)}
    return sum(there.volumes[name].pool == pool.name if name in there.volumes else pool.number_in(name) is not None
               for name in names)


def growth_of(configuration: Configuration, drive: Drive, there: Now) -> int:
    """How many bytes the volumes of all folders in this file system may still take."""
    device = drive.folder.stat().st_dev
    growth = 0
    for folder in {one.folder for one in configuration.drives if one.folder.stat().st_dev == device}:
        for name in volumes_in(folder):
            one = there.volumes.get(name)
            if one and one.status == "append":
                growth += max(0, configuration.volume - one.end)
        growth += sum(coming(configuration, folder, there).values())
    return growth


def next_name(configuration: Configuration, state: State, pool: Pool, there: Now) -> str:
    """A name that no volume has, had, or was to have. It is noted before it is used."""
    known = {*there.volumes, *state.given_back(), *(name for folder in configuration.folders() for name in volumes_in(folder))}
    numbers = [number for name in known if (number := pool.number_in(name)) is not None]
    number = max([state.last_number(pool.name), *numbers]) + 1
    state.take_number(pool.name, number)
    return pool.name_of(number)


def label(configuration: Configuration, state: State, daemon: Daemon, one: Wanted, there: Now,
          step: typing.Callable[[str], None]) -> None:
    """Labels a volume. A drive that has one loaded is unmounted before: it asks for another, or has no job."""
    name = next_name(configuration, state, one.pool, there)
    try:
        if there.drives[one.drive.number].loaded:
            step("unmount")
            daemon.tell(f"unmount {one.drive.number}")
        step("label")
        daemon.tell(f"label {one.drive.number} {name} {one.pool.name} {one.drive.media}")
    except Refused as why:
        # As if a job came in between; it has its volume then, or asks for one.
        tell(f"drive {one.drive.number}: {name} isn't labelled: {why}")
