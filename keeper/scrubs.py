"""Volumes read anew at an interval, to find damage. A full volume changes no more: what is other on it is damage."""
from __future__ import annotations

import contextlib
import fcntl
import pathlib
import time
import typing

from sdd_client.errors import Failed

from keeper.configuration import Configuration, Pool
from keeper.damage import told
from keeper.journal import tell
from keeper.rounds import Keeper
from keeper.state import State, Volume
from keeper.throttle import Throttle
from keeper.verdicts import TAKES_BLOCKS, Verdict
from keeper.verification import Known, clear, verify

LOCK = "scrub.lock"


class Due(typing.NamedTuple):
    """A volume that is to be read, how it was, and what is known of it."""

    volume: Volume
    pool: Pool
    known: Known


def scrub(configuration: Configuration, clock: typing.Callable[[], float] = time.time) -> int:
    """Reads anew what is due, each volume once, one after the other. Rounds go on beside it. The status is 1 if there is
    damage, or a volume couldn't be read."""
    is_bad, passed = False, set[str]()
    with one_at_a_time(configuration.state):
        for folder in configuration.folders():
            clear(folder)
        while one := next_due(configuration, clock, passed):
            passed.add(one.volume.name)
            try:
                found = verify(one.volume, one.known, one.pool.rate, Throttle(one.pool.rate))
                is_bad |= found is not None and put(configuration, clock, one.volume, found)
            except Failed as why:
                tell(why)
                is_bad = True
    return int(is_bad)


@contextlib.contextmanager
def one_at_a_time(folder: pathlib.Path) -> typing.Iterator[None]:
    """Two scrubs at once would read at twice the rate."""
    folder.mkdir(parents=True, exist_ok=True, mode=0o700)
    with open(folder / LOCK, "ab") as file:
        try:
            fcntl.flock(file, fcntl.LOCK_EX | fcntl.LOCK_NB)
        except BlockingIOError as why:
            raise Failed("another scrub goes on") from why
        yield


def next_due(configuration: Configuration, clock: typing.Callable[[], float], passed: set[str]) -> Due | None:
    with contextlib.closing(State(configuration.state)) as state:
        found = Keeper(configuration, state, clock).see().verdicts
        one = due(state, [each for each in found if each.name not in passed], clock())
        if not one:
            return None
        known = Known(state.keys_on().get(one.name, set()), state.sessions())
        return Due(state.volumes()[one.name], one.pool, known)


def due(state: State, found: list[Verdict], now: float) -> Verdict | None:
    """The volume that is due for the longest time: it takes no blocks, and wasn't read for its pool's interval."""
    volumes = state.volumes()
    late = [(volumes[one.name].scanned, one) for one in found
            if one.pool.verify and one.name in volumes and one.why != TAKES_BLOCKS
            and now - volumes[one.name].scanned >= one.pool.verify]
    return min(late)[1] if late else None


def put(configuration: Configuration, clock: typing.Callable[[], float], volume: Volume, found: list[str]) -> bool:
    """Tells what was found, and keeps it. What isn't as it was is found by the next round."""
    with contextlib.closing(State(configuration.state)) as state:
        seen = Keeper(configuration, state, clock).see()
        if state.volumes().get(volume.name) != volume:
            return False
        if found and found[0].startswith("sessions "):
            _, name, there, known = found[0].split(" ")
            tell(f"{name}: {there} sessions are on it, and {known} were known: it is read again to know them")
            state.forget([name])
        else:
            state.put_verified(volume.name, clock(), found)
            if found:
                tell(told(volume.name, found, seen.jobs, seen.kept))
    return bool(found)
