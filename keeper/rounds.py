"""One look at all: what was left under way is ended, volumes are given back, and labelled where they are needed."""
from __future__ import annotations

import time
import typing

from sdd_client.errors import Failed

from keeper.configuration import Configuration, Pool
from keeper.daemon import Daemon
from keeper.damage import damaged, told
from keeper.differences import differences
from keeper.figures import Seen, figures_of, write
from keeper.folders import LOCK, free_in, gone_in, is_as
from keeper.jobs import find_heads, jobs_of, kept_of
from keeper.journal import tell
from keeper.labels import Free, label, wanted, why_no_room
from keeper.removal import Step, forget_notes, give_back, recover, restore_unknown
from keeper.scans import look
from keeper.state import State
from keeper.verdicts import Verdict, verdicts


def no_step(_: str) -> None:
    """What a step calls, but in tests."""


class Keeper:
    """The rounds of a configuration. The clock, what is free, and what is called before each step can be handed in."""

    def __init__(self, configuration: Configuration, state: State, clock: typing.Callable[[], float] = time.time,
                 free: Free = free_in, step: Step = no_step, already: set[str] | None = None):
        self.configuration, self.state, self.clock, self.free, self.step = configuration, state, clock, free, step
        self.daemon = Daemon(configuration.port)
        self.already: set[str] = set() if already is None else already
        self.pools: dict[str, Pool] = {pool.name: pool for pool in configuration.pools}

    def round(self) -> Seen:
        """Does what is to be done. Raises Failed where a part can't be."""
        self.check_folders()
        self.end_removals()
        self.answer()
        seen = self.see()
        for verdict in seen.verdicts:
            if verdict.goes:
                self.give_back(verdict)
        seen = seen._replace(no_room=self.answer())
        self.show(seen)
        return seen

    def show(self, seen: Seen) -> None:
        """Tells of damage, of what doesn't fit and where there is no room, and writes the figures."""
        self.tell_room(seen.no_room)
        for name, lines in sorted(damaged(self.state, seen.verdicts, seen.there).items()):
            self.tell_new(told(name, lines, seen.jobs, seen.kept))
        found = list(differences(self.state, seen, self.configuration.folders()))
        for one in found:
            self.tell_new(one)
        if path := self.configuration.figures:
            figures = figures_of(self.configuration, self.state, seen, len(found), self.clock(), self.free)
            write(path, figures.text())

    def tell_room(self, no_room: dict[tuple[str, int], str]) -> None:
        """Tells where there is no room: once until there is some again, since what is free is other each time."""
        marks = {f"no room {pool} {drive}": (pool, drive) for pool, drive in no_room}
        for mark in marks.keys() - self.already:
            pool, drive = marks[mark]
            tell(f"pool {pool}, drive {drive}: no volume is labelled: {no_room[pool, drive]}")
        self.already.difference_update([one for one in self.already if one.startswith("no room ")])
        self.already.update(marks)

    def tell_new(self, text: str) -> None:
        """Tells what wasn't told before by this keeper."""
        if text not in self.already:
            self.already.add(text)
            tell(text)

    def check_folders(self) -> None:
        """A folder whose disk isn't mounted looks empty. The daemon's lock is in each that it serves."""
        for folder in self.configuration.folders():
            if not (folder / LOCK).exists():
                raise Failed(f"{folder} has no {LOCK}: no daemon has served it, or its disk isn't mounted")

    def end_removals(self) -> None:
        if self.state.removals():
            pools = {name: one.pool for name, one in self.daemon.now().volumes.items()}
            recover(self.state, self.daemon, pools, self.clock(), self.step)
        for folder in self.configuration.folders():
            restore_unknown(self.state, folder, gone_in(folder))
            forget_notes(self.state, folder)

    def see(self) -> Seen:
        """What is there, and what is to be done with it."""
        there = self.daemon.now()
        growing = {name for name, one in there.volumes.items() if one.status == "append"}
        for folder in self.configuration.folders():
            look(self.state, folder, self.clock(), growing, self.configuration.scan)
        for fault in find_heads(self.state, self.clock()):
            tell(fault)
        jobs = jobs_of(self.state)
        kept = kept_of(jobs, self.pools, self.clock())
        changing = {name for name, one in self.state.volumes().items() if not is_as(one.folder / name, one.identity)}
        return Seen(there, jobs, kept, changing, verdicts(self.state, self.pools, there, jobs, kept, self.clock()), {})

    def give_back(self, verdict: Verdict) -> None:
        volume = self.state.volumes()[verdict.name]
        why = give_back(self.state, self.daemon, volume, verdict.pool.name, self.clock(), self.step)
        tell(f"{verdict.name} stays: {why}" if why else f"{verdict.name} is given back")

    def answer(self) -> dict[tuple[str, int], str]:
        """Labels volumes where they are needed. Gives where there is no room for one, and why."""
        no_room: dict[tuple[str, int], str] = {}
        for one in wanted(self.configuration, self.daemon.now()):
            place = one.pool.name, one.drive.number
            # Each label changes what is there, and so may a job.
            there = self.daemon.now()
            if place in no_room or one not in wanted(self.configuration, there):
                continue
            if why := why_no_room(self.configuration, one.pool, one.drive, there, self.free):
                no_room[place] = why
            else:
                label(self.configuration, self.state, self.daemon, one, there, self.step)
        return no_room
