"""What damage of a volume means: where it is, and which jobs it hits. Damage is kept as lines: those of `sdtool scan`, and what
`verification` adds to them."""
from __future__ import annotations

import math
import typing

from keeper.daemon import Now
from keeper.jobs import Job
from keeper.state import Key, State
from keeper.verdicts import TAKES_BLOCKS, Verdict


class Gap(typing.NamedTuple):
    """Bytes of a volume from one place up to another, in which no whole block is that is due. With one place a block is
    missing there."""

    begin: float
    end: float

    def hits(self, begin: int, end: int) -> bool:
        if self.begin == self.end:
            return begin <= self.begin <= end
        return begin < self.end and self.begin < end


def gaps_in(lines: list[str]) -> list[Gap]:
    """The gaps of a volume, the last one up to its end if nothing is behind it."""
    found: list[Gap] = []
    for line in lines:
        kind, _, place, *how = line.split(" ")
        if kind == "damage":
            # Where a block is damaged the note doesn't fit either, and what is behind is found all the same.
            if how != ["note"] or all(gap.begin != int(place) for gap in found):
                found.append(Gap(int(place), math.inf))
        elif kind == "behind":
            found[-1] = Gap(found[-1].begin, int(place))
        elif kind == "unreadable":
            found.append(Gap(0, math.inf))
    return found


def is_hit(job: Job, name: str, lines: list[str]) -> bool:
    """Whether a volume's damage is in a session of a job."""
    gaps = gaps_in(lines)
    keys = {tuple(map(int, line.split(" ")[1:3])) for line in lines if line.startswith(("cut ", "broken "))}
    return not keys.isdisjoint(job.keys()) or any(
        gap.hits(one.begin, one.end) for one in job.spans if one.volume == name for gap in gaps)


def damaged(state: State, found: list[Verdict], there: Now) -> dict[str, list[str]]:
    """The volumes that have damage, with the lines that say so. At the end of one that takes blocks a block may just be
    written, and what is left of a write that failed is behind all that the daemon answered for."""
    volumes = state.volumes()
    return {one.name: volumes[one.name].damage for one in found
            if one.why != TAKES_BLOCKS and one.name in volumes and volumes[one.name].damage
            and not is_torn_end(volumes[one.name].damage, there.volumes[one.name].end)}


def is_torn_end(lines: list[str], end: int) -> bool:
    return len(lines) == 1 and gaps_in(lines) == [Gap(end, math.inf)]


def told(name: str, lines: list[str], jobs: list[Job], kept: dict[Key, str]) -> str:
    """A volume's damage in one line, with the jobs that it hits, and the others that lie there."""
    on_it = [job for job in jobs if name in job.volumes()]
    hit = [job for job in on_it if is_hit(job, name, lines)]
    others = len(on_it) - len(hit)
    names = "; ".join(f"{job.name()}{'' if job.key in kept else ', which is not kept'}" for job in hit)
    return f"{name} is damaged ({', '.join(lines)}): {names or 'no job'} is hit; {others} other jobs are on it"
