"""The figures: a file in the text form that Prometheus reads."""
from __future__ import annotations

import os
import pathlib
import typing

from keeper.configuration import Configuration
from keeper.daemon import Now
from keeper.damage import damaged, is_hit
from keeper.jobs import Job
from keeper.labels import Free, ready_on
from keeper.state import Key, State
from keeper.verdicts import Verdict

# The present rate is that of so many days.
RATE_DAYS, DAY = 7, 86_400
HELP = {
    "sdd_keeper_round_seconds": "when the last round was done",
    "sdd_keeper_ready_volumes": "volumes that take blocks",
    "sdd_keeper_volumes": "volumes of the pool",
    "sdd_keeper_free_bytes": "bytes that are free in the folder of the drive",
    "sdd_keeper_reserve_bytes": "bytes that are to stay free",
    "sdd_keeper_no_room": "whether a volume is wanted, and there is no room for it",
    "sdd_keeper_days_left": "days until the room is used up at the rate of the last week",
    "sdd_keeper_last_success_seconds": "when the last whole backup of a job began",
    "sdd_keeper_damaged_volumes": "volumes with damage",
    "sdd_keeper_damaged_jobs": "kept jobs that damage hits or that aren't whole",
    "sdd_keeper_differences": "where folders, daemon and catalogue don't say the same",
    "sdd_keeper_given_back_volumes_total": "volumes that were given back",
    "sdd_keeper_given_back_bytes_total": "their bytes",
}


class Seen(typing.NamedTuple):
    """What a round saw: the daemon, the jobs, those that are kept, the volumes that have changed since they were read, the
    volumes' verdicts, and for each pool and drive why no volume could be made for it."""

    there: Now
    jobs: list[Job]
    kept: dict[Key, str]
    changing: set[str]
    verdicts: list[Verdict]
    no_room: dict[tuple[str, int], str]


def label(**words: object) -> str:
    def escaped(text: object) -> str:
        return str(text).replace("\\", "\\\\").replace('"', '\\"').replace("\n", "\\n")

    return "{" + ",".join(f'{key}="{escaped(value)}"' for key, value in words.items()) + "}" if words else ""


class Figures:
    """Lines of figures, each kind below what it is."""

    def __init__(self) -> None:
        self.lines: dict[str, list[str]] = {name: [] for name in HELP}

    def add(self, name: str, value: float, **words: object) -> None:
        self.lines[name].append(f"{name}{label(**words)} {value:.15g}")

    def text(self) -> str:
        return "".join(f"# HELP {name} {HELP[name]}\n# TYPE {name} {'counter' if name.endswith('_total') else 'gauge'}\n"
                       + "".join(f"{line}\n" for line in lines) for name, lines in self.lines.items() if lines)


def figures_of(configuration: Configuration, state: State, seen: Seen, differences: int, now: float, free: Free) -> Figures:
    made = Figures()
    made.add("sdd_keeper_round_seconds", now)
    made.add("sdd_keeper_differences", differences)
    volumes, gone = state.volumes(), state.given_back()
    damage = damaged(state, seen.verdicts, seen.there)
    for pool in configuration.pools:
        own = {one.name for one in seen.verdicts if one.pool == pool and one.name in volumes}
        made.add("sdd_keeper_volumes", len(own), pool=pool.name)
        made.add("sdd_keeper_damaged_volumes", len(own & set(damage)), pool=pool.name)
        back = [size for of, size in gone.values() if of == pool.name]
        made.add("sdd_keeper_given_back_volumes_total", len(back), pool=pool.name)
        made.add("sdd_keeper_given_back_bytes_total", sum(back), pool=pool.name)
        for drive in pool.drives:
            words = {"pool": pool.name, "drive": drive.number}
            made.add("sdd_keeper_ready_volumes", ready_on(configuration, pool, drive, seen.there), **words)
            made.add("sdd_keeper_free_bytes", free(drive.folder), **words)
            made.add("sdd_keeper_reserve_bytes", pool.reserve, **words)
            made.add("sdd_keeper_no_room", (pool.name, drive.number) in seen.no_room, **words)
            room = free(drive.folder) - pool.reserve
            if (rate := rate_of(seen.jobs, pool.name, now)) > 0:
                made.add("sdd_keeper_days_left", max(0, room) / rate, **words)
    for (client, name), began in last_whole(seen.jobs).items():
        made.add("sdd_keeper_last_success_seconds", began, client=client, job=name)
    hit = [job for job in seen.jobs if job.key in seen.kept
           and (job.lost(seen.changing) or any(is_hit(job, name, lines) for name, lines in damage.items()))]
    made.add("sdd_keeper_damaged_jobs", len(hit))
    return made


def rate_of(jobs: typing.Iterable[Job], pool: str, now: float) -> float:
    """The bytes of a day of this pool's jobs, by those of the last week."""
    size = sum(place.stored for job in jobs if job.head.pool == pool and now - job.began() <= RATE_DAYS * DAY
               for place in job.head.sessions)
    return size / RATE_DAYS


def last_whole(jobs: typing.Iterable[Job]) -> dict[tuple[str, str], float]:
    """For each client and job when its last whole backup began."""
    found: dict[tuple[str, str], float] = {}
    for job in jobs:
        if not job.lacks:
            key = job.head.client, job.head.job
            found[key] = max(found.get(key, 0.0), job.began())
    return found


def write(path: pathlib.Path, text: str) -> None:
    """Whoever reads the file finds it whole."""
    part = path.with_name(f"{path.name}.part")
    part.write_text(text)
    os.chmod(part, 0o644)
    part.replace(path)
