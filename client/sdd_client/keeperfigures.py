"""What sdd-keeper tells of the volumes, by the file of its figures (sdd-keeper(8), FIGURES)."""
from __future__ import annotations

import dataclasses
import pathlib
import re
import typing

from .chosen import dated
from .errors import Unfit

SAMPLE = re.compile(r'sdd_keeper_(\w+?)(?:\{((?:\w+="(?:[^"\\]|\\.)*",?)*)\})? (\S+)')
LABEL = re.compile(r'(\w+)="((?:[^"\\]|\\.)*)"')
ESCAPED = re.compile(r"\\(.)")
# As in the alerts of examples/keeper-alerts.yml: seconds without a round, and days that the room still lasts.
SILENT, SOON = 900, 7


class Room(typing.NamedTuple):
    """A pool on a drive: the volumes that take blocks, the bytes that are free and those that are to stay so, for how many
    days there is room, if that is known, and whether a volume is wanted that there is no room for."""

    pool: str
    drive: str
    ready: int
    free: float
    reserve: float
    days_left: float | None
    is_full: bool


@dataclasses.dataclass
class KeeperFigures:
    """When the last round was; the room of each pool and drive; the volumes of each pool, and how many are damaged; by client
    and job when the last whole backup began; and what is wrong. Moments are in seconds since 1970."""

    round: float
    rooms: list[Room]
    volumes: dict[str, tuple[int, int]]
    last: dict[tuple[str, str], float]
    damaged_jobs: int
    differences: int


def figures_in(path: str) -> KeeperFigures:
    """The figures in a file. Raises Unfit if it isn't the keeper's."""
    try:
        return figures_of(pathlib.Path(path).read_text())
    except (OSError, ValueError, KeyError) as why:
        raise Unfit(f"{path} isn't a file of the keeper's figures: {why}") from why


def figures_of(text: str) -> KeeperFigures:
    found: dict[str, dict[tuple[str, ...], float]] = {}
    for line in text.splitlines():
        if line.startswith("#"):
            continue
        sample = SAMPLE.fullmatch(line)
        if not sample:
            raise ValueError(f"the line {line!r}")
        labels = (ESCAPED.sub(lambda one: "\n" if one[1] == "n" else one[1], value)
                  for _, value in LABEL.findall(sample[2] or ""))
        found.setdefault(sample[1], {})[tuple(labels)] = float(sample[3])
    rooms = [room_of(found, key) for key in sorted(found.get("free_bytes", {}))]
    damaged = found.get("damaged_volumes", {})
    volumes = {key[0]: (int(count), int(damaged[key])) for key, count in sorted(found.get("volumes", {}).items())}
    last = {(key[0], key[1]): moment for key, moment in sorted(found.get("last_success_seconds", {}).items())}
    return KeeperFigures(found["round_seconds"][()], rooms, volumes, last, int(found["damaged_jobs"][()]),
                         int(found["differences"][()]))


def room_of(found: dict[str, dict[tuple[str, ...], float]], key: tuple[str, ...]) -> Room:
    pool, drive = key
    return Room(pool, drive, int(found["ready_volumes"][key]), found["free_bytes"][key], found["reserve_bytes"][key],
                found.get("days_left", {}).get(key), bool(found["no_room"][key]))


def alarms_of(figures: KeeperFigures, now: float) -> list[str]:
    """What whoever looks at the page should know of it first."""
    told = []
    if now - figures.round > SILENT:
        told.append(f"The keeper of the volumes has done no round since {dated(int(figures.round * 1e6))}.")
    for one in figures.rooms:
        if one.is_full:
            told.append(f"There is no room for another volume of pool {one.pool} on drive {one.drive}.")
        elif one.days_left is not None and one.days_left < SOON:
            told.append(f"The room of pool {one.pool} on drive {one.drive} ends in {one.days_left:.1f} days.")
    told += [f"{damaged} volumes of pool {pool} are damaged." for pool, (_, damaged) in figures.volumes.items() if damaged]
    if figures.damaged_jobs:
        told.append(f"{figures.damaged_jobs} kept jobs can't be restored whole.")
    if figures.differences:
        told.append(f"Folders, daemon and catalogue differ in {figures.differences} places; the keeper's log names them.")
    return told
