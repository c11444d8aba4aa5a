"""Where the folders, the daemon and the catalogue don't say the same."""
from __future__ import annotations

import os
import pathlib
import typing

from keeper.figures import Seen
from keeper.folders import lonely_in
from keeper.notes import why_unlike
from keeper.state import State


def differences(state: State, seen: Seen, folders: list[pathlib.Path]) -> typing.Iterator[str]:
    volumes, there = state.volumes(), seen.there
    for one in seen.verdicts:
        if one.name not in volumes and one.name not in state.given_back():
            yield f"{one.name}: the daemon has it, and its file isn't there"
    for name, volume in sorted(volumes.items()):
        if name not in there.volumes:
            yield f"{name}: its file is there, and the daemon hasn't adopted it"
        elif why := too_short(volume.folder / name, there.volumes[name].end):
            yield f"{name}: {why}"
        now = there.volumes.get(name)
        # Blocks may have come to a volume since the daemon was asked.
        if why := why_unlike(volume.folder, name, now.end if now and now.status != "append" else None):
            yield f"{name}: {why}"
    for folder in folders:
        for note in lonely_in(folder):
            yield f"{folder}: {note} goes with a volume that isn't there"
    for job in seen.jobs:
        if job.key in seen.kept and (lost := job.lost(seen.changing)):
            yield f"{job.name()}: not whole: {len(lost)} sessions lack, as {lost[0].lines[0]}"


def too_short(path: pathlib.Path, end: int) -> str | None:
    """Why a file can't have what the daemon wrote to it. It was asked before, and volumes only grow."""
    try:
        size = os.lstat(path).st_size
    except FileNotFoundError:
        return None
    return f"its file has {size} bytes, and the daemon knows blocks up to {end}" if size < end else None
