"""One volume read whole, by `sdtool verify`, and what that says of it."""
from __future__ import annotations

import contextlib
import json
import pathlib
import shutil
import time
import typing

from sdd_client.errors import Failed

from keeper.folders import ALONE, is_as
from keeper.notes import note_path
from keeper.scans import DEVICE_FAULT, Tool
from keeper.state import Key, Session, Volume

# The file that names the volume, beside it.
EXPECTED = "expected~"
# The statuses of `sdtool verify`.
SOUND, DAMAGED, ENDLESS, NOT_THERE = 0, 1, 3, 4
Line = dict[str, typing.Any]


class Known(typing.NamedTuple):
    """What the catalogue knows of a volume's sessions: all that have a block there, and how each was found. One that wasn't
    found whole may begin on a volume that has been given back."""

    keys: set[Key]
    sessions: dict[Key, Session]

    def volumes_of(self, key: Key) -> list[str]:
        """The volumes of a session that was found whole, in order."""
        return self.sessions[key].volumes() if key in self.sessions and self.sessions[key].ended else []


def verify(volume: Volume, known: Known, rate: int | None, tool: Tool) -> list[str] | None:
    """Reads a volume whole, and gives what is wrong with it, a line each; nothing if it isn't as it was. What was read faster
    than at the rate is waited for."""
    began = time.monotonic()
    with alone(volume) as folder:
        run = tool(["verify", "--json", "--expect", str(folder / EXPECTED), str(folder)]) if folder else None
        if run is None or not is_as(volume.folder / volume.name, volume.identity) or run.returncode == NOT_THERE:
            return None
    if rate:
        time.sleep(max(0.0, volume.identity.size / rate - (time.monotonic() - began)))
    try:
        lines = [json.loads(line) for line in run.stdout.splitlines()]
    except ValueError as why:
        raise Failed(f"{volume.name}: sdtool verify says what isn't JSON: {why}") from why
    return wrong(volume.name, known, run.returncode, lines)


@contextlib.contextmanager
def alone(volume: Volume) -> typing.Iterator[pathlib.Path | None]:
    """A folder that has this volume alone, with its note if it has one, by second names of their files: `sdtool verify` takes a
    folder, and follows no link. None if the volume isn't there as it was."""
    folder = volume.folder / ALONE
    try:
        folder.mkdir(mode=0o700)
        (folder / EXPECTED).write_text(f"{volume.name}\n")
        with contextlib.suppress(FileNotFoundError):
            (folder / volume.name).hardlink_to(volume.folder / volume.name)
            note_path(folder, volume.name).hardlink_to(note_path(volume.folder, volume.name))
        yield folder if is_as(folder / volume.name, volume.identity) else None
    finally:
        clear(volume.folder)


def clear(folder: pathlib.Path) -> None:
    """Removes what a reading made, or left as it was stopped."""
    shutil.rmtree(folder / ALONE, ignore_errors=True)


def wrong(name: str, known: Known, status: int, lines: list[Line]) -> list[str]:
    """What is wrong with a volume, by what `sdtool verify` said of it alone."""
    kinds = [line["line"] for line in lines]
    if "refused" in kinds:
        why = lines[-1]["refusal"]
        if not why.startswith(DEVICE_FAULT):
            raise Failed(f"{name}: sdtool verify: {why}")
        return [*places(name, lines), f"unreadable {name} {why}"]
    if status not in (SOUND, DAMAGED, ENDLESS) or kinds[-1:] != ["done"]:
        raise Failed(f"{name}: sdtool verify broke off with status {status}")
    if status == DAMAGED and (found := places(name, lines)):
        return found
    if found := list(unsound(name, known, lines)):
        return found
    count = lines[-1]["sessions"]
    return [f"sessions {name} {count} {len(known.keys)}"] if count != len(known.keys) else []


def places(name: str, lines: list[Line]) -> list[str]:
    """Where damage begins, and where the next whole block is. A damaged note is no damage of the volume: rounds tell of it."""
    return [" ".join(str(one) for one in (line["line"], name, line["place"], line.get("kind")) if one is not None)
            for line in lines if line["line"] in ("damage", "behind") and (line["place"], line.get("kind")) != (0, "note")]


def unsound(name: str, known: Known, lines: list[Line]) -> typing.Iterator[str]:
    """The sessions that aren't whole, though no block is damaged. One that comes from another volume or goes on there is told
    as broken or cut where it is alone, and is none of these."""
    for line in lines:
        if line["line"] == "session" and known.volumes_of((line["time"], line["id"])) == [name]:
            yield f"cut {line['time']} {line['id']}"
        elif line["line"] == "broken" and known.volumes_of((line["time"], line["id"]))[:1] == [name]:
            yield f"broken {line['time']} {line['id']}"
