"""How a volume is given back. It is written down before anything is done: so whoever comes after a stop knows what to do."""
from __future__ import annotations

import os
import pathlib
import typing

from sdd_client.errors import Failed

from keeper.daemon import Daemon, Now
from keeper.folders import ALONE, GONE, beside, identity_of, lonely_in, sync_folder
from keeper.journal import tell
from keeper.notes import note_path
from keeper.scans import Tool, Unreadable, run_tool, scan
from keeper.state import State, Volume
from keeper.verdicts import why_daemon_needs

# Called with the name of each step before it, by tests.
Step = typing.Callable[[str], None]


def give_back(state: State, daemon: Daemon, volume: Volume, pool: str, now: float, step: Step,
              tool: Tool = run_tool) -> str | None:
    """Removes a volume that no kept job needs. Gives why it stays, if it does."""
    path = volume.folder / volume.name
    step("scan")
    if why := scanned_otherwise(state, volume, tool):
        return why
    step("write down")
    state.begin_removal(volume.name, volume.folder)
    step("rename")
    os.rename(path, gone_path(volume.folder, volume.name))
    sync_folder(volume.folder)
    return finish(state, daemon, volume.name, volume.folder, pool, now, step)


def scanned_otherwise(state: State, volume: Volume, tool: Tool) -> str | None:
    """What is on the volume is read once more, and must be what was known of it."""
    try:
        found = scan(volume.folder, [volume.name], tool)
    except Unreadable:
        return "it can't be read"
    if identity_of(volume.folder / volume.name) != volume.identity:
        return "it has changed since it was read"
    if {one.key for one in found.sessions} != state.keys_on().get(volume.name, set()):
        return "other sessions are on it than were known"
    return None


def finish(state: State, daemon: Daemon, name: str, folder: pathlib.Path, pool: str, now: float, step: Step) -> str | None:
    """Goes on where the file has been renamed. If the daemon needs it after all, or its name has been used anew, it is put
    back."""
    step("ask")
    if why := why_not_gone(daemon.now(), name):
        step("put back")
        put_back(folder, name)
        state.end_removal(name, pool, None, now)
        return why
    gone = gone_path(folder, name)
    size = os.lstat(gone).st_size
    step("remove notes")
    for path in beside(folder, name):
        if path != gone:
            # The daemon may just put another note in its place.
            path.unlink(missing_ok=True)
    step("remove")
    # It may have another name for a scrub that goes on, or was stopped.
    for path in ((folder / ALONE / name), note_path(folder / ALONE, name)):
        path.unlink(missing_ok=True)
    gone.unlink()
    sync_folder(folder)
    step("note")
    state.end_removal(name, pool, size, now)
    return None


def why_not_gone(there: Now, name: str) -> str | None:
    return why_daemon_needs(name, there) if name in there.volumes else None


def gone_path(folder: pathlib.Path, name: str) -> pathlib.Path:
    return folder / f"{name}{GONE}"


def put_back(folder: pathlib.Path, name: str) -> None:
    """Gives a file its name again, unless another has it by now."""
    os.link(gone_path(folder, name), folder / name)
    gone_path(folder, name).unlink()
    sync_folder(folder)


def recover(state: State, daemon: Daemon, pools_of: dict[str, str], now: float, step: Step) -> None:
    """Ends the removals that a stop left under way."""
    for name, folder in state.removals().items():
        if (folder / name).exists():
            # Nothing was done yet, or it was being put back.
            forget_gone(folder, name)
            state.end_removal(name, "", None, now)
        elif gone_path(folder, name).exists():
            finish(state, daemon, name, folder, pools_of.get(name, ""), now, step)
        else:
            step("note")
            state.end_removal(name, pools_of.get(name, ""), 0, now)


def forget_gone(folder: pathlib.Path, name: str) -> None:
    """Where a file has both names the second one goes. Two files with these names are the operator's to look at."""
    gone = gone_path(folder, name)
    if gone.exists():
        if not gone.samefile(folder / name):
            raise Failed(f"{folder}: {name}{GONE} and {name} are two files: look which is to stay")
        gone.unlink()


def restore_unknown(state: State, folder: pathlib.Path, names: list[str]) -> None:
    """Gives the files that were renamed, and that nothing is written down of, their names again."""
    for name in names:
        if name in state.removals():
            continue
        if (folder / name).exists():
            forget_gone(folder, name)
        else:
            put_back(folder, name)
            tell(f"{folder}: {name} was renamed to be removed, and nothing is known of that: it has its name again")


def forget_notes(state: State, folder: pathlib.Path) -> None:
    """Removes the notes of volumes that were given back. The daemon knows such a volume until it ends, and may write one more."""
    gone = state.given_back()
    for note in lonely_in(folder):
        name = note.partition("~")[0]
        if name in gone and not (folder / name).exists():
            (folder / note).unlink(missing_ok=True)
