"""Which sessions are on the volumes of a folder, by `sdtool scan`. A volume that hasn't changed isn't read again."""
from __future__ import annotations

import pathlib
import re
import subprocess
import typing

from sdd_client.dialogue import SPAN, VOLUME_NAME
from sdd_client.errors import Failed

from keeper.folders import is_named_otherwise, label_of, volumes_in
from keeper.state import Key, Session, State, Volume

SESSION = re.compile(r"session (\d+) (\d+) job \d+ pool \S+ (ended|cut) .*")
KEY = re.compile(r"session (\d+) (\d+)")
DAMAGE = re.compile(rf"(?:damage ({VOLUME_NAME.pattern}) \d+ \w+|behind ({VOLUME_NAME.pattern}) \d+)")

# The refusal that says that a disk doesn't give what is on it.
DEVICE_FAULT = "3940 "

Tool = typing.Callable[[list[str]], "subprocess.CompletedProcess[str]"]


class Unreadable(Failed):
    """A volume can't be read."""


class Scan(typing.NamedTuple):
    """What a scan found: the sessions, and of each damaged volume the lines that say so."""

    sessions: list[Session]
    damage: dict[str, list[str]]


def run_tool(words: list[str]) -> subprocess.CompletedProcess[str]:
    try:
        return subprocess.run(["sdtool", *words], stdout=subprocess.PIPE, text=True, errors="replace")
    except OSError as why:
        raise Failed(f"sdtool: {why.strerror}") from why


def scan(folder: pathlib.Path, names: list[str], tool: Tool = run_tool) -> Scan:
    """Reads volumes of a folder, in this order."""
    run = tool(["scan", str(folder), *names])
    lines = run.stdout.splitlines()
    if run.returncode or not lines or not lines[-1].startswith("ok scan "):
        why = lines[-1] if lines else "sdtool broke off"
        raise (Unreadable if why.startswith(DEVICE_FAULT) else Failed)(f"{folder}: {why}")
    found = Scan([], {})
    ended = False
    for line in lines:
        if head := SESSION.fullmatch(line):
            ended = head[3] == "ended"
        elif key := KEY.fullmatch(line):
            found.sessions.append(Session((int(key[1]), int(key[2])), ended, [line]))
        elif SPAN.fullmatch(line):
            found.sessions[-1].lines.append(line)
        elif damage := DAMAGE.fullmatch(line):
            found.damage.setdefault(damage[1] or damage[2], []).append(line)
    return found


def look(state: State, folder: pathlib.Path, now: float, growing: set[str], every: float, tool: Tool = run_tool) -> None:
    """Brings what is known of a folder up to what is in it. Volumes that grow are read again after so many seconds, and no
    earlier."""
    there, known = volumes_in(folder), state.volumes(folder)
    if lost := set(known) - set(there):
        state.forget(lost)
    changed = [name for name, identity in there.items()
               if name not in known or known[name].identity != identity
               and (name not in growing or now - known[name].scanned >= every)]
    if not changed:
        return
    # The sessions of a copy under another name are those of the volume itself.
    foreign = [name for name in changed if is_named_otherwise(folder / name)]
    own = [name for name in changed if name not in foreign]
    found = scan_readable(folder, own, tool)
    if also := parts_elsewhere(state, found, set(changed)) & set(there):
        changed += also
        found = scan_readable(folder, [*own, *also], tool)
    volumes = []
    for name in changed:
        old = known.get(name)
        since = old.since if old and old.identity == there[name] else now
        damage = [f"foreign {name} 0"] if name in foreign else found.damage.get(name, [])
        volumes.append(Volume(name, folder, there[name], now, since, damage))
    state.put_scan(volumes, found.sessions)


def scan_readable(folder: pathlib.Path, names: list[str], tool: Tool) -> Scan:
    """Reads these volumes. One that can't be read has that as its damage, and stops no other."""
    try:
        return scan(folder, in_order(folder, names), tool) if names else Scan([], {})
    except Unreadable:
        faults: dict[str, list[str]] = {}
        for name in names:
            try:
                scan(folder, [name], tool)
            except Unreadable as why:
                faults[name] = [f"unreadable {name} {str(why).removeprefix(f'{folder}: ')}"]
        if not faults:
            raise
        found = scan_readable(folder, [name for name in names if name not in faults], tool)
        return Scan(found.sessions, {**found.damage, **faults})


def in_order(folder: pathlib.Path, names: list[str]) -> list[str]:
    """By when they were labelled, as a session goes from one to the next."""
    labels = {name: label_of(folder / name) for name in names}
    return sorted(names, key=lambda name: (label.moment if (label := labels[name]) else 0, name))


def parts_elsewhere(state: State, found: Scan, read: set[str]) -> set[str]:
    """The volumes that weren't read and have a part of a session that was cut in these."""
    cut: set[Key] = {one.key for one in found.sessions if not one.ended}
    return {name for name, keys in state.keys_on().items() if keys & cut} - read
