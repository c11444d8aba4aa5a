"""`rebuild FOLDER ..`: the catalogue made anew from the volumes alone, by `sdtool scan` and the heads on them."""
from __future__ import annotations

import re
import subprocess
import typing

from .catalogue import Catalogue, listed
from .chosen import Undo
from .dialogue import SPAN
from .errors import Failed, Partly, complain
from .head import Head, Place
from .sources import VolumesSource
from .verify import head_of, list_of, snapshot_of

SESSION = re.compile(r"session (\d+) (\d+) job (\d+) pool (\S+) (ended|cut) .*")


class Found(typing.NamedTuple):
    """What a scan of a folder has of sessions: the lines of those that ended."""

    folder: str
    sessions: dict[tuple[int, int], list[str]]


def scan(folder: str) -> Found:
    """The sessions in a folder that came to their end."""
    try:
        run = subprocess.run(["sdtool", "scan", folder], stdout=subprocess.PIPE, text=True, errors="replace")
    except OSError as why:
        raise Failed(f"sdtool: {why.strerror}") from why
    lines = run.stdout.splitlines()
    if run.returncode or not lines or not lines[-1].startswith("ok scan "):
        raise Failed(f"{folder}: {lines[-1] if lines else 'sdtool broke off'}")
    sessions: dict[tuple[int, int], list[str]] = {}
    current: list[str] | None = None
    for line in lines:
        if head := SESSION.fullmatch(line):
            current = [] if head[5] == "ended" else None
        elif current is not None and re.fullmatch(r"session \d+ \d+", line):
            key = tuple(map(int, line.split()[1:]))
            sessions[key] = current
            current.append(line)
        elif current is not None and SPAN.fullmatch(line):
            current.append(line)
        elif line.startswith(("damage ", "foreign ")):
            complain(f"{folder}: {line}")
    return Found(folder, sessions)


class Rebuilt(typing.NamedTuple):
    """How many jobs were found, how many of them the catalogue lacked, and what is wrong with some."""

    jobs: int
    added: int
    faults: list[str]


def rebuild(catalogue: Catalogue, folders: list[str], undo: Undo) -> Rebuilt:
    """Adds to the catalogue each job whose last session is in the folders."""
    jobs = added = 0
    faults: list[str] = []
    for found in map(scan, folders):
        source = VolumesSource(found.folder)
        for head, lines in reversed(list(heads(source, found, faults))):
            jobs += 1
            faults += lacking(head, found)
            added += add(catalogue, source, head, lines, undo, faults)
    return Rebuilt(jobs, added, faults)


def heads(source: VolumesSource, found: Found, faults: list[str]) -> typing.Iterator[tuple[Head, list[str]]]:
    """The heads in a folder with the lines of their sessions, the last one first: so a session that a head names needn't be
    looked into."""
    named: set[tuple[int, int]] = set()
    for key, lines in sorted(found.sessions.items(), reverse=True):
        if key in named:
            continue
        try:
            head = head_of(source, lines)
        except Failed as why:
            faults.append(f"{lines[0]}: {why}")
            continue
        if head:
            named.update(place.key() for place in head.sessions)
            yield head, lines


def lacking(head: Head, found: Found) -> list[str]:
    """What the folder lacks of a job."""
    return [f"job {head.job}, number {head.number}: {place.lines[0]} isn't whole in {found.folder}"
            for place in head.sessions if found.sessions.get(place.key()) != place.lines]


def add(catalogue: Catalogue, source: VolumesSource, head: Head, lines: list[str], undo: Undo, faults: list[str]) -> bool:
    """Adds a job, unless the catalogue has it. Where its list of files can't be read, it has none."""
    last = Place(lines, 0, 0)
    if catalogue.has(head, last):
        return False
    try:
        inverse = undo.inverse(head)
        number = catalogue.keep(head, last, listed(list_of(source, lines, inverse)))
        if not head.copy_of and (snapshot := snapshot_of(source, lines, inverse)):
            catalogue.keep_snapshot(number, snapshot)
    except Failed as why:
        faults.append(f"job {head.job}, number {head.number}: its files aren't listed: {why}")
        catalogue.keep(head, last, None)
    return True


def told(rebuilt: Rebuilt) -> None:
    """Tells what is wrong with the jobs that were found."""
    for fault in rebuilt.faults:
        complain(fault)
    if rebuilt.faults:
        raise Partly(f"{len(rebuilt.faults)} faults")


