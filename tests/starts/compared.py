"""What a start did, compared with the model's: its log, the daemon's status, and the files."""
from __future__ import annotations

from checks import Checks
from daemon import Daemon
from model import Files, Started
from site_of import Site


def log(checks: Checks, site: Site, daemon: Daemon, wanted: Started):
    """The plan first, each line in its order; then the adoptions, of each drive in theirs; then the daemon serves."""
    lines = daemon.log()
    lines = lines[:next(at for at, line in enumerate(lines) if line.startswith("listening on "))]
    checks.same("log, before the adoptions", lines[:len(wanted.lines)], wanted.lines)
    for number in range(1, len(site.drives) + 1):
        tried = [line for line in lines[len(wanted.lines):] if line.startswith(f"drive {number}: ")]
        unnoted = [f"drive {number}: the note of volume {name} can't be written" for _, name in wanted.unnoted]
        checks.same(f"log, adoptions of drive {number}", [line for line in tried if line not in unnoted], wanted.tried_lines(number))
        told = {key for key in wanted.unnoted if wanted.fates[key].drive == number}
        checks.same(f"log, notes of drive {number} that can't be written", len([line for line in tried if line in unnoted]), len(told))


def status(checks: Checks, site: Site, said: list[str], wanted: Started, limit: int = 2**36):
    """The volumes of each drive, in the order of their adoption, and no damaged one."""
    fates = [(name, fate) for number in range(1, len(site.drives) + 1) for (_, name), fate in wanted.fates.items()
             if fate.kind == "adopted" and fate.drive == number]
    checks.same("status", [line for line in said if line.startswith("volume ")],
                [f"volume {name} {fate.label.pool} {fate.label.media} {'full' if fate.end >= limit else 'append'} {fate.end}" for name, fate in fates])


def files(checks: Checks, site: Site, before: dict[str, Files], wanted: Started):
    """An adopted volume is cut where its blocks end; any other is as it was."""
    after = site.left()
    for (place, name), fate in wanted.fates.items():
        old = before[place][name]
        checks.same(f"bytes of {name}, {fate.kind}", after[place].get(name), old[:fate.end] if fate.kind == "adopted" else old)
