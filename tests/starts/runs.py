"""Runs one after another over the same folders: kills in a job and gentle stops, each followed by a start that is compared with the model;
and a week of daemons that know notes, and of such that don't. Whatever was closed is read each day."""
from __future__ import annotations

import collections
import contextlib
import pathlib
import random
import subprocess
import threading
import time
import typing

import compared
from blocks import note_in
from checks import Checks
from clients import client, say
from daemon import SDTOOL, WAIT, Daemon
from model import Started
from printed import records_of
from site_of import Site

SEED, KILLS, DAYS = 41, 8, 10
# A close that waits for a volume is asked for again for so long, in seconds.
client.CLOSING = 2
SETTINGS = "block = 4096\nvolume = 150000\n"
POOLS = ("Default", "Other")
# What a day's daemon is: one that adopts; one that doesn't, with the client's adopt-all, which notes all the same; and the like of one that
# knows of no notes, so that they stay as they were.
KINDS = ("new", "old", "older")


class Closed(typing.NamedTuple):
    lines: list[str]
    data: list[bytes]


class Shop:
    """A site with all that was closed there."""

    def __init__(self, checks: Checks, folder: pathlib.Path):
        self.checks, self.draw, self.closed = checks, random.Random(SEED), []
        self.site = Site(folder, [("File", "d1"), ("File", "d2")], SETTINGS)
        self.names, self.counts = 0, collections.Counter()

    def stocked(self):
        """Each drive has two volumes of each pool that take blocks."""
        said = self.site.ask("status")[0]
        room = collections.Counter(line.split()[2] for line in said if line.startswith("volume ") and line.split()[4] == "append")
        for pool in POOLS:
            for number in (1, 2) if room[pool] < 3 else ():
                self.names += 1
                with contextlib.suppress(client.Refused):
                    self.site.ask(f"label {number} Vol-{self.names} {pool} File")

    def jobs(self, count: int):
        """Two clients at once with jobs of many sizes."""
        sizes = [[[self.draw.randrange(9000) for _ in range(self.draw.randint(1, 6))] for _ in range(count)] for _ in range(2)]
        threads = [threading.Thread(target=self._client, args=(number, one)) for number, one in enumerate(sizes)]
        for thread in threads:
            thread.start()
        for thread in threads:
            thread.join()

    def _client(self, number: int, jobs: list[list[int]]):
        draw = random.Random(repr((SEED, number, len(self.closed))))
        for sizes in jobs:
            data = [draw.randbytes(size) for size in sizes]
            try:
                self.closed.append(Closed(self.site.job(data, draw.choice(POOLS)), data))
                self.counts["closed"] += 1
            except client.Refused:
                # It found no volume with room.
                self.counts["refused"] += 1

    def killed(self, daemon: Daemon):
        """The daemon is killed while a job goes on."""
        talk = self.site.talk()
        try:
            ticket = client.open_session(talk, 9, "Default", "File")
            client.append_packets(talk, ticket, [client.packet(bytes(4000)) for _ in range(self.draw.randrange(1, 40))])
            self.counts["killed in a job"] += 1
        except client.Refused:
            # It found no volume with room.
            self.counts["refused"] += 1
        time.sleep(self.draw.choice((0, 0.1, 0.4)))
        daemon.kill()
        with contextlib.suppress(client.Failed, OSError):
            talk.__exit__(None, None, None)

    def is_read(self, about: str, by_daemon: bool = True):
        """All that was closed, by the daemon and by `sdtool read`."""
        for one in self.closed:
            if by_daemon:
                self.checks.same(f"{about}: {one.lines[0]}", self.site.read(one.lines), ([(1, 2, data) for data in one.data], ""))
                self.counts["read by a daemon"] += 1
        for one in self.draw.sample(self.closed, min(5, len(self.closed))):
            run = subprocess.run([SDTOOL, "read", "/dev/stdin", self.site.place if self.is_on(1, one) else self.site.drives[1][1]],
                                 input="".join(f"{line}\n" for line in one.lines).encode(), capture_output=True, timeout=WAIT)
            data, last = records_of(run.stdout)
            self.checks.check(f"{about}: {one.lines[0]} by the tool", data == b"".join(one.data) and last.endswith(b" ended\n"), last)
            self.counts["read by the tool"] += 1

    def is_on(self, number: int, one: Closed) -> bool:
        return (pathlib.Path(self.site.drives[number - 1][1]) / one.lines[1].split()[1]).exists()

    def adopts(self, daemon: Daemon, before: dict, about: str):
        """A start is as the model has it, and damages nothing."""
        wanted = Started(self.site.drives, before, self.site.time_of(daemon))
        self.site.ask("status")
        self.checks.group = about
        compared.log(self.checks, self.site, daemon, wanted)
        compared.files(self.checks, self.site, before, wanted)
        self.checks.same("what isn't adopted", [name for (_, name), fate in wanted.fates.items() if fate.kind != "adopted"], [])
        self.counts["adopted"] += len(wanted.fates)
        self.counts["by a note"] += sum(fate.start > 0 for fate in wanted.fates.values())
        self.counts["above a note"] += sum(0 < fate.start < fate.end for fate in wanted.fates.values())
        self.counts["cut"] += sum(fate.cut > 0 for fate in wanted.fates.values())


def kills(checks: Checks, folder: pathlib.Path, _: pathlib.Path):
    """Kills within a job, and gentle stops between them."""
    shop = Shop(checks, folder / "kills")
    stop = shop.site.folder / "stop"
    for number in range(KILLS):
        before = shop.site.left()
        with shop.site.daemon("--until", stop) as daemon:
            shop.adopts(daemon, before, f"kills {number}")
            shop.is_read("after the start")
            shop.stocked()
            shop.jobs(2)
            if number % 4 == 3:
                checks.same("a gentle stop", shop.site.ends(daemon, stop), ("", 0))
                continue
            shop.killed(daemon)
    told_of("kills", shop, {"closed": 3 * KILLS, "killed in a job": KILLS // 4, "by a note": 2 * KILLS, "above a note": 2, "read by a daemon": 5 * KILLS})


def week(checks: Checks, folder: pathlib.Path, _: pathlib.Path):
    """Each day another daemon: those that know notes and those that don't come in any order. Nothing is lost, and nothing is damaged."""
    shop = Shop(checks, folder / "week")
    stop = shop.site.folder / "stop"
    kinds = [shop.draw.choice(KINDS) for _ in range(DAYS - len(KINDS) - 1)] + [*KINDS, "new"]
    for day, kind in enumerate(kinds):
        before = shop.site.left()
        with shop.site.daemon("--until", stop, adopts=kind == "new") as daemon:
            about = f"week, day {day}, {kind}"
            checks.group = about
            if kind == "new":
                shop.adopts(daemon, before, about)
            else:
                said, status = say(shop.site.port, "adopt-all", str(shop.site.conf))
                checks.check("adopt-all", status == 0 and said.count(": ok adopted ") == len(said.splitlines()), said)
            shop.is_read(about)
            shop.stocked()
            shop.jobs(2)
            shop.counts[f"days {kind}"] += 1
            if shop.draw.random() < 0.5:
                shop.killed(daemon)
            else:
                checks.same("its end", shop.site.ends(daemon, stop), ("", 0))
        if kind == "older":
            for place, was in before.items():
                for path in pathlib.Path(place).glob("*~"):
                    if path.name != ".lock~":
                        path.unlink()
                for name, content in was.items():
                    if name.endswith("~"):
                        pathlib.Path(place, name).write_bytes(content)
                    # (a kill may have left one that was being written, NAME~~)
                    if name.endswith("~") and not name.endswith("~~"):
                        shop.counts["notes of an earlier day"] += note_in(content).end < pathlib.Path(place, name[:-1]).stat().st_size
    for _, place in shop.site.drives:
        run = subprocess.run([SDTOOL, "verify", place], capture_output=True, text=True, timeout=WAIT)
        checks.same("no damage but what a kill left", [line for line in run.stdout.splitlines() if line.startswith("damage") and not line.endswith("short")], [])
    told_of("week", shop, {"closed": 3 * DAYS, **{f"days {kind}": 1 for kind in KINDS}, "by a note": DAYS, "notes of an earlier day": 1})


def told_of(name: str, shop: Shop, least: dict[str, int]):
    shop.checks.group = name
    shop.checks.same("what came too rarely", {what: shop.counts[what] for what in least if shop.counts[what] < least[what]}, {})
    print(f"{name}:", ", ".join(f"{count} {what}" for what, count in sorted(shop.counts.items())))


GROUPS = (kills, week)
