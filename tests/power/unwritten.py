"""A write that the disk refuses in the background, a restart of the daemon, a session, and then a loss of power or another mount: what was
closed is read, and no volume taken for damaged, if `sdd-refresh` ran before the restart. Without it one of both must show."""
from __future__ import annotations

import collections
import ctypes
import dataclasses
import os
import pathlib
import shutil
import subprocess
import time
import typing

import daemon
from acknowledged import Records, Session
from clients import client
from cuts import Cut, Images
from daemon import ROOT, WAIT, Daemon, drive, free_port, later_second, until
from disk import LIBC, SYSTEMS, Log, copy, made, mounted, recorded
from promises import Closed, Left
from work import WRITE_BACK

REFRESH = ROOT / "examples" / "sdd-refresh"
BAD = b"BADBADBADBAD"
VOLUMES = ("Vol-1-1", "Vol-1-2")
# How long after a close its note is there for sure.
NOTED = 3


@dataclasses.dataclass(frozen=True)
class Case:
    """A file system; when the daemon is killed: once the sync failed, with the torn volume's note or without it, or before any sync;
    whether `sdd-refresh` runs; and whether the cut comes at once, before a note says that anything was closed, or later."""
    system: str
    killed: str
    refreshes: bool
    at_once: bool = True

    @property
    def name(self) -> str:
        words = ["refreshed" if self.refreshes else "not refreshed", "cut at once" if self.at_once else "cut later"]
        return f"{self.system}, killed {self.killed}, {', '.join(words)}"

    @property
    def is_control(self) -> bool:
        return not self.refreshes


CASES = [Case(system, killed, refreshes) for system in ("ext4", "xfs", "btrfs") for killed in ("after the sync", "before the sync")
         for refreshes in (True, False)]
CASES += [Case(system, "with its note", False, False) for system in ("ext4", "xfs", "btrfs")]
CASES += [Case(system, "before the sync", True, False) for system in ("ext4", "xfs", "btrfs")]


@dataclasses.dataclass
class Tried:
    """What came of a case: what was lost by how it was looked at, faults of the trial itself, and counts."""
    case: Case
    lost: dict[str, list[str]] = dataclasses.field(default_factory=dict)
    faults: list[str] = dataclasses.field(default_factory=list)
    counts: collections.Counter = dataclasses.field(default_factory=collections.Counter)


class Unwritten:
    """A case in a folder of its own."""

    def __init__(self, case: Case, tools: pathlib.Path, folder: pathlib.Path):
        self.case, self.tools, self.folder, self.tried = case, tools, folder, Tried(case)
        self.system, self.port = SYSTEMS[case.system], free_port()
        self.conf, self.closed = folder / "conf", []

    def held(self) -> Tried:
        self.folder.mkdir()
        made(self.system, self.folder / "disk")
        copy(self.folder / "disk", self.folder / "begun")
        with recorded(self.system, self.tools, self.folder / "disk", self.folder, 1) as (room, mark):
            self.work(room, mark)
        log = Log(self.folder / "log")
        self.tried.counts["refused writes"] += sum(one.kind == "F" for one in log.entries)
        self.look(log)
        return self.tried

    def started(self, room: pathlib.Path) -> Daemon:
        """A daemon over the disk, which adopts what is there."""
        self.conf.write_text(f'port = {self.port}\nspool_folder = "{self.folder}"\n' + drive("File", room / "d1"))
        later_second()
        return Daemon(self.conf, "--adopt", port=self.port, program=daemon.SDD)

    def talk(self) -> client.Talk:
        return client.Talk(self.port, timeout=4 * WAIT)

    def job(self, text: bytes, size: int) -> str:
        """A session of that text. The refusal, if it isn't closed."""
        records, data = Records(), (text * (size // len(text) + 1))[:size]
        try:
            with self.talk() as talk:
                ticket = client.open_session(talk, 1, "Default", "File")
                parts = [data[at:at + 50_000] for at in range(0, size, 50_000)]
                client.append_packets(talk, ticket, map(client.packet, parts))
                for one in parts:
                    records.take(1, 2, one)
                lines = client.close_session(talk, ticket)
        except client.Refused as why:
            return str(why)
        self.closed.append(Closed(Session(tuple(lines), records.digest()), ""))
        return ""

    def work(self, room: pathlib.Path, mark: typing.Callable[[str], None]):
        """Up to the cut: a session is closed; another's bytes are refused; the daemon is killed and started again; a session is closed."""
        (room / "d1").mkdir()
        os.sync()
        first = self.started(room)
        with self.talk() as talk:
            for name in VOLUMES:
                talk.console(f"label 1 {name} Default File")
        self.expect("the first session", self.job(b"the first session's text", 300_000), "")
        time.sleep(NOTED)
        mark(f"fail {BAD.decode()}")
        if self.case.killed == "before the sync":
            self.refused_in_background(room)
        else:
            self.expect("the second session", self.job(BAD, 1_000_000), "3905 Session failed")
            if self.case.killed == "with its note":
                time.sleep(NOTED)
        mark("heal")
        first.kill()
        if self.case.killed == "after the sync":
            # As if it had been killed before the note was written.
            for name in VOLUMES:
                (room / "d1" / f"{name}~").unlink(missing_ok=True)
            self.synced(room / "d1")
        self.goes_on(room, mark)

    def synced(self, folder: pathlib.Path):
        opened = os.open(folder, os.O_RDONLY)
        os.fsync(opened)
        os.close(opened)

    def refused_in_background(self, room: pathlib.Path):
        """A session is on its way; the system writes back what came of it, and that is refused."""
        with self.talk() as talk:
            ticket = client.open_session(talk, 2, "Default", "File")
            size = (room / "d1" / VOLUMES[0]).stat().st_size
            client.append_packets(talk, ticket, [client.packet(BAD * 4000)] * 20)
            until(lambda: (room / "d1" / VOLUMES[0]).stat().st_size > size, WAIT)
            with open(room / "d1" / VOLUMES[0], "rb") as file:
                LIBC.sync_file_range(file.fileno(), ctypes.c_int64(0), ctypes.c_int64(0), WRITE_BACK)
            time.sleep(0.5)

    def goes_on(self, room: pathlib.Path, mark: typing.Callable[[str], None]):
        """The later daemon. Where a first start is told of the fault, and doesn't adopt the volume, another comes after it."""
        told: list[str] = []
        for _ in range(2):
            if self.case.refreshes:
                run = subprocess.run([REFRESH, self.conf], capture_output=True, text=True, timeout=WAIT)
                self.tried.counts["refreshed"] += 1
                self.tried.counts["faults that it told"] += run.returncode
            later = self.started(room)
            with self.talk() as talk:
                talk.console("requests")
            told = [line for line in later.log() if f"volume {VOLUMES[0]} " in line]
            if not any("3940" in line for line in told):
                break
            later.kill()
        if self.case.killed == "with its note":
            self.expect("what the start says of the volume", [" isn't adopted" in line for line in told], [True])
        self.expect("the third session", self.job(b"the third session's text", 300_000), "")
        if not self.case.at_once:
            time.sleep(NOTED)
        mark("cut")
        later.kill()

    def expect(self, what: str, got: object, wanted: object):
        if got != wanted:
            self.tried.faults.append(f"{what}: {got!r} in place of {wanted!r}")

    def look(self, log: Log):
        """What is lost in the images of the cut, and if the disk is mounted anew."""
        images, image, room = Images(log, self.folder / "begun", self.folder, self.system.sector), self.folder / "image", self.folder / "checked"
        room.mkdir()
        at = log.marks()["cut"]
        for how in ("none", "all"):
            if images.make(Cut(at, how), "1", 2, image) is not None:
                self.tried.lost[f"a cut, {how} of the other writes"] = self.lost_in(image, room)
        copy(self.folder / "disk", image)
        self.tried.lost["another mount"] = self.lost_in(image, room)

    def lost_in(self, image: pathlib.Path, room: pathlib.Path) -> list[str]:
        with mounted(self.system, image, room):
            later = self.started(room)
            try:
                with self.talk() as talk:
                    talk.console("requests")
                    lost = [said for one in self.closed if (said := self.given_of(talk, one))]
                self.tried.counts["sessions asked for"] += len(self.closed)
                self.tried.counts["taken for damaged"] += any(" is damaged at " in line for line in later.log())
            finally:
                later.kill()
            left = Left(room)
            return lost + [said for one in self.closed if (said := one.by_tool(left))]

    @staticmethod
    def given_of(talk: client.Talk, one: Closed) -> str:
        try:
            return one.session.by_daemon(talk)
        except client.Refused as why:
            return f"{one.session.lines[0]}: the daemon gives {why}"


def unwritten(case: Case, tools: pathlib.Path, room: pathlib.Path) -> tuple[Tried, float]:
    """A case in a folder of its own, which is removed; and how many seconds it took."""
    begun, folder = time.monotonic(), room / f"unwritten-{CASES.index(case)}"
    one = Unwritten(case, tools, folder)
    try:
        one.held()
    except (client.Failed, OSError, ValueError, subprocess.SubprocessError) as why:
        one.tried.faults.append(f"came to no end: {why!r}")
    shutil.rmtree(folder, ignore_errors=True)
    return one.tried, time.monotonic() - begun
