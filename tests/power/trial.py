"""One file system under the daemon: what is done there is recorded, the power is cut at many places of that, and each image that a
cut left is looked at. An image may be where the next life of the same disk begins.
"""
import collections
import contextlib
import dataclasses
import errno
import os
import pathlib
import random
import shutil
import subprocess
import time
import typing

from acknowledged import READS
from clients import client
from cuts import Cut, Images, drawn
from daemon import SDTOOL, WAIT
from disk import SYSTEMS, FileSystem, Log, NotMounted, copy, made, mounted, recorded
from promises import DRIVES, Closed, Ends, Labelled, Left, Promise
from shim import loaded
from work import FILLER, Serving, Work

# At every so manieth image a later daemon adopts all of it; so many sessions of each image are read by the tool, of those that
# were closed last, and of all.
A_DAEMON, NEWEST, OTHERS = 12, 3, 2
# There is one kill more of the daemon in a recording for so many closes.
A_KILL = 100
# What a volume may be refused with if its label was never answered.
NO_VOLUME = "3931 Not a volume of this profile"
MOST_TOLD = 5


@dataclasses.dataclass(frozen=True)
class Asked:
    """How much is tried: sessions that are closed in each recording, cuts of each, lives of a disk, and whether the tool reads all
    sessions of each image."""
    seed: int
    closes: int
    cuts: int
    lives: int
    reads_all: bool = False


@dataclasses.dataclass(frozen=True)
class Kind:
    """A file system, and how the daemon's syncs are spoilt, if they are: then it is a control."""
    system: str
    spoiled: str = ""

    @property
    def name(self) -> str:
        return f"{self.system}, {CONTROLS[self.spoiled]}" if self.spoiled else self.system

    @property
    def is_control(self) -> bool:
        return bool(self.spoiled) or self.system == "ext4 without barriers"


# How syncs are spoilt, as tests/power/spoiled.c names it.
CONTROLS = {"none": "no sync", "tenth": "every tenth sync left out", "early": "answers before the sync"}


@dataclasses.dataclass
class Found:
    """What came of a trial: counts, what was lost without a control, and how many images had a loss."""
    kind: Kind
    counts: collections.Counter = dataclasses.field(default_factory=collections.Counter)
    lost: list[str] = dataclasses.field(default_factory=list)
    faults: list[str] = dataclasses.field(default_factory=list)


class Trial:
    """A file system with its folder, in which the disk, its log and its images are."""

    def __init__(self, kind: Kind, asked: Asked, tools: pathlib.Path, folder: pathlib.Path):
        self.asked, self.tools, self.folder, self.found = asked, tools, folder, Found(kind)
        self.system: FileSystem = SYSTEMS[kind.system]
        self.env = loaded(tools / "spoiled.so", SPOILED=kind.spoiled) if kind.spoiled else dict(os.environ)
        # All that is due at an image, in the order of their marks; those of an earlier life have none.
        self.promises: list[Promise] = []
        self.ends: Ends = {}
        self.image, self.room = folder / "image", folder / "checked"
        # The image in which the disk may live on, and what is due there.
        self.next: typing.Optional[tuple[pathlib.Path, list[Promise]]] = None

    def held(self) -> Found:
        """All of it."""
        self.room.mkdir(parents=True)
        made(self.system, self.folder / "disk")
        for life in range(1, self.asked.lives + 1):
            seed = repr((self.asked.seed, self.found.kind.name, life))
            copy(self.folder / "disk", self.folder / "begun")
            earlier = len(self.promises)
            place = self.folder / f"life-{life}"
            place.mkdir()
            self.record(seed, place)
            self.examine(seed, earlier, place)
            if not self.next:
                break
            image, self.promises = self.next
            image.rename(self.folder / "disk")
            self.next = None
        return self.found

    def record(self, seed: str, place: pathlib.Path):
        """Works on the disk. What was answered then is due, and at the end all of it is there."""
        number = random.Random(seed).randrange(2 ** 31)
        with recorded(self.system, self.tools, self.folder / "disk", place, number) as (room, mark):
            for name in DRIVES:
                (room / name).mkdir(exist_ok=True)
            # A cut may have left the disk full, and no volume would get a label then.
            (room / FILLER).unlink(missing_ok=True)
            os.sync()
            work = Work(room, place, self.env, seed, mark)
            work.hold(self.asked.closes, 1 + self.asked.closes // A_KILL)
            self.promises += work.promises
            left = Left(room)
            self.ends = {name: left.bytes(name) for one in self.promises for name in one.volumes()}
            for one in self.promises:
                if isinstance(one, Closed) and (said := one.by_tool(left)):
                    self.found.faults.append(f"before the cut: {said}")
        self.found.counts.update(work.counts)

    def examine(self, seed: str, earlier: int, place: pathlib.Path):
        """Looks at the images of cuts. `earlier` promises are of an earlier life, so they are due at each."""
        log, numbers = Log(place / "log"), random.Random(seed)
        marks = log.marks()
        images = Images(log, self.folder / "begun", self.folder, self.system.sector)
        cuts = drawn(log.entries, marks, self.asked.cuts, numbers)
        self.found.counts.update({"writes": sum(one.kind in "WZ" for one in log.entries),
                                  "flushes": sum(one.kind == "E" for one in log.entries)})
        looked = 0
        for cut in cuts:
            due = [one for at, one in enumerate(self.promises) if at < earlier or marks[one.mark] <= cut.at]
            waits = images.make(cut, seed, len(due), self.image)
            if waits is None:
                continue
            if cut.how == "torn":
                copy(self.image, self.folder / "kept")
            lost = self.look(due, not self.found.kind.is_control and looked % A_DAEMON == 0, numbers)
            looked += 1
            if cut.how == "torn" and not lost:
                self.next = (self.folder / "kept").rename(self.folder / "next"), due
            self.count(cut, waits, lost)
        shutil.rmtree(place)

    def count(self, cut: Cut, waits: int, lost: list[str]):
        self.found.counts.update({"images": 1, "with writes on their way": waits > 0, "with a loss": bool(lost)})
        if len(self.found.lost) < MOST_TOLD:
            self.found.lost += [f"a cut at {cut.at} of {waits} writes on their way, {cut.how} of them there: {one}" for one in lost]

    def look(self, due: list[Promise], by_daemon: bool, numbers: random.Random) -> list[str]:
        """What is lost of what is due in the image."""
        try:
            return self.lost_in_image(due, by_daemon, numbers)
        except NotMounted as why:
            if not self.is_mended(why):
                self.found.counts["not mounted"] += 1
                return [str(why)]
        return self.lost_in_image(due, by_daemon, numbers)

    def lost_in_image(self, due: list[Promise], by_daemon: bool, numbers: random.Random) -> list[str]:
        with mounted(self.system, self.image, self.room):
            left = Left(self.room)
            lost = [said for one in due if (said := one.lost(left, self.ends))]
            lost += self.by_tool(left, [one for one in due if isinstance(one, Closed)], numbers)
            return lost + self.by_daemon(due) if by_daemon else lost

    def is_mended(self, why: NotMounted) -> bool:
        """Whether the check that a system makes as it starts has mended the file system: of ext4 the first block may be torn, and has copies."""
        if why.errno != errno.EBADMSG or not self.found.kind.system.startswith("ext4") or not shutil.which("e2fsck"):
            return False
        self.found.counts["mended by e2fsck"] += 1
        return subprocess.run(["e2fsck", "-fy", self.image], capture_output=True, timeout=4 * WAIT).returncode in (0, 1)

    def by_tool(self, left: Left, closed: list[Closed], numbers: random.Random) -> list[str]:
        """What `sdtool read` doesn't give of those that were closed last and of some others, or of all."""
        newest, others = closed[-NEWEST:], closed[:-NEWEST]
        read = closed if self.asked.reads_all else newest + numbers.sample(others, min(len(others), OTHERS))
        self.found.counts.update({"sessions looked at": len(closed), "read by the tool": len(read)})
        return [said for one in read if (said := one.by_tool(left))]

    def by_daemon(self, due: list[Promise]) -> list[str]:
        """What a later daemon doesn't adopt or give, or does wrongly. It takes a new job then."""
        closed = [one for one in due if isinstance(one, Closed)]
        labelled = {one.name for one in due if isinstance(one, Labelled)}
        # A cut may have left the disk full.
        (self.room / FILLER).unlink(missing_ok=True)
        with contextlib.ExitStack() as stack:
            serving = Serving(self.room, self.folder, dict(os.environ))
            stack.callback(serving.kill)
            self.found.counts.update({"later daemons": 1, "volumes adopted": len(serving.adopted),
                                      "refused, of no answered label": len(set(serving.refused) - labelled)})
            lost = [f"{name} is refused: {why}" for name, why in serving.refused.items() if self.is_lost(name, why, labelled)]
            lost += [f"{name} isn't there" for name in labelled - set(serving.adopted) - set(serving.refused)]
            self.found.counts["adopted by a note"] += sum(not line.endswith("read from 0 on") for line in serving.daemon.log() if "is adopted up to" in line)
            with serving.talk() as talk:
                lost += [said for one in closed if (said := given_of(talk, one))]
                self.found.counts["read by a daemon"] += len(closed)
                lost += self.goes_on(talk)
        return lost + self.verified(labelled & set(serving.adopted))

    def is_lost(self, name: str, why: str, labelled: set[str]) -> bool:
        """Whether a volume must not be refused so. One without a note may be taken for damaged, since it got blocks before it had one."""
        if "damaged at" in why and not (Left(self.room).folder_of(name) / f"{name}~").exists():
            self.found.counts["damaged without a note"] += 1
            return False
        return name in labelled or why != NO_VOLUME

    def goes_on(self, talk: client.Talk) -> list[str]:
        """The later daemon takes a label and a job, and gives that back."""
        got: list[bytes] = []
        data = b"after the cut" * 9999
        try:
            talk.console("label 1 New-1 New File")
            ticket = client.open_session(talk, 1, "New", "File")
            client.append_packets(talk, ticket, [client.packet(data)])
            client.read_session(talk, client.close_session(talk, ticket), lambda index, stream, one: got.append(one))
        except client.Refused as why:
            if str(why).startswith("3939"):
                self.found.counts["no room for a new job"] += 1
                return []
            return [f"a new job: {why}"]
        return [] if got == [data] else ["a new job has other records"]

    def verified(self, labelled: set[str]) -> list[str]:
        """After the adoption no volume whose label was answered is damaged."""
        lost = []
        for name in DRIVES:
            run = subprocess.run([SDTOOL, "verify", self.room / name], capture_output=True, text=True, timeout=READS)
            lost += [f"{name}: {line}" for line in run.stdout.splitlines()
                     if line.startswith(("damage ", "foreign ")) and line.split()[1] in labelled]
        return lost


def given_of(talk: client.Talk, one: Closed) -> str:
    """What is wrong with what a daemon gives of a session."""
    try:
        return one.session.by_daemon(talk)
    except client.Refused as why:
        return f"{one.session.lines[0]}: the daemon gives {why}"


def tried(kind: Kind, asked: Asked, tools: pathlib.Path, room: pathlib.Path) -> tuple[Found, float]:
    """A trial in a folder of its own, which is removed; and how many seconds it took."""
    begun, folder = time.monotonic(), room / kind.name.replace(" ", "-").replace(",", "")
    trial = Trial(kind, asked, tools, folder)
    try:
        trial.held()
    except (client.Failed, OSError, ValueError, subprocess.SubprocessError) as why:
        trial.found.faults.append(f"came to no end: {why!r}")
    shutil.rmtree(folder, ignore_errors=True)
    return trial.found, time.monotonic() - begun
