"""Volumes that are gone: the file of one that isn't loaded, of the loaded one, the drive's folder, its disk, and one that became
read-only. No job hangs without a word: the log and the figures name the volume, the next one of the pool is taken, and if
there is none the drive asks for one. tests/serve/run runs it.
"""
import contextlib
import os
import pathlib
import shutil
import subprocess
import time
import typing

from checks import Checks
from clients import client
from crowds import comes_to, refused
from daemon import LOCK, Daemon, drive, until
from hardships import HELLO, Place

# So long a job waits for a volume, and so much later its refusal may come.
SECONDS, LATE = 3, 4
# The figures are written so often.
FIGURES = 12
LOST, FAILED = "3930 Volume not on the shelf", "3940 Device fault"
REQUEST = ["request 1 Default File", "ok requests 1"]


class Watched(Place):
    """A daemon with a drive whose volumes are going to be gone, one more drive of another media, and figures."""

    def __init__(self, folder: pathlib.Path):
        super().__init__(folder, "block = 1024\n")
        self.figures, self.others = folder / "figures.prom", folder / "others"
        self.others.mkdir()
        with open(self.conf, "a") as conf:
            conf.write(drive("Tape", self.others))

    def daemon(self, *words: str, **options: typing.Any) -> Daemon:
        return super().daemon("--wait", str(SECONDS), "--metrics", str(self.figures), *words, **options)

    def console(self, line: str) -> list[str]:
        with self.talk() as talk:
            said = refused(talk.console, line)
            return said if isinstance(said, list) else [said]

    def of(self, what: str) -> str:
        """What is checked, with the name of the place: several are tried at once."""
        return f"{self.folder.name}: {what}"

    def names(self, checks: Checks, *names: str):
        for name in names:
            self.label(checks, name)

    def counts(self, name: str) -> bool:
        """Whether the figures have the volume."""
        def has() -> bool:
            return self.figures.exists() and f'sdd_load_faults_total{{drive="1",volume="{name}"}} ' in self.figures.read_text()

        return until(has, FIGURES)

    def volume_of(self, lines: list[str]) -> list[str]:
        return [line.split()[1] for line in lines[1:]]


def told(checks: Checks, place: Watched, daemon: Daemon, name: str, why: str):
    """The log and the figures name a volume that couldn't be loaded."""
    line = f"drive 1: volume {name} can't be loaded: {why}"
    checks.check(place.of(f"the log has {name}"), daemon.logs(line), daemon.log()[-5:])
    checks.check(place.of(f"the figures have {name}"), place.counts(name))


def asks(checks: Checks, place: Watched, daemon: Daemon):
    """A job for which there is no volume: while it waits the drive asks for one, and then it is refused."""
    with place.talk() as talk:
        ticket = client.open_session(talk, 7, "Default", "File")
        client.append_packets(talk, ticket, HELLO)
        talk.ask(f"append end session {ticket}")
        begun = time.monotonic()
        talk.send(client.text_packet(f"append close session {ticket}"))
        asked = until(lambda: place.console("requests") == REQUEST, SECONDS)
        checks.check(place.of("the drive asks"), asked, place.console("requests"))
        checks.same(place.of("the close"), refused(talk.line), "3907 Not yet")
        took = time.monotonic() - begun
        checks.check(place.of("as long as a job may wait"), SECONDS - 1 <= took < SECONDS + LATE, f"{took:.1f} s")
        waits = "drive 1 waits for a volume of pool Default"
        checks.check(place.of("the log says so"), waits in daemon.log(), daemon.log()[-5:])


def serves_again(checks: Checks, place: Watched, name: str):
    """After a label of another volume jobs go on."""
    place.console("unmount 1")
    checks.same(place.of(f"label {name}"), place.console(f"label 1 {name} Default File"), ["ok labelled"])
    place.serves(checks, f"with {name}")


def idle_file(checks: Checks, folder: pathlib.Path):
    """The file of an idle volume is removed: the next volume is taken. Then that of this one too, once it is unloaded: the
    drive asks, a new label ends that."""
    place = Watched(folder / "idle_file")
    with place.daemon() as daemon:
        place.names(checks, "Vol-0001", "Vol-0002")
        (place.volumes / "Vol-0001").unlink()
        lines = within(checks, place)
        checks.same(place.of("the next one is taken"), place.volume_of(lines), ["Vol-0002"])
        told(checks, place, daemon, "Vol-0001", LOST)
        checks.same(place.of("unmount"), place.console("unmount 1"), ["ok unmounted"])
        (place.volumes / "Vol-0002").rename(place.folder / "kept")
        asks(checks, place, daemon)
        told(checks, place, daemon, "Vol-0002", LOST)
        checks.same(place.of("no request is left"), place.console("label 1 Vol-0003 Default File"), ["ok labelled"])
        place.serves(checks, "with another volume")
        checks.same(place.of("unmount"), place.console("unmount 1"), ["ok unmounted"])
        (place.folder / "kept").rename(place.volumes / "Vol-0002")
        checks.same(place.of("one that came back"), place.console("mount 1 Vol-0002"), ["ok mounted"])
        checks.same(place.of("its job"), place.volume_of(place.job()), ["Vol-0002"])
        checks.same(place.of("what was closed"), place.read(lines), b"hello")


def within(checks: Checks, place: Watched) -> list[str]:
    """The lines of a job, which comes to its end while a job may wait for a volume."""
    begun = time.monotonic()
    with contextlib.suppress(client.Refused):
        lines = place.job()
        checks.check(place.of("in time"), time.monotonic() - begun < SECONDS + LATE, time.monotonic() - begun)
        return lines
    checks.check(place.of("a job is closed"), False, "it is refused")
    return []


def loaded_file(checks: Checks, folder: pathlib.Path):
    """The file of the loaded volume is removed: the job that goes there isn't told as closed, and the next volume is taken."""
    place = Watched(folder / "loaded_file")
    with place.daemon() as daemon:
        place.names(checks, "Vol-0001", "Vol-0002")
        checks.same(place.of("its job"), place.volume_of(within(checks, place)), ["Vol-0001"])
        (place.volumes / "Vol-0001").unlink()
        checks.same(place.of("the next job"), refused(place.job), "3905 Session failed")
        failed = "drive 1: the device failed with volume Vol-0001"
        checks.check(place.of("the log has Vol-0001"), daemon.logs(failed), daemon.log()[-5:])
        checks.same(place.of("the next one is taken"), place.volume_of(within(checks, place)), ["Vol-0002"])


def whole_folder(checks: Checks, folder: pathlib.Path):
    """The drive's folder is removed: the drive asks for a volume. Once there is a folder, it is served again."""
    place = Watched(folder / "whole_folder")
    with place.daemon() as daemon:
        place.names(checks, "Vol-0001", "Vol-0002")
        shutil.rmtree(place.volumes)
        asks(checks, place, daemon)
        for name in ("Vol-0001", "Vol-0002"):
            told(checks, place, daemon, name, LOST)
        checks.same(place.of("label in no folder"), place.console("label 1 Vol-0003 Default File"), [FAILED])
        place.volumes.mkdir()
        serves_again(checks, place, "Vol-0004")


@contextlib.contextmanager
def disk_at(path: pathlib.Path) -> typing.Iterator[bool]:
    """A disk in memory that is mounted there; none if that can't be."""
    mount = ["mount", "-t", "tmpfs", "-o", "size=16m", "none", path]
    if os.geteuid() != 0 or subprocess.run(mount, capture_output=True).returncode:
        yield False
        return
    try:
        yield True
    finally:
        subprocess.run(["umount", "-l", path], capture_output=True)


def whole_disk(checks: Checks, folder: pathlib.Path):
    """The drive's disk is unmounted below it. It comes back, and an operator mounts a volume of it."""
    place = Watched(folder / "whole_disk")
    with disk_at(place.volumes) as is_there:
        if not is_there:
            print("whole_disk: not tried, no file system can be mounted here")
            return
        with place.daemon() as daemon:
            place.names(checks, "Vol-0001")
            subprocess.run(["umount", "-l", place.volumes], check=True)
            asks(checks, place, daemon)
            told(checks, place, daemon, "Vol-0001", LOST)
            serves_again(checks, place, "Vol-0002")


def read_only_disk(checks: Checks, folder: pathlib.Path):
    """The drive's disk is read-only: its volumes can't be loaded. Once it can be written, an operator mounts one, and a job
    goes on."""
    place = Watched(folder / "read_only_disk")
    with disk_at(place.volumes) as is_there:
        if not is_there:
            print("read_only_disk: not tried, no file system can be mounted here")
            return
        # A disk of which a file is open to be written can't become read-only; so the daemon has no lock here.
        (place.volumes / LOCK).mkdir()
        with place.daemon() as daemon:
            place.names(checks, "Vol-0001", "Vol-0002")
            subprocess.run(["mount", "-o", "remount,ro", place.volumes], check=True)
            asks(checks, place, daemon)
            for name in ("Vol-0001", "Vol-0002"):
                told(checks, place, daemon, name, FAILED)
            checks.same(place.of("label"), place.console("label 1 Vol-0003 Default File"), [FAILED])
            subprocess.run(["mount", "-o", "remount,rw", place.volumes], check=True)
            checks.same(place.of("mount"), place.console("mount 1 Vol-0002"), ["ok mounted"])
            checks.same(place.of("its job"), place.volume_of(within(checks, place)), ["Vol-0002"])


def volumes_that_are_gone(checks: Checks, folder: pathlib.Path, _: pathlib.Path):
    """All of these at once, each with a daemon of its own."""
    acts = (idle_file, loaded_file, whole_folder, whole_disk, read_only_disk)
    comes_to(checks, "each to its end", *(lambda act=act: act(checks, folder) for act in acts))


GROUPS = (volumes_that_are_gone,)
