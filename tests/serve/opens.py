"""A thread that opens a session is stopped within that, while others go on: an open is one step, at its number. Until then
whoever looks finds its lane without a session, and nobody is refused for it; from then on its pool is the drive's.
tests/serve/run runs it.
"""
import concurrent.futures
import contextlib
import errno
import pathlib
import typing

from checks import Checks
from clients import client
from crowds import refused
from daemon import SOON, drive, until
from hardships import Place
from shim import Holds
from stopped import A_WHILE, console, stopping, threads


class Drives(Place):
    """A place with two drives of one media, each with a volume of each pool, if it says so."""

    def __init__(self, folder: pathlib.Path, settings: str = "", lanes: int = 2):
        super().__init__(folder, settings)
        self.second = folder / "second"
        self.second.mkdir()
        with open(self.conf, "a") as conf:
            conf.write(f"lanes = {lanes}\n" + drive("File", self.second, f"lanes = {lanes}"))

    def label_all(self, checks: Checks):
        for at in (1, 2):
            for pool in ("Red", "Blue"):
                checks.same("label", console(self, f"label {at} {pool}-{at} {pool} File"), "ok labelled")

    def shown(self, kind: str) -> list[str]:
        """The lines of that kind in the status."""
        with self.talk() as talk:
            return [line for line in talk.console("status") if line.split()[0] == kind]


def opens(place: Place, job: int, pool: str) -> object:
    """Opens a session in a talk of its own that ends with it; its number, or the refusal."""
    with place.talk() as talk:
        return refused(client.open_session, talk, job, pool, "File")


def spooled(folder: pathlib.Path, lanes: int) -> Drives:
    spools = folder / "spools"
    place = Drives(folder, f'spool = 100000\nspool_folder = "{spools}"\n', lanes)
    spools.mkdir()
    return place


@contextlib.contextmanager
def stopped_open(place: Place, holds: Holds, pool: concurrent.futures.Executor, checks: Checks,
                 job: int, error: int = 0) -> typing.Iterator[concurrent.futures.Future]:
    """A session is being opened, and held as it clears the spool of its lane. Later that fails with the error, if it isn't 0."""
    for kind in ("open", "truncate", "unlink"):
        holds.hold(kind, place.folder / "spools", error)
    with place.talk() as talk:
        held = pool.submit(refused, client.open_session, talk, job, "Red", "File")
        comes = until(lambda: bool(holds.held()), SOON)
        checks.check("its clearing is held", comes, holds.held())
        # Only this spool is held from now on.
        holds.only(holds.held()[-1].split()[1])
        yield held


def a_held_lane(checks: Checks, folder: pathlib.Path, library: pathlib.Path):
    """An open is stopped while it clears the spool of the only lane of the only drive that is left. Another open isn't refused for
    that: it waits, and gets the lane if the first is refused, and no lane if that gets its number. One of another media waits for
    nobody."""
    for error, first, other in ((errno.EIO, "3920 Spool fault", 3), (0, 3, "3911 No free lane")):
        place = spooled(folder / f"a_held_lane-{error}", 1)
        with open(place.conf, "a") as conf:
            tape = place.folder / "tape"
            tape.mkdir()
            conf.write(drive("Tape", tape))
        with stopping(place, library) as (_, holds, pool), place.talk() as talk:
            checks.same("label", console(place, "label 2 Blue-2 Blue File"), "ok labelled")
            checks.same("mount", console(place, "mount 2 Blue-2"), "ok mounted")
            # The second drive's lane is taken, and the first drive's is held.
            taken = client.open_session(talk, 1, "Blue", "File")
            checks.same("a lane is taken", taken, 1)
            with stopped_open(place, holds, pool, checks, 2, error) as held:
                second = pool.submit(opens, place, 3, "Red")
                concurrent.futures.wait([second], timeout=A_WHILE)
                checks.check("another open isn't answered yet", not second.done(), second)
                checks.same("the lane has no session yet", place.shown("drive"),
                            ["drive 1 File - 0", "drive 2 File Blue-2 1", "drive 3 Tape - 0"])
                with place.talk() as tapes:
                    got = client.open_session(tapes, 4, "Red", "Tape")
                checks.same("an open of another media", got, 2)
                holds.release()
                checks.same("the one that was held", held.result(timeout=SOON), first)
                checks.same("the other", second.result(timeout=SOON), other)


def a_better_drive(checks: Checks, folder: pathlib.Path, library: pathlib.Path):
    """An open is stopped while it clears the spool of a lane of the first drive, and another gets a session there. Then the first
    open gets the second drive, as if it had been begun only now."""
    place = spooled(folder / "a_better_drive", 2)
    with stopping(place, library) as (_, holds, pool), place.talk() as talk, stopped_open(place, holds, pool, checks, 1) as held:
        checks.same("another open", client.open_session(talk, 2, "Red", "File"), 1)
        checks.same("it is at the first drive", place.shown("drive"), ["drive 1 File - 1", "drive 2 File - 0"])
        holds.release()
        checks.same("the one that was held", held.result(timeout=SOON), 2)
        checks.same("it is at the second drive", place.shown("drive"), ["drive 1 File - 1", "drive 2 File - 1"])


def a_mount_after_a_number(checks: Checks, folder: pathlib.Path, library: pathlib.Path):
    """An open is stopped between its number and its beginning at the drive. A mount of another pool comes meanwhile: it waits until
    the session has begun, and is refused as it is after the open. Whatever looks at no pool waits for nobody."""
    place = Drives(folder / "a_mount_after_a_number")
    with stopping(place, library) as (daemon, holds, pool):
        place.label_all(checks)
        # A label holds the drive.
        holds.hold("sync", place.volumes)
        label = pool.submit(console, place, "label 1 Red-3 Red File")
        checks.check("a sync is held", holds.comes("sync"), holds.held())
        # An open gets its number, and waits for the drive. It is held as it wakes.
        before = threads(daemon)
        with place.talk() as talk:
            thread, = until(lambda: threads(daemon) - before, SOON)
            holds.hold("futex", f"{thread}/")
            opened = pool.submit(client.open_session, talk, 1, "Red", "File")
            # Nobody else is at the desk until it waits for the drive.
            concurrent.futures.wait([opened], timeout=A_WHILE)
            checks.same("the session has its number", place.shown("session"), ["session 1 active 0"])
            holds.release("sync")
            checks.same("the label", label.result(timeout=SOON), "ok labelled")
            checks.check("the open is stopped", holds.comes("futex"), holds.held())
            mount = pool.submit(console, place, "mount 1 Blue-1")
            concurrent.futures.wait([mount], timeout=A_WHILE)
            checks.check("the mount waits", not mount.done(), mount)
            checks.same("a line that looks at no pool", console(place, "unmount 1"), "ok unmounted")
            holds.release()
            checks.same("the session begins", opened.result(timeout=SOON), 1)
            checks.same("the mount is refused", mount.result(timeout=SOON), "3932 Other pool or media")
            checks.same("one of its pool", console(place, "mount 1 Red-1"), "ok mounted")


def a_mount_under_way(checks: Checks, folder: pathlib.Path, library: pathlib.Path):
    """A mount is stopped in which a volume of another pool comes to the drive that a session would get for the volume that is loaded
    there still. The session isn't numbered before that has ended, and gets the drive that it gets then; others go on."""
    place = Drives(folder / "a_mount_under_way")
    with stopping(place, library) as (_, holds, pool):
        place.label_all(checks)
        checks.same("mount", console(place, "mount 2 Red-2"), "ok mounted")
        holds.hold("open", place.second / "Blue-2")
        holds.hold("look", place.second / "Blue-2")
        mount = pool.submit(console, place, "mount 2 Blue-2")
        comes = until(lambda: bool(holds.held()), SOON)
        checks.check("its load is held", comes, holds.held())
        with place.talk() as talk:
            opened = pool.submit(client.open_session, talk, 1, "Red", "File")
            concurrent.futures.wait([opened], timeout=A_WHILE)
            checks.check("the open waits", not opened.done(), opened)
            checks.same("no session has a number", place.shown("session"), [])
            checks.same("a line for the other drive", console(place, "label 1 Red-3 Red File"), "ok labelled")
            holds.release()
            checks.same("the mount", mount.result(timeout=SOON), "ok mounted")
            checks.same("the open", opened.result(timeout=SOON), 1)
            checks.same("at which drive it is", place.shown("drive"), ["drive 1 File - 1", "drive 2 File Blue-2 0"])


GROUPS = (a_held_lane, a_better_drive, a_mount_after_a_number, a_mount_under_way)
