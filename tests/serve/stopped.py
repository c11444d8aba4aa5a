"""A thread of the daemon is stopped within a line, at a call on a file or as it wakes from a wait for a lock, while others go
on: a lane is freed for the session that held it and no other, a refused open uses no number, and a name that is being
claimed is no claim yet. tests/serve/run runs it.
"""
import concurrent.futures
import contextlib
import errno
import os
import pathlib
import typing

from checks import Checks
from clients import client
from crowds import refused
from daemon import SOON, Daemon, until
from hardships import Place
from shim import Holds, loaded

# So long is waited for what may not come.
A_WHILE = 1
# A volume of so many bytes has room for its label and one block, and not for a second one.
ONE_BLOCK = "block = 1024\nvolume = 2048\nqueue = 4\n"
# Records of which one block is sent, and another waits in the session.
LARGE = [client.packet(b"x" * 900)] * 3


@contextlib.contextmanager
def stopping(place: Place, library: pathlib.Path, *words: str) -> typing.Iterator[tuple]:
    """A daemon whose calls can be held, and what holds them; what is held is let go in the end."""
    holds = Holds(place.folder)
    with place.daemon(*words, env=loaded(library, **holds.words)) as daemon, concurrent.futures.ThreadPoolExecutor(4) as pool:
        try:
            yield daemon, holds, pool
        finally:
            holds.release()


def threads(daemon: Daemon) -> set[int]:
    return set(map(int, os.listdir(f"/proc/{daemon.process.pid}/task")))


def console(place: Place, line: str) -> str:
    """The answer to a line of the operator, or its refusal, in a talk of its own."""
    with place.talk() as talk:
        answer = refused(talk.console, line)
        return answer if isinstance(answer, str) else answer[0]


def a_lane_of_another(checks: Checks, folder: pathlib.Path, library: pathlib.Path):
    """A client that looks whether a lane is free is stopped in between. Meanwhile the lane is freed, taken by another session,
    and given back with a block in the drive's hand. The lane isn't free for what was seen before."""
    place = Place(folder / "a_lane_of_another", ONE_BLOCK)
    with open(place.conf, "a") as conf:
        conf.write("lanes = 1\n")
    with stopping(place, library, "--wait", "30") as (daemon, holds, pool):
        place.label(checks)
        # The first session is given up with a block that is being written.
        holds.hold("write", place.volumes)
        with place.talk() as talk:
            first = client.open_session(talk, 1, "Default", "File")
            sent = pool.submit(client.append_packets, talk, first, LARGE)
            checks.check("a write is held", holds.comes("write"), holds.held())
            sent.result(timeout=SOON)
            talk.console(f"cancel {first}")
        # Another client looks for a free lane, and may have to wait for the drive. It is held as it wakes.
        before = threads(daemon)
        with place.talk() as looks:
            thread, = until(lambda: threads(daemon) - before, SOON)
            holds.hold("futex", f"{thread}/")
            looked = pool.submit(looks.console, "status")
            concurrent.futures.wait([looked], timeout=A_WHILE)
            holds.release("write")
            is_held = holds.comes("futex", seconds=0 if looked.done() else A_WHILE)
            second = until(lambda: opened(place, pool), SOON)
            checks.check("the lane is free once", second, console(place, "status"))
            full = until(lambda: "drive 1 waits for a volume of pool Default" in daemon.log(), SOON)
            checks.check("its block waits for a volume", full, daemon.log())
            holds.release()
            looked.result(timeout=SOON)
        print(f"a_lane_of_another: the client that looked was {'' if is_held else 'not '}stopped at a lock")
        checks.same("its lane is taken", console(place, "status"), "drive 1 File Vol-0001 1")
        with place.talk() as talk:
            checks.same("no other gets it", refused(client.open_session, talk, 3, "Default", "File"), "3911 No free lane")
        checks.same("unmount", console(place, "unmount 1"), "ok unmounted")
        checks.same("label", console(place, "label 1 Vol-0002 Default File"), "ok labelled")
        free = until(lambda: console(place, "status").endswith(" 0"), SOON)
        checks.check("it is free in the end", free, console(place, "status"))
        place.serves(checks, "behind them")


def opened(place: Place, pool: concurrent.futures.Executor) -> int:
    """Has a session that sends a block and breaks off; its number, or 0 if there is no lane for it."""
    with place.talk() as talk:
        try:
            ticket = client.open_session(talk, 2, "Default", "File")
        except client.Refused:
            return 0
        talk.ask(f"append data {ticket}")
        talk.send(client.text_packet("1 2 0"), *LARGE, client.signal(client.END_OF_DATA), client.signal(client.END_OF_DATA))
        pool.submit(talk.line).result(timeout=SOON)
    return ticket


def a_refused_number(checks: Checks, folder: pathlib.Path, library: pathlib.Path):
    """A spool that can't be cleared is stopped in its clearing, while another client opens a session at the other drive. The
    refused open uses no number."""
    spools = folder / "a_refused_number" / "spools"
    place = Place(folder / "a_refused_number", f'spool = 100000\nspool_folder = "{spools}"\n')
    spools.mkdir()
    with open(place.conf, "a") as conf:
        conf.write(place.conf.read_text().split("[[drive]]")[1].join(["[[drive]]", ""]).replace('"File"', '"Tape"'))
    with stopping(place, library) as (_, holds, pool):
        place.label(checks)
        numbers = []
        for turn in range(3):
            holds.release()
            seen = len(holds.held())
            for kind in ("open", "truncate", "unlink"):
                holds.hold(kind, spools, errno.EIO)
            with place.talk() as first, place.talk() as second:
                fails = pool.submit(refused, client.open_session, first, 1, "Default", "File")
                comes = until(lambda: len(holds.held()) > seen, SOON)
                checks.check("its clearing is held", comes, holds.held())
                spool = holds.held()[-1].split()[1]
                # Only this one is held from now on, and others are cleared.
                holds.only(spool)
                numbers.append(client.open_session(second, 2, "Default", "Tape"))
                holds.release()
                checks.same("a spool that can't be cleared", fails.result(timeout=SOON), "3920 Spool fault")
                numbers.append(client.open_session(first, 1, "Default", "File"))
        checks.same("numbers", numbers, list(range(1, len(numbers) + 1)))
        place.serves(checks, "behind them")


def a_refused_claim(checks: Checks, folder: pathlib.Path, library: pathlib.Path):
    """A label or an adoption that is to be refused, since a volume is loaded, is stopped while its drive is at work. Another
    client names that volume at a free drive meanwhile: it waits for the first line's end, or is answered as by itself; and
    others wait for nobody."""
    for line, refusal in (("label 1 Vol-0009 Default File", "3933 In use"), ("adopt 1 Vol-0009", "3933 In use")):
        place = Place(folder / f"a_refused_claim-{line.split()[0]}")
        tape = place.folder / "tape"
        tape.mkdir()
        with open(place.conf, "a") as conf:
            conf.write(place.conf.read_text().split("[[drive]]")[1].join(["[[drive]]", ""])
                       .replace('"File"', '"Tape"').replace(str(place.volumes), str(tape)))
        with stopping(place, library) as (_, holds, pool):
            place.label(checks)
            checks.same("mount", console(place, "mount 1 Vol-0001"), "ok mounted")
            holds.hold("sync", place.volumes)
            closes = pool.submit(place.job)
            checks.check("a sync is held", holds.comes("sync"), holds.held())
            first = pool.submit(console, place, line)
            concurrent.futures.wait([first], timeout=A_WHILE)
            second = pool.submit(console, place, "label 2 Vol-0009 Default Tape")
            checks.same("another name", console(place, "label 2 Vol-0008 Default Tape"), "ok labelled")
            concurrent.futures.wait([second], timeout=A_WHILE)
            holds.release()
            checks.same("the refused line", first.result(timeout=SOON), refusal)
            checks.same("the other line", second.result(timeout=SOON), "ok labelled")
            checks.same("named once", console(place, "label 2 Vol-0009 Default Tape"), "3935 Volume already labelled")
            checks.same("the job", place.read(closes.result(timeout=SOON)), b"hello")


GROUPS = (a_lane_of_another, a_refused_number, a_refused_claim)
