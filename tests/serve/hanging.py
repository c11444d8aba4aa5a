"""A drive that hangs: its syncs, writes or opens are held for ten seconds. The other drive's jobs, restores and lines, `status`,
`requests` and the figures go on; the hung drive's own clients wait, and what was acknowledged is read back. With drives of
two media and of one. tests/serve/run runs it.
"""
import concurrent.futures
import pathlib
import random
import time
import typing

from checks import Checks
from clients import client
from crowds import comes_to, refused
from daemon import SOON, drive
from hardships import Place
from shim import Holds, loaded

# How long a drive hangs; a little more than the figures take to be written again.
SECONDS = 11
# Within so many seconds each line beside it is answered, on a machine that has other work; and how many rounds there are.
WITHIN, ROUNDS = 1.0, 5
# The lines of a job that was closed, and its records.
Kept = tuple[list[str], list[bytes]]
# What is held, and what is done at the hung drive so that it comes.
KINDS = ("sync", "write", "open")
POOLS = ("One", "Two")
# What is asked beside a drive that hangs; each must have come in each round.
ASKED = ("status", "requests", "unmount", "label", "mount", "adopt", "open", "data", "end", "close", "read", "cancel",
         "no drive")


class Pair(Place):
    """A daemon with two drives of these media, whose volumes are of a pool each."""

    def __init__(self, folder: pathlib.Path, media: tuple[str, str]):
        super().__init__(folder)
        self.media, self.figures = media, folder / "figures.prom"
        self.others = folder / "others"
        self.others.mkdir()
        self.conf.write_text(f"block = 1024\nport = {self.port}\n" + drive(media[0], self.volumes) + drive(media[1], self.others))

    def say_all(self, checks: Checks):
        """Labels and mounts a volume at each drive, and has each drive of a pool."""
        with self.talk() as talk:
            for at, pool in enumerate(POOLS):
                for line in (f"label {at + 1} Vol-000{at + 1} {pool} {self.media[at]}", f"mount {at + 1} Vol-000{at + 1}"):
                    checks.check(line, talk.console(line)[0].startswith("ok "))


class Timed:
    """How long each kind of request took at most, and how often it was made."""

    def __init__(self):
        self.most: dict[str, float] = {}
        self.counts: dict[str, int] = {}

    def __call__(self, kind: str, act: typing.Callable[..., typing.Any], *words: typing.Any) -> typing.Any:
        begun = time.monotonic()
        try:
            return act(*words)
        finally:
            took = time.monotonic() - begun
            self.most[kind] = max(took, self.most.get(kind, 0))
            self.counts[kind] = self.counts.get(kind, 0) + 1


def beside(place: Pair, timed: Timed, number: int, kept: list[Kept]):
    """A round of what clients of the other drive ask."""
    with place.talk() as talk:
        for kind, line in (("status", "status"), ("requests", "requests"), ("unmount", "unmount 2"),
                           ("label", f"label 2 New-{number} Two {place.media[1]}"), ("mount", "mount 2 Vol-0002")):
            timed(kind, talk.console, line)
        if timed("adopt", refused, talk.console, "adopt 2 Vol-0009") != "3933 In use":
            raise ValueError("an adoption beside a loaded volume")
        if timed("no drive", refused, client.open_session, talk, 1, "Two", "Disc") != "3910 No drive of this media":
            raise ValueError("an open for no drive")
        ticket = timed("open", client.open_session, talk, 1, "Two", place.media[1])
        records = [random.Random(repr((number, at))).randbytes(at * 700) for at in range(5)]
        timed("data", client.append_packets, talk, ticket, map(client.packet, records))
        timed("end", talk.ask, f"append end session {ticket}")
        timed("close", talk.ask, f"append close session {ticket}")
        kept.append((list(talk.lines()), records))
        came = []
        timed("read", client.read_session, talk, kept[-1][0], lambda index, stream, one: came.append(one))
        if came != records:
            raise ValueError(f"{kept[-1][0]} has other records")
        other = timed("open", client.open_session, talk, 1, "Two", place.media[1])
        timed("data", client.append_packets, talk, other, [client.packet(b"given up")])
        timed("cancel", talk.console, f"cancel {other}")


def beside_until(place: Pair, timed: Timed, end: float, kept: list[Kept]) -> int:
    """Rounds up to that moment; how many."""
    rounds = 0
    while time.monotonic() < end:
        beside(place, timed, rounds, kept)
        rounds += 1
    return rounds


def job(place: Pair, number: int) -> Kept:
    """A job of the drive that hangs: its lines and its records."""
    records = [random.Random(number).randbytes(5000) for _ in range(3)]
    with place.talk() as talk:
        ticket = client.open_session(talk, 1, "One", place.media[0])
        client.append_packets(talk, ticket, map(client.packet, records))
        return client.close_session(talk, ticket), records


def mounted(place: Pair) -> Kept:
    """An operator unloads and mounts the volume of the drive that hangs, and then there is a job."""
    with place.talk() as talk:
        for line in ("unmount 1", "mount 1 Vol-0001"):
            talk.console(line)
    return job(place, 2)


def restored(place: Pair, lines: list[str]) -> Kept:
    """A restore from the drive that hangs."""
    return lines, place.records(lines)


def hung(place: Pair, kind: str, lines: list[str]) -> list[typing.Callable[[], Kept]]:
    """What the clients of the drive do that hangs, each a call."""
    if kind == "open":
        return [lambda: mounted(place), lambda: restored(place, lines), lambda: restored(place, lines)]
    return [lambda at=at: job(place, at) for at in (2, 3, 4)]


def hangs(checks: Checks, folder: pathlib.Path, library: pathlib.Path, kind: str, media: tuple[str, str]) -> tuple:
    """What comes beside a drive whose calls of this kind are held; how long each took at most."""
    what = f"{kind} of {' and '.join(media)}"
    place, timed, kept = Pair(folder / f"hangs-{kind}-{'-'.join(media)}", media), Timed(), []
    holds = Holds(place.folder)
    with place.daemon("--wait", "60", "--metrics", str(place.figures), env=loaded(library, **holds.words)) as daemon:
        place.say_all(checks)
        kept.append(job(place, 1))
        holds.hold(kind, place.volumes)
        with concurrent.futures.ThreadPoolExecutor(4) as pool:
            begun, wall = time.monotonic(), time.time()
            waiting = [pool.submit(one) for one in hung(place, kind, kept[0][0])]
            try:
                checks.check(f"{what}: held", holds.comes(kind), holds.held())
                rounds = pool.submit(beside_until, place, timed, begun + SECONDS, kept)
                concurrent.futures.wait([rounds], timeout=SECONDS + WITHIN)
                written = place.figures.exists() and place.figures.stat().st_mtime > wall
                checks.check(f"{what}: the figures are written", written)
                checks.check(f"{what}: its clients wait", not any(one.done() for one in waiting))
            finally:
                holds.release()
            kept += [one.result(timeout=3 * SOON) for one in waiting]
            checks.check(f"{what}: {ROUNDS} rounds beside it", rounds.result(timeout=3 * SOON) >= ROUNDS, rounds.result())
        for lines, records in kept:
            checks.check(f"{what}: {lines[0]} is read", place.records(lines) == records, lines)
        faults = [line for line in daemon.log() if "3940" in line or "3951" in line]
        checks.same(f"{what}: faults", faults, [])
    for asked in ASKED:
        checks.check(f"{what}: {asked} within {WITHIN} s", timed.most.get(asked, SECONDS) < WITHIN,
                     f"{timed.most.get(asked, -1):.2f} s, of {timed.counts.get(asked, 0)}")
    return what, timed.most, rounds.result()


def a_drive_that_hangs(checks: Checks, folder: pathlib.Path, library: pathlib.Path):
    """All of these at once, each with a daemon of its own."""
    cases = [(kind, media) for kind in KINDS for media in (("File", "Tape"), ("File", "File"))]
    given = comes_to(checks, "drives that hang", *(
        lambda kind=kind, media=media: hangs(checks, folder, library, kind, media) for kind, media in cases))
    for what, most, rounds in given:
        slowest = max(most, key=most.get)
        print(f"a_drive_that_hangs: {what}: {rounds} rounds beside it, the slowest answer {1000 * most[slowest]:.0f} ms "
              f"({slowest}), status {1000 * most['status']:.0f} ms, open {1000 * most['open']:.0f} ms")


GROUPS = (a_drive_that_hangs,)
