"""Operators and clients at once, drawn, hundreds of times: each time there is an order of their lines that explains all answers
(tests/serve/order.py), and sessions are numbered without a gap. tests/serve/run runs it; with `--runs N` so many times.
"""
import collections
import dataclasses
import pathlib
import random
import sys
import threading
import time
import typing

import order
from checks import Checks
from clients import client
from crowds import refused
from daemon import WAIT, Daemon, drive, free_port
from hardships import HELLO
from order import Drive, Line, Setting, State
from shim import loaded
from volumes import daemon_label

SEED, RUNS, A_DAEMON = 70, 40, 20
MEDIA, LANES, POOLS = ("File", "File", "Tape"), 2, ("Red", "Blue")
OPERATORS, CLIENTS, LINES = 3, 3, 4
# Of so many calls of the daemon in a hundred each waits up to so many microseconds, so that threads meet in many orders.
PAUSES = (15, 1500)
# How often each answer comes at least in a hundred runs, and how often a wrong answer that is planted is found.
LEAST = {"label ok labelled": 40, f"label {order.IN_USE}": 20, f"label {order.LABELLED}": 40, f"label {order.BAD_POOL}": 10,
         "adopt ok adopted": 10, f"adopt {order.LABELLED}": 40, f"adopt {order.IN_USE}": 15, f"adopt {order.NOT_THERE}": 40,
         "mount ok mounted": 40, f"mount {order.IN_USE}": 2, f"mount {order.BAD_POOL}": 15, f"mount {order.NOT_THERE}": 20,
         "unmount ok unmounted": 60, "open ticket": 250, f"open {order.NO_LANE}": 2, f"open {order.NO_DRIVE}": 30,
         "close closed": 100, "cancel ok cancelled": 100, "status": 60, "requests ok requests 0": 30, "planted": 70, "found": 50}


class Drives:
    """A daemon with three drives of two media, each with a volume of each pool, and lines that are told to it."""

    def __init__(self, folder: pathlib.Path, seed: int, library: pathlib.Path):
        folder.mkdir()
        self.folders, self.conf, self.port = [], folder / "conf", free_port()
        for number in range(len(MEDIA)):
            self.folders.append(folder / f"drive-{number + 1}")
            self.folders[-1].mkdir()
        self.conf.write_text(f"port = {self.port}\n" + "".join(
            drive(media, one, f"lanes = {LANES}") for media, one in zip(MEDIA, self.folders)))
        self.daemon = Daemon(self.conf, "--wait", "60", port=self.port,
                             env=loaded(library, PAUSES=f"{seed} {PAUSES[0]} {PAUSES[1]}"))
        self.ticket = 1
        with self.talk() as talk:
            for at, media in enumerate(MEDIA, 1):
                for pool in POOLS:
                    talk.console(f"label {at} Base-{at}-{pool} {pool} {media}")

    def talk(self) -> client.Talk:
        return client.Talk(self.port, timeout=WAIT)

    def begins(self) -> State:
        """The state before a run, in which no volume is loaded, no session goes on, and each drive has the first pool."""
        with self.talk() as talk:
            for at in range(len(MEDIA)):
                talk.console(f"unmount {at + 1}")
        talks = [self.talk() for _ in MEDIA]
        opened = [client.open_session(talk, 1, POOLS[0], media) for talk, media in zip(talks, MEDIA)]
        for talk, ticket in zip(talks, opened):
            talk.console(f"cancel {ticket}")
            talk.__exit__()
        if opened != list(range(self.ticket, self.ticket + len(MEDIA))):
            raise ValueError(f"numbers {opened} in place of {self.ticket} and on")
        self.ticket += len(MEDIA)
        with self.talk() as talk:
            seen, _, _ = seen_in(talk.console("status"))
        return State(tuple(Drive(None, POOLS[0], (), volumes) for _, volumes in seen), self.ticket, frozenset())


class Run:
    """One run: what its clients said, and what they were answered."""

    def __init__(self, drives: Drives, number: int):
        self.drives, self.number, self.lines, self.lock = drives, number, [], threading.Lock()
        self.numbers = random.Random(repr((SEED, number)))
        self.names = [f"{kind}-{number}-{at}" for kind in ("New", "Old") for at in (1, 2)]
        self.together = threading.Barrier(OPERATORS + CLIENTS)
        self.faults: list[str] = []

    def tell(self, kind: str, words: tuple, act: typing.Callable[[], typing.Any], opened: int = -1) -> tuple[int, typing.Any]:
        """Does a line, and keeps it. Gives its place and its answer."""
        begun = time.monotonic_ns()
        try:
            answer = act()
        except client.Refused as why:
            answer = str(why)
        with self.lock:
            self.lines.append(Line(kind, words, begun, time.monotonic_ns(), answer, opened))
            return len(self.lines) - 1, answer

    def operator(self, numbers: random.Random):
        with self.drives.talk() as talk:
            self.together.wait(timeout=WAIT)
            for _ in range(LINES):
                at, name = numbers.randrange(len(MEDIA)), numbers.choice(self.names)
                kind, = numbers.choices(("label", "adopt", "mount", "unmount", "status", "requests"), (5, 4, 3, 3, 2, 1))
                getattr(self, kind)(talk, numbers, at, name)

    def label(self, talk: client.Talk, numbers: random.Random, at: int, name: str):
        pool, media = numbers.choice(POOLS), MEDIA[at] if numbers.random() < 0.9 else "Disc"
        self.tell("label", (at, name, pool, media), lambda: talk.console(f"label {at + 1} {name} {pool} {media}")[0])

    def adopt(self, talk: client.Talk, _: random.Random, at: int, name: str):
        def act():
            said = talk.console(f"adopt {at + 1} {name}")[0]
            size = (self.drives.folders[at] / name).stat().st_size
            return "ok adopted" if said == f"ok adopted {size} 1" else said

        self.tell("adopt", (at, name), act)

    def mount(self, talk: client.Talk, numbers: random.Random, at: int, name: str):
        name = numbers.choice([name, *(f"Base-{at + 1}-{pool}" for pool in POOLS)])
        self.tell("mount", (at, name), lambda: talk.console(f"mount {at + 1} {name}")[0])

    def unmount(self, talk: client.Talk, _: random.Random, at: int, __: str):
        self.tell("unmount", (at,), lambda: talk.console(f"unmount {at + 1}")[0])

    def requests(self, talk: client.Talk, *_: typing.Any):
        self.tell("requests", (), lambda: talk.console("requests")[-1])

    def status(self, talk: client.Talk, *_: typing.Any):
        self.tell("status", (), lambda: seen_in(talk.console("status")))

    def client(self, numbers: random.Random):
        with self.drives.talk() as talk:
            self.together.wait(timeout=WAIT)
            for _ in range(LINES // 2):
                pool, media = numbers.choice(POOLS), numbers.choice((*MEDIA, *MEDIA, "Disc"))
                place, answer = self.tell("open", (pool, media), lambda: ("ticket", client.open_session(talk, 1, pool, media)))
                if answer[0] != "ticket":
                    continue
                if numbers.random() < 0.5:
                    self.tell("cancel", (), lambda: talk.console(f"cancel {answer[1]}")[0], place)
                    # The talk learns of it by a command of the session.
                    self.same_end(refused(talk.ask, f"append end session {answer[1]}"))
                else:
                    self.tell("close", (), lambda: closed(talk, answer[1]), place)

    def same_end(self, said: str) -> None:
        if said != "3906 Session cancelled":
            raise ValueError(said)

    def held(self) -> None:
        """Has all of them at once."""
        shelf = {name for name in self.names if name.startswith("Old")}
        for at, name in enumerate(sorted(shelf)):
            (self.drives.folders[at] / name).write_bytes(
                daemon_label(name.encode(), pool=POOLS[at].encode(), media=MEDIA[at].encode()))
        threads = [threading.Thread(target=self._guarded, args=(act, random.Random(repr((SEED, self.number, act.__name__, at)))))
                   for act, count in ((self.operator, OPERATORS), (self.client, CLIENTS)) for at in range(count)]
        for thread in threads:
            thread.start()
        for thread in threads:
            thread.join()

    def _guarded(self, act: typing.Callable[[random.Random], None], numbers: random.Random):
        try:
            act(numbers)
        except (client.Failed, OSError, ValueError, threading.BrokenBarrierError) as why:
            self.faults.append(repr(why))
            self.together.abort()

    def setting(self) -> Setting:
        """Of the volumes in the folders those that this run may name."""
        shelves: list[dict[str, str]] = [{} for _ in MEDIA]
        for at in (0, 1):
            shelves[at][f"Old-{self.number}-{at + 1}"] = POOLS[at]
        return Setting(MEDIA, LANES, tuple(shelves))


def closed(talk: client.Talk, ticket: int) -> tuple[str, str]:
    """Closes a session with a record, and gives the volume that has it."""
    client.append_packets(talk, ticket, HELLO)
    talk.ask(f"append end session {ticket}")
    talk.ask(f"append close session {ticket}")
    _, span = talk.lines()
    return "closed", span.split()[1]


def seen_in(lines: list[str]) -> tuple:
    """What a status tells: of each drive the loaded volume and its volumes; how many of its lanes are taken; and the numbers
    of the sessions that go on."""
    words = [line.split() for line in lines]
    heads = [one for one in words if one[0] == "drive"]
    volumes = [[] for _ in heads]
    at = -1
    for one in words:
        if one[0] == "volume":
            # A drive's volumes begin with the one that was labelled there first.
            at += one[1] == f"Base-{at + 2}-{POOLS[0]}"
            volumes[at].append((one[1], one[2]))
    live = frozenset(int(one[1]) for one in words if one[0] == "session" and one[2] in ("active", "ended"))
    return (tuple((None if head[3] == "-" else head[3], tuple(of)) for head, of in zip(heads, volumes)),
            tuple(int(head[4]) for head in heads), live)


def counted(line: Line) -> str:
    """The kind of a line and of its answer."""
    if line.kind == "status":
        return line.kind
    return f"{line.kind} {line.answer if isinstance(line.answer, str) else line.answer[0]}"


def orders(checks: Checks, folder: pathlib.Path, library: pathlib.Path):
    """All answers of each run have an order that explains them. Numbers of sessions have no gap, as the next run begins."""
    runs = int(sys.argv[sys.argv.index("--runs") + 1]) if "--runs" in sys.argv else RUNS
    counts: collections.Counter = collections.Counter()
    drives = None
    try:
        for number in range(runs):
            if number % A_DAEMON == 0:
                if drives:
                    drives.daemon.kill()
                drives = Drives(folder / f"orders-{number}", number, library)
            begin, run = drives.begins(), Run(drives, number)
            run.held()
            checks.same(f"run {number} came to its end", run.faults, [])
            tickets = sorted(line.answer[1] for line in run.lines if line.kind == "open" and line.answer[0] == "ticket")
            checks.same(f"numbers of run {number}", tickets, list(range(drives.ticket, drives.ticket + len(tickets))))
            drives.ticket += len(tickets)
            counts.update(map(counted, run.lines))
            is_so = order.is_explained(run.setting(), begin, run.lines)
            checks.check(f"run {number} has an order", is_so, begin, *told(run.lines))
            if is_so:
                plant(run, begin, counts)
    finally:
        if drives:
            drives.daemon.kill()
    print(f"orders: {runs} runs of seed {SEED}:", ", ".join(f"{count} {kind}" for kind, count in sorted(counts.items())))
    few = {kind: counts[kind] for kind, least in LEAST.items() if counts[kind] < least * runs // 100}
    checks.same("what came too rarely", few, {})


def wrong(line: Line) -> typing.Any:
    """An answer that might have come and didn't, or none."""
    if line.kind in ("label", "adopt"):
        return order.LABELLED if line.answer.startswith("ok ") else f"ok {line.kind}ed" if line.answer == order.LABELLED else None
    if line.kind == "mount":
        return order.BAD_POOL if line.answer == "ok mounted" else "ok mounted"
    if line.kind == "open" and line.answer != order.NO_DRIVE:
        return order.NO_LANE if line.answer[0] == "ticket" else None
    if line.kind == "status":
        drives, busy, live = line.answer
        return drives, (*busy[:-1], busy[-1] + 1), live
    return None


def plant(run: Run, begin: State, counts: collections.Counter):
    """A wrong answer in place of a drawn one has an order only if others were told at the same time. Counts how many have
    none."""
    at, answer = run.numbers.choice([(at, wrong(line)) for at, line in enumerate(run.lines) if wrong(line) is not None])
    lines = [*run.lines[:at], dataclasses.replace(run.lines[at], answer=answer), *run.lines[at + 1:]]
    counts["planted"] += 1
    counts["found"] += not order.is_explained(run.setting(), begin, lines)


def told(lines: list[Line]) -> list[str]:
    """The lines of a run in the order in which they were begun, a microsecond after another, for a reader."""
    first = min(line.begun for line in lines)
    return [f"\n  {(line.begun - first) // 1000:7} {(line.answered - first) // 1000:7} {line.kind} {line.words} "
            f"{line.opened if line.opened >= 0 else ''} {line.answer}" for line in sorted(lines, key=lambda line: line.begun)]


RED = (("Base", "Red"),)
# Lines of a drive `File` with a lane, in which a volume is loaded, and one without; and whether they have an order.
KNOWN = (
    ("a name that is taken for a while",
     [Line("label", (0, "X", "Red", "File"), 0, 9, order.IN_USE), Line("label", (1, "X", "Red", "File"), 1, 2, order.LABELLED)],
     False),
    ("a name that was taken", [Line("label", (1, "X", "Red", "File"), 0, 9, "ok labelled"),
                               Line("label", (1, "X", "Red", "File"), 1, 2, order.LABELLED)], True),
    ("a name that was taken later", [Line("label", (1, "X", "Red", "File"), 3, 9, "ok labelled"),
                                     Line("label", (1, "X", "Red", "File"), 1, 2, order.LABELLED)], False),
    ("a number that is left out", [Line("open", ("Red", "File"), 0, 9, ("ticket", 2))], False),
    ("a number that is given twice", [Line("open", ("Red", "File"), at, 9, ("ticket", 1)) for at in range(2)], False),
    ("numbers against the time", [Line("open", ("Red", "File"), 0, 1, ("ticket", 2)),
                                  Line("open", ("Red", "File"), 2, 3, ("ticket", 1))], False),
    ("a lane for two", [Line("open", ("Red", "File"), at, 9, ("ticket", 1 + at)) for at in range(3)], False),
    ("no lane beside one that is given back",
     [Line("open", ("Red", "File"), 0, 1, ("ticket", 1)), Line("open", ("Red", "File"), 2, 3, ("ticket", 2)),
      Line("cancel", (), 4, 9, "ok cancelled", 0), Line("open", ("Red", "File"), 5, 6, order.NO_LANE)], True),
    ("no lane after one was given back",
     [Line("open", ("Red", "File"), 0, 1, ("ticket", 1)), Line("open", ("Red", "File"), 2, 3, ("ticket", 2)),
      Line("cancel", (), 4, 5, "ok cancelled", 0), Line("open", ("Red", "File"), 6, 7, order.NO_LANE)], False),
    ("a number that others were given before",
     [Line("open", ("Red", "File"), 0, 9, ("ticket", 3)), Line("open", ("Red", "File"), 1, 2, ("ticket", 1)),
      Line("open", ("Red", "File"), 3, 4, order.NO_LANE), Line("cancel", (), 5, 6, "ok cancelled", 1),
      Line("open", ("Red", "File"), 7, 8, ("ticket", 2))], False),
    ("a close on another volume", [Line("open", ("Red", "File"), 0, 1, ("ticket", 1)),
                                   Line("close", (), 2, 3, ("closed", "Other"), 0)], False),
)


def known_orders(checks: Checks, _: pathlib.Path, __: pathlib.Path):
    """The search for an order, over lines of which it is known whether they have one."""
    begin = State((Drive("Base", None, (), RED), Drive(None, None, (), (("Base-2", "Red"),))), 1, frozenset())
    setting = Setting(("File", "File"), 1, ({}, {}))
    for what, lines, wanted in KNOWN:
        checks.same(what, order.is_explained(setting, begin, lines), wanted)


GROUPS = (known_orders, orders)
