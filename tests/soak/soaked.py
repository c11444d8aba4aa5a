"""The daemon of a soak: four drives of eight lanes, its runs one after another, and what is looked at while it is idle."""
import contextlib
import itertools
import os
import pathlib
import re
import signal
import time
import typing

from clients import client
from daemon import WAIT, Daemon, drive, free_port, until
from kept import Closed, Kept
from shim import Holds, loaded

DRIVES, LANES = 4, 8
POOLS = ("Default", "Default", "Default", "Other")
VOLUME, BLOCKS, SPOOLS = 2_000_000, (4096, 64_512), (0, 200_000)
# How long a job waits for a volume, and a client for the daemon; and how long it takes until all of it is idle.
WAITS, PATIENCE, IDLE = 20, 2 * WAIT, 20 * WAIT
# So many volumes of a drive stay at a restart; the older ones are read, and taken away.
STAY = 8
# What it takes for each block and each session of a run at most (docs/use/OPERATIONS.md, 'Memory'), and what may differ besides.
A_BLOCK, A_SESSION, ALL_ELSE = 80, 3_200, 16_000_000


class Site:
    """A folder with the daemon's configuration, its drives' folders, and its runs. The time of a run is a second after the
    last one's, by tests/lib/shim.c, so that no restart has to wait."""

    def __init__(self, folder: pathlib.Path, library: pathlib.Path, kept: Kept, block: int, spool: int):
        self.folder, self.library, self.kept, self.port = folder, library, kept, free_port()
        self.folders = [folder / f"drive-{number}" for number in range(1, DRIVES + 1)]
        for one in self.folders:
            one.mkdir(parents=True)
        self.conf, self.stop_file = folder / "conf", folder / "stop"
        self.conf.write_text(f'port = {self.port}\nblock = {block}\nvolume = {VOLUME}\nspool = {spool}\nspool_folder = "{folder}"\n'
                             + "".join(drive("File", one, f"lanes = {LANES}") for one in self.folders))
        self.holds = Holds(folder)
        self.time, self.names = int(time.time()), itertools.count(1)
        self.daemon: typing.Optional[Daemon] = None
        # The numbers of the run's sessions, as they were answered.
        self.tickets: list[int] = []
        # The threads at the begin of the run, and the memory at each rest of all clients since.
        self.threads, self.memories = 0, []

    def talk(self) -> client.Talk:
        return client.Talk(self.port, timeout=PATIENCE)

    def folder_of(self, one: Closed) -> pathlib.Path:
        """The folder with the session's volumes, whose names begin with the number of their drive."""
        return self.folders[int(one.lines[1].split()[1][1]) - 1]

    def name(self, number: int) -> str:
        return f"D{number}-{next(self.names):06d}"

    def start(self):
        """A run: adopts all volumes that stay, and labels some, so that there is one of each pool."""
        self.tickets = []
        self.time = max(self.time + 1, int(time.time()))
        self.take_old()
        env = loaded(self.library, CLOCK_SECONDS=self.time, **self.holds.words)
        self.daemon = Daemon(self.conf, "--wait", str(WAITS), "--until", str(self.stop_file), port=self.port, env=env)
        with self.talk() as talk:
            for number, folder in enumerate(self.folders, 1):
                for path in sorted(folder.glob("D*[!~]")):
                    self.adopt(talk, number, path.name)
                for pool in sorted(set(POOLS)):
                    talk.console(f"label {number} {self.name(number)} {pool} File")
            talk.terminate()
        if not self.daemon.logs("talk 1 ended: finished"):
            raise OSError("the talk of the begin doesn't end")
        self.threads, self.memories = min(self.figures()["Threads"] for _ in range(50)), []

    def adopt(self, talk: client.Talk, number: int, name: str):
        try:
            talk.console(f"adopt {number} {name}")
            self.kept.count("volumes adopted")
        except client.Refused as why:
            if not str(why).startswith("3931"):
                self.kept.fault(f"{name} is refused: {why}")
            # It was made under a fault, and its label never answered.
            self.kept.count("adoptions refused by 3931")

    def take_old(self):
        """Reads what is on volumes that are old, and takes these away."""
        for folder in self.folders:
            old = sorted(folder.glob("D*[!~]"))[:-STAY]
            self.kept.take_away({path.name for path in old}, self.folder_of)
            for path in old:
                path.unlink()
                path.with_name(f"{path.name}~").unlink(missing_ok=True)
            self.kept.count("volumes read and taken away", len(old))

    def figures(self) -> dict[str, int]:
        """The daemon's memory in bytes and its threads."""
        status = pathlib.Path(f"/proc/{self.daemon.process.pid}/status").read_text()
        return {name: int(re.search(rf"^{name}:\s+(\d+)", status, re.MULTILINE)[1]) * unit
                for name, unit in (("VmRSS", 1024), ("Threads", 1))}

    def kill(self):
        self.daemon.kill()

    def gentle(self, noticed: typing.Callable[[], None]) -> tuple[str, int]:
        """Ends the daemon by its file. Once the daemon has noticed that, so does the caller. What it printed, and its status."""
        self.stop_file.touch()
        try:
            until(lambda: "is there: no connection is taken any more" in self.daemon.logged.read_text(), IDLE)
            noticed()
            status = self.daemon.process.wait(timeout=IDLE)
        finally:
            self.stop_file.unlink()
        return self.daemon.printed(), status

    @contextlib.contextmanager
    def paused(self):
        """The daemon stands still."""
        self.daemon.process.send_signal(signal.SIGSTOP)
        try:
            yield
        finally:
            self.daemon.process.send_signal(signal.SIGCONT)

    @contextlib.contextmanager
    def gone(self, number: int):
        """The folder of a drive isn't there."""
        folder = self.folders[number - 1]
        os.rename(folder, away := folder.with_suffix(".away"))
        try:
            yield
        finally:
            os.rename(away, folder)

    def busy(self) -> list[int]:
        """How many lanes of each drive are taken."""
        with self.talk() as talk:
            return [int(line.split()[4]) for line in talk.console("status")[:DRIVES]]

    def is_idle(self) -> bool:
        """Whether no lane is taken, or isn't soon. Each drive that waits for a volume gets one."""
        def given() -> bool:
            with self.talk() as talk:
                supply(self, talk)
            time.sleep(0.05)
            return not any(self.busy())

        return until(given, IDLE)


def supply(site: Site, talk: client.Talk):
    """Gives each drive that waits for a volume one of its pool."""
    for line in talk.console("requests")[:-1]:
        _, number, pool, media = line.split()
        with contextlib.suppress(client.Refused):
            talk.console(f"unmount {number}")
        with contextlib.suppress(client.Refused):
            talk.console(f"label {number} {site.name(int(number))} {pool} {media}")
            site.kept.count("labels while a drive waits")


def idle(site: Site):
    """What has to hold of a daemon that nobody uses, in a run that nothing ended."""
    kept, number = site.kept, DRIVES * LANES
    if not site.is_idle():
        kept.fault(f"lanes are stuck: {site.busy()} are taken, {site.talk().console('status')}")
    if sorted(site.tickets) != list(range(1, len(site.tickets) + 1)):
        kept.fault(f"numbers of sessions have gaps or come twice: {sorted(site.tickets)[-20:]} of {len(site.tickets)}")
    for _ in range(2):
        with contextlib.ExitStack() as stack:
            talks = [stack.enter_context(site.talk()) for _ in range(number)]
            opened = [client.open_session(talk, 1, "Default", "File") for talk in talks]
            site.tickets += opened
            try:
                site.tickets.append(client.open_session(stack.enter_context(site.talk()), 1, "Default", "File"))
                kept.fault(f"more sessions than {number} lanes")
            except client.Refused as why:
                if not str(why).startswith("3911"):
                    kept.fault(f"all lanes are taken, and an open is refused by {why}")
            for talk, ticket in zip(talks, opened):
                talk.console(f"cancel {ticket}")
        if not site.is_idle():
            kept.fault(f"lanes are stuck after {number} cancels: {site.busy()}")
    kept.count("times that all lanes were taken and given back", 2)
    resources(site)


def resources(site: Site):
    """Threads are as at the begin of the run. Memory is as at the second rest of all clients in it, but for what blocks and sessions
    take: at the first one, which may come soon after the begin, few threads have a heap yet that keeps its pages."""
    kept = site.kept
    if not until(lambda: site.figures()["Threads"] == site.threads, WAIT):
        kept.fault(f"threads: {site.figures()['Threads']} in place of {site.threads}")
    kept.count("rests with the threads of the begin")
    blocks = sum(path.stat().st_size for folder in site.folders for path in folder.glob("D*[!~]")) // 2000
    site.memories.append(has := site.figures()["VmRSS"])
    if len(site.memories) <= 2:
        return
    most = site.memories[1] + blocks * A_BLOCK + len(site.tickets) * A_SESSION + ALL_ELSE
    if has > most:
        kept.fault(f"memory: {has} in place of {site.memories[1]}, {most} at most")
    kept.count("rests with the memory of the run's second")
