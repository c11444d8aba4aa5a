"""Clients of a daemon on a disk that keeps a log: jobs of many sizes over two drives, whose small volumes fill up, some
cancelled or broken off; an operator who labels volumes; the system's own writing back; a disk that is full for a while; and
a daemon that is killed, started again, and adopts. What is answered is put into the log as a mark, and kept as a promise.
"""
import collections
import contextlib
import ctypes
import itertools
import os
import pathlib
import random
import re
import threading
import time
import typing

import daemon
from acknowledged import Records, Session
from clients import client
from daemon import WAIT, Daemon, drive, free_port, later_second
from disk import LIBC
from promises import DRIVES, Closed, Labelled, Promise

JOBS, POOLS = 7, ("Default", "Default", "Other")
SIZES = (0, 1, 1, 100, 100, 3000, 3000, 20_000, 64_476, 64_500, 65_536, 200_000)
LASTS = (1, 1, 1, 2, 3, 5, 12)
VOLUME, BLOCKS, SPOOLS = 1_000_000, (4096, 64_512, 200_000), (0, 300_000)
# Of a hundred jobs so many are cancelled, and so many are broken off.
CANCELLED, BROKEN_OFF = 7, 8
# The mean pause between the records of a job; for how long the disk is full; and for how long a client waits for the daemon.
PAUSE, FULL, PATIENCE = 0.08, 0.4, 4 * WAIT
# The file that fills the disk.
FILLER = "filler"
WRITE_BACK = 2  # SYNC_FILE_RANGE_WRITE
# A part of a recording takes no longer; and so long pass between two looks whether a drive waits, and the like.
MOST_SECONDS, LOOKS = 600, 0.1
# A close is asked for again within this time, while its job waits for a volume.
client.CLOSING = 10


# What the log has of a volume at the start: that it is adopted, or why it isn't.
TOLD = re.compile(r"drive \d+: volume (\S+) (?:is adopted up to .*|can't be adopted: (.*)|((?:is damaged at|isn't adopted).*))")


class Serving:
    """A daemon over the folders of the drives below a mount. At its start it adopts all that is there, by its notes."""

    def __init__(self, room: pathlib.Path, folder: pathlib.Path, env: dict[str, str], block: int = BLOCKS[1], spool: int = 0):
        self.room, self.port, conf = room, free_port(), folder / f"conf-{time.monotonic_ns()}"
        drives = "".join(drive("File", room / name) for name in DRIVES)
        conf.write_text(f'port = {self.port}\nblock = {block}\nvolume = {VOLUME}\nspool = {spool}\n'
                        f'spool_folder = "{folder}"\n{drives}')
        later_second()
        self.daemon = Daemon(conf, "--adopt", "--wait", "60", port=self.port, program=daemon.SDD, env=env)
        with self.talk() as talk:
            talk.console("requests")
        told = [found.groups() for line in self.daemon.log() if (found := TOLD.fullmatch(line))]
        self.adopted = [name for name, refusal, damage in told if not (refusal or damage)]
        self.refused: dict[str, str] = {name: refusal or damage for name, refusal, damage in told if refusal or damage}

    def talk(self) -> client.Talk:
        return client.Talk(self.port, timeout=PATIENCE)

    def kill(self):
        self.daemon.kill()


class Work:
    """What is done on a mount for some seconds."""

    def __init__(self, room: pathlib.Path, folder: pathlib.Path, env: dict[str, str], seed: str,
                 mark: typing.Callable[[str], None]):
        self.room, self.folder, self.env, self.seed, self.mark = room, folder, env, seed, mark
        self.promises: list[Promise] = []
        self.counts: collections.Counter = collections.Counter()
        self._names, self._lock = itertools.count(1), threading.Lock()
        self._serving: typing.Optional[Serving] = None
        self._over, self._open = threading.Event(), threading.Event()

    def hold(self, closes: int, kills: int):
        """Works until so many sessions are closed, with so many kills of the daemon meanwhile, and one at the end."""
        self.mark("ready")
        numbers = random.Random(self.seed)
        tasks = [self._job] * JOBS + [self._label, self._write_back]
        threads = [threading.Thread(target=self._again, args=(number, task)) for number, task in enumerate(tasks)]
        try:
            for run in range(kills + 1):
                serving = Serving(self.room, self.folder, self.env, numbers.choice(BLOCKS), numbers.choice(SPOOLS))
                self.counts["runs"] += 1
                self.counts.update({f"adoption refused by {why}": 1 for why in serving.refused.values()})
                self._serving = serving
                self._begin(serving)
                self._open.set()
                if run == 0:
                    for thread in threads:
                        thread.start()
                wanted = closes * (run + 1) // (kills + 1)
                if run == kills // 2:
                    self._comes_to(wanted - closes // (kills + 1) // 2)
                    self._fill()
                self._comes_to(wanted)
                self._open.clear()
                serving.kill()
        finally:
            self._over.set()
            self._open.set()
            if self._serving:
                self._serving.kill()
            for thread in threads:
                if thread.ident:
                    thread.join()

    def _comes_to(self, closes: int):
        """So many sessions are closed."""
        ends = time.monotonic() + MOST_SECONDS
        while self.counts["closed"] < closes:
            time.sleep(LOOKS)
            if time.monotonic() > ends:
                raise OSError(f"only {self.counts['closed']} sessions are closed")

    def _again(self, number: int, task: typing.Callable[[client.Talk, random.Random], None]):
        """A client that does one task after another, a few in a talk, also over restarts of the daemon."""
        numbers = random.Random(repr((self.seed, number)))
        while not self._over.is_set():
            self._open.wait()
            serving = self._serving
            with contextlib.suppress(client.Failed, OSError):
                with serving.talk() as talk:
                    for _ in range(numbers.randint(1, 6)):
                        task(talk, numbers)
            time.sleep(LOOKS)

    def _keep(self, kind: type, what: typing.Any):
        """What was answered is due from here on."""
        with self._lock:
            self.promises.append(kind(what, mark := f"{kind.__name__.lower()} {len(self.promises)}"))
            self.mark(mark)
            self.counts[kind.__name__.lower()] += 1

    def _job(self, talk: client.Talk, numbers: random.Random):
        ticket = client.open_session(talk, numbers.randint(1, 99), numbers.choice(POOLS), "File")
        records, last, fate = Records(), numbers.choice(LASTS), numbers.randrange(100)
        for index in range(1, last + 1):
            data = [numbers.randbytes(numbers.choice(SIZES)) for _ in range(numbers.randint(1, 3))]
            stream = numbers.randint(1, 5)
            client.append_packets(talk, ticket, map(client.packet, data), index, stream)
            for one in data:
                records.take(index, stream, one)
            if index == last // 2 + 1 and fate < CANCELLED + BROKEN_OFF:
                self.counts["given up"] += 1
                if fate < BROKEN_OFF:
                    raise client.Lost("broken off on purpose")
                talk.console(f"cancel {ticket}")
            time.sleep(PAUSE * numbers.choice((0, 0.5, 2.5)))
        lines = client.close_session(talk, ticket)
        self.counts["over volumes"] += len(lines) > 2
        self._keep(Closed, Session(tuple(lines), records.digest()))

    def _begin(self, serving: Serving):
        """Each drive gets volumes of each pool, before there are jobs."""
        with serving.talk() as talk:
            for number, pool in itertools.product(range(1, len(DRIVES) + 1), POOLS):
                self._label_one(talk, number, pool)

    def _label(self, talk: client.Talk, _: random.Random):
        """Gives each drive that waits a volume."""
        for line in talk.console("requests")[:-1]:
            _, number, pool, *_ = line.split()
            with contextlib.suppress(client.Refused):
                talk.console(f"unmount {number}")
            self._label_one(talk, int(number), pool)
        time.sleep(LOOKS)

    def _label_one(self, talk: client.Talk, number: int, pool: str):
        name = f"Vol-{number}-{int(time.time()) % 10 ** 6:06d}{next(self._names):04d}"
        with contextlib.suppress(client.Refused):
            talk.console(f"label {number} {name} {pool} File")
            self._keep(Labelled, name)

    def _write_back(self, _: client.Talk, numbers: random.Random):
        """The system may write what is dirty at any moment: it is asked to, for a part of a volume, without a flush."""
        volumes = [path for folder in DRIVES for path in (self.room / folder).glob("Vol-*[!~]")]
        for path in sorted(volumes, key=lambda one: one.stat().st_mtime_ns)[-2:]:
            with open(path, "rb") as file:
                at = max(0, os.fstat(file.fileno()).st_size - numbers.randrange(400_000))
                LIBC.sync_file_range(file.fileno(), ctypes.c_int64(at), ctypes.c_int64(numbers.randrange(400_000)), WRITE_BACK)
        time.sleep(numbers.uniform(0, LOOKS))

    def _fill(self):
        """The disk is full for a while."""
        filler, room = self.room / FILLER, os.statvfs(self.room)
        with contextlib.suppress(OSError), open(filler, "wb", buffering=0) as file:
            size = room.f_bavail * room.f_frsize
            while size > 4096:
                try:
                    os.posix_fallocate(file.fileno(), os.fstat(file.fileno()).st_size, size)
                except OSError:
                    size //= 2
        time.sleep(FULL)
        self.counts["full disks"] += 1
        filler.unlink()
