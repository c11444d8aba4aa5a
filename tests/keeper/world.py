"""A daemon, clients and a keeper, at moments that are handed in."""
import contextlib
import hashlib
import json
import os
import random
import signal
import socket
import struct
import subprocess

from daemon import SOON, Daemon, free_port, later_second, until
from keeper.configuration import configured
from keeper.rounds import Keeper
from keeper.state import State
from sdd_client import dialogue
from sdd_client.connection import Address, connect
from sdd_client.errors import Failed
from sdd_client.head import HEAD_STREAM, LIST_STREAM, Head, Place
from volumes import BLOCK_HEADER, note

DAY = 86_400
# A Monday.
BEGIN = 1_767_571_200
WAIT = 60


class Backup:
    """A job as its client knows it: its head, the lines of its last session, and the sum of each session's data."""

    def __init__(self, head, lines, sums):
        self.head, self.lines, self.sums = head, lines, sums

    def key(self):
        return tuple(map(int, self.lines[0].split()[1:]))

    def volumes(self):
        places = [self.lines, *(place.lines for place in self.head.sessions)]
        return {line.split()[1] for lines in places for line in lines[1:]}


def size_of(file):
    """How many bytes it has; none, if it is gone by now, as a note that was being written."""
    try:
        return file.stat().st_size
    except FileNotFoundError:
        return 0


class World:
    """`pools` is the text of the keeper's tables, `drives` how many drives there are, each with a folder."""

    def __init__(self, folder, pools, drives=1, volume=20_000, block=1024, capacity=None, seed=83):
        self.folder, self.now, self.capacity, self.draw = folder, float(BEGIN), capacity, random.Random(seed)
        folder.mkdir(exist_ok=True)
        self.folders = [folder / f"drive{number}" for number in range(1, drives + 1)]
        for one in self.folders:
            one.mkdir()
        self.port, self.daemon, self.kept, self.noted = free_port(), None, [], set()
        self.conf, self.keeper_conf = folder / "sdd.conf", folder / "keeper.toml"
        tables = "".join(f'[[drive]]\nmedia = "File"\nfolder = "{one}"\n' for one in self.folders)
        self.conf.write_text(f"port = {self.port}\nvolume = {volume}\nblock = {block}\n{tables}")
        self.write(pools)

    def write(self, pools):
        self.keeper_conf.write_text(f'daemon = "{self.conf}"\nport = {self.port}\nstate = "{self.folder}/state"\n'
                                    f'figures = "{self.folder}/keeper.prom"\n{pools}')

    def __enter__(self):
        self.fork_rounds()
        self.start()
        return self

    def __exit__(self, *_):
        self.forker.close()
        os.waitpid(self.forking, 0)
        self.daemon.kill()

    # The daemon.

    def start(self, adopts=True):
        later_second()
        self.daemon = Daemon(self.conf, "--wait", str(WAIT), port=self.port)
        if adopts:
            self.adopt()

    def adopt(self):
        for number, folder in enumerate(self.folders, 1):
            for name in sorted(one.name for one in folder.iterdir() if "~" not in one.name):
                self.say(f"adopt {number} {name}")

    def restart(self):
        self.daemon.kill()
        self.start()

    def say(self, line):
        """The answer to a line of the operator."""
        with connect(Address(port=self.port, timeout=WAIT)) as talk:
            try:
                return dialogue.console(talk, line)
            except Failed as why:
                return [str(why)]

    # Clients.

    def session(self, pool, records, stop_after=None):
        """Appends a session of records (stream and data), and gives its lines. One that stops goes away in the middle."""
        with connect(Address(port=self.port, timeout=WAIT)) as talk:
            appending = dialogue.Appending(talk, dialogue.Target(7, pool, "File"))
            for at, (stream, data) in enumerate(records):
                if at == stop_after:
                    return None
                appending.append(data, at + 1, stream)
            return appending.close(WAIT)

    def backup(self, client, job, pool, sizes, chain=(), stop_after=None):
        """A job of sessions with so many bytes each, as the client would keep it."""
        began, places, sums = int(self.now * 1_000_000), [], []
        for size in sizes:
            data = self.draw.randbytes(size)
            pieces = [(2, data[at:at + 60_000]) for at in range(0, size, 60_000)]
            if not (lines := self.session(pool, pieces, stop_after)):
                return None
            places.append(Place(lines, size, size))
            sums.append(hashlib.sha256(data).hexdigest())
        head = Head(client=client, job=job, number=7, began=began, ended=began + 1, pool=pool, media="File", files=1,
                    bytes=sum(sizes), faults=0, level="incremental" if chain else "full", chain=[list(key) for key in chain],
                    sessions=places)
        lines = self.session(pool, [(HEAD_STREAM, head.encoded()), (LIST_STREAM, b"no list")])
        self.kept.append(Backup(head, lines, sums))
        return self.kept[-1]

    def restores(self, backup):
        """Whether all of a job comes back as it was, by sdtool."""
        with contextlib.suppress(StopIteration):
            return all(self.sum_of(place.lines) == wanted for place, wanted in zip(backup.head.sessions, backup.sums))

    def sum_of(self, lines):
        """The sum of what a session has, from whichever folder has its volumes."""
        wanted = lines[1].split()[1]
        folder = next(one for one in self.folders if (one / wanted).exists())
        run = subprocess.run(["sdtool", "read", "/dev/stdin", folder], input="".join(f"{line}\n" for line in lines).encode(),
                             stdout=subprocess.PIPE)
        whole, rest = hashlib.sha256(), run.stdout
        while rest.startswith(b"rec "):
            head, _, rest = rest.partition(b"\n")
            size = int(head.split()[3])
            whole.update(rest[:size])
            rest = rest[size + 1:]
        return whole.hexdigest() if run.returncode == 0 and rest.endswith(b"ended\n") else rest.decode(errors="replace")

    # The keeper.

    def free(self, _folder=None):
        """What is free: of a disk of so many bytes, if one is handed in."""
        used = sum(size_of(file) for folder in self.folders for file in folder.iterdir())
        return self.capacity - used if self.capacity else 10**12

    def round(self, step=lambda name: None, already=None):
        """One round of the keeper."""
        with contextlib.closing(State(self.folder / "state")) as state:
            return Keeper(configured(self.keeper_conf), state, lambda: self.now, self.free, step, already).round()

    def killed(self, at):
        """A round in a process of its own, which is killed before a step: one of a name, or the one of that number. Says
        whether it came to that."""
        print(json.dumps([self.now, self.capacity, at]), file=self.forker, flush=True)
        return json.loads(self.forker.readline())

    def fork_rounds(self):
        """Begins a process that forks such rounds, while there is no other thread: one that holds a lock of Python's meanwhile, as
        of an import, would leave it held in the child for ever."""
        ours, theirs = socket.socketpair()
        self.forking = os.fork()
        if not self.forking:
            ours.close()
            with contextlib.suppress(BaseException), theirs.makefile("rw") as lines:
                for line in lines:
                    self.now, self.capacity, at = json.loads(line)
                    print(json.dumps(self.killed_here(at)), file=lines, flush=True)
            os._exit(0)
        theirs.close()
        self.forker = ours.makefile("rw")
        ours.close()

    def killed_here(self, at):
        child = os.fork()
        if not child:
            count = 0

            def step(name):
                nonlocal count
                count += 1
                if at in (name, count):
                    os.kill(os.getpid(), signal.SIGKILL)

            with contextlib.suppress(BaseException):
                self.round(step)
            os._exit(0)
        return os.waitpid(child, 0)[1] == signal.SIGKILL

    def volumes(self):
        """The volumes that have a file, with their folders."""
        return {one.name: folder for folder in self.folders for one in folder.iterdir() if "~" not in one.name}

    def note(self, name, **changed):
        """The note that a daemon would write of a volume as it is; and it is written, with some fields changed, once the daemon has
        written its own."""
        path = self.volumes()[name] / name
        data, at, last, number, time = path.read_bytes(), 0, 0, 0, 0
        while at + BLOCK_HEADER <= len(data):
            size, of = struct.unpack_from(">4xI12xI", data, at)
            at, last, number, time = at + size, at, number + 1, max(time, of)
        fields = {"moment": struct.unpack_from(">q", data, 52)[0], "end": at, "last": last, "next_number": number, "time": time}
        beside = path.with_name(f"{name}~")
        if name not in self.noted:
            until(lambda: beside.exists() and beside.read_bytes() == note(**fields), SOON)
            self.noted.add(name)
        beside.write_bytes(note(**{**fields, **changed}))
        return fields

    def status(self):
        return {line.split()[1]: line.split()[4] for line in self.say("status") if line.startswith("volume ")}


def fill(world, pool, client="www", count=1, size=15_000):
    """Jobs that fill some volumes, a day each."""
    made = []
    for _ in range(count):
        made.append(world.backup(client, "home", pool, [size]))
        world.now += DAY
        world.round()
    return made
