"""The daemons of a run, each in new folders of its own, and what jobs took there. Each kind of job is measured once, so that
all that is said of it is of the same numbers."""
import contextlib
import itertools
import pathlib
import shutil
import subprocess
import tempfile
from collections import namedtuple

import jobs
from daemon import drive, environment
from machine import field
from measures import Took, least, processor_seconds, resident
from serving import Serving, tell
from yardsticks import compiled

# So much of memory, or of a disk, is left to others.
SPARE = 2_000_000_000
MEMORY = pathlib.Path("/dev/shm")

# A line of a result: of which number in the table of aims, what was done, what came of it, what was wanted, and whether it
# came; None if that can't be said.
Figure = namedtuple("Figure", "number work measured aim met")


class Job(namedtuple("Job", "clients drives record queue is_before", defaults=(1, 1, 65536, 8, False))):
    """So many clients at once, each with a job of all bytes of the run, spread over so many drives."""

    def __str__(self):
        clients = "one client" if self.clients == 1 else f"{self.clients} clients"
        drives = "" if self.drives == 1 else f", {self.drives} drives"
        queue = "" if self.queue == 8 else f", queue of {self.queue}"
        return f"{clients}{drives}, records of {self.record}{queue}{', before threads' if self.is_before else ''}"


class Bench:
    """What is measured, and where: `before` is a daemon before threads, or None; `total` the bytes of a job; and what else
    the machine does only adds, so of so many rounds the least counts. The volumes' names begin with `named`."""

    def __init__(self, folder, disk, program, before, total, rounds, named="Vol"):
        self.folder, self.disk, self.program, self.before = folder, disk, program, before
        self.total, self.rounds, self.named = total, rounds, named
        self.receive, self.syncs = compiled("receive", folder), compiled("syncs", folder, "-shared", "-fPIC")
        self.measured = {}

    def part(self, share):
        """The bytes of a job that has a part of all."""
        return max(1, int(self.total * share) // jobs.BATCH) * jobs.BATCH

    def measure(self, *kinds):
        """What jobs of each kind took. Those that were not measured yet are done in turn, round after round."""
        new = [kind for kind in kinds if kind not in self.measured]
        tries = {kind: [] for kind in new}
        for _, kind in itertools.product(range(self.rounds), new):
            tries[kind].append(self.one(kind))
        for kind in new:
            self.measured[kind] = least(tries[kind])
            self.measured[kind].tell(str(kind))
        return [self.measured[kind] for kind in kinds]

    def one(self, kind):
        settings = "" if kind.queue == 8 else f"queue = {kind.queue}\n"
        program = self.before if kind.is_before else self.program
        # (a daemon before threads has lines without a time in its log)
        with self.serving(settings, drives=kind.drives, program=program, log=not kind.is_before) as daemon:
            works = [jobs.stream(daemon.port, self.total, kind.record, jobs.media_of(1 + number % kind.drives))
                     for number in range(kind.clients)]
            return took(daemon, works, kind.clients * self.total)[0]

    def serving(self, settings="", where=None, program=None, **options):
        return serving(where or self.folder, program or self.program, settings, named=self.named, **options)

    @contextlib.contextmanager
    def told(self, *settings, **options):
        """Serves as `serving` does, by a daemon that tells its syncs: with it comes a call that gives the beginning and
        the end of each, in seconds of the clock of clients."""
        with tempfile.TemporaryDirectory(dir=self.folder) as made:
            file = pathlib.Path(made) / "syncs"
            with self.serving(*settings, env=environment(LD_PRELOAD=self.syncs, SYNCS=file), **options) as daemon:
                yield daemon, lambda: [[int(moment) / 1e9 for moment in line.split()] for line in file.open()]


@contextlib.contextmanager
def serving(place, program, settings="", drives=1, lanes=4, volumes=1, named="Vol", **options):
    """A daemon with so many drives, each with so many volumes, in a new folder, which is removed after it."""
    with tempfile.TemporaryDirectory(dir=place) as made:
        folder, labels, text = pathlib.Path(made), [], settings
        for number in range(1, drives + 1):
            (folder / str(number)).mkdir()
            media = jobs.media_of(number)
            text += drive(media, folder / str(number), f"lanes = {lanes}")
            labels += [f"label {number} {named}-{number}-{volume} {jobs.POOL} {media}" for volume in range(1, volumes + 1)]
        with Serving(folder / "sdd.conf", text, program=program, **options) as daemon:
            tell(daemon.port, *labels)
            yield daemon


def took(daemon, works, size):
    """What clients with these works, all at once, took from the first one's beginning to the last one's end; and what came of
    each."""
    used = processor_seconds(daemon.process)
    with jobs.Clients(works) as clients:
        done = clients.results()
    used = processor_seconds(daemon.process) - used
    seconds = max(one.end for one in done) - min(one.start for one in done)
    return Took(size, seconds, used, sum(one.processor for one in done), resident(daemon.process)), done


def has_room(folder, size):
    """Whether there is so much room, and memory too if the folder's files are kept in that."""
    room = shutil.disk_usage(folder).free
    if file_system(folder) == "tmpfs":
        room = min(room, int(field("/proc/meminfo", "MemAvailable").split()[0]) * 1024)
    return room > size + SPARE


def file_system(folder):
    told = subprocess.run(["df", "--output=fstype", folder], capture_output=True, text=True, check=True)
    return told.stdout.split()[-1]
