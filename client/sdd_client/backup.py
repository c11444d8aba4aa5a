"""`backup JOB PATH ..`: GNU tar's stream in sessions, and then the job's last session, with its head and its files."""
from __future__ import annotations

import contextlib
import os
import pathlib
import socket
import subprocess
import time
import typing

from .catalogue import FAILED, KEPT, PARTLY, UNKNOWN, Catalogue, Job, Listed
from .cutter import Cutter
from .dialogue import BUSY, NOT_YET, Appending, terminate
from .errors import Ended, Failed, Lost, Partly, Refused, complain
from .filelist import FAULT, Piece, Writer, plain
from .head import HEAD_STREAM, LIST_STREAM, SNAPSHOT_STREAM, Head, Place
from .holes import NOT_KEPT
from .lanes import Alive, Way, pieces_of, reached
from .progress import Now, Shown
from .snapshot import Snapshot, decoded, usable
from .stages import Chain, Feeder, words_of
from .state import INCREMENT, State, links_of
from .tarcut import Damaged
from .tarrun import ARCHIVE, CHANGED, Said, TarRun

# So many names are told on standard error; the catalogue has all.
TOLD = 100
PAUSE = 5


class Wanted(typing.NamedTuple):
    """What is to be backed up, and how."""

    job: str
    client: str
    paths: list[str]
    way: Way
    lanes: int
    size: int
    excludes: list[str]
    is_one_system: bool = False
    skips_caches: bool = False
    is_incremental: bool = False
    is_full_due: bool = False


    def options(self) -> list[typing.Any]:
        """What another run must have alike to stand on this one."""
        return [self.paths, self.excludes, self.is_one_system, self.skips_caches]


def this_client() -> str:
    return socket.gethostname()


class Ground(typing.NamedTuple):
    """What an increment stands on: the keys of jobs, the first one first, and what tar is to know of the last one's run."""

    chain: list[list[int]]
    text: bytes


def ground_of(catalogue: Catalogue, wanted: Wanted) -> Ground | None:
    """What an increment can stand on: the last run that is kept, if it is known what that one found. Otherwise it is told why
    the job is a full one."""
    runs = [job for job in catalogue.jobs(wanted.job, wanted.client) if job.status in (KEPT, PARTLY) and not job.copy_of]
    if not runs:
        return None
    try:
        return Ground([*runs[-1].chain, runs[-1].key()], snapshot_for(catalogue, runs[-1], wanted))
    except Failed as why:
        complain(f"a full job, since {why}")
        return None


def snapshot_for(catalogue: Catalogue, job: Job, wanted: Wanted) -> bytes:
    """The snapshot of a job's tar, as a further run can use it."""
    data = catalogue.snapshot(job.id)
    if not data:
        raise Failed("the last run has no snapshot")
    snapshot = decoded(data)
    if snapshot.options != wanted.options():
        raise Failed("the last run had other paths, or left out others")
    if job.ended > microseconds():
        raise Failed("the clock was set back since the last run")
    state = State(catalogue, job)
    # What changed while it was read has a time that tar finds to be new.
    rows = catalogue.rows(job.id) if job.faults else ()
    faults = {row.path for row in rows if row.kind == FAULT and row.text != CHANGED}
    if b"" in faults:
        raise Failed("the last run lacks something without a name")
    return usable(snapshot.text, faults, lambda: links_of(state))


def replaced(file: typing.BinaryIO, options: list[typing.Any]) -> typing.BinaryIO:
    """Puts the snapshot in the file as it is kept in its place."""
    file.seek(0)
    data = Snapshot(options, file.read()).encoded()
    file.seek(0)
    file.truncate()
    file.write(data)
    file.flush()
    return file


def microseconds() -> int:
    return time.time_ns() // 1000


def whole_paths(paths: list[str]) -> list[str]:
    """The paths from the root on. A link that is named is kept as a link, unless a slash is at its end."""
    found = []
    for path in paths:
        whole = os.path.realpath(path) if path.endswith("/") else os.path.abspath(path)
        if os.path.islink(whole) and os.path.isdir(whole):
            complain(f"{whole} is a link, and is kept as a link; {whole}/ is what it leads to")
        found.append(whole)
    return list(dict.fromkeys(found))


def tar_words(wanted: Wanted, catalogue: pathlib.Path, snapshot: typing.BinaryIO | None) -> list[str]:
    """What tar is told. The catalogue is left out: it changes meanwhile, and the volumes have what is in it."""
    words = ["--create", *ARCHIVE]
    # Devices may be numbered anew at a restart of the machine; folders are known by their own numbers.
    words += [f"--listed-incremental=/dev/fd/{snapshot.fileno()}", "--no-check-device"] if snapshot else []
    words += ["--one-file-system"] if wanted.is_one_system else []
    words += ["--exclude-caches"] if wanted.skips_caches else []
    words += ["--anchored", "--no-wildcards"]
    words += [f"--exclude={str(catalogue)[1:]}{end}" for end in ("", "-journal")]
    words += ["--wildcards"]
    for pattern in wanted.excludes:
        words += ["--anchored" if pattern.startswith("/") else "--no-anchored", f"--exclude={pattern.lstrip('/')}"]
    # What is to be backed up is named as it is; an increment has no folders of a path that could be a pattern.
    return [*words, "--no-wildcards", "--directory=/", "--", *(path[1:] or "." for path in wanted.paths)]


def backup(wanted: Wanted, catalogue: Catalogue) -> Head:
    """Backs up a job. Where the daemon is busy it begins again, as long as the way says."""
    wanted = wanted._replace(paths=whole_paths(wanted.paths))
    until = time.monotonic() + wanted.way.patience
    while True:
        began = microseconds()
        number = catalogue.begin(wanted.client, wanted.job, began, wanted.paths)
        try:
            return Backup(wanted, catalogue, number, began).run()
        except Refused as why:
            catalogue.end(number, microseconds(), FAILED)
            if why.number() != BUSY or time.monotonic() > until:
                raise
            complain(f"{why}; the job begins again, for {wanted.way.patience:g} seconds at most")
        except (Failed, OSError, Ended) as why:
            status = UNKNOWN if isinstance(why, Unknown) else FAILED
            catalogue.end(number, microseconds(), status)
            raise
        time.sleep(min(PAUSE, wanted.way.patience))


class Unknown(Partly):
    """Nobody knows whether the job is kept."""


class NotTold(Failed):
    """The last session's end was asked for, and no answer said what came of it."""


class Backup:
    """One run of a job."""

    def __init__(self, wanted: Wanted, catalogue: Catalogue, number: int, began: int):
        self.wanted, self.catalogue, self.number, self.began = wanted, catalogue, number, began
        self.way = wanted.way._replace(target=wanted.way.target._replace(job=number))

    def run(self) -> Head:
        # Other commands don't need it, and start sooner without it.
        import tempfile
        with contextlib.ExitStack() as leaving:
            file, snapshot = (leaving.enter_context(tempfile.TemporaryFile()) for _ in range(2))
            kept = Kept(file)
            files = Writer(kept.add)
            for path in self.wanted.paths:
                files.ask(path)
            wanted, way = self.wanted, self.way
            ground = ground_of(self.catalogue, wanted) if wanted.is_incremental and not wanted.is_full_due else None
            snapshot.write(ground.text if ground else b"")
            places = self._send(files, snapshot if wanted.is_incremental else None)
            files.finish()
            head = Head(wanted.client, wanted.job, self.number, self.began, microseconds(), way.target.pool, way.target.media,
                        files.files, files.bytes, files.faults, stages=list(way.stages), sessions=places)
            if ground:
                head.level, head.chain = INCREMENT, ground.chain
            parts = {LIST_STREAM: file}
            if wanted.is_incremental:
                parts[SNAPSHOT_STREAM] = replaced(snapshot, wanted.options())
            try:
                last = send_last(way, head, parts)
            except NotTold as why:
                raise Unknown(f"{why}, while the last session was closed: nobody knows whether the job is kept; "
                              "'rebuild' finds it if it is") from why
            self._note(head, last, kept, parts.get(SNAPSHOT_STREAM))
        return head

    def _send(self, files: Writer, snapshot: typing.BinaryIO | None) -> list[Place]:
        """Sends tar's stream. Nothing is kept unless tar and each session came to a good end."""
        wanted = self.wanted
        with Cutter(self.way, wanted.lanes, wanted.size, files) as cutter:
            cutter.open_first()
            options: dict[str, typing.Any] = {"stdin": subprocess.DEVNULL, "stdout": subprocess.PIPE, "bufsize": 0}
            if snapshot:
                snapshot.flush()
                options["pass_fds"] = [snapshot.fileno()]
            with TarRun(tar_words(wanted, self.catalogue.path, snapshot), **options) as tar:
                try:
                    with Shown(lambda: Now(sum(one.raw for one in list(cutter.sessions)), files.files), self._expected()):
                        cutter.run(tar.process.stdout)
                except Damaged:
                    # What became of tar says more, if it didn't end by itself.
                    tar.wait()
                    raise
                tar.wait()
            tar.said += [Said(path, NOT_KEPT, True) for path in files.hidden]
            told(tar, files)
            if not files.files and not (snapshot and os.fstat(snapshot.fileno()).st_size):
                raise Failed("there is nothing that can be backed up")
        return [Place(one.lines, one.raw, one.stored) for one in cutter.sessions]

    def _expected(self) -> int | None:
        """The bytes of the stream, if the job is a full one and had a full run."""
        wanted, runs = self.wanted, self.catalogue.jobs(self.wanted.job, self.wanted.client)
        full = [job for job in runs if job.status in (KEPT, PARTLY) and not job.chain and not job.copy_of]
        if not full or wanted.is_incremental and not wanted.is_full_due:
            return None
        return sum(place.raw for number, place in self.catalogue.places(full[-1].id).items() if number)

    def _note(self, head: Head, last: Place, kept: Kept, snapshot: typing.BinaryIO | None) -> None:
        try:
            self.catalogue.keep(head, last, Listed(self.wanted.paths, kept.pieces()), self.number)
            if snapshot:
                snapshot.seek(0)
                self.catalogue.keep_snapshot(self.number, snapshot.read())
        except Failed as why:
            raise Partly(f"the job is kept, but the catalogue lacks it: {why}; 'rebuild' adds it") from why


class Kept:
    """The pieces of a list, in a file until the job is kept."""

    def __init__(self, file: typing.BinaryIO):
        self.file, self.sizes = file, []

    def add(self, piece: Piece) -> None:
        self.file.write(piece.data)
        self.sizes.append((len(piece.data), piece.first, piece.last))

    def pieces(self) -> typing.Iterator[Piece]:
        self.file.seek(0)
        for size, first, last in self.sizes:
            yield Piece(self.file.read(size), first, last)


def told(tar: TarRun, files: Writer) -> None:
    """Lists what tar said, and tells the first of it."""
    for count, one in enumerate(tar.said):
        files.say(one)
        name = os.fsdecode(plain(one.path)) if one.path else "tar"
        if count < TOLD:
            complain(f"{shown(name)}: {one.text}")
    if len(tar.said) > TOLD:
        complain(f"and {len(tar.said) - TOLD} more; the catalogue has all")


def shown(name: str) -> str:
    """A name on one line, whatever is in it."""
    return "".join(letter if letter.isprintable() or "\udc80" <= letter <= "\udcff" else repr(letter)[1:-1]
                   for letter in name).encode(errors="backslashreplace").decode()


def send_last(way: Way, head: Head, parts: dict[int, typing.BinaryIO]) -> Place:
    """Sends the last session: the head, plain, and the list of files and what else there is, each through the stages. The
    others are closed, so a daemon that is restarted meanwhile costs the job nothing."""
    talk, appending = reached(way)
    with talk:
        appending.append(head.encoded(), 1, HEAD_STREAM)
        index, stored = 1, 0
        for stream, file in parts.items():
            index, more = send_part(way, appending, file, stream, index)
            stored += more
        appending.end_phase()
        try:
            lines = appending.close(way.patience)
        except Lost as why:
            raise NotTold(str(why)) from why
        except Refused as why:
            # Its end is among what is still to be placed.
            raise NotTold(str(why)) if why.number() == NOT_YET else why
        with contextlib.suppress(Lost):
            terminate(talk)
    return Place(lines, sum(os.fstat(file.fileno()).st_size for file in parts.values()), stored)


def send_part(way: Way, appending: Appending, file: typing.BinaryIO, stream: int, index: int) -> tuple[int, int]:
    """Appends what is in a file as records of a Stream behind the record of that FileIndex. Gives the last one's, and the
    bytes of these."""
    stored = 0
    file.flush()
    file.seek(0)
    pieces = pieces_of(file.fileno(), [way.record], Alive(appending.keep_alive))
    chain = Chain([words_of(stage) for stage in way.stages]) if way.stages else None
    try:
        if chain:
            feeder = Feeder(chain, pieces)
            pieces = pieces_of(chain.output, [way.record], Alive(appending.keep_alive))
        for index, piece in enumerate(pieces, index + 1):
            appending.append(piece, index, stream)
            stored += len(piece)
        if chain:
            feeder.ended()
            chain.wait()
    finally:
        if chain:
            chain.kill()
    return index, stored
