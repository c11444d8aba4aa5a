"""`restore JOB`: members of a job's sessions are given to GNU tar, which makes files of them."""
from __future__ import annotations

import contextlib
import itertools
import os
import subprocess
import typing

from .backup import TOLD, shown
from .chosen import Choice, Run, Undo, runs_of
from .connection import Buffer
from .errors import Ended, Failed, Partly, complain
from .filelist import plain
from .lanes import DATA_STREAM
from .progress import Now, Shown
from .sources import Reader, Source
from .state import State
from .tarcut import END
from .tarrun import TarRun

EXTRACT = ["--extract", "--file=-", "--blocking-factor=512", "--preserve-permissions", "--acls", "--xattrs", "--delay-directory-restore"]
AS_ROOT = ["--same-owner", "--numeric-owner", "--xattrs-include=*"]
# So much goes to tar at once of what comes in smaller parts; what is larger isn't copied before.
BUFFER = 1 << 15


class Streams:
    """The streams of a state's sessions, read side by side."""

    def __init__(self, state: State, source: Source, undo: Undo):
        self.places, self.source = state.places, source
        inverses = {job.id: undo.inverse(job) for job in state.jobs}
        self.inverses = {number: inverses[job.id] for number, job in state.job_of.items()}
        self.readers: dict[int, Reader] = {}

    def __enter__(self) -> Streams:
        return self

    def __exit__(self, *_: object) -> None:
        for reader in self.readers.values():
            reader.close()

    def whole(self) -> typing.Iterator[Run]:
        """All of each session, one after another, without tar's end."""
        for number, place in self.places.items():
            yield Run(number, 0, place.raw - len(END), 0)

    def reader(self, session: int) -> Reader:
        if session not in self.readers:
            self.readers[session] = Reader(self.source, self.places[session].lines, self.inverses[session], DATA_STREAM)
        return self.readers[session]

    def copy(self, run: Run, write: typing.Callable[[Buffer], object]) -> None:
        """Gives the bytes of a run to `write`. Of a session that is at its end the daemon must say that it is whole."""
        reader = self.reader(run.session)
        reader.copy(run.start, run.length, write)
        if reader.position == self.places[run.session].raw - len(END):
            reader.drain()
            reader.close()
            del self.readers[run.session]


def folder_for(path: str, may_be_there: bool) -> None:
    """Makes the folder of a restore. One that holds something is taken only if that is asked for."""
    try:
        os.makedirs(os.path.dirname(os.path.abspath(path)), exist_ok=True)
        with contextlib.suppress(FileExistsError):
            os.mkdir(path, 0o700)
        is_empty = not os.listdir(path)
    except OSError as why:
        raise Failed(f"{path}: {why.strerror}") from why
    if not is_empty and not may_be_there:
        raise Failed(f"{path} isn't empty: --replace restores into it all the same, in place of files of the same names")


def no_links_on_the_way(choice: Choice, folder: str) -> None:
    """A link in the folder could lead a file out of it: nothing is restored through one."""
    seen: set[bytes] = set()
    root = os.fsencode(folder)
    for row in choice.rows():
        above = os.path.dirname(row.path)
        while above not in seen and above != b"/":
            seen.add(above)
            if os.path.islink(root + above):
                raise Failed(f"{shown(os.fsdecode(root + above))} is a link, and files would be restored through it")
            above = os.path.dirname(above)


def restore(choice: Choice, streams: Streams, folder: str, may_replace: bool) -> int:
    """Restores the files that were chosen, and gives how many these are."""
    job = choice.job
    if may_replace and not job.has_list:
        raise Failed("the catalogue has no list of this job's files: it is restored into a new folder alone")
    folder_for(folder, may_replace)
    if may_replace:
        no_links_on_the_way(choice, folder)
    words = [*EXTRACT, *(AS_ROOT if os.geteuid() == 0 else ["--xattrs-include=user.*"]), f"--directory={folder}"]
    runs = runs_of(choice.extents()) if job.has_list else streams.whole()
    count, why = 0, None
    with TarRun(words, stdin=subprocess.PIPE, bufsize=BUFFER) as tar:
        feeding = Feeding(streams, tar)
        try:
            with Shown(lambda: Now(feeding.written, feeding.members)):
                count = feeding.all(runs)
        except (Failed, OSError, Ended) as broken:
            why = broken
        with contextlib.suppress(OSError):
            tar.process.stdin.close()
        if why is None:
            tar.wait()
        else:
            tar.process.wait()
            tell_broken(choice, feeding, why, None if may_replace else folder)
        tell_faults(tar)
    return count


class Feeding:
    """What tar was given so far: the members of whole runs, and the bytes of one more."""

    def __init__(self, streams: Streams, tar: TarRun):
        self.streams, self.tar = streams, tar
        self.members = self.in_run = self.written = 0
        self.run: Run | None = None

    def all(self, runs: typing.Iterable[Run]) -> int:
        for self.run in runs:
            self.in_run = 0
            self.streams.copy(self.run, self._write)
            self.members += self.run.members
        self.run = None
        self.tar.process.stdin.write(END)
        self.tar.process.stdin.close()
        self.tar.process.wait()
        return self.members

    def _write(self, data: Buffer) -> None:
        try:
            self.tar.process.stdin.write(data)
        except BrokenPipeError as why:
            raise Failed("tar takes no more") from why
        self.in_run += len(data)
        self.written += len(data)


def tell_faults(tar: TarRun) -> None:
    """Tells what tar couldn't restore."""
    faults = tar.faults()
    tell_names((os.fsdecode(plain(one.path)) if one.path else "tar", one.text) for one in faults)
    if faults:
        raise Partly(f"restored, but for {len(faults)} faults")


def tell_broken(choice: Choice, feeding: Feeding, why: BaseException, folder: str | None) -> None:
    """Tells what a restore that was broken off lacks. In a folder of its own nothing stays of a file that is half there."""
    whole, lacking, end = feeding.members, [], 0
    for row in itertools.islice(choice.rows() if choice.job.has_list else (), feeding.members, None):
        end += row.length
        if not lacking and feeding.run and end <= feeding.in_run:
            whole += 1
            continue
        if not lacking and row.kind == "f" and folder:
            remove_half(os.fsencode(folder), row.path)
        lacking.append((os.fsdecode(row.path), "not restored whole"))
    tell_names(iter(lacking))
    if isinstance(why, Ended):
        raise why
    if whole:
        raise Partly(f"{why}; {whole} are restored, {len(lacking) or 'others'} aren't") from why
    raise Failed(f"{why}; nothing is restored") from why


def remove_half(root: bytes, path: bytes) -> None:
    """Removes a file that is half there, unless a link or .. leads elsewhere."""
    parts = path.strip(b"/").split(b"/")
    above = [root + b"/" + b"/".join(parts[:count]) for count in range(1, len(parts))]
    if b".." in parts or any(os.path.islink(one) for one in above):
        return
    with contextlib.suppress(OSError):
        os.unlink(root + b"/" + b"/".join(parts))


def tell_names(named: typing.Iterator[tuple[str, str]]) -> None:
    for path, text in itertools.islice(named, TOLD):
        complain(f"{shown(path)}: {text}")
    if more := sum(1 for _ in named):
        complain(f"and {more} more")
