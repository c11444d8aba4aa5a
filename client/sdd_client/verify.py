"""`check JOB` and `compare JOB`: a job is read back, and held to the catalogue or to the files as they are now."""
from __future__ import annotations

import io
import itertools
import os
import subprocess
import threading
import typing

from .backup import shown
from .catalogue import LAST, Catalogue, Job
from .chosen import Choice, Undo, runs_of
from .errors import Failed, Partly
from .filelist import Row, plain, rows_of
from .head import HEAD_STREAM, LIST_STREAM, SNAPSHOT_STREAM, head_in
from .lanes import DATA_STREAM
from .newfile import print_lines
from .restore import Streams
from .sources import Reader, ReaderStream, Source
from .state import State
from .tarcut import END, Members, padded
from .tarrun import TarRun, heard

SKIP = 1 << 20


class Count(typing.NamedTuple):
    """What a check has read."""

    sessions: int
    files: int
    bytes: int


def check(state: State, source: Source, undo: Undo) -> Count:
    """Checks a job, and the jobs that it stands on."""
    counts = [check_job(state.catalogue, job, source, undo.inverse(job)) for job in state.jobs]
    return Count(*map(sum, zip(*counts)))


def check_job(catalogue: Catalogue, job: Job, source: Source, inverse: list[str]) -> Count:
    """Reads all sessions of a job, each to its end: their members are those of the catalogue, and so are the last session's
    head and list of files."""
    check_last(catalogue, job, source, inverse)
    files = size = 0
    places = catalogue.places(job.id)
    for number, place in places.items():
        if number == LAST:
            continue
        with Reader(source, place.lines, inverse, DATA_STREAM) as reader:
            files += check_members(reader, catalogue.rows(job.id, number) if job.has_list else None, number)
            if reader.position != place.raw:
                raise Failed(f"session {number} has {reader.position} bytes in place of {place.raw}")
            size += place.raw
    if job.has_list and files != job.files:
        raise Failed(f"the sessions have {files} files in place of {job.files}")
    return Count(len(places), files, size)


def check_members(reader: Reader, wanted: typing.Iterator[Row] | None, number: int) -> int:
    """Holds the members of a session to the catalogue, and gives how many they are."""
    stream, at, count = io.BufferedReader(ReaderStream(reader), SKIP), 0, 0
    for member in Members(stream, are_summed=True):
        row = next(wanted, None) if wanted else None
        got = Row(member.kind, member.size, member.mtime, number, at, member.length(), plain(member.path), member.link)
        if wanted and got != row:
            raise Failed(f"session {number}: {shown(os.fsdecode(got.path))} isn't as in the catalogue")
        skip(stream, padded(member.payload))
        at, count = at + member.length(), count + 1
    if wanted and next(wanted, None):
        raise Failed(f"session {number} lacks files of the catalogue")
    reader.drain()
    return count


def skip(stream: io.BufferedReader, count: int) -> None:
    while count:
        taken = len(stream.read(min(count, SKIP)))
        if not taken:
            raise Failed("the stream of tar is broken off")
        count -= taken


def list_of(source: Source, lines: list[str], inverse: list[str]) -> typing.Iterator[Row]:
    """The list of files in a job's last session."""
    with Reader(source, lines, inverse, LIST_STREAM) as reader:
        yield from rows_of(iter(lambda: reader.take(SKIP), None))


def snapshot_of(source: Source, lines: list[str], inverse: list[str]) -> bytes:
    """The snapshot in a job's last session, or nothing if it has none."""
    with Reader(source, lines, inverse, SNAPSHOT_STREAM) as reader:
        return b"".join(iter(lambda: bytes(reader.take(SKIP) or b""), b""))


def head_of(source: Source, lines: list[str]) -> typing.Any:
    """The head in a session's first record, if there is one."""
    records = source.records(lines)
    try:
        first = next(records, None)
    finally:
        records.close()
    return head_in(bytes(first.data)) if first and first.stream == HEAD_STREAM else None


def check_last(catalogue: Catalogue, job: Job, source: Source, inverse: list[str]) -> None:
    """Holds the last session to the catalogue."""
    lines = catalogue.places(job.id)[LAST].lines
    head = head_of(source, lines)
    if not head or (head.client, head.job, head.began) != (job.client, job.name, job.began):
        raise Failed("the last session has another head than the catalogue")
    if not job.has_list:
        return
    there = (row for row in list_of(source, lines, inverse) if row.kind != "@")
    for got, row in itertools.zip_longest(there, catalogue.rows(job.id)):
        if got != row:
            raise Failed("the last session has other files than the catalogue")


def compare(choice: Choice, streams: Streams) -> int:
    """Holds the files of a job to those that are there now, by tar, and prints what is other. Gives how many are the
    same."""
    words = ["--compare", "--file=-", "--acls", "--xattrs", "--xattrs-include=*", "--directory=/"]
    differences, count = {}, 0
    with TarRun(words, stdin=subprocess.PIPE, stdout=subprocess.PIPE) as tar:
        listener = Listener(tar.process.stdout)
        for run in runs_of(choice.extents()):
            streams.copy(run, tar.process.stdin.write)
            count += run.members
        tar.process.stdin.write(END)
        tar.process.stdin.close()
        tar.wait()
        for one in [*listener.ended(), *tar.faults()]:
            if one.path:
                differences.setdefault(plain(one.path), one.text)
    kept = {row.path for row in choice.rows()}
    for path in there_now(choice.job.paths):
        if choice.names(path) and path not in kept:
            differences.setdefault(path, "is new")
    print_lines(f"{shown(os.fsdecode(path))}: {text}" for path, text in sorted(differences.items()))
    if differences:
        raise Partly(f"{len(differences)} differ")
    return count


class Listener:
    """Takes tar's lines about differences, beside whoever feeds it."""

    def __init__(self, pipe: typing.BinaryIO):
        self.said: list[typing.Any] = []
        self.pipe = pipe
        self.thread = threading.Thread(target=self._listen, daemon=True)
        self.thread.start()

    def _listen(self) -> None:
        for line in self.pipe:
            if one := heard(b"tar: " + line):
                self.said.append(one)

    def ended(self) -> list[typing.Any]:
        self.thread.join()
        return self.said


def there_now(paths: list[str]) -> typing.Iterator[bytes]:
    """What is there now at these paths and below them."""
    for path in paths:
        if os.path.lexists(path):
            yield os.fsencode(path)
        for folder, folders, files in os.walk(os.fsencode(path)):
            yield from (os.path.join(folder, name) for name in folders + files)
