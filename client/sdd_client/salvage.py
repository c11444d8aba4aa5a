"""`restore --salvage`: what is whole of sessions whose volumes are damaged, by `sdtool salvage`.

The sessions are read twice: first it is seen which bytes of each session's stream are there, and told where some are lost
and which files these are of; then the files that are there whole are restored."""
from __future__ import annotations

import bisect
import contextlib
import dataclasses
import os
import pathlib
import re
import typing

from . import restore
from .backup import shown
from .catalogue import Job
from .chosen import Choice, Undo
from .dialogue import Record
from .errors import Failed, Partly, complain
from .filelist import Extent, Row
from .head import Place
from .lanes import DATA_STREAM
from .plainfiles import NAME_STREAM, Restored
from .sources import Reader, told_by
from .state import State

GAP = re.compile(r"gap (\S+) (\d+)")
MISSING = re.compile(r"missing (\d+) (\d+|-)")
WHOLE = re.compile(r"ok read \d+ \d+ ended")
BROKEN = re.compile(r"salvaged \d+ \d+ gaps [1-9]\d*")
SKIP = 1 << 20


def faults_in(line: str) -> typing.Iterator[str]:
    """What a line of a salvage tells of what is lost, in words."""
    if found := GAP.fullmatch(line):
        yield f"a gap in volume {found[1]}, from byte {found[2]} on"
    elif not (WHOLE.fullmatch(line) or BROKEN.fullmatch(line) or MISSING.fullmatch(line)):
        yield line


@dataclasses.dataclass
class Stream:
    """What a session has: which bytes of its stream, as pairs of begin and end, and what was told of what is lost."""

    parts: list[tuple[int, int]]
    faults: list[str]

    def lacks(self, start: int, end: int) -> int:
        """How many of these bytes it lacks."""
        at = bisect.bisect_right(self.parts, (start, end)) - 1
        there = 0
        for begin, behind in self.parts[max(at, 0):]:
            if begin >= end:
                break
            there += max(0, min(end, behind) - max(start, begin))
        return end - start - there


class SalvagedSource:
    """The volumes in a folder, past damage. In place of records that are lost and come before others it gives as many zeros,
    so that those are where they were: whoever reads takes only what `look` said is there."""

    said = ""

    def __init__(self, folder: str):
        self.folder = folder
        self.records_of: dict[tuple[int, int], int] = {}

    def told(self, lines: list[str]) -> typing.Generator[Record | str, None, None]:
        """The session's records, and what is told between them and at the end."""
        last: Record | str = ""
        with contextlib.closing(told_by("salvage", lines, self.folder)) as told:
            for last in told:
                yield last
        if isinstance(last, Record) or not last or GAP.fullmatch(last) or MISSING.fullmatch(last):
            yield "sdtool broke off"

    def records(self, lines: list[str]) -> typing.Generator[Record, None, None]:
        """The records of the data. Those of a session that went through stages end at the first that is lost, since nothing
        behind it can be undone."""
        size, due = self.records_of.get(Place(lines, 0, 0).key(), 0), 1
        with contextlib.closing(self.told(lines)) as told:
            for one in told:
                if not isinstance(one, Record) or one.stream != DATA_STREAM:
                    continue
                if one.index != due and not size:
                    return
                for lost in range(due, one.index):
                    yield Record(lost, DATA_STREAM, bytes(size))
                yield one
                due = one.index + 1

    def look(self, place: Place, inverse: list[str]) -> Stream:
        """Reads a session, and gives what is there of its stream."""
        sizes: dict[int, int] = {}
        faults = []
        with contextlib.closing(self.told(place.lines)) as told:
            for one in told:
                if not isinstance(one, Record):
                    faults += faults_in(one)
                elif one.stream == DATA_STREAM:
                    sizes[one.index] = len(one.data)
        if inverse:
            return Stream([(0, self._undone(place, inverse))], faults)
        size = size_of_records(sizes, place.raw)
        self.records_of[place.key()] = size
        parts: list[tuple[int, int]] = []
        for index, length in sizes.items():
            begin = (index - 1) * size
            if parts and parts[-1][1] == begin:
                begin = parts.pop()[0]
            parts.append((begin, (index - 1) * size + length))
        return Stream(parts, faults)

    def _undone(self, place: Place, inverse: list[str]) -> int:
        """How many bytes of a stream come of the stages of the way back, up to the first record that is lost."""
        with Reader(self, place.lines, inverse, DATA_STREAM) as reader, contextlib.suppress(Failed):
            while reader.take(SKIP) is not None:
                pass
        return reader.position


def size_of_records(sizes: dict[int, int], raw: int) -> int:
    """The size of a session's records, of which the last one may be shorter."""
    if not sizes:
        return 0
    size = max(sizes.values())
    last = max(sizes)
    if set(sizes) == {last} and last > 1 and last * size < raw + size and (raw - size) % (last - 1) == 0:
        # Only the last one is there.
        size = (raw - size) // (last - 1)
    if any((index - 1) * size + length != min(index * size, raw) for index, length in sizes.items()):
        raise Failed("the records of a session aren't of one size, so that it isn't known where they belong")
    return size


class Whole:
    """Those files of a choice that are there whole. It stands for the choice in a restore."""

    def __init__(self, choice: Choice, streams: dict[int, Stream]):
        self.choice, self.streams = choice, streams
        self.job: Job = choice.job

    def lacks(self, row: Row) -> int:
        return self.streams[row.session].lacks(row.offset, row.offset + row.length)

    def rows(self) -> typing.Iterator[Row]:
        return (row for row in self.choice.rows() if not self.lacks(row))

    def extents(self) -> typing.Iterator[Extent]:
        return ((row.session, row.offset, row.length) for row in self.rows())


def restore_job(state: State, choice: Choice, folder_of_volumes: str, undo: Undo, folder: str, may_replace: bool) -> int:
    """Restores the files of a job that are there whole. Gives how many these are, if nothing is lost."""
    if not choice.job.has_list:
        raise Failed("the catalogue has no list of this job's files, so that it isn't known which are whole")
    source = SalvagedSource(folder_of_volumes)
    read = restore.Streams(state, source, undo)
    streams = {number: source.look(state.places[number], read.inverses[number])
               for number in sorted({row.session for row in choice.rows()})}
    faults = [f"session {' '.join(map(str, state.places[number].key()))}: {text}" for number, one in streams.items() for text in one.faults]
    whole = Whole(choice, streams)
    lacking = [(row, lost) for row in choice.rows() if (lost := whole.lacks(row))]
    for text in faults:
        complain(text)
    restore.tell_names((os.fsdecode(row.path), f"not restored: {lost} of its {row.length} bytes in the backup are lost") for row, lost in lacking)
    with read:
        count = restore.restore(whole, read, folder, may_replace) if next(whole.rows(), None) else 0
    if not count:
        raise Failed("nothing is there whole")
    if lacking:
        raise Partly(f"{count} are restored, {len(lacking)} aren't")
    if faults:
        raise Partly(f"all {count} are restored, but the sessions are damaged")
    return count


class SalvagedFiles(Restored):
    """The files of a session of plain files, of whose records some may be lost. One of which some may be lost isn't made."""

    def __init__(self, folder: str):
        super().__init__(folder)
        self.is_broken = False
        self.lacking = 0

    def lose(self) -> None:
        """Some records may be lost here."""
        if self.file:
            complain(f"{shown(str(self.file.path))}: not restored: some of it may be lost")
            self.file.__exit__()
            self.file, self.lacking = None, self.lacking + 1
        self.is_broken = True

    def take(self, record: Record) -> None:
        if self.is_broken and record.stream != NAME_STREAM:
            return
        if self.is_broken and record.index > self.index:
            self.index = record.index - 1
        self.is_broken = False
        super().take(record)


def restore_files(lines: list[str], folder_of_volumes: str, folder: str) -> None:
    """Makes the files of a session of plain files that are there whole."""
    pathlib.Path(folder).mkdir(parents=True, exist_ok=True)
    is_damaged = False
    with SalvagedFiles(folder) as files, contextlib.ExitStack() as leaving:
        leaving.callback(lambda: complain(f"{files.count} files are restored"))
        for one in SalvagedSource(folder_of_volumes).told(lines):
            if isinstance(one, Record):
                files.take(one)
                continue
            if found := MISSING.fullmatch(one):
                complain(f"the files {found[1]} to {found[2]} of the session may be lost" if found[2] != "-"
                         else f"the files from {found[1]} on of the session may be lost")
            for text in faults_in(one):
                complain(text)
                is_damaged = True
                files.lose()
        files.finish()
    if is_damaged and files.count:
        raise Partly("restored, but for what is named")
    if is_damaged:
        raise Failed("nothing is there whole")
