"""`copy JOB --to PORT`: a job's sessions are read from one daemon and appended to another, record by record, and get a last
session of their own there."""
from __future__ import annotations

import dataclasses
import os
import typing

from .catalogue import LAST, Catalogue, Job, listed
from .connection import connect
from .dialogue import terminate
from .errors import Failed
from .filelist import ASKED, Row
from .head import HEAD_STREAM, Head, Place
from .lanes import Way, opened
from .sources import Source
from .verify import head_of


def copy(catalogue: Catalogue, job: Job, source: Source, way: Way) -> Head:
    """Copies a job. Only once all of it is closed there, the catalogue has it."""
    places = catalogue.places(job.id)
    last = places.pop(LAST)
    head = head_of(source, last.lines)
    if not head:
        raise Failed("the last session has no head")
    chain = [copied_key(catalogue, job, key) for key in job.chain]
    way = way._replace(target=way.target._replace(job=head.number))
    copied = [dataclasses.replace(place, lines=copy_session(source, place, way)) for place in places.values()]
    head = dataclasses.replace(head, sessions=copied, copy_of=job.key(), chain=chain, pool=way.target.pool, media=way.target.media)
    new_last = dataclasses.replace(last, lines=copy_session(source, last, way, head))
    catalogue.keep(head, new_last, listed(rows_with_paths(catalogue, job)) if job.has_list else None)
    return head


def copied_key(catalogue: Catalogue, job: Job, key: list[int]) -> list[int]:
    """The key of the last copy of a job that another one stands on."""
    copies = [one.key() for one in catalogue.jobs(job.name, job.client) if one.copy_of == key]
    if not copies or not copies[-1]:
        raise Failed(f"job {job.name}, number {job.number}, stands on the one with session {key[0]} {key[1]}, which isn't copied")
    return copies[-1]


def rows_with_paths(catalogue: Catalogue, job: Job) -> typing.Iterator[Row]:
    """The rows of a job's list, those of the paths that were asked for too."""
    for path in job.paths:
        yield Row(ASKED, 0, 0, 0, 0, 0, os.fsencode(path), b"")
    yield from catalogue.rows(job.id)


def copy_session(source: Source, place: Place, way: Way, head: Head | None = None) -> list[str]:
    """Copies a session, if need be with another head, and gives the lines of the copy's close."""
    with connect(way.address) as talk:
        appending = opened(talk, way)
        for record in source.records(place.lines):
            data: typing.Any = record.data
            if record.stream == HEAD_STREAM and head:
                data = head.encoded()
            appending.append(data, record.index, record.stream)
        lines = appending.close(way.patience)
        terminate(talk)
    return lines
