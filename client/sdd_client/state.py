"""What a job has: of a full job its members; of an increment also the members of the jobs that it stands on, for what is
unchanged since then.

An increment has each folder, with the names in it: which are folders, which it sent, which are unchanged. An unchanged one is
the member of that path in the last job before that has it. So nothing that was deleted comes back, and a restore makes only
what was there.
"""
from __future__ import annotations

import os
import typing

from .catalogue import KEPT, PARTLY, Catalogue, Job
from .errors import Failed
from .filelist import FAULT, Row
from .head import Place

FULL, INCREMENT = "full", "incremental"
# How a folder's names are told: sent with this job, or unchanged or left out.
SENT, UNCHANGED = ord("Y"), ord("N")


class State:
    """The files of a job as a restore makes them. The sessions of all its jobs are numbered together: `places` and `jobs_of`
    are by these numbers."""

    def __init__(self, catalogue: Catalogue, job: Job):
        self.catalogue, self.job = catalogue, job
        self.jobs = [job, *reversed([linked(catalogue, job, key) for key in job.chain])]
        self.places: dict[int, Place] = {}
        self.job_of: dict[int, Job] = {}
        self.number_of: dict[int, int] = {}
        self.first: list[int] = []
        for one in self.jobs:
            self.first.append(len(self.places))
            for number, place in catalogue.places(one.id).items():
                if number:
                    self.places[self.first[-1] + number] = place
                    self.job_of[self.first[-1] + number] = one
                    self.number_of[self.first[-1] + number] = number

    def rows(self) -> typing.Iterator[Row]:
        """The members, those of the job itself first, then from job to job back; and the names that tar spoke of. What was
        sent some day and is in no job is raised after them."""
        if not self.job.chain:
            yield from self.catalogue.rows(self.job.id)
            return
        needed = yield from self._own()
        sent: set[bytes] = set()
        for job, first in zip(self.jobs[1:], self.first[1:]):
            if not needed:
                return
            for row in self.catalogue.rows(job.id):
                if row.kind == "d":
                    sent.update(path for path in names_in(row, SENT) if path in needed)
                elif row.path in needed and row.is_member():
                    needed.discard(row.path)
                    sent.discard(row.path)
                    yield row._replace(session=first + row.session)
        if lost := sent & needed:
            raise Failed(f"{len(lost)} files are in no job of the chain, as {os.fsdecode(min(lost))}")

    def _own(self) -> typing.Generator[Row, None, set[bytes]]:
        """The rows of the job itself. Gives the paths that are unchanged since the jobs before it."""
        needed: set[bytes] = set()
        asked = {os.fsencode(path) for path in self.job.paths}
        for row in self.catalogue.rows(self.job.id):
            if row.kind == "d":
                needed.update(names_in(row, UNCHANGED))
            if row.is_member() or row.kind == FAULT:
                asked.discard(row.path)
            yield row
        # A path that was asked for and is no folder is in none of these.
        return needed | asked


def names_in(row: Row, code: int) -> typing.Iterator[bytes]:
    """The paths of the names in a folder that are told so."""
    above = row.path.rstrip(b"/") + b"/"
    for one in row.text.split(b"/"):
        if one and one[0] == code:
            yield above + one[1:]


def linked(catalogue: Catalogue, job: Job, key: list[int]) -> Job:
    """The job with that key, on which another one stands."""
    found = catalogue.job_of(key, job.client, job.name)
    if not found or found.status not in (KEPT, PARTLY) or not found.has_list:
        raise Failed(f"job {job.name}, number {job.number}, stands on the one with session {key[0]} {key[1]}, "
                     f"{'whose files aren' if found else 'which isn'}'t in the catalogue: nothing is done")
    return found


def links_of(state: State) -> typing.Iterator[tuple[bytes, bytes]]:
    """The hard links of all jobs of the state, with their targets."""
    for job in state.jobs:
        for row in state.catalogue.rows(job.id):
            if row.kind == "h":
                yield row.path, b"/" + row.text.removeprefix(b"./").strip(b"/")
