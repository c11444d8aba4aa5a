"""`list`, `files` and `find`: what the catalogue has, as lines or as JSON."""
from __future__ import annotations

import fnmatch
import json
import os
import re
import typing

from .backup import shown
from .catalogue import KEPT, PARTLY, Catalogue, Job
from .chosen import Choice, dated
from .errors import Failed
from .filelist import Row
from .head import Head
from .progress import size_of
from .state import State


def sent(head: Head) -> str:
    """A job that is kept, in a line."""
    return f"job {head.job}, number {head.number}: {head.files} files, {size_of(head.bytes)}, {len(head.sessions)} sessions"


def print_all(rows: typing.Iterable[dict[str, typing.Any]], line: typing.Callable[[dict[str, typing.Any]], str],
              is_json: bool) -> int:
    """Prints rows as a JSON list, one row a line, or as lines. Gives how many they are."""
    count = 0
    for row in rows:
        text = json.dumps(row) if is_json else line(row)
        print(("[" if not count else ",") + text if is_json else text)
        count += 1
    if is_json:
        print("]" if count else "[]")
    return count


def job_row(catalogue: Catalogue, job: Job) -> dict[str, typing.Any]:
    """A job as JSON has it. Moments are in microseconds since 1970."""
    row = {name: getattr(job, name) for name in ("id", "number", "client", "name", "level", "began", "ended", "status", "pool",
                                                 "media", "files", "bytes", "faults", "stages", "paths", "copy_of")}
    row["sessions"] = [place.lines for _, place in sorted(catalogue.places(job.id).items())]
    return row


def list_jobs(catalogue: Catalogue, name: str | None, is_json: bool) -> None:
    def line(row: dict[str, typing.Any]) -> str:
        copy = " copy" if row["copy_of"] else ""
        return (f"{row['id']} {row['client']} {row['name']} {row['level'] or '-'} {dated(row['began'])} "
                f"{row['files'] or 0} files {size_of(row['bytes'])} {row['status']}{copy}")

    jobs = catalogue.jobs(name)
    if name and not jobs:
        raise Failed(f"the catalogue has no job {name}")
    print_all((job_row(catalogue, job) for job in jobs), line, is_json)


def file_row(row: Row, state: State | None = None) -> dict[str, typing.Any]:
    """A file as JSON has it. A name that is no UTF-8 has its other bytes as Python's surrogates. The time is in
    nanoseconds. Of an increment it says which job has the member, by its id."""
    entry = {"kind": row.kind, "size": row.size, "mtime": row.mtime, "path": os.fsdecode(row.path)}
    if row.text and row.kind != "d":
        entry["text"] = os.fsdecode(row.text)
    if row.is_member():
        entry |= {"session": row.session, "offset": row.offset, "length": row.length}
        if state and state.job.chain:
            entry |= {"session": state.number_of[row.session], "member_of": state.job_of[row.session].id}
    return entry


def file_line(row: dict[str, typing.Any]) -> str:
    path, text = shown(row["path"]), shown(row.get("text", ""))
    if row["kind"] in "!-":
        return f"{row['kind']} {path}: {text}"
    joined = {"l": " -> ", "h": " = /"}.get(row["kind"], "")
    return f"{row['kind']} {row['size']} {dated(row['mtime'] // 1000)} {path}{joined}{text}"


def list_files(catalogue: Catalogue, job: Job, paths: list[str], is_json: bool) -> None:
    """Lists the files of a job, and the names that tar spoke of."""
    if not job.has_list:
        raise Failed("the catalogue has no list of this job's files")
    state = State(catalogue, job)
    choice = Choice(state, paths)
    rows = (row for row in state.rows() if choice.names(row.path) or not row.path)
    print_all((file_row(row, state) for row in rows), file_line, is_json)


def find_files(catalogue: Catalogue, pattern: str, is_json: bool) -> int:
    """Lists the files of all jobs whose name or path is like the pattern. Gives how many they are."""
    like = re.compile(fnmatch.translate(pattern).encode(errors="surrogateescape"), re.DOTALL)

    def found() -> typing.Iterator[dict[str, typing.Any]]:
        for job in catalogue.jobs():
            if job.status not in (KEPT, PARTLY):
                continue
            for row in catalogue.rows(job.id):
                if row.is_member() and (like.match(os.path.basename(row.path)) or like.match(row.path)):
                    yield {"id": job.id, "job": job.name, "client": job.client, "began": job.began, **file_row(row)}

    def line(row: dict[str, typing.Any]) -> str:
        return f"{row['id']} {row['job']} {dated(row['began'])} {file_line(row)}"

    return print_all(found(), line, is_json)
