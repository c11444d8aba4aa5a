"""The head of a job's last session: one record that says what the job is and where its sessions are (docs/use/FORMATS.md, 'The
last session of a job'). Whoever has the volumes finds all jobs by these."""
from __future__ import annotations

import dataclasses
import json
import typing

from .dialogue import fields_of
from .errors import Failed, Unfit

MAGIC = b"sdd-client job 1\n"
# The Streams of the last session: its head, the list of files, and the snapshot of tar that the next increment stands on.
HEAD_STREAM, LIST_STREAM, SNAPSHOT_STREAM = 3, 4, 5


@dataclasses.dataclass
class Place:
    """A session of a job: the lines of its close, and the bytes of its stream, before and after the stages."""

    lines: list[str]
    raw: int
    stored: int

    def key(self) -> tuple[int, int]:
        """The session's time and number."""
        return fields_of(self.lines)[0]


@dataclasses.dataclass
class Head:
    """What a head says. `chain` has the keys (time, number) of the last sessions of the jobs that this one stands on, the
    first one first; a full job has none. `copy_of` is that key of the job that this one copies. Moments are in
    microseconds since 1970."""

    client: str
    job: str
    number: int
    began: int
    ended: int
    pool: str
    media: str
    files: int
    bytes: int
    faults: int
    level: str = "full"
    chain: list[list[int]] = dataclasses.field(default_factory=list)
    stages: list[str] = dataclasses.field(default_factory=list)
    sessions: list[Place] = dataclasses.field(default_factory=list)
    retention: typing.Any = None
    copy_of: list[int] | None = None

    def encoded(self) -> bytes:
        return MAGIC + json.dumps(dataclasses.asdict(self), indent=1).encode() + b"\n"


def head_in(data: bytes) -> Head | None:
    """The head in a session's first record, if that is one. What a later version adds is passed over."""
    if not data.startswith(MAGIC):
        return None
    known = {field.name for field in dataclasses.fields(Head)}
    try:
        said = {key: value for key, value in json.loads(data[len(MAGIC):]).items() if key in known}
        said["sessions"] = [Place(list(one["lines"]), int(one["raw"]), int(one["stored"])) for one in said["sessions"]]
        head = Head(**said)
        for place in head.sessions:
            place.key()
        return head
    except (ValueError, TypeError, KeyError, AttributeError, Unfit) as why:
        raise Failed(f"a job's head can't be read: {why}") from why
