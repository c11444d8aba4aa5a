"""jobs.toml: what the jobs of this machine are, for `run` and `report`."""
from __future__ import annotations

import datetime
import os
import pathlib
import typing

from .cutter import SESSION
from .errors import Misused
from .options import JOB_NAME
from .retention import Rules, begin_of

SCHEDULES = {"hourly": "1h", "daily": "1d", "weekly": "1w", "monthly": "1m"}
# A run is late once it is overdue by so much of its schedule.
LATE = 0.25


class JobSettings(typing.NamedTuple):
    """What is said of a job."""

    paths: list[str]
    exclude: list[str] = []
    system: bool = False
    caches: bool = False
    pool: str = ""
    media: str = ""
    through: list[str] = []
    parallel: int = 1
    session: int = SESSION
    incremental: bool = False
    full: str = ""
    schedule: str = ""
    keep: Rules = Rules()
    before: str = ""
    after: str = ""

    def seconds(self) -> int | None:
        """How often it is to run, if that is said."""
        return seconds_of(SCHEDULES.get(self.schedule, self.schedule)) if self.schedule else None


class Settings(typing.NamedTuple):
    """The whole file: the way to the daemon, where figures go, and the jobs by their names."""

    way: dict[str, typing.Any]
    metrics: str
    jobs: dict[str, JobSettings]


WAYS = {"port": int, "rsh": str, "tls": str, "cert": str, "client": str}


def seconds_of(duration: str) -> int:
    """A duration in seconds, by the calendar from now back."""
    now = datetime.datetime.now().replace(microsecond=0)
    return int((now - begin_of(now, duration)).total_seconds())


def usual_file() -> pathlib.Path:
    if said := os.environ.get("SDD_JOBS"):
        return pathlib.Path(said)
    if os.geteuid() == 0:
        return pathlib.Path("/etc/sdd-client/jobs.toml")
    return pathlib.Path(os.environ.get("XDG_CONFIG_HOME") or os.path.expanduser("~/.config")) / "sdd-client" / "jobs.toml"


def settings_in(path: pathlib.Path) -> Settings:
    """What a file says. What it can't mean is told with the key."""
    # As in `console`.
    import tomllib
    try:
        said = tomllib.loads(path.read_text())
    except (OSError, ValueError) as why:
        raise Misused(f"{path}: {why}") from why
    jobs = said.pop("job", {})
    metrics = checked(f"{path}", said.pop("metrics", ""), str, "metrics")
    way = {key: checked(f"{path}", value, WAYS.get(key), key) for key, value in said.items()}
    if not isinstance(jobs, dict) or not all(isinstance(one, dict) for one in jobs.values()):
        raise Misused(f"{path}: a job is a table [job.NAME]")
    if wrong := [name for name in jobs if not JOB_NAME.fullmatch(name)]:
        raise Misused(f"{path}: {wrong[0]!r} is no job's name")
    return Settings(way, metrics, {name: job_in(f"{path}: job {name}", table) for name, table in jobs.items()})


def job_in(place: str, table: dict[str, typing.Any]) -> JobSettings:
    values = {}
    for key, value in table.items():
        if key == "keep":
            values[key] = rules_in(f"{place}, keep", checked(place, value, dict, key))
        else:
            values[key] = checked(place, value, TYPES.get(key), key)
    if not values.get("paths"):
        raise Misused(f"{place}: paths says what is backed up")
    if not all(path.startswith("/") for path in values["paths"]):
        raise Misused(f"{place}: paths begin with /")
    job = JobSettings(**values)
    for key, text in (("full", job.full), ("schedule", job.schedule), ("keep.within", job.keep.within)):
        try:
            if text and seconds_of(SCHEDULES.get(text, text)) <= 0:
                raise Misused(f"'{text}' is no time")
        except Misused as why:
            raise Misused(f"{place}, {key}: {why}") from why
    return job


def rules_in(place: str, table: dict[str, typing.Any]) -> Rules:
    return Rules(**{key: checked(place, value, str if key == "within" else int if key in Rules._fields else None, key)
                    for key, value in table.items()})


TYPES = {"paths": list, "exclude": list, "through": list, "system": bool, "caches": bool, "incremental": bool, "parallel": int,
         "session": int, "pool": str, "media": str, "full": str, "schedule": str, "before": str, "after": str}


def checked(place: str, value: typing.Any, kind: type | None, key: str) -> typing.Any:
    """A value, if it is what its key takes."""
    if kind is None:
        raise Misused(f"{place}: {key} isn't known")
    if type(value) is not kind or kind is list and not all(isinstance(one, str) for one in value):
        raise Misused(f"{place}: {key} is {'a list of texts' if kind is list else f'of type {kind.__name__}'}")
    if kind is int and value < 1:
        raise Misused(f"{place}: {key} is above 0")
    return value
