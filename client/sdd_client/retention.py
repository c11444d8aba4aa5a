"""`forget JOB`: which runs of a job are kept by rules, in the words of borg and restic.

A rule keeps the last run of each of so many hours, days, weeks, months or years, the latest ones that have a run, in this
machine's zone. Each rule counts by itself, and what one of them keeps is kept; so is each job that a kept one stands on.
"""
from __future__ import annotations

import collections
import datetime
import re
import typing

from .catalogue import FORGOTTEN, KEPT, PARTLY, Catalogue, Job
from .chosen import dated
from .dialogue import SPAN
from .errors import Failed, Misused
from .progress import size_of

PERIODS = {"hourly": "%Y-%m-%d %H %z", "daily": "%Y-%m-%d", "weekly": "%G-%V", "monthly": "%Y-%m", "yearly": "%Y"}
DURATION = re.compile(r"(?:(\d{1,4})y)?(?:(\d{1,5})m)?(?:(\d{1,5})w)?(?:(\d{1,6})d)?(?:(\d{1,7})h)?")


class Rules(typing.NamedTuple):
    """How many runs or periods are kept by each rule, and for how long before the last run all are, as `1y6m7d`."""

    last: int = 0
    hourly: int = 0
    daily: int = 0
    weekly: int = 0
    monthly: int = 0
    yearly: int = 0
    within: str = ""


def begin_of(end: datetime.datetime, duration: str) -> datetime.datetime:
    """The moment so long before another one. A month before a day that it lacks is its last day."""
    found = DURATION.fullmatch(duration)
    if not duration or not found:
        raise Misused(f"'{duration}' is no duration as 1y6m, 2w, 7d or 12h")
    years, months, weeks, days, hours = (int(one or 0) for one in found.groups())
    whole = end.year * 12 + end.month - 1 - 12 * years - months
    if whole < 12:
        return datetime.datetime.min
    first = end.replace(year=whole // 12, month=whole % 12 + 1, day=1)
    next_month = (first + datetime.timedelta(days=32)).replace(day=1)
    begin = first.replace(day=min(end.day, (next_month - datetime.timedelta(days=1)).day))
    try:
        return begin - datetime.timedelta(weeks=weeks, days=days, hours=hours)
    except OverflowError:
        return datetime.datetime.min


def reasons(moments: typing.Sequence[int], rules: Rules) -> list[list[str]]:
    """Why each of these runs is kept, if it is: the rules that keep it. The moments are in microseconds since 1970."""
    if not any(rules):
        raise Misused("no rule says what is kept: --keep-last N, --keep-daily N or another")
    if rules.within:
        begin_of(datetime.datetime.now(), rules.within)
    found: list[list[str]] = [[] for _ in moments]
    times = [datetime.datetime.fromtimestamp(moment / 1_000_000).astimezone() for moment in moments]
    newest_first = sorted(range(len(moments)), key=lambda at: (moments[at], at), reverse=True)
    for at in newest_first[:rules.last]:
        found[at].append("last")
    for name, pattern in PERIODS.items():
        lasts: dict[str, int] = {}
        for at in newest_first:
            lasts.setdefault(times[at].strftime(pattern), at)
        for at in list(lasts.values())[:getattr(rules, name)]:
            found[at].append(name)
    if rules.within and newest_first:
        begin = begin_of(times[newest_first[0]].replace(tzinfo=None), rules.within)
        for at in newest_first:
            if times[at].replace(tzinfo=None) >= begin:
                found[at].append("within")
    return found


def stood_on(jobs: list[Job], why: list[list[str]]) -> None:
    """Adds what a kept job stands on."""
    by_key = {tuple(job.key() or ()): at for at, job in enumerate(jobs)}
    for at, job in enumerate(jobs):
        if why[at]:
            for key in job.chain:
                if (below := by_key.get(tuple(key))) is not None and not why[below]:
                    why[below].append("chain")


class Usage(typing.NamedTuple):
    """Bytes of a volume that are of kept jobs, and of others."""

    kept: int
    others: int


def usage(catalogue: Catalogue) -> dict[str, Usage]:
    """Who needs which volume, by all jobs of the catalogue. Sessions side by side on a volume count by their spans."""
    counts: dict[str, list[int]] = collections.defaultdict(lambda: [0, 0])
    for job in catalogue.jobs():
        for place in catalogue.places(job.id).values():
            for line in place.lines:
                if span := SPAN.fullmatch(line):
                    counts[span[1]][job.status not in (KEPT, PARTLY)] += int(span[6]) - int(span[5])
    return {name: Usage(*pair) for name, pair in sorted(counts.items())}


class Forgotten(typing.NamedTuple):
    """What came of it: a line for each run, and one for each volume on which a forgotten one lies."""

    lines: list[str]
    count: int


def forget(catalogue: Catalogue, name: str, client: str, rules: Rules, are_copies: bool, is_tried: bool) -> Forgotten:
    """Marks the runs of a job that no rule keeps. Nothing is removed from a volume."""
    reasons([], rules)
    jobs = [job for job in catalogue.jobs(name, client) if job.status in (KEPT, PARTLY) and bool(job.copy_of) == are_copies]
    if not jobs:
        raise Failed(f"the catalogue has no job {name} of {client} that is kept")
    why = reasons([job.began for job in jobs], rules)
    stood_on(jobs, why)
    lines = [f"{'keep' if why[at] else 'forget'} {job.id} {dated(job.began)} {job.level} {size_of(job.bytes)}"
             f"{' ' if why[at] else ''}{','.join(why[at])}" for at, job in enumerate(jobs)]
    gone = [job for at, job in enumerate(jobs) if not why[at]]
    before = usage(catalogue)
    with catalogue.change() as base:
        base.executemany("UPDATE jobs SET status = ? WHERE id = ?", ((FORGOTTEN, job.id) for job in gone))
        after = usage(catalogue)
        if is_tried:
            base.executemany("UPDATE jobs SET status = ? WHERE id = ?", ((job.status, job.id) for job in gone))
    for volume, (kept, _) in after.items():
        if freed := before[volume].kept - kept:
            lines.append(f"volume {volume}: {size_of(freed)} of forgotten jobs, {size_of(kept) if kept else 'none'} of kept ones")
    return Forgotten(lines, len(gone))
