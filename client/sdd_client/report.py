"""`report --html FILE`: one page about the jobs and the volumes, with its pictures in it, that needs no network and no
script. A part of the page is a function from `Facts` to its text, and `PARTS` has them in their order."""
from __future__ import annotations

import collections
import dataclasses
import datetime
import html
import typing

from .catalogue import FAILED, FORGOTTEN, KEPT, PARTLY, RUNNING, UNKNOWN, Catalogue, Job
from .chosen import dated
from .keeperfigures import KeeperFigures, alarms_of
from .progress import size_of
from .retention import Usage, usage
from .settings import LATE, JobSettings

WEEKS, DAYS = 26, 30
# The side of a day in the calendar and its step, where the days begin, and the page's width.
SIDE, STEP, LEFT, TOP, WIDTH, HEIGHT = 14, 17, 30, 18, 720, 120
# How full a volume is: a bar so wide and so high.
BAR, THICK = 200, 14
# What stands for a day with several runs: the one that matters most.
RANK = [KEPT, PARTLY, RUNNING, UNKNOWN, FAILED, FORGOTTEN]
WORDS = {KEPT: "kept", PARTLY: "kept but for what was named", FAILED: "not kept", UNKNOWN: "nobody knows",
         RUNNING: "begun and not ended", FORGOTTEN: "forgotten"}
STYLE = """
:root { color-scheme: light dark; --page: #fff; --text: #1b1f24; --quiet: #59636e; --line: #d1d9e0; --none: #eaeef2;
  --kept: #1a7f37; --partly: #bf8700; --failed: #cf222e; --unknown: #8250df; --running: #0969da; --forgotten: #afb8c1;
  --bar: #0969da; }
@media (prefers-color-scheme: dark) { :root {
  --page: #0d1117; --text: #e6edf3; --quiet: #9198a1; --line: #3d444d; --none: #212830;
  --kept: #2ea043; --partly: #d29922; --failed: #f85149; --unknown: #a371f7; --running: #4493f8; --forgotten: #656c76;
  --bar: #4493f8; } }
body { background: var(--page); color: var(--text); font: 15px/1.5 system-ui, sans-serif;
  max-width: 760px; margin: 2em auto; padding: 0 1em; }
h1 { font-size: 1.5em; }
h2 { font-size: 1.15em; margin-top: 2em; }
table { border-collapse: collapse; width: 100%; }
th, td { text-align: left; padding: .25em .6em .25em 0; border-bottom: 1px solid var(--line); }
td.number, th.number { text-align: right; }
.quiet, text { color: var(--quiet); fill: var(--quiet); font-size: 12px; }
svg { max-width: 100%; height: auto; }
ul.alarm { border-left: 4px solid var(--failed); padding: .5em 1.5em; }
.well { border-left: 4px solid var(--kept); padding: .5em 1em; }
.kept { fill: var(--kept); } .partly { fill: var(--partly); } .failed { fill: var(--failed); }
.unknown { fill: var(--unknown); } .running { fill: var(--running); } .forgotten { fill: var(--forgotten); }
.none { fill: var(--none); } .bar { fill: var(--bar); }
"""
PAGE = """<!DOCTYPE html>
<html lang="en"><head><meta charset="utf-8"><meta name="viewport" content="width=device-width">\
<title>Backups of {client}</title><style>{style}</style></head>
<body>
{parts}
</body></html>
"""


class Volume(typing.NamedTuple):
    """A volume as the daemon tells it: its pool, its state, its length in bytes, and how long it may get, if that is
    known."""

    name: str
    pool: str
    state: str
    length: int
    most: int | None


@dataclasses.dataclass
class Facts:
    """What a page tells."""

    client: str
    now: datetime.datetime
    jobs: list[Job]
    settings: dict[str, JobSettings]
    usage: dict[str, Usage]
    volumes: list[Volume]
    # Why the volumes aren't known, if they aren't.
    lacking: str = ""
    # What the keeper of the volumes tells, if it is asked for, or why that isn't known.
    keeper: KeeperFigures | None = None
    unkept: str = ""


def volumes_of(lines: list[str], most: int | None) -> list[Volume]:
    """The volumes in the daemon's status."""
    rows = [line.split(" ") for line in lines if line.startswith("volume ")]
    return [Volume(row[1], row[2], row[4], int(row[5]), most) for row in rows if len(row) >= 6 and row[5].isdigit()]


def facts_of(catalogue: Catalogue, client: str, settings: dict[str, JobSettings]) -> Facts:
    jobs = [job for job in catalogue.jobs() if job.copy_of is None]
    return Facts(client, datetime.datetime.now().replace(microsecond=0), jobs, settings, usage(catalogue), [])


def moment_of(job: Job) -> datetime.datetime:
    return datetime.datetime.fromtimestamp(job.began / 1e6)


def named(job: Job) -> tuple[str, str]:
    return job.client, job.name


def runs_of(facts: Facts) -> dict[tuple[str, str], list[Job]]:
    """The runs of each job by client and name; those of jobs.toml that never ran too."""
    found: dict[tuple[str, str], list[Job]] = {(facts.client, name): [] for name in facts.settings}
    for job in facts.jobs:
        found.setdefault(named(job), []).append(job)
    return dict(sorted(found.items()))


def kept_of(runs: list[Job]) -> list[Job]:
    return [job for job in runs if job.status in (KEPT, PARTLY)]


def alarms(facts: Facts) -> list[str]:
    """What whoever looks at the page should know first: what is late, and what is incomplete."""
    found = []
    for (client, name), runs in runs_of(facts).items():
        kept, whose = kept_of(runs), f"job {name} of {client}"
        every = facts.settings[name].seconds() if client == facts.client and name in facts.settings else None
        if every and not kept:
            found.append(f"Job {name} of {client} has no run that is kept.")
        elif every and (age := (facts.now - moment_of(kept[-1])).total_seconds()) > every * (1 + LATE):
            found.append(f"Job {name} of {client} is late: its last kept run was {in_words(age)} ago, "
                         f"and it is to run every {in_words(every)}.")
        if runs and (last := runs[-1]).status not in (KEPT, FORGOTTEN):
            faults = f": {last.faults} names aren't as they were" if last.status == PARTLY else ""
            found.append(f"The last run of {whose}, on {dated(last.began)}, is {WORDS[last.status]}{faults}.")
    found += [f"Volume {one.name} is in state {one.state}." for one in facts.volumes if one.state == "error"]
    if facts.lacking:
        found.append(f"The volumes aren't known: {facts.lacking}.")
    elif facts.volumes and not any(one.state == "append" for one in facts.volumes):
        found.append("No volume takes more.")
    if facts.unkept:
        found.append(f"What the keeper tells isn't known: {facts.unkept}.")
    return found + (alarms_of(facts.keeper, facts.now.timestamp()) if facts.keeper else [])


def in_words(seconds: float) -> str:
    for unit, size in (("days", 86400), ("hours", 3600), ("minutes", 60)):
        if seconds >= 2 * size:
            return f"{seconds / size:.0f} {unit}"
    return f"{seconds:.0f} seconds"


# What the parts are made of.


def escaped(text: object) -> str:
    """A text for the page, also of bytes that are none."""
    return html.escape(str(text).encode(errors="replace").decode())


def element(name: str, inside: str = "", **attributes: object) -> str:
    """An element with what is in it, which is text of the page already, and its attributes, which are escaped. `class_`
    is the attribute `class`, `aria_label` is `aria-label`."""
    said = "".join(f' {key.rstrip("_").replace("_", "-")}="{escaped(value)}"' for key, value in attributes.items())
    return f"<{name}{said}>{inside}</{name}>" if inside else f"<{name}{said}/>"


def picture(size: tuple[int, int], label: str, inside: str, **attributes: object) -> str:
    return element("svg", inside, viewBox=f"0 0 {size[0]} {size[1]}", **attributes, role="img", aria_label=label)


def title(text: str) -> str:
    """What is shown where the pointer rests."""
    return element("title", escaped(text))


def cell(tag: str, inside: str, is_number: bool = False) -> str:
    return f"<{tag}{' class=number' if is_number else ''}>{inside}</{tag}>"


def row(cells: typing.Iterable[object], head: bool = False, numbers: typing.Container[int] = ()) -> str:
    tag = "th" if head else "td"
    return element("tr", "".join(cell(tag, escaped(one), at in numbers) for at, one in enumerate(cells)))


def calendar(runs: list[Job], now: datetime.datetime, label: str) -> str:
    """The weeks up to now, each a column with its days from Monday on."""
    by_day: dict[datetime.date, list[Job]] = collections.defaultdict(list)
    for job in runs:
        by_day[moment_of(job).date()].append(job)
    first = now.date() - datetime.timedelta(days=now.weekday() + 7 * (WEEKS - 1))
    parts = [element("text", name, x=0, y=TOP + at * STEP + 11) for at, name in ((0, "Mon"), (3, "Thu"), (6, "Sun"))]
    month = None
    for count in range((now.date() - first).days + 1):
        day = first + datetime.timedelta(days=count)
        x, y = count // 7 * STEP + LEFT, count % 7 * STEP + TOP
        if count % 7 == 0 and day.month != month:
            month = day.month
            parts.append(element("text", f"{day:%b}", x=x, y=12))
        parts.append(day_of(day, by_day.get(day, []), x, y))
    width, height = WEEKS * STEP + LEFT, 7 * STEP + TOP
    return picture((width, height), label, "".join(parts), width=width)


def day_of(day: datetime.date, runs: list[Job], x: int, y: int) -> str:
    """A day in the calendar."""
    status = min((job.status for job in runs), key=RANK.index, default="none")
    told = ", ".join(f"{moment_of(job):%H:%M} {job.level or ''} {WORDS[job.status]}" for job in runs) or "no run"
    return element("rect", title(f"{day}: {told}"), x=x, y=y, width=SIDE, height=SIDE, rx=2, class_=status)


def counts_by_day(facts: Facts, first: datetime.date) -> list[int]:
    """The bytes of files that kept runs sent, by days."""
    counts = [0] * DAYS
    for job in facts.jobs:
        day = (moment_of(job).date() - first).days
        if 0 <= day < DAYS and job.bytes and job.status in (KEPT, PARTLY, FORGOTTEN):
            counts[day] += job.bytes
    return counts


def sizes(facts: Facts) -> str:
    """A bar for each day's bytes."""
    first = facts.now.date() - datetime.timedelta(days=DAYS - 1)
    counts = counts_by_day(facts, first)
    most, step = max(counts), WIDTH / DAYS
    parts = [element("text", f"at most {size_of(most)} a day", x=0, y=12)]
    for at, count in enumerate(counts):
        day, x, height = first + datetime.timedelta(days=at), f"{at * step:.1f}", HEIGHT * count / (most or 1)
        bar = {"x": x, "y": f"{HEIGHT + 16 - height:.1f}", "width": f"{step - 3:.1f}",
               "height": f"{max(height, 1):.1f}"}
        parts.append(element("rect", title(f"{day}: {size_of(count)}"), **bar, class_="bar" if count else "none"))
        if at % 7 == 0:
            parts.append(element("text", f"{day:%d %b}", x=x, y=HEIGHT + 30))
    return picture((WIDTH, HEIGHT + 36), "bytes by day", "".join(parts))


def fill(volume: Volume, needed: Usage) -> str:
    """How full a volume is, and how much of it kept jobs need."""
    whole = volume.most or max(volume.length, 1)
    full, kept = min(1.0, volume.length / whole), min(1.0, needed.kept / whole)
    told = f"{size_of(volume.length)} of {size_of(whole)}" if volume.most else size_of(volume.length)
    bars = ((BAR, "none"), (f"{BAR * full:.1f}", "forgotten"), (f"{BAR * min(kept, full):.1f}", "kept"))
    inside = "".join(element("rect", width=width, height=THICK, rx=3, class_=kind) for width, kind in bars)
    return picture((BAR, THICK), told, inside + title(f"{told}, {size_of(needed.kept)} of kept jobs"), width=BAR)


# The parts of the page.


def told_part(facts: Facts) -> str:
    if told := alarms(facts):
        return "<ul class=alarm>" + "".join(f"<li>{escaped(one)}</li>" for one in told) + "</ul>"
    return "<p class=well>Nothing is late, and nothing is incomplete.</p>"


def jobs_part(facts: Facts) -> str:
    names, numbers = ["job", "client", "last kept run", "level", "files", "size", "runs kept"], {4, 5, 6}
    lines = ["<h2>Jobs</h2><table>", row(names, True, numbers)]
    for (client, name), runs in runs_of(facts).items():
        kept = kept_of(runs)
        last = kept[-1] if kept else None
        run = [dated(last.began), last.level, last.files, size_of(last.bytes)] if last else ["none", "-", 0, "-"]
        lines.append(row([name, client, *run, len(kept)], False, numbers))
    return "\n".join([*lines, "</table>"])


def calendars_part(facts: Facts) -> str:
    lines = []
    for (client, name), runs in runs_of(facts).items():
        shown = calendar(runs, facts.now, f"runs of job {name} of {client}")
        lines.append(f"<h2>{escaped(name)} <span class=quiet>{escaped(client)}</span></h2>{shown}")
    return "\n".join([*lines, f"<p class=quiet>{legend()}</p>"])


def legend() -> str:
    """What each status looks like."""
    side = {"width": SIDE, "height": SIDE}
    shown = {words: element("rect", **side, rx=2, class_=status) for status, words in WORDS.items()}
    return "".join(f"{element('svg', rect, **side)} {words}&emsp;" for words, rect in shown.items())


def days_part(facts: Facts) -> str:
    return f"<h2>Sent by day</h2>{sizes(facts)}"


def volumes_part(facts: Facts) -> str:
    names, numbers = ["volume", "pool", "state", "full", "length", "of kept jobs"], {4, 5}
    lines = ["<h2>Volumes</h2>", "<table>" + row(names, True, numbers)]
    for one in facts.volumes:
        needed = facts.usage.get(one.name, Usage(0, 0))
        cells = [escaped(one.name), escaped(one.pool), escaped(one.state), fill(one, needed), size_of(one.length),
                 size_of(needed.kept)]
        lines.append(element("tr", "".join(cell("td", inside, at in numbers) for at, inside in enumerate(cells))))
    if not facts.volumes:
        known = ((name, size_of(needed.kept)) for name, needed in facts.usage.items())
        lines += [row([name, "", "", "", "", kept], False, numbers) for name, kept in known]
    return "\n".join(lines) + "</table>"


def keeper_part(facts: Facts) -> str:
    """What the keeper tells: the room of each pool, its volumes, and all clients' jobs."""
    if not (keeper := facts.keeper):
        return ""
    now = facts.now.timestamp()
    names = ["pool", "drive", "ready volumes", "free", "reserve", "days left"]
    lines = ["<h2>Room</h2><table>", row(names, True, {2, 3, 4, 5})]
    for one in keeper.rooms:
        left = "-" if one.days_left is None else f"{one.days_left:.0f}"
        cells = [one.pool, one.drive, one.ready, size_of(one.free), size_of(one.reserve), left]
        lines.append(row(cells, False, {2, 3, 4, 5}))
    lines += ["</table><br><table>", row(["pool", "volumes", "damaged"], True, {1, 2})]
    lines += [row([pool, *counts], False, {1, 2}) for pool, counts in keeper.volumes.items()]
    lines += ["</table>", "<h2>Last whole backups</h2><table>", row(["job", "client", "began", "ago"], True, {3})]
    for (client, name), moment in keeper.last.items():
        lines.append(row([name, client, dated(int(moment * 1e6)), in_words(max(0.0, now - moment))], False, {3}))
    told = f"The keeper's last round was {in_words(max(0.0, now - keeper.round))} before."
    return "\n".join([*lines, f"</table><p class=quiet>{told}</p>"])


PARTS: list[typing.Callable[[Facts], str]] = [told_part, jobs_part, calendars_part, days_part, volumes_part, keeper_part]


def page(facts: Facts) -> str:
    """The whole page."""
    client = escaped(facts.client)
    parts = [f"<h1>Backups of {client}</h1>", f'<p class="quiet">As they are on {facts.now:%Y-%m-%d at %H:%M}.</p>']
    parts += [part(facts) for part in PARTS]
    return PAGE.format(client=client, style=STYLE, parts="\n".join(parts))
