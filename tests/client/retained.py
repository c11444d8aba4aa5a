"""What is kept by rules of retention, beside a model, over drawn years; what `forget` marks, and what it says. Without a
daemon."""
import calendar
import datetime
import json
import random
import time

from sdd_client.catalogue import Catalogue, listed
from sdd_client.errors import Misused
from sdd_client.filelist import Row
from sdd_client.head import Head, Place
from sdd_client.retention import Rules, begin_of, reasons
from site_of_test import is_told

SEED, TURNS, DAY = 86, 60, 86_400_000_000
START = 1_600_000_000_000_000
LINES = "session {0} {1}", "span Vol-{2:04} {1} 1 1 {3} {4}"


def periods_of(moment):
    """The periods in which a moment lies, by the names of the rules."""
    time = datetime.datetime.fromtimestamp(moment / 1e6)
    week = time.isocalendar()
    return {"hourly": (time.date(), time.hour), "daily": time.date(), "weekly": (week.year, week.week),
            "monthly": (time.year, time.month), "yearly": time.year}


def is_kept(moments, periods, at, rules):
    """The model: a run is kept if it is the last of its period, and fewer than so many later periods have a run."""
    own, later = periods[at], periods[at + 1:]
    if len(later) < rules.last:
        return True
    for name in ("hourly", "daily", "weekly", "monthly", "yearly"):
        others = {one[name] for one in later} if getattr(rules, name) else {own[name]}
        if own[name] not in others and len(others) < getattr(rules, name):
            return True
    if not rules.within:
        return False
    end = datetime.datetime.fromtimestamp(moments[-1] / 1e6)
    return datetime.datetime.fromtimestamp(moments[at] / 1e6) >= end - datetime.timedelta(days=int(rules.within[:-1]))


def model(checks, site):
    """Over drawn years of runs, regular and not, the rules keep what the model keeps; and the same if they are asked again."""
    numbers, kept_runs, all_runs = random.Random(SEED), 0, 0
    for turn in range(TURNS):
        step = numbers.choice([DAY // 24, DAY // 3, DAY, DAY, 5 * DAY])
        moments = [START + numbers.randrange(300 * DAY)]
        count = numbers.choice([1, 30, 200, 400])
        while len(moments) < count:
            moments.append(moments[-1] + numbers.choice([step, step, numbers.randrange(1, 2 * step), 40 * step if numbers.random() < 0.02 else step]))
        values = [numbers.choice([0, 0, 1, 3, 12]) for _ in range(6)]
        rules = Rules(*values, within=numbers.choice(["", f"{numbers.randrange(1, 90)}d"]))
        if not any(rules):
            continue
        got = [bool(why) for why in reasons(moments, rules)]
        periods = list(map(periods_of, moments))
        checks.same(f"turn {turn} {rules}", got, [is_kept(moments, periods, at, rules) for at in range(len(moments))])
        left = [moment for moment, is_there in zip(moments, got) if is_there]
        checks.check(f"turn {turn} again", all(reasons(left, rules)) and got[-1], rules)
        kept_runs, all_runs = kept_runs + len(left), all_runs + len(moments)
    print(f"runs: {all_runs}, kept: {kept_runs}")
    checks.check("some of many", 500 < kept_runs < all_runs / 2, kept_runs, all_runs)


def durations(checks, site):
    """A duration goes back by the calendar: to the same day, or the month's last."""
    numbers = random.Random(SEED)
    for _ in range(300):
        end = datetime.datetime(2000, 1, 1) + datetime.timedelta(hours=numbers.randrange(24 * 9000))
        years, months, days = numbers.randrange(4), numbers.randrange(15), numbers.randrange(40)
        count = (end.year - years) * 12 + end.month - 1 - months
        year, month = count // 12, count % 12 + 1
        wanted = end.replace(year=year, month=month, day=min(end.day, calendar.monthrange(year, month)[1])) - datetime.timedelta(days=days)
        checks.same(f"{end} {years} {months} {days}", begin_of(end, f"{years}y{months}m{days}d"), wanted)
    for text in ("7", "d", "7x", "1d1y", "-1d", "1 d", "", "1.5d"):
        try:
            checks.check(f"{text!r}", begin_of(datetime.datetime(2000, 1, 1), text) is None)
        except Misused as why:
            checks.check("told", f"'{text}' is no duration" in str(why), why)
    is_told(checks, "no duration", site.say("forget", "j", "--keep-within", "7"), 2, "'7' is no duration")
    checks.same("for ever", begin_of(end, "9000y"), datetime.datetime.min)


def noted(catalogue, number, began, chain, copy_of=None):
    """Notes a job of one session, 1000 bytes of a volume for ten jobs, and gives its key."""
    key = [1000, 2 * number]
    volume, at = number // 10, 1000 * (number % 10)
    place = Place([LINES[0].format(1000, 2 * number + 1), LINES[1].format(1000, 2 * number + 1, volume, at, at + 900)], 900, 900)
    last = Place([LINES[0].format(*key), LINES[1].format(*key, volume, at + 900, at + 1000)], 100, 100)
    head = Head("host", "j", number, began, began + 1, "Default", "File", 1, 900, 0, sessions=[place], chain=chain, copy_of=copy_of,
                level="incremental" if chain else "full")
    catalogue.keep(head, last, listed([Row("f", 1, 1, 1, 0, 512, b"/x", b"")]))
    return key


def forgotten(checks, site):
    """Marked are the runs that no rule keeps and no kept job stands on. It is said first, with what it frees."""
    numbers = random.Random(SEED)
    words = ["--client", "host", "forget", "j"]
    with Catalogue(site.catalogue) as catalogue:
        chain = []
        for number in range(1, 60):
            chain = [] if number % 7 == 1 else chain
            chain = [*chain, noted(catalogue, number, START + number * DAY + numbers.randrange(DAY // 2), chain)]
        noted(catalogue, 60, START, [], copy_of=[1000, 2])
        tried, status = site.say(*words, "--keep-last", 3, "--keep-weekly", 4, "--dry-run")
        checks.check("tried", status == 0 and "runs would be forgotten" in tried, tried)
        checks.same("nothing is marked", {job.status for job in catalogue.jobs()}, {"kept"})
        done, status = site.say(*words, "--keep-last", 3, "--keep-weekly", 4)
        checks.same("as it was said", (done.replace("are forgotten", ""), status), (tried.replace("would be forgotten", ""), 0))
        jobs = catalogue.jobs()
        left = {tuple(job.key()): job for job in jobs if job.status == "kept"}
        lost = [job for job in jobs if job.status == "forgotten"]
        checks.check("some", 10 < len(lost) < 55 and len(left) + len(lost) == 60, len(lost))
        checks.check("chains are whole", all(tuple(key) in left for job in left.values() for key in job.chain))
        needless = [job.id for job in left.values() if not job.copy_of and "chain" in line_of(done, job.id)
                    and not any(job.key() in other.chain for other in left.values())]
        checks.same("no more than chains", needless, [])
        checks.check("the copy stays", any(job.copy_of for job in left.values()))
        free = {line.split()[1].rstrip(":") for line in done.splitlines() if line.startswith("volume ") and "none of kept ones" in line}
        wanted = {f"Vol-{number:04}" for number in range(7)} - {f"Vol-{job.number // 10:04}" for job in left.values()}
        checks.same("volumes", free, wanted)
        checks.check("again", "0 runs are forgotten" in site.say(*words, "--keep-last", 3, "--keep-weekly", 4)[0])
    last = json.loads(site.say("list", "--json")[0])
    checks.same("listed", sum(row["status"] == "forgotten" for row in last), len(lost))
    is_told(checks, "not restored", site.say("--client", "host", "restore", "j", "--at", "2020-09-16", "--to", site.folder / "x"), 1)
    is_told(checks, "no rule", site.say(*words), 2, "no rule says what is kept")
    is_told(checks, "no job", site.say("--client", "host", "forget", "k", "--keep-last", 1), 1, "no job k")
    checks.same("wrong", [site.say(*words, "--keep-last", one)[1] for one in ("0", "x")], 2 * [2])


def line_of(text, number):
    return next(line for line in text.splitlines() if line.split()[1] == str(number))


def many_days(checks, site):
    """A list of thirty days of many files is there within a second, though the catalogue is great."""
    rows = [Row("f", 4096, 10**18 + number, 1, 5120 * number, 5120, b"/srv/some/folder/%07d" % number, b"") for number in range(20_000)]
    with Catalogue(site.catalogue) as catalogue:
        for day in range(30):
            head = Head("host", "j", day + 1, START + day * DAY, START + day * DAY + 1, "Default", "File", 20_000, 1, 0, sessions=[])
            catalogue.keep(head, Place([LINES[0].format(1000, day + 1), LINES[1].format(1000, day + 1, 1, 0, 1)], 1, 1), listed(rows))
    begun = time.monotonic()
    said, status = site.say("list")
    took = time.monotonic() - begun
    print(f"30 days of 20000 files: {took:.2f} seconds, {site.catalogue.stat().st_size / 1e6:.1f} MB")
    checks.same("listed", (len(said.splitlines()), status), (30, 0))


GROUPS = dict.fromkeys([model, durations, forgotten, many_days], "")
