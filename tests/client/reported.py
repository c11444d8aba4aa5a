"""`report --html`: a page that is well formed, asks for nothing elsewhere, and tells what is late or incomplete; with drawn
jobs, hostile names, and in headless Chromium where it is."""
import dataclasses
import datetime
import html.parser
import os
import pathlib
import random
import re
import shutil
import struct
import subprocess
import tempfile
import zlib


from sdd_client.catalogue import Job
from sdd_client.report import Facts, Volume, alarms, page
from sdd_client.retention import Usage
from sdd_client.settings import JobSettings
from site_of_test import is_told

SEED = 87
NOW = datetime.datetime(2026, 11, 28, 18, 30)
VOID = {"meta", "br", "rect"}
CHROMIUM = ["--headless=new", "--no-sandbox", "--disable-gpu", "--hide-scrollbars", "--disable-dev-shm-usage", "--no-first-run"]


class Outline(html.parser.HTMLParser):
    """What is in a page, and whether each tag that begins ends."""

    def __init__(self, text):
        super().__init__(convert_charrefs=True)
        self.open, self.faults, self.counts, self.texts, self.links = [], [], {}, [], []
        self.feed(text)
        self.close()
        self.faults += self.open

    def handle_starttag(self, tag, attributes):
        self.counts[tag] = self.counts.get(tag, 0) + 1
        self.links += [(tag, name) for name, value in attributes if name in ("src", "href", "srcset", "action") or name.startswith("on")]
        if tag not in VOID:
            self.open.append(tag)

    def handle_startendtag(self, tag, attributes):
        self.counts[tag] = self.counts.get(tag, 0) + 1

    def handle_endtag(self, tag):
        if tag in VOID:
            return
        if not self.open or self.open.pop() != tag:
            self.faults.append(f"/{tag}")

    def handle_data(self, data):
        self.texts.append(data)


def job(number, name, began, status="kept", level="full", size=10**9, client="host"):
    moment = int(began.timestamp() * 1e6)
    return Job(number, number, client, name, level, moment, moment + 10**7, status, "Default", "File", 100, size, 2 if status == "partly" else 0, [], [], [],
               None, None, True, 1, number)


def drawn():
    """Facts of some months: a job each day with misses, one each week, one that never ran."""
    numbers, jobs = random.Random(SEED), []
    for day in range(150, 0, -1):
        began = NOW - datetime.timedelta(days=day, hours=16)
        if numbers.random() < 0.93:
            status = numbers.choices(["kept", "partly", "failed", "unknown", "forgotten"], [20, 2, 1, 0.2, 6 if day > 60 else 0])[0]
            size = numbers.randrange(10**8, 3 * 10**9)
            jobs.append(job(len(jobs) + 1, "home", began, status, "incremental" if day % 7 else "full", size if day % 7 else 12 * 10**9))
        if day % 7 == 3:
            jobs.append(job(len(jobs) + 1, "database", began, size=4 * 10**9))
    settings = {"home": JobSettings(["/home"], schedule="daily"), "database": JobSettings(["/srv"], schedule="weekly"),
                "mail": JobSettings(["/var/mail"], schedule="daily")}
    volumes = [Volume("Vol-0001", "Default", "full", 68 * 10**9, 68_719_476_736), Volume("Vol-0002", "Default", "append", 31 * 10**9, 68_719_476_736)]
    return Facts("host", NOW, jobs, settings, {"Vol-0001": Usage(41 * 10**9, 20 * 10**9), "Vol-0002": Usage(29 * 10**9, 0)}, volumes)


def pages(checks, site):
    """Pages of drawn facts are well formed, ask for nothing elsewhere, and have a day of the calendar for each day."""
    facts = drawn()
    text = page(facts)
    outline = Outline(text)
    checks.same("well formed", outline.faults, [])
    checks.same("asks for nothing", (outline.links, re.findall(r"https?:|url\(|@import|<script", text)), ([], []))
    checks.check("calendars", text.count("<title>") > 3 * 25 * 7, text.count("<title>"))
    checks.check("pictures", outline.counts["svg"] >= 3 + 6 + 1 + 2 and "prefers-color-scheme: dark" in text, outline.counts)
    told = alarms(facts)
    checks.check("never ran", "Job mail of host has no run that is kept." in told, told)
    hostile = "<script>alert(1)</script>\"'&\udcff"
    worse = dataclasses.replace(facts, client=hostile, jobs=[job(1, hostile, NOW, client=hostile)], lacking=hostile,
                                volumes=[Volume(hostile, hostile, "error", 5, None)], settings={})
    outline = Outline(page(worse))
    checks.same("hostile names", (outline.faults, outline.links, outline.counts.get("script")), ([], [], None))
    checks.check("are shown", any("<script>alert(1)</script>" in one for one in outline.texts))
    empty = Facts("host", NOW, [], {}, {}, [])
    checks.same("an empty one", (Outline(page(empty)).faults, alarms(empty)), ([], []))


def late(checks, site):
    """A job is late once its last kept run is more than a quarter of its schedule overdue."""
    settings = {"j": JobSettings(["/x"], schedule="daily")}
    for hours, status, count in ((1, "kept", 0), (29, "kept", 0), (31, "kept", 1), (1, "failed", 2), (31, "failed", 2), (1, "partly", 1), (1, "unknown", 2),
                                 (1, "running", 2)):
        facts = Facts("host", NOW, [job(1, "j", NOW - datetime.timedelta(hours=hours), status)], settings, {}, [])
        checks.same(f"{hours} hours {status}", len(alarms(facts)), count)
    facts = Facts("host", NOW, [job(1, "j", NOW - datetime.timedelta(days=90))], {}, {}, [])
    checks.same("without a schedule", alarms(facts), [])
    for states, count in ((["append"], 0), (["full"], 1), (["full", "append"], 0), (["error", "append"], 1)):
        volumes = [Volume(f"Vol-{at}", "Default", state, 5, 10) for at, state in enumerate(states)]
        checks.same(f"volumes {states}", len(alarms(Facts("host", NOW, [], {}, {}, volumes))), count)


def written(checks, site):
    """The command writes the page; without a daemon it says that the volumes aren't known."""
    site.draw()
    jobs, out = site.folder / "jobs.toml", site.folder / "page.html"
    jobs.write_text(f"[job.j]\npaths = ['{site.files}']\nschedule = 'daily'\n[job.never]\npaths = ['/x']\nschedule = 'weekly'\n")
    with site.daemon():
        site.label("Vol-0001")
        site.label("Vol-0002")
        is_told(checks, "run", site.say("run", "j", "--jobs", jobs), 0)
        checks.same("report", site.say("--conf", site.conf, "report", "--html", out, "--jobs", jobs), ("", 0))
    text = out.read_text()
    checks.check("tells", all(word in text for word in ("Vol-0001", "Vol-0002", "68.7 GB", "Job never of", "has no run that is kept")), text[-3000:])
    checks.same("well formed", Outline(text).faults, [])
    is_told(checks, "without a daemon", site.say("report", "--html", out, "--jobs", jobs), 3, "the page lacks the volumes: no daemon listens")
    checks.check("says so", "aren&#x27;t known: no daemon listens" in out.read_text())
    is_told(checks, "no place", site.say("report", "--html", site.folder / "none" / "x", "--jobs", jobs), 1, "No such file")


def png_size(path):
    return struct.unpack(">II", path.read_bytes()[16:24])


def brightness(path):
    """The mean of a PNG's bytes, of its first lines: about how bright the page's ground is."""
    data, at, packed = path.read_bytes(), 8, b""
    width, _ = png_size(path)
    channels = {2: 3, 6: 4}[data[25]]
    while at < len(data):
        size, kind = struct.unpack(">I4s", data[at:at + 8])
        packed += data[at + 8:at + 8 + size] if kind == b"IDAT" else b""
        at += size + 12
    line = zlib.decompress(packed)[:1 + width * channels]
    # The first pixel: whatever its filter is, nothing is before it.
    return sum(line[1:4]) / 3


def in_a_browser(checks, site):
    """In Chromium the page has its height, and the ground of the light or the dark. The light one is the picture in docs."""
    browser = shutil.which("chromium")
    if not browser:
        print("not run: in_a_browser, which needs chromium")
        return
    place = site.folder / "page.html"
    place.write_text(page(drawn()))
    for name, dark, bounds in (("light", [], (240, 256)), ("dark", ["--blink-settings=preferredColorScheme=0", "--force-dark-mode"], (0, 60))):
        picture = site.folder / f"{name}.png"
        with tempfile.TemporaryDirectory() as home:
            words = [browser, *CHROMIUM, *dark, f"--user-data-dir={home}", "--window-size=800,1500", f"--screenshot={picture}", place.as_uri()]
            run = subprocess.run(words, capture_output=True, text=True, timeout=240, env={**os.environ, "HOME": home})
        if not picture.exists():
            checks.check(f"{name}: a picture", False, run.stderr[-500:])
            continue
        checks.same(f"{name}: size", png_size(picture), (800, 1500))
        checks.check(f"{name}: ground", bounds[0] <= brightness(picture) <= bounds[1], brightness(picture))
        if keep := os.environ.get("SDD_PICTURES"):
            shutil.copy(picture, pathlib.Path(keep) / f"report-{name}.png")


GROUPS = dict.fromkeys([pages, late, written, in_a_browser], "")
