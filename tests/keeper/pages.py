"""The keeper's part of the page of `sdd-client report`: as drawn figures say, as a round's own file says, and as a browser
shows it."""
import contextlib
import datetime
import html
import os
import pathlib
import random
import re
import shutil
import subprocess
import sys
import tempfile
import time

from daemon import CLIENT, ROOT
from keeper.figures import Figures
from sdd_client import report
from sdd_client.errors import Unfit
from sdd_client.keeperfigures import KeeperFigures, Room, figures_in, figures_of
from world import DAY, World

sys.path.append(str(ROOT / "tests" / "client"))
from reported import CHROMIUM, Outline, brightness, png_size

POOL = '[pool.Daily]\ndrives = [1]\nnames = "Daily-%05d"\nready = 2\nreserve = "1K"\nkeep = { last = 9 }\n'
NOW = datetime.datetime(2026, 11, 28, 18, 30)
SEED, DRAWS = 83, 200
SEVERAL = {"days": 0, "no days": 0, "no room": 0, "damage": 0, "nobody": 0}
# Names of clients are any texts.
NAMES = ["www", "desk", 'a "quoted" one', "back\\slash", "<script>alert(1)</script>", "two\nlines", "comma,=}", "päron"]


def run(checks, folder):
    drawn(checks)
    faults(checks, folder)
    alarms(checks)
    of_a_round(checks, folder)
    in_a_browser(checks, folder)


def draw(numbers):
    """Some figures, and the keeper's own text of them."""
    made, rooms, volumes, last = Figures(), [], {}, {}
    moment, jobs, differences = 1.7e9 + numbers.randrange(10**8), numbers.choice([0, 2]), numbers.choice([0, 3])
    made.add("sdd_keeper_round_seconds", moment)
    for pool in sorted(numbers.sample(["Daily", "Default", "a.b:c-d"], numbers.randrange(1, 4))):
        count, damaged = numbers.randrange(40), numbers.choice([0, 0, 1])
        volumes[pool] = count, damaged
        made.add("sdd_keeper_volumes", count, pool=pool)
        made.add("sdd_keeper_damaged_volumes", damaged, pool=pool)
        for drive in range(1, numbers.randrange(2, 4)):
            days, full = numbers.choice([None, numbers.random() * 90]), numbers.random() < 0.3
            one = Room(pool, str(drive), numbers.randrange(9), float(numbers.randrange(10**14)), float(numbers.randrange(10**12)),
                       days and float(f"{days:.15g}"), full)
            rooms.append(one)
            for name, value in (("ready_volumes", one.ready), ("free_bytes", one.free), ("reserve_bytes", one.reserve),
                                ("days_left", days), ("no_room", full)):
                if value is not None:
                    made.add(f"sdd_keeper_{name}", value, pool=pool, drive=drive)
            SEVERAL["no days" if days is None else "days"] += 1
            SEVERAL["no room"] += full
        SEVERAL["damage"] += damaged
    for client in numbers.sample(NAMES, numbers.randrange(4)):
        last[client, "home"] = began = float(int(moment) - numbers.randrange(10**7))
        made.add("sdd_keeper_last_success_seconds", began, client=client, job="home")
    SEVERAL["nobody"] += not last
    made.add("sdd_keeper_damaged_jobs", jobs)
    made.add("sdd_keeper_differences", differences)
    return KeeperFigures(moment, rooms, volumes, dict(sorted(last.items())), jobs, differences), made.text()


def drawn(checks):
    """What is drawn is found in the keeper's text of it, and is shown on a page that is well formed."""
    numbers = random.Random(SEED)
    for number in range(DRAWS):
        wanted, text = draw(numbers)
        found = figures_of(text)
        checks.same(f"drawn {number}", found, wanted)
        page = report.page(facts(found))
        outline = Outline(page)
        checks.same(f"drawn {number}: well formed", (outline.faults, outline.links, outline.counts.get("script")), ([], [], None))
        texts = set(outline.texts)
        shown = {pool for pool in found.volumes} | {client for client, _ in found.last} | {report.size_of(one.free) for one in found.rooms}
        checks.same(f"drawn {number}: shown", shown - texts, set())
    print("drawn:", ", ".join(f"{count} {what}" for what, count in SEVERAL.items()))
    checks.check("all of them came up", all(count >= 10 for count in SEVERAL.values()), SEVERAL)


def facts(figures):
    return report.Facts("host", NOW, [], {}, {}, [], keeper=figures)


def faults(checks, folder):
    """What isn't the keeper's file is refused."""
    _, right = draw(random.Random(1))
    texts = {"nothing": "", "a line of another": right + "sdd_talks 3\n", "half a line": right[:-4],
             "no round": right.replace("sdd_keeper_round_seconds 1", "sdd_keeper_round_second 1"),
             "no number": re.sub(r"sdd_keeper_differences \d", "sdd_keeper_differences many", right)}
    for name, text in texts.items():
        place = folder / "faulty.prom"
        place.write_text(text)
        with contextlib.suppress(Unfit):
            figures_in(str(place))
            checks.check(name, False, text)
        checks.same(f"{name} is refused", right != text, True)
    with contextlib.suppress(Unfit):
        figures_in(str(folder / "nowhere"))
        checks.check("no file", False)


def alarms(checks):
    """What is wrong comes first on the page, and nothing else does."""
    at = NOW.timestamp()
    room = Room("Daily", "1", 2, 1e12, 1e9, 40.0, False)
    well = KeeperFigures(at - 890, [room], {"Daily": (7, 0)}, {("www", "home"): at}, 0, 0)
    checks.same("all is well", report.alarms(facts(well)), [])
    for name, value, told in (
            ("round", at - 1200, "The keeper of the volumes has done no round since 2026-11-28T18:10:00."),
            ("rooms", [room._replace(is_full=True)], "There is no room for another volume of pool Daily on drive 1."),
            ("rooms", [room._replace(days_left=6.5)], "The room of pool Daily on drive 1 ends in 6.5 days."),
            ("volumes", {"Daily": (7, 2)}, "2 volumes of pool Daily are damaged."),
            ("damaged_jobs", 3, "3 kept jobs can't be restored whole."),
            ("differences", 4, "Folders, daemon and catalogue differ in 4 places; the keeper's log names them.")):
        page = report.page(facts(KeeperFigures(**{**vars(well), name: value})))
        checks.check(told, f"<ul class=alarm><li>{html.escape(told)}</li></ul>" in page, page[2500:3500])


def of_a_round(checks, folder):
    """The command shows what a round's own file says, and says so if there is none."""
    out = folder / "page.html"
    with World(folder / "world", POOL) as world:
        prom = world.folder / "keeper.prom"
        world.round()
        # By the machine's clock, which the page has.
        world.now = time.time() - 3 * DAY
        world.backup("<b>desk", "home", "Daily", [15_000])
        world.now += 3 * DAY
        world.round()
        told = said(world.port, folder, "--html", out, "--keeper", prom)
        texts = Outline(out.read_text()).texts
        checks.check("its page", told == ("", 0) and {"<b>desk", "3 days", "Daily", "1.0 KB"} <= set(texts), told, texts)
        prom.write_text("nothing")
        told = said(world.port, folder, "--html", out, "--keeper", prom)
        checks.check("no figures", told[1] == 3 and "the page lacks what the keeper tells" in told[0]
                     and "What the keeper tells isn&#x27;t known" in out.read_text(), told)
    checks.same("without the option", "Last whole backups" in out.read_text(), False)


def said(port, folder, *words):
    run = subprocess.run([CLIENT, "--port", str(port), "--catalogue", folder / "catalogue", "report", *map(str, words)],
                         capture_output=True, text=True, timeout=120, env={**os.environ, "SDD_JOBS": str(folder / "no-jobs.toml")})
    return run.stdout + run.stderr, run.returncode


def in_a_browser(checks, folder):
    """In Chromium each cell of the part is seen, in its row, and the page ends below it."""
    browser = shutil.which("chromium")
    if not browser:
        print("not run: the keeper's part of the page in a browser, for want of chromium (tools/packages)")
        return
    figures, _ = draw(random.Random(8))
    place, picture = folder / "page.html", folder / "page.png"
    # What the browser itself makes of the page is put below it, so that both are of one run.
    place.write_text(report.page(facts(figures)))
    with tempfile.TemporaryDirectory() as home:
        words = [browser, *CHROMIUM, f"--user-data-dir={home}", "--window-size=800,1500"]
        environment = {**os.environ, "HOME": home}
        subprocess.run([*words, f"--screenshot={picture}", place.as_uri()], capture_output=True, timeout=240, env=environment)
        seen = subprocess.run([*words, "--dump-dom", place.as_uri()], capture_output=True, text=True, timeout=240, env=environment)
    if not picture.exists():
        checks.check("a picture", False, seen.stderr[-500:])
        return
    checks.same("its size, and light ground", (png_size(picture), brightness(picture) > 240), ((800, 1500), True))
    rows = [[html.unescape(re.sub("<.*?>", "", one)) for one in re.findall(r"<t[dh][^>]*>(.*?)</t[dh]>", line, re.DOTALL)]
            for line in re.findall(r"<tr>(.*?)</tr>", seen.stdout, re.DOTALL)]
    wanted = [[one.pool, one.drive, str(one.ready), report.size_of(one.free), report.size_of(one.reserve),
               "-" if one.days_left is None else f"{one.days_left:.0f}"] for one in figures.rooms]
    checks.same("the rooms", [line for line in wanted if line not in rows], [])
    checks.same("the jobs", [client for client, _ in figures.last if not any(line[:2] == ["home", client] for line in rows)], [])
    if keep := os.environ.get("SDD_PICTURES"):
        shutil.copy(picture, pathlib.Path(keep) / "report-keeper.png")
