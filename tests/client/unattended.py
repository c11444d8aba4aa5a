"""`run JOB`: jobs.toml, locks, commands before and after, figures, rules of what is kept, and progress on a terminal."""
import collections
import contextlib
import json
import os
import pty
import random
import re
import shutil
import signal
import subprocess
import threading
import time

import standin
from daemon import CLIENT, WAIT, until
from sdd_client.errors import Misused
from sdd_client.progress import Now, line_of
from sdd_client.settings import settings_in
from site_of_test import is_told, say
from trees import differences

SEED, KILLS = 88, 9
FIGURE = re.compile(r'sdd_client_(\w+)\{job="(\w+)",client="([^"]+)"\} (\S+)')
WRONG = ["x = 1", "metrics = 1", "port = 'x'", "[job.j]", "[job.j]\npaths = '/x'", "[job.j]\npaths = ['x']", "[job.j]\npaths = ['/x']\nfrob = 1",
         "[job.j]\npaths = ['/x']\nkeep = {frob = 1}", "[job.j]\npaths = ['/x']\nkeep = {last = 0}", "[job.j]\npaths = ['/x']\nkeep = {within = 'x'}",
         "[job.'a/b']\npaths = ['/x']", "[job.j]\npaths = ['/x']\nschedule = 'often'", "[job.j]\npaths = ['/x']\nfull = '0d'", "[job.j", "job = 1",
         "[job.j]\npaths = ['/x']\nparallel = 'x'", "[job.j]\npaths = ['/x']\nincremental = 1"]


class Place:
    """A folder with jobs.toml, and a place for figures."""

    def __init__(self, site):
        self.site, self.jobs, self.metrics = site, site.folder / "jobs.toml", site.folder / "metrics"
        self.metrics.mkdir()
        site.draw()

    def write(self, *lines, name="j", paths=None):
        self.jobs.write_text("\n".join([f'metrics = "{self.metrics}"', f"[job.{name}]", f'paths = ["{paths or self.site.files}"]', *lines]) + "\n")

    def run(self, port, *words, name="j"):
        return say(port, *words, "run", name, "--jobs", self.jobs, env=self.site.env)

    def figures(self, name="j"):
        text = (self.metrics / f"sdd_client_{name}.prom").read_text()
        return {key: float(value) for key, job, client, value in FIGURE.findall(text) if job == name}

    def rows(self, port):
        return json.loads(say(port, "list", "--json", env=self.site.env)[0])


def files_of_jobs(checks, site):
    """What jobs.toml says is taken, and what it can't mean is told with its key."""
    place = Place(site)
    for text in WRONG:
        place.jobs.write_text(text)
        try:
            checks.check(repr(text), settings_in(place.jobs) is None)
        except Misused as why:
            checks.check(repr(text), str(why).startswith(f"{place.jobs}: "), why)
    is_told(checks, "told", place.run(1), 2, str(place.jobs))
    place.write()
    is_told(checks, "no such job", place.run(1, name="k"), 2, "has no job k")
    is_told(checks, "no file", say(1, "run", "j", "--jobs", site.folder / "none", env=site.env), 2, "No such file")
    is_told(checks, "the usual file", say(1, "run", "j", env={**site.env, "SDD_JOBS": str(place.jobs)}), 1, "no daemon listens")
    place.write('exclude = ["39"]', 'through = ["gzip"]', "parallel = 2", "session = 100000", "incremental = true", 'full = "7d"',
                'schedule = "daily"', "keep = {last = 2, within = '1m'}", 'pool = "Other"', "system = true", "caches = true")
    job = settings_in(place.jobs).jobs["j"]
    checks.same("read", (job.exclude, job.through, job.parallel, job.session, job.seconds(), job.keep.last), (["39"], ["gzip"], 2, 100000, 86400, 2))
    with standin.StandIn() as daemon:
        is_told(checks, "run", place.run(daemon.port), 0, "job j, number", "0 runs are forgotten")
        row = place.rows(daemon.port)[-1]
        checks.same("as it says", (row["pool"], row["stages"], len(row["sessions"]) > 2), ("Other", ["gzip"], True))
        checks.check("left out", "/39" not in say(daemon.port, "files", "j", env=site.env)[0])
        text = place.jobs.read_text()
        place.jobs.write_text(f"port = {daemon.port}\nclient = 'other'\n{text}")
        run = subprocess.run([CLIENT, "run", "j", "--jobs", place.jobs], env=site.env, capture_output=True, text=True, timeout=WAIT)
        checks.same("its port and client", (run.returncode, place.rows(daemon.port)[-1]["client"]), (0, "other"))


def commands(checks, site):
    """The commands before and after a job count: without the first it isn't run, and the second is run whatever comes."""
    place, log = Place(site), site.folder / "log"
    after = f'after = "echo after $SDD_JOB $SDD_STATUS >> {log}"'
    with standin.StandIn() as daemon:
        for what, lines, status, told, logged in (
                ("both", [f'before = "echo before $SDD_JOB >> {log}"', after], 0, "number", ["before j", "after j 0"]),
                ("before fails", ['before = "exit 3"', after], 1, "the command before the job ended with status 3: exit 3", ["after j 1"]),
                ("after fails", ['after = "exit 4"'], 3, "the command after the job ended with status 4", []),
                ("both fail", ['before = "false"', 'after = "false"'], 1, "the command before", []),
                ("the job fails", ['through = ["false"]', after], 1, "'false' ended with status 1", ["after j 1"])):
            log.write_text("")
            before = len(place.rows(daemon.port)) if site.catalogue.exists() else 0
            place.write(*lines)
            is_told(checks, what, place.run(daemon.port), status, told)
            checks.same(f"{what}: commands", log.read_text().splitlines(), logged)
            checks.same(f"{what}: figure", place.figures()["last_status"], status)
            kept = [row["status"] for row in place.rows(daemon.port)][before:]
            checks.check(f"{what}: kept", (kept == ["kept"]) == (status != 1), kept)


def one_at_a_time(checks, site):
    """Of one job there is one run at a time; a run that is ended, at whatever stage, tells its figures and frees the lock."""
    place, log = Place(site), site.folder / "log"
    stages = {"before": ['before = "sleep 20"'], "job": ['through = ["sh -c \'sleep 20\'"]'], "after": ['after = "sleep 20"']}
    with standin.StandIn() as daemon:
        for what, lines in stages.items():
            for number in (signal.SIGTERM, signal.SIGKILL):
                log.unlink(missing_ok=True)
                place.write(*lines, *([f'after = "echo $SDD_STATUS >> {log}"'] if what != "after" else []))
                command = [CLIENT, "--port", str(daemon.port), "run", "j", "--jobs", str(place.jobs)]
                before = len(daemon.sessions)
                with subprocess.Popen(command, env=site.env, stderr=subprocess.DEVNULL) as one:
                    lock = site.catalogue.with_name("j.lock")
                    until(lambda: lock.exists() and (what == "before" or len(daemon.sessions) > before))
                    time.sleep(1.5 if what == "after" else 0.7)
                    is_told(checks, f"{what}: another", place.run(daemon.port), 1, "job j is running")
                    one.send_signal(number)
                    status = one.wait(timeout=WAIT)
                checks.same(f"{what}: {number.name}", status, -number if number == signal.SIGKILL else 128 + number)
                if number == signal.SIGTERM:
                    checks.same(f"{what}: figure", place.figures()["last_status"], 128 + number)
                    if what != "after":
                        checks.same(f"{what}: the command after it", log.read_text().split(), [str(128 + number)])
                place.write()
                is_told(checks, f"{what}: the next one", place.run(daemon.port), 0)
    checks.same("parts", site.parts(), [])


def killed_at_drawn_moments(checks, site):
    """A timer's job that is killed at drawn moments, some of them after its end: what the catalogue says is kept is closed at
    the daemon and restored whole, the lock is free, no file is left behind, and the next run has all that changed."""
    place, numbers, counts, whole = Place(site), random.Random(SEED), collections.Counter(), 0.0
    place.write("incremental = true", 'full = "1h"', "keep = {last = 3}", 'through = ["sh -c \'sleep 0.3; cat; sleep 0.3\'"]')
    with standin.StandIn() as daemon:
        for turn in range(KILLS):
            (site.files / f"of turn {turn}").write_text(str(turn))
            before, begun = len(place.rows(daemon.port)) if turn else 0, time.monotonic()
            command = [CLIENT, "--port", str(daemon.port), "run", "j", "--jobs", str(place.jobs)]
            with subprocess.Popen(command, env=site.env, stderr=subprocess.DEVNULL, start_new_session=True) as one:
                if turn:
                    # Each part of the run has its turn.
                    time.sleep(1.2 * whole * (turn - 1 + numbers.random()) / (KILLS - 1))
                    with contextlib.suppress(ProcessLookupError):
                        os.killpg(one.pid, signal.SIGKILL)
                status = one.wait(timeout=WAIT)
            whole = whole or time.monotonic() - begun
            rows = place.rows(daemon.port)
            noted = [row["status"] for row in rows[before:]]
            counts["ended" if status == 0 else noted[0] if noted else "not begun"] += 1
            checks.check(f"turn {turn}: noted", noted == ["kept"] if status == 0 else noted in ([], ["running"], ["kept"]), status, noted)
            closed = {f"session 1000 {number}" for number, session in enumerate(daemon.sessions, 1) if session.status == "closed"}
            lost = [lines for row in rows if row["status"] == "kept" for lines in row["sessions"] if lines[0] not in closed]
            checks.same(f"turn {turn}: closed", lost, [])
            if noted == ["kept"]:
                is_the_same(checks, f"turn {turn}", site, daemon)
            is_told(checks, f"turn {turn}: the next run", place.run(daemon.port), 0)
            is_the_same(checks, f"turn {turn}: next", site, daemon)
            checks.same(f"turn {turn}: the next figure", place.figures()["last_status"], 0)
    checks.same("parts", site.parts(), [])
    print("a timer's job killed:", *(f"{name} {count}" for name, count in sorted(counts.items())))
    checks.check("enough of each", counts["running"] >= 2 and counts["ended"] >= 1, counts)


def is_the_same(checks, what, site, daemon):
    out = site.folder / "back"
    is_told(checks, f"{what}: restore", say(daemon.port, "restore", "j", "--undo", "cat", "--to", out, env=site.env), 0)
    checks.same(f"{what}: the same", differences(site.files, out / str(site.files).lstrip("/")), "")
    shutil.rmtree(out)


def figures(checks, site):
    """The figures say when it last ran and was kept, and what of it; a failed run leaves those of the last kept one."""
    place = Place(site)
    place.write('schedule = "weekly"', "incremental = true", "keep = {last = 2}")
    with standin.StandIn() as daemon:
        begun = time.time()
        for _ in range(4):
            is_told(checks, "run", place.run(daemon.port), 0)
        good = place.figures()
        checks.check("moments", begun < good["last_success_seconds"] <= good["last_run_seconds"] <= time.time(), good)
        row = place.rows(daemon.port)[-1]
        checks.same("figures", [good[f"last_{key}"] for key in ("files", "bytes", "faults", "status")],
                    [row["files"], row["bytes"], row["faults"], 0])
        checks.same("schedule", good["schedule_seconds"], 604800)
        checks.same("levels", [(one["level"], one["status"]) for one in place.rows(daemon.port)], [("full", "kept")] + 3 * [("incremental", "kept")])
        checks.same("readable", (place.metrics / "sdd_client_j.prom").stat().st_mode & 0o777, 0o644)
        place.write('through = ["false"]', 'full = "1h"', "incremental = true")
        is_told(checks, "broken", place.run(daemon.port), 1)
        bad = place.figures()
        checks.same("the last kept one's", [bad[key] for key in ("last_success_seconds", "last_files", "last_status")],
                    [good["last_success_seconds"], good["last_files"], 1])
        place.metrics.rename(site.folder / "gone")
        place.write()
        is_told(checks, "no place for them", place.run(daemon.port), 0, "the figures of the job aren't kept")


def terminals(checks, site):
    """On a terminal a job shows how far it is; elsewhere it prints no such lines."""
    site.files.mkdir()
    (site.files / "x").write_bytes(bytes(5_000_000))
    checks.same("a line", line_of(Now(5_000_000, 3), 2.0, 20_000_000), "5.0 MB, 2.5 MB/s, 3 files, 0:00:06 left")
    checks.same("without the whole", line_of(Now(0, 0), 0.0, None), "0 bytes, 0 bytes/s, 0 files")
    with standin.StandIn() as daemon:
        words = ["backup", "j", "--through", "sh -c 'head -c 1000000; sleep 2; cat'", site.files]
        for turn in range(2):
            said, status = on_a_terminal(site, daemon.port, *words)
            checks.check(f"shown {turn}", status == 0 and re.search(r"\d MB, \S+ MB/s, \d files", said) and "job j, number" in said, said)
        checks.check("time left", re.search(r"\d:\d\d:\d\d left", said) or "5.0 MB" in said, said)
        said, status = on_a_terminal(site, daemon.port, "restore", "j", "--undo", "sh -c 'head -c 1000000; sleep 2; cat'", "--to", site.folder / "out")
        checks.check("a restore", status == 0 and " files" in said and "2 files are restored" in said, said)
        is_told(checks, "elsewhere", say(daemon.port, *words, env=site.env), 0)
        checks.check("no such lines", "\r" not in say(daemon.port, "backup", "j", site.files, env=site.env)[0])


def on_a_terminal(site, port, *words):
    ours, theirs = pty.openpty()
    said = []

    def listen():
        try:
            while data := os.read(ours, 1 << 16):
                said.append(data)
        except OSError:
            pass

    listener = threading.Thread(target=listen, daemon=True)
    listener.start()
    with subprocess.Popen([CLIENT, "--port", str(port), *map(str, words)], env=site.env, stderr=theirs) as one:
        os.close(theirs)
        status = one.wait(timeout=WAIT)
    listener.join(timeout=5)
    os.close(ours)
    return b"".join(said).decode(), status


GROUPS = dict.fromkeys([files_of_jobs, commands, one_at_a_time, killed_at_drawn_moments, figures, terminals], "")
