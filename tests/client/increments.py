"""Increments: drawn days of changes, each restored as it was; what an increment stands on, and when it stands on nothing."""
import collections
import contextlib
import datetime
import json
import os
import random
import shutil
import signal
import sqlite3
import subprocess
import time

import standin
from daemon import CLIENT, until
from jobs import is_root, restored
from site_of_test import is_told, say
from trees import Tree, differences

SEED, DAYS = 85, 30
# Of each kind of change so many must have come.
LEAST = 2


class Changes:
    """Drawn changes to a tree. `drawn` counts what came."""

    def __init__(self, numbers, folder, is_root):
        self.numbers, self.folder, self.drawn = numbers, os.fsencode(folder), collections.Counter()
        self.tree = Tree.__new__(Tree)
        self.tree.__dict__.update(numbers=numbers, folder=self.folder, is_root=is_root, drawn=collections.Counter(), files=[], folders=[])
        self.kinds = [self.add, self.write, self.set_back, self.delete, self.rename, self.move, self.rename_folder, self.delete_folder,
                      self.made_anew, self.other_type, self.link, self.mode, self.attribute, self.hole, self.exchange, self.add_folder]
        self.count = 0

    def day(self, count):
        for _ in range(count):
            kind = self.numbers.choice(self.kinds)
            with contextlib.suppress(IndexError):
                kind()
                self.drawn[kind.__name__] += 1

    def found(self, holds):
        paths = [os.path.join(where, name) for where, folders, files in sorted(os.walk(self.folder)) for name in sorted(folders + files)]
        return [path for path in paths if holds(path)]

    def file(self):
        return self.numbers.choice(self.found(lambda path: os.path.isfile(path) and not os.path.islink(path)))

    def a_folder(self):
        return self.numbers.choice(self.found(lambda path: os.path.isdir(path) and not os.path.islink(path)))

    def new(self, where=None):
        self.count += 1
        return os.path.join(where or self.numbers.choice([self.folder, self.a_folder()]), b"n%d" % self.count)

    def fill(self, path):
        # In a sticky folder even root may not make a file that is there and another's.
        flags = os.O_WRONLY | (os.O_TRUNC if os.path.lexists(path) else os.O_CREAT | os.O_EXCL)
        with open(os.open(path, flags, 0o644), "wb") as file:
            file.write(self.numbers.randbytes(self.numbers.choice([0, 3, 700, 5000])))

    def add(self):
        self.fill(self.new())

    def add_folder(self):
        os.mkdir(path := self.new())
        self.fill(os.path.join(path, b"in it"))

    def write(self):
        self.fill(self.file())

    def set_back(self):
        self.fill(path := self.file())
        os.utime(path, ns=(10**17, 10**17))

    def delete(self):
        os.unlink(self.file())

    def rename(self):
        os.rename(path := self.file(), self.new(os.path.dirname(path)))

    def move(self):
        os.rename(self.file(), self.new())

    def rename_folder(self):
        os.rename(path := self.a_folder(), self.new(os.path.dirname(path)))

    def delete_folder(self):
        shutil.rmtree(self.numbers.choice(self.found(lambda path: os.path.isdir(path) and len(os.listdir(path)) < 3
                                                     and not os.path.islink(path))))

    def made_anew(self):
        shutil.rmtree(path := self.a_folder())
        os.mkdir(path)
        self.fill(os.path.join(path, b"anew"))

    def other_type(self):
        os.unlink(path := self.file())
        self.numbers.choice([os.mkdir, os.mkfifo, lambda path: os.symlink(b"elsewhere", path)])(path)

    def link(self):
        os.link(self.file(), self.new())

    def mode(self):
        os.chmod(self.file(), self.numbers.choice([0o600, 0o755, 0o4711]))

    def attribute(self):
        os.setxattr(self.file(), "user.day", self.numbers.randbytes(5))

    def hole(self):
        self.tree.hole(self.new())

    def exchange(self):
        one, other, between = self.file(), self.file(), self.new(self.folder)
        os.rename(one, between)
        with contextlib.suppress(FileNotFoundError):
            os.rename(other, one)
            os.rename(between, other)


def backup(site, port, *words, name="j", paths=None):
    return say(port, "backup", name, "--incremental", *words, *(paths or [site.files]), env=site.env)


def runs(site, port, name="j"):
    return json.loads(say(port, "list", name, "--json", env=site.env)[0])


def moment(run):
    return datetime.datetime.fromtimestamp(run["began"] / 1e6, datetime.timezone.utc).isoformat()


def days(checks, site):
    """A tree that changes from day to day: each of its days is restored as it was, whatever came after it."""
    if not is_root(checks):
        return
    numbers = random.Random(SEED)
    Tree(numbers, site.files, True).grow(60)
    changes, kept = Changes(numbers, site.files, True), site.folder / "days"
    kept.mkdir()
    with standin.StandIn() as daemon:
        for day in range(DAYS):
            if day:
                changes.day(numbers.randrange(3, 9))
            subprocess.run(["cp", "-a", "--sparse=always", site.files, kept / str(day)], check=True)
            came = backup(site, daemon.port, *(("--session", "20K") if day % 3 == 1 else ()), *(("--through", "gzip") if day % 4 == 2 else ()))
            is_told(checks, f"day {day}", came, 0, "job j, number")
        rows = runs(site, daemon.port)
        checks.same("levels", [row["level"] for row in rows], ["full"] + (DAYS - 1) * ["incremental"])
        for day, row in enumerate(rows):
            out = site.folder / "out"
            is_told(checks, f"restore {day}", say(daemon.port, "restore", "j", "--at", moment(row), "--to", out, env=site.env), 0)
            checks.same(f"day {day}: what rsync would do", differences(kept / str(day), restored(site, "out")), "")
            shutil.rmtree(out)
        is_told(checks, "check", say(daemon.port, "check", "j", env=site.env), 0, "as they were kept")
        is_told(checks, "compare", say(daemon.port, "compare", "j", env=site.env), 0, "files are the same")
        some_paths(checks, site, daemon.port, rows)
        sizes = sum(row["bytes"] for row in rows[1:])
    print("changes:", *(f"{kind} {count}" for kind, count in sorted(changes.drawn.items())), "bytes:", rows[0]["bytes"], sizes)
    checks.check("less than full runs", sizes < DAYS * rows[0]["bytes"] / 2, sizes, rows[0]["bytes"])
    checks.check("enough changes", len(changes.drawn) == len(changes.kinds) and min(changes.drawn.values()) >= LEAST, changes.drawn)


def some_paths(checks, site, port, rows):
    """Each folder at the top is restored alone as it is within the whole, and lists name what is there."""
    files = json.loads(say(port, "files", "j", "--json", env=site.env)[0])
    there = sorted(os.fsencode(row["path"]) for row in files if row["kind"] not in "!-")
    wanted = [os.fsencode(site.files)]
    for where, folders, names in os.walk(os.fsencode(site.files)):
        wanted += [os.path.join(where, name) for name in folders + names]
    checks.same("listed", there, sorted(wanted))
    checks.check("of many jobs", len({row["member_of"] for row in files}) > 3, {row["member_of"] for row in files})
    for name in sorted(os.listdir(site.files))[:6]:
        out = site.folder / "some"
        is_told(checks, f"{name!r}", say(port, "restore", "j", site.files / name, "--to", out, env=site.env), 0)
        one, other = site.files / name, restored(site, "some") / name
        if one.is_dir() and not one.is_symlink():
            # A hard link out of the folder comes with its other name.
            checks.same(f"{name!r}: what rsync would do", differences(one, other), "")
        else:
            checks.same(f"{name!r}: type", oct(one.lstat().st_mode), oct(other.lstat().st_mode))
        shutil.rmtree(out)


def grounds(checks, site):
    """What an increment stands on: the last run that is kept. Where it can't, the job is a full one, and it says why."""
    site.draw()
    with standin.StandIn() as daemon:
        def level(*words, told="job j, number", **options):
            came = backup(site, daemon.port, *words, **options)
            is_told(checks, f"backup {words} {told}", came, 0, told)
            return runs(site, daemon.port)[-1]["level"]

        checks.same("first", level(), "full")
        checks.same("second", level(), "incremental")
        checks.same("left out", level("--exclude", "39", told="other paths, or left out others"), "full")
        checks.same("left out again", level("--exclude", "39"), "incremental")
        checks.same("paths", level(paths=[site.files, site.conf], told="other paths"), "full")
        is_told(checks, "plain", say(daemon.port, "backup", "j", site.files, env=site.env), 0)
        checks.same("after a plain one", level(told="a full job, since the last run has no snapshot"), "full")
        # A run that isn't kept changes nothing.
        is_told(checks, "broken", backup(site, daemon.port, "--through", "false"), 1)
        (site.files / "39").write_text("new")
        checks.same("after a broken one", level(), "incremental")
        with contextlib.closing(sqlite3.connect(site.catalogue)) as base, base:
            base.execute("UPDATE jobs SET ended = ended + 86400000000 WHERE id = (SELECT max(id) FROM jobs)")
        checks.same("clock", level(told="the clock was set back"), "full")
        checks.same("and on", level(), "incremental")
        killed_runs(checks, site, daemon)
        broken_chains(checks, site, daemon)


def killed_runs(checks, site, daemon):
    """A run that is killed at any stage is no ground, and the next one has all that changed before it."""
    stages = {"tar": "sh -c 'sleep 9; cat'", "list": "sh -c 'cat; sleep 9'"}
    for number, (name, stage) in enumerate(stages.items()):
        (site.files / f"changed {name}").write_text(name)
        command = [CLIENT, "--port", str(daemon.port), "backup", "j", "--incremental", "--through", stage, site.files]
        before = len(daemon.sessions)
        with subprocess.Popen(command, env=site.env, stderr=subprocess.DEVNULL, start_new_session=True) as one:
            until(lambda: len(daemon.sessions) > before)
            time.sleep(0.5)
            os.killpg(one.pid, signal.SIGKILL)
        is_told(checks, f"after {name}", backup(site, daemon.port), 0)
        out = site.folder / f"killed {name}"
        is_told(checks, f"restore after {name}", say(daemon.port, "restore", "j", "--to", out, env=site.env), 0)
        checks.same(f"the same after {name}", differences(site.files, restored(site, out.name)), "")
    checks.same("levels", [row["level"] for row in runs(site, daemon.port)][-1], "incremental")


def broken_chains(checks, site, daemon):
    """A job of the chain that the catalogue lacks is told before anything is written, and the next run is a full one."""
    with contextlib.closing(sqlite3.connect(site.catalogue)) as base, base:
        (chain,) = base.execute("SELECT chain FROM jobs WHERE chain != '[]' ORDER BY id DESC LIMIT 1").fetchone()
        base.execute("UPDATE jobs SET name = 'other' WHERE (time, session) = (?, ?)", json.loads(chain)[-1])
    out = site.folder / "lacking"
    for words in (["restore", "j", "--to", out], ["files", "j"], ["check", "j"], ["compare", "j"]):
        is_told(checks, words[0], say(daemon.port, *words, env=site.env), 1, "stands on the one with session", "isn't in the catalogue")
    checks.same("nothing is written", out.exists(), False)
    is_told(checks, "the next", backup(site, daemon.port), 0, "a full job, since", "isn't in the catalogue")
    checks.same("its level", runs(site, daemon.port)[-1]["level"], "full")


def faults(checks, site):
    """What wasn't kept as it was is sent with the next increment, though it didn't change since."""
    site.draw()
    tar = site.folder / "bin" / "tar"
    with standin.StandIn() as daemon:
        is_told(checks, "first", backup(site, daemon.port), 0)
        for name, message, anew in (("under/a/folder", "Read error at byte 0, while reading 512 bytes: Input/output error", {"under/a/folder"}),
                                    ("39", "File shrank by 3 bytes; padding with zeros", {"39"}),
                                    ("under", "Cannot open: Permission denied", {"under/a/folder", "under/another"})):
            tar.write_text(f"#!/bin/sh\n{shutil.which('tar')} \"$@\"\necho 'tar: {site.files}/{name}: {message}' >&2\nexit 1\n")
            tar.chmod(0o755)
            is_told(checks, f"fault of {name}", backup(site, daemon.port), 3, f"{name}: {message}")
            tar.unlink()
            is_told(checks, f"after {name}", backup(site, daemon.port), 0)
            row = runs(site, daemon.port)[-1]
            found = json.loads(say(daemon.port, "files", "j", "--json", env=site.env)[0])
            sent = {one["path"].removeprefix(f"{site.files}/") for one in found if one["member_of"] == row["id"] and one["kind"] == "f"}
            checks.check(f"{name} is sent", row["level"] == "incremental" and any(one.startswith(name) for one in sent), row["level"], sent)
            checks.same(f"{name}: no more", sent, anew)
        is_told(checks, "restore", say(daemon.port, "restore", "j", "--to", site.folder / "out", env=site.env), 0)
        checks.same("the same", differences(site.files, restored(site, "out")), "")


def nothing_deleted(checks, site):
    """A restore deletes nothing. Of an increment it makes what was there that day: in a folder of its own that is all, and in
    another one, on request, what else is there stays."""
    site.draw()
    with standin.StandIn() as daemon:
        is_told(checks, "first", backup(site, daemon.port), 0)
        (site.files / "39").unlink()
        os.rename(site.files / "a byte", site.files / "renamed")
        is_told(checks, "second", backup(site, daemon.port), 0)
        checks.same("levels", [row["level"] for row in runs(site, daemon.port)], ["full", "incremental"])
        for name in ("new", "old"):
            back = restored(site, name)
            others = [back / "39", back / "mine", back / "under" / "mine"] if name == "old" else []
            for other in others:
                other.parent.mkdir(parents=True, exist_ok=True)
                other.write_text("stays")
            words = ["restore", "j", "--to", site.folder / name, *(["--replace"] if others else [])]
            is_told(checks, name, say(daemon.port, *words, env=site.env), 0)
            checks.same(f"{name}: what else was there", [other.read_text() for other in others], ["stays"] * len(others))
            for other in others:
                other.unlink()
                # Its folder is as it was restored, but for its moment.
                shutil.copystat(site.files / other.parent.relative_to(back), other.parent)
            checks.same(f"{name}: the same", differences(site.files, back), "")


def lone_files(checks, site):
    """Files that are named themselves, unchanged or not."""
    site.draw()
    names = ["39", "a byte", "under/another"]
    paths = [site.files / name for name in names]
    with standin.StandIn() as daemon:
        is_told(checks, "first", backup(site, daemon.port, paths=paths), 0)
        paths[0].write_text("changed")
        for turn in range(2):
            is_told(checks, f"then {turn}", backup(site, daemon.port, paths=paths), 0)
            out = site.folder / f"out{turn}"
            is_told(checks, f"restore {turn}", say(daemon.port, "restore", "j", "--to", out, env=site.env), 0, "3 files are restored")
            checks.same(f"the same {turn}", [(restored(site, out.name) / name).read_bytes() for name in names], [one.read_bytes() for one in paths])
        paths[1].unlink()
        is_told(checks, "one is gone", backup(site, daemon.port, paths=paths), 3, "a byte: Cannot stat")
        is_told(checks, "restore", say(daemon.port, "restore", "j", "--to", site.folder / "last", env=site.env), 0, "2 files are restored")


def found_again(checks, site):
    """Increments are found on the volumes alone, and the next one stands on them."""
    site.draw()
    with site.daemon():
        site.label("Vol-0001")
        for name in ("one", "two", "three"):
            (site.files / name).write_text(name)
            is_told(checks, f"backup {name}", backup(site, site.port, "--through", "gzip"), 0)
        before = site.say("files", "j", "--json"), [(row["id"], row["level"], row["files"]) for row in runs(site, site.port)]
        site.catalogue.unlink()
        is_told(checks, "rebuild", site.say("rebuild", site.volumes), 0, "3 jobs, 3 of them new")
        checks.same("the same", (site.say("files", "j", "--json"), [(row["id"], row["level"], row["files"]) for row in runs(site, site.port)]), before)
        (site.files / "four").write_text("four")
        is_told(checks, "backup four", backup(site, site.port), 0)
        checks.same("level", runs(site, site.port)[-1]["level"], "incremental")
    is_told(checks, "restore", site.say("--volumes", site.volumes, "restore", "j", "--to", site.folder / "out"), 0)
    checks.same("what rsync would do", differences(site.files, restored(site, "out")), "")


GROUPS = dict.fromkeys([days, grounds, faults, nothing_deleted, lone_files, found_again], "")
