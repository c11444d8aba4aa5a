"""Jobs of drawn trees, back and forth: as root and as a user, in one session and in many, through stages and lanes; some of
their files; as they were at a date; checked, compared and copied."""
import collections
import json
import os
import pathlib
import pwd
import random
import shutil
import socket
import subprocess
import time

from daemon import Daemon, drive, free_port
from site_of_test import is_told
from trees import Tree, blocks, differences

SEED = 81
# What each group of drawn trees must have had.
LEAST = {"file": 10, "folder": 5, "link": 3, "hard": 2, "fifo": 2, "hole": 2, "acl": 2, "xattr": 2, "deep": 1, "long": 1}
USER = "nobody"


def restored(site, name, files=None):
    """Where the files of a site are in a restore of that name."""
    return site.folder / name / str(files or site.files).lstrip("/")


def round_trip(checks, site, name, *options, back=()):
    """A job of the site's files, restored and found the same."""
    is_told(checks, f"backup {name}", site.say("backup", name, *options, site.files), 0, f"job {name}, number")
    is_told(checks, f"restore {name}", site.say("restore", name, *back, "--to", site.folder / name), 0, "files are restored")
    checks.same(f"{name}: what rsync would do", differences(site.files, restored(site, name)), "")
    is_told(checks, f"check {name}", site.say("check", name, *back), 0, "as they were kept")


def drawn_trees(checks, site):
    """Trees as root: plain, in small sessions, by lanes and stages."""
    if not is_root(checks):
        return
    drawn = collections.Counter()
    key = key_in(site.folder)
    ways = {"plain": ((), ()), "small": (("--session", "20K"), ()), "lanes": (("--session", "20K", "--parallel", "3"), ()),
            "zstd": (("--through", "zstd -q"), ()),
            "both": (("--through", "gzip", "--through", f"age -r {key}", "--parallel", "2"), ("--identity", site.folder / "key"))}
    with site.daemon():
        site.label("Vol-0001")
        for number, (name, (there, back)) in enumerate(ways.items()):
            shutil.rmtree(site.files, ignore_errors=True)
            tree = Tree(random.Random(SEED + number), site.files, True).grow(90)
            drawn += tree.drawn
            round_trip(checks, site, name, *there, back=back)
            before, after = blocks(site.files), blocks(restored(site, name))
            checks.check(f"{name}: blocks", after <= before, after, before)
    counted(checks, drawn)


def counted(checks, drawn):
    print("drawn:", *(f"{kind} {count}" for kind, count in sorted(drawn.items())))
    checks.check("enough was drawn", all(drawn[kind] >= least for kind, least in LEAST.items()), drawn)


def is_root(checks):
    if os.geteuid() != 0 or any(not shutil.which(name) for name in ("rsync", "setfacl", "age", "zstd")):
        print(f"not run: {checks.group}, which needs root, rsync, acl, zstd and age")
        return False
    return True


def key_in(folder):
    """Makes a key of age, and gives its public part."""
    subprocess.run(["age-keygen", "-o", folder / "key"], check=True, capture_output=True)
    text = (folder / "key").read_text()
    return next(line.split()[-1] for line in text.splitlines() if "public key" in line)


def as_user(checks, site):
    """A tree of a user's own, backed up and restored by that user."""
    if not is_root(checks):
        return
    user = pwd.getpwnam(USER)
    home = site.folder / "home"
    home.mkdir()
    os.chown(home, user.pw_uid, user.pw_gid)
    for path in (site.folder, *site.folder.parents[:1]):
        path.chmod(0o755)
    made = {"user": user.pw_uid, "group": user.pw_gid, "extra_groups": [], "cwd": home,
            "env": {**site.env, "SDD_CATALOGUE": str(home / "state/catalogue"), "HOME": str(home)}}
    grow = ["python3", pathlib.Path(__file__).with_name("grow.py"), str(SEED), home / "files", "90"]
    grown = subprocess.run(grow, capture_output=True, text=True, **made)
    checks.same("grown", grown.returncode, 0)
    site.files = home / "files"
    with site.daemon():
        site.label("Vol-0001")
        is_told(checks, "backup", site.say("backup", "mine", "files", **made), 0, "job mine, number 1")
        is_told(checks, "restore", site.say("restore", "mine", "--to", home / "back", **made), 0)
        checks.same("what rsync would do", differences(site.files, home / "back" / str(site.files).lstrip("/")), "")
        # What a user can't read is named, and the rest is kept; where nothing can be read nothing is.
        (site.folder / "secret").write_text("x")
        (site.folder / "secret").chmod(0o600)
        came = site.say("backup", "more", "files", site.folder / "secret", **made)
        is_told(checks, "unreadable", came, 3, "secret: Cannot open: Permission denied", "kept, but for the 1 named")
        checks.check("in the catalogue", "secret: Cannot open" in site.say("files", "more", **made)[0])
        is_told(checks, "nothing", site.say("backup", "none", site.folder / "secret", **made), 1, "nothing that can be backed up")


def some_files(checks, site):
    """Paths of a job, with the folders above them and the first members of hard links; those of a date; by name."""
    site.draw()
    os.link(site.files / "a byte", site.files / "under" / "hard")
    (site.files / "under").chmod(0o700)
    with site.daemon():
        site.label("Vol-0001")
        is_told(checks, "backup", site.say("backup", "some", "--session", "3K", site.files), 0)
        is_told(checks, "restore", site.say("restore", "some", site.files / "under", "--to", site.folder / "one"), 0)
        back = restored(site, "one")
        checks.same("those", sorted(os.listdir(back)), ["a byte", "under"])
        checks.same("below", differences(site.files / "under", back / "under"), "")
        checks.same("one file", (back / "under" / "hard").stat().st_ino, (back / "a byte").stat().st_ino)
        for words, told in ((["/nowhere"], "/nowhere: not in the backup"), (["/nowhere", site.files], "/nowhere: not in")):
            is_told(checks, f"no such {words}", site.say("restore", "some", *words, "--to", site.folder / "no"), 1, told)
        checks.same("nothing made", (site.folder / "no").exists(), False)
        between = time.strftime("%Y-%m-%dT%H:%M:%S", time.gmtime(time.time() + 1))
        time.sleep(2)
        (site.files / "39").write_text("later")
        is_told(checks, "again", site.say("backup", "some", site.files), 0)
        for name, words, data in (("now", [], "later"), ("then", ["--at", between], None)):
            is_told(checks, name, site.say("restore", "some", *words, site.files / "39", "--to", site.folder / name), 0)
            got = (restored(site, name) / "39").read_bytes()
            checks.check(f"{name}: data", got == b"later" if data else len(got) == 5 and got != b"later", got)
        is_told(checks, "too early", site.say("restore", "some", "--at", "2001-01-01", "--to", site.folder / "no"), 1, "no job some")
        is_told(checks, "no date", site.say("restore", "some", "--at", "noon", "--to", site.folder / "no"), 2, "is no date")
        is_told(checks, "no job", site.say("restore", "other", "--to", site.folder / "no"), 1, "no job other")
        found = json.loads(site.say("find", "a*", "--json")[0])
        checks.same("found", [pathlib.Path(row["path"]).name for row in found].count("a byte"), 2)
        is_told(checks, "not found", site.say("find", "zzz"), 1, "no such file")
        jobs = json.loads(site.say("list", "--json")[0])
        checks.same("listed", [(row["name"], row["status"]) for row in jobs], 2 * [("some", "kept")])
        checks.check("many sessions", len(jobs[0]["sessions"]) > 4, jobs[0])
    checks.same("parts", site.parts(), [])


def existing_folders(checks, site):
    """A restore takes a new or an empty folder, and another one if that is asked for, but no way out of it."""
    site.draw()
    with site.daemon():
        site.label("Vol-0001")
        is_told(checks, "backup", site.say("backup", "j", site.files), 0)
        out = site.folder / "out"
        out.mkdir()
        is_told(checks, "empty", site.say("restore", "j", "--to", out), 0)
        is_told(checks, "full", site.say("restore", "j", "--to", out), 1, "isn't empty")
        (restored(site, "out") / "39").write_text("other")
        is_told(checks, "replace", site.say("restore", "j", "--to", out, "--replace"), 0)
        checks.same("the same", differences(site.files, restored(site, "out")), "")
        shutil.rmtree(restored(site, "out") / "under")
        away = site.folder / "away"
        away.mkdir()
        (restored(site, "out") / "under").symlink_to(away)
        is_told(checks, "a link", site.say("restore", "j", "--to", out, "--replace"), 1, "is a link")
        checks.same("nothing outside", os.listdir(away), [])


def compared(checks, site):
    """What is other than it was backed up is named."""
    site.draw()
    with site.daemon():
        site.label("Vol-0001")
        is_told(checks, "backup", site.say("backup", "j", site.files), 0)
        is_told(checks, "the same", site.say("compare", "j"), 0, "files are the same")
        (site.files / "39").write_text("other")
        (site.files / "-").unlink()
        (site.files / "new").touch()
        (site.files / " ").chmod(0o777)
        came = site.say("compare", "j")
        is_told(checks, "other", came, 3, "/39: ", "/-: ", "/new: is new", "/ : Mode differs", "differ")


def copied(checks, site):
    """A copy to another daemon is a job like the first, also where the first daemon is gone."""
    site.draw()
    other, port = site.folder / "other", free_port()
    other.mkdir()
    conf = site.folder / "other.conf"
    conf.write_text(f"port = {port}\n" + drive("File", other))
    with site.daemon() as first, Daemon(conf, port=port):
        site.label("Vol-0001")
        site.say("--port", port, "console", "label", 1, "Vol-0001", "Default", "File")
        is_told(checks, "backup", site.say("backup", "j", "--session", "100K", "--through", "gzip", site.files), 0)
        is_told(checks, "copy", site.say("copy", "j", "--to", port), 0, "sessions are copied")
        is_told(checks, "check", site.say("--port", port, "check", "j", "--copy"), 0)
        first.kill()
        is_told(checks, "restore", site.say("--port", port, "restore", "j", "--copy", "--to", site.folder / "back"), 0)
        checks.same("the same", differences(site.files, restored(site, "back")), "")
        is_told(checks, "the first", site.say("restore", "j", "--to", site.folder / "no"), 1, "no daemon listens")
        checks.check("listed", "copy" in site.say("list")[0])


def two_at_once(checks, site):
    """Two clients at once, with one catalogue."""
    site.draw()
    with site.daemon():
        site.label("Vol-0001")
        command = [str(word) for word in (pathlib.Path(__file__).parents[2] / "client/sdd-client", "--port", site.port, "backup")]
        options = {"env": site.env, "stderr": subprocess.DEVNULL}
        started = [subprocess.Popen([*command, f"j{number % 2}", "--session", "50K", site.files], **options) for number in range(4)]
        checks.same("all", [one.wait(timeout=120) for one in started], 4 * [0])
        jobs = json.loads(site.say("list", "--json")[0])
        checks.same("jobs", sorted(row["name"] for row in jobs), ["j0", "j0", "j1", "j1"])
        checks.same("clients", {row["client"] for row in jobs}, {socket.gethostname()})
        for name in ("j0", "j1"):
            is_told(checks, f"restore {name}", site.say("restore", name, "--to", site.folder / name), 0)
            checks.same(f"{name} the same", differences(site.files, restored(site, name)), "")


GROUPS = {drawn_trees: "", as_user: "", some_files: "", existing_folders: "", compared: "", copied: "", two_at_once: ""}
