"""The command line: ports, wrong words, lines of the operator; what is left out of a job; where streams are read from and
written to."""
import json
import os
import re
import shutil
import socket
import stat
import subprocess
import threading

import standin
from daemon import CLIENT, ROOT, WAIT
from jobs import restored
from sdd_client.main import JOB_TIMEOUT
from site_of_test import is_told, say

FORMS = {"label": "label DRIVE VOLUME POOL MEDIA", "adopt": "adopt DRIVE VOLUME", "mount": "mount DRIVE VOLUME",
         "unmount": "unmount DRIVE", "retire": "retire DRIVE", "purge": "purge DRIVE VOLUME", "cancel": "cancel TICKET",
         "jobmedia": "jobmedia TICKET", "status": "status", "requests": "requests"}


def said(site, *words, **env):
    """What the command says without a port on its command line."""
    run = subprocess.run([CLIENT, *map(str, words)], stdout=subprocess.PIPE, stderr=subprocess.STDOUT, text=True, timeout=WAIT,
                         env={**site.env, **env})
    return run.stdout, run.returncode


def ports(checks, site):
    """The port is that of --port, of --conf, of SDD_PORT, in this order; one that is none is told as such."""
    with site.daemon():
        for what, words, env in (("--port", ["--port", site.port], {"SDD_PORT": "1"}), ("--conf", ["--conf", site.conf], {}),
                                 ("--conf before", ["--conf", site.conf], {"SDD_PORT": "1"}), ("SDD_PORT", [], {"SDD_PORT": str(site.port)})):
            checks.same(what, said(site, *words, "console", "requests", **env), ("ok requests 0\n", 0))
    for port in ("99999", "0", "-1", "x", "65536"):
        came = said(site, "--port", port, "console", "status")
        checks.check(f"--port {port}", came[1] == 2 and "argument --port: invalid port value" in came[0], came)
        is_told(checks, f"SDD_PORT {port}", said(site, "console", "status", SDD_PORT=port), 2, f"SDD_PORT is '{port}', and no port")
    is_told(checks, "no configuration", said(site, "--conf", site.folder, "console", "status"), 4)


def operators(checks, site):
    """A known word of the operator with wrong words says its form, and isn't sent. `help` has all of them, and so has the man
    page."""
    is_told(checks, "without a daemon", site.say("console", "mount", 1), 2, "the form is: console mount DRIVE VOLUME\n")
    printed, status = site.say("console", "help")
    checks.same("help", (printed.splitlines(), status), (list(FORMS.values()), 0))
    page = (ROOT / "docs" / "man" / "sdd-client.1").read_text()
    for word, form in FORMS.items():
        checks.check(f"{word} in the man page", re.search(rf'^\.BI? "?console {word}\b', page, re.MULTILINE))
        words = form.split()
        for wrong in (words[:-1], [*words, "1"]):
            if wrong:
                is_told(checks, f"{wrong}", site.say("console", *wrong), 2, f"the form is: console {form}\n")
    with site.daemon():
        for wrong in (["mount", "x", "Vol-0001"], ["cancel", "x"], ["jobmedia", 0]):
            is_told(checks, f"{wrong}", site.say("console", *wrong), 1, f"the form is: console {FORMS[wrong[0]]}\n", "39")
        is_told(checks, "no name", site.say("console", "mount", 1, "a/b"), 1, "3937 Bad name")
        is_told(checks, "an unknown word", site.say("console", "frob"), 1, "3901 Bad command")
        checks.same("in one word", site.say("console", "label 1 Vol-0001 Default File"), ("ok labelled\n", 0))


def old_lines(checks, site):
    """A command line of an earlier version says so, and no job comes of it. A job waits longer than the daemon's unit does
    for a volume."""
    site.draw()
    with standin.StandIn() as daemon:
        for words in (["spans/www.1", site.files], ["www.spans", site.files], ["./spans", site.files], ["/spans", site.files]):
            is_told(checks, f"backup {words[0]}", say(daemon.port, "backup", *words, env=site.env), 2, "is no job's name",
                    "backup --spans FILE PATH ..")
        is_told(checks, "no path", say(daemon.port, "backup", "spans", env=site.env), 2, "backup JOB PATH ..")
        is_told(checks, "a record", say(daemon.port, "--record", "1000", "backup", "j", site.files, env=site.env), 2, "multiples of 512")
        checks.same("no session", daemon.sessions, [])
    unit = (ROOT / "examples" / "sdd.service").read_text()
    checks.check("time-out", JOB_TIMEOUT > int(re.search(r"--wait (\d+)", unit)[1]), JOB_TIMEOUT)


def excluded(checks, site):
    """What is left out of a job on request, and what is left out and listed so."""
    site.draw()
    for name in ("cache/CACHEDIR.TAG", "cache/x", "under/a.o", "a.o", "deep/under/x"):
        (site.files / name).parent.mkdir(parents=True, exist_ok=True)
        (site.files / name).write_text("Signature: 8a477f597d28d172789f06886806bc55\n")
    (site.files / "link").symlink_to("deep")
    with socket.socket(socket.AF_UNIX) as one, site.daemon():
        one.bind(str(site.files / "socket"))
        site.label("Vol-0001")
        names = {}
        ways = {"all": [], "objects": ["--exclude", "*.o"], "anchored": ["--exclude", f"{site.files}/under"],
                "anywhere": ["--exclude", "under"], "caches": ["--caches"], "two": ["--exclude", "deep", "--exclude", "[c]ache"]}
        for name, options in ways.items():
            is_told(checks, f"backup {name}", site.say("backup", name, *options, site.files), 0)
            rows = json.loads(site.say("files", name, "--json")[0])
            checks.same(f"{name}: the socket", [row["kind"] for row in rows if row["path"].endswith("/socket")], ["-"])
            names[name] = {row["path"].removeprefix(f"{site.files}/") for row in rows}
        lack = {name: sorted(names["all"] - found) for name, found in names.items()}
        under = [name for name in names["all"] if name.startswith("under")]
        checks.same("objects", lack["objects"], ["a.o", "under/a.o"])
        checks.same("anchored", lack["anchored"], sorted(under))
        checks.same("anywhere", lack["anywhere"], sorted([*under, "deep/under", "deep/under/x"]))
        checks.same("caches", lack["caches"], ["cache/x"])
        checks.same("two", lack["two"], sorted(["cache", "cache/CACHEDIR.TAG", "cache/x", "deep", "deep/under", "deep/under/x"]))
        # A link that is named is kept as a link, and with a slash it is what it leads to.
        is_told(checks, "a link", site.say("backup", "link", site.files / "link"), 0, "is a link, and is kept as a link")
        is_told(checks, "behind it", site.say("backup", "behind", f"{site.files}/link/"), 0)
        checks.check("its files", f"{site.files}/deep/under/x" in site.say("files", "behind")[0])
        # The catalogue changes meanwhile: it is left out, and so is its journal.
        is_told(checks, "its own folder", site.say("backup", "own", site.catalogue.parent), 0)
        checks.check("no catalogue", str(site.catalogue) not in site.say("files", "own")[0])
        is_told(checks, "great", site.say("backup", "great", "--session", "100K", site.files), 0,
                "under/another has 131073 bytes, and is a session of its own")


def one_system(checks, site):
    """With --system a job stays in the file system of its paths."""
    site.draw()
    inner = site.files / "inner"
    inner.mkdir()
    mounted = subprocess.run(["mount", "-t", "tmpfs", "none", inner], capture_output=True)
    if mounted.returncode:
        print("not run: one_system, which needs to mount a file system")
        return
    try:
        (inner / "there").write_text("x")
        with site.daemon():
            site.label("Vol-0001")
            for name, options, there in (("all", [], True), ("one", ["--system"], False)):
                is_told(checks, f"backup {name}", site.say("backup", name, *options, site.files), 0)
                checks.same(f"{name}: there", f"{inner}/there" in site.say("files", name)[0], there)
                is_told(checks, f"restore {name}", site.say("restore", name, "--to", site.folder / name), 0)
                checks.same(f"{name}: restored", (restored(site, name) / "inner" / "there").exists(), there)
    finally:
        subprocess.run(["umount", inner], check=True)


def targets(checks, site):
    """Streams are read from devices, pipes and links and written to them as they are: nothing is replaced but a plain file."""
    site.draw()
    data, spans = (site.files / "under" / "another").read_bytes(), site.folder / "spans"
    queue, device, link, plain = (site.folder / name for name in ("queue", "device", "link", "plain"))
    os.mkfifo(queue)
    plain.write_text("old")
    link.symlink_to(plain)
    with site.daemon():
        site.label("Vol-0001")
        is_told(checks, "no file", site.say("append", site.folder / "nowhere", site.folder / "none"), 4, "No such file")
        feeding = threading.Thread(target=queue.write_bytes, args=(data,))
        feeding.start()
        checks.same("append from a pipe", site.say("append", queue, spans), ("", 0))
        feeding.join(timeout=WAIT)
        checks.same("append from a device", site.say("append", "/dev/null", site.folder / "empty"), ("", 0))
        with subprocess.Popen([CLIENT, "--port", str(site.port), "read", spans, queue], stderr=subprocess.DEVNULL) as one:
            checks.same("to a pipe", queue.read_bytes(), data)
            checks.same("status", one.wait(timeout=WAIT), 0)
        checks.check("still a pipe", stat.S_ISFIFO(queue.lstat().st_mode))
        is_told(checks, "through a link", site.say("read", spans, link), 0)
        checks.same("the link and its file", (link.is_symlink(), plain.read_bytes()), (True, data))
        link.unlink()
        link.symlink_to(site.folder / "later")
        is_told(checks, "through a link to nothing", site.say("read", spans, link), 0)
        checks.same("made", (link.is_symlink(), (site.folder / "later").read_bytes()), (True, data))
        is_told(checks, "a folder", site.say("read", spans, site.files), 4, "Is a directory")
        is_told(checks, "over spans", site.say("append", plain, link), 4, "is there already")
        if os.geteuid() == 0:
            devices(checks, site, spans, device, link)
        else:
            print("not run: devices, which need root")
    checks.same("parts", site.parts(), [])


def devices(checks, site, spans, device, link):
    """Devices that take nothing or all, by their names and by links."""
    for number, status, told in ((7, 4, "No space left on device"), (3, 0, "Ended=1")):
        device.unlink(missing_ok=True)
        os.mknod(device, 0o666 | stat.S_IFCHR, os.makedev(1, number))
        link.unlink()
        link.symlink_to(device)
        for place in (device, link):
            is_told(checks, f"to {place.name} {number}", site.say("read", spans, place), status, told)
            found = device.lstat()
            checks.check("still a device", stat.S_ISCHR(found.st_mode) and found.st_rdev == os.makedev(1, number), found)
    shutil.rmtree(site.folder / "state", ignore_errors=True)


GROUPS = dict.fromkeys([ports, operators, old_lines, excluded, one_system, targets], "")
