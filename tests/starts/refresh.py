"""What the service unit runs before and after a start: `sdd-refresh`, by the pages that memory has of volumes before and after it,
and with calls that fail or hang; and `sdd-listens`."""
import ctypes
import errno
import mmap
import os
import re
import socket
import subprocess
import sys
import threading
import time

from daemon import ROOT, WAIT, drive, environment, free_port
from shim import Holds, loaded

REFRESH, LISTENS = ROOT / "examples" / "sdd-refresh", ROOT / "examples" / "sdd-listens"
PAGE, PAGES = mmap.PAGESIZE, 25
LIBC = ctypes.CDLL(None, use_errno=True)
# What is in a folder: whether a volume's name may be that.
NAMES = {"Vol-0001": True, "a": True, "Vol:1.2_3-4": True, ".dot": True, "x" * 70: True, "Vol-0001~": False, "Vol-0001~~": False,
         ".lock~": False, "two words": False, "x" * 128: False, "Vol-\u00e9": False}


def resident(path):
    """How many pages of a file memory has. To look at them brings none in."""
    with open(path, "r+b") as file, mmap.mmap(file.fileno(), 0) as pages:
        count = len(pages) // PAGE
        told, at = (ctypes.c_ubyte * count)(), (ctypes.c_char * len(pages)).from_buffer(pages)
        answer = LIBC.mincore(ctypes.byref(at), ctypes.c_size_t(len(pages)), told)
        del at
    if answer:
        raise OSError(ctypes.get_errno(), "mincore")
    return sum(one & 1 for one in told)


def filled(folder, *folders):
    """A configuration of folders that are made, with a file of each name, all of which memory has: what most have isn't written
    back yet."""
    for place in folders:
        (folder / place).mkdir(parents=True)
        for number, name in enumerate(NAMES):
            with open(folder / place / name, "wb") as file:
                file.write(os.urandom(PAGES * PAGE))
                if number % 2:
                    os.fsync(file.fileno())
    conf = folder / "conf"
    conf.write_text("port = 1\n" + "".join(drive("File", folder / place) for place in folders))
    return conf


def run(conf, env=None, program=REFRESH):
    """What it prints, its complaints, and its status. The folders come in any order."""
    done = subprocess.run([program, conf], env=env, capture_output=True, text=True, timeout=WAIT)
    return done.stdout, sorted(done.stderr.splitlines()), done.returncode


def dropped(checks, folder, _):
    """Of each volume memory has nothing afterwards, of any other file all; what is no file is passed over."""
    conf = filled(folder / "dropped", "one", "two")
    target = folder / "dropped" / "target"
    target.write_bytes(bytes(PAGES * PAGE))
    for place in ("one", "two"):
        (folder / "dropped" / place / "Link").symlink_to(target)
        (folder / "dropped" / place / "Folder").mkdir()
        os.mkfifo(folder / "dropped" / place / "Pipe")
    files = {path: NAMES[path.name] for place in ("one", "two") for path in (folder / "dropped" / place).iterdir() if path.name in NAMES}
    if any(resident(path) < PAGES for path in files):
        print("not run: what memory has of volumes, for want of a file system that tells it")
        return
    before = {path: path.read_bytes() for path in files}
    checks.same("what it prints", run(conf), ("", [], 0))
    for path, is_volume in files.items():
        checks.same(f"{path.parent.name}/{path.name[:20]}", resident(path), 0 if is_volume else PAGES)
    checks.same("another's link", resident(target), PAGES)
    checks.same("their bytes", {path: path.read_bytes() for path in files}, before)


def failing(checks, folder, library):
    """A sync that fails is told, and its pages are dropped all the same; so is a volume that can't be opened. Each is synced once."""
    conf = filled(folder / "failing", "one")
    place, log, plan = folder / "failing" / "one", folder / "failing.calls", folder / "failing.plan"
    volumes = sorted(name for name, is_volume in NAMES.items() if is_volume)
    for kind, nth, number in (("none", 1, 0), ("datasync", 1, errno.EIO), ("datasync", 3, errno.ENOSPC), ("open", 2, errno.EACCES)):
        log.write_text("")
        plan.write_text(f"1 {kind} {nth} fail {number}")
        files = {name: (place / name).read_bytes() for name in volumes}
        said = run(conf, loaded(library, FAULTS_FOLDER=place, FAULTS_PLAN=plan, FAULTS_LOG=log))
        made = [line.split(" ", 1) for line in log.read_text().splitlines()]
        one = [name for what, name in made if what == kind][nth - 1] if number else ""
        checks.check(f"{kind} {nth}: of a volume", one in volumes or not number, made)
        lines = [f"sdd-refresh: {place / one}: not done: {os.strerror(number)}"] if number else []
        checks.same(f"{kind} {nth}", said, ("", lines, int(bool(lines))))
        left = [name for name in volumes if kind != "open" or name != one]
        checks.same(f"{kind} {nth}: synced", [name for what, name in made if what == "datasync"], left)
        checks.same(f"{kind} {nth}: dropped", [name for name in left if resident(place / name)], [])
        checks.same(f"{kind} {nth}: their bytes", {name: (place / name).read_bytes() for name in volumes}, files)


def wanting(checks, folder, _):
    """Folders that aren't there or are none, and configurations that are none."""
    conf = filled(folder / "wanting", "one")
    place = folder / "wanting"
    (place / "file").write_bytes(b"kept")
    conf.write_text(conf.read_text() + drive("File", place / "gone") + drive("File", place / "file") + drive("Tape", place / "one"))
    checks.same("two of three folders", run(conf), ("", [f"sdd-refresh: {place / 'file'}: not done: {os.strerror(errno.ENOTDIR)}",
                                                        f"sdd-refresh: {place / 'gone'}: not done: {os.strerror(errno.ENOENT)}"], 1))
    checks.same("the third", resident(place / "one" / "a"), 0)
    for text in ("port = ", "port = 1\n", "drive = 1\n", "[[drive]]\nmedia = 'File'\n"):
        conf.write_text(text)
        said, lines, status = run(conf)
        checks.check(f"{text!r}", (said, status, len(lines)) == ("", 1, 1) and lines[0].startswith(f"sdd-refresh: {conf}: not done: "), lines)
    checks.same("no configuration", run(place / "none")[::2], ("", 1))
    checks.same("no word", subprocess.run([REFRESH], capture_output=True, timeout=WAIT).returncode, 2)


def hanging(checks, folder, library):
    """A disk that hangs keeps no other folder from it. It is told, after a time."""
    conf, place = filled(folder / "hanging", "one", "two"), folder / "hanging"
    holds = Holds(place)
    holds.hold("sync", place / "one" / "a")
    text, count = re.subn(r"^PATIENCE = \d+$", "PATIENCE = 1", REFRESH.read_text(), flags=re.MULTILINE)
    (place / "refresh").write_text(text)
    command = [sys.executable, place / "refresh", conf]
    begun = time.monotonic()
    done = subprocess.Popen(command, env=loaded(library, **holds.words), stdout=subprocess.DEVNULL, stderr=subprocess.PIPE, text=True)
    try:
        checks.same("its status", (count, done.wait(timeout=WAIT)), (1, 1))
        checks.check("in its time", 1 <= time.monotonic() - begun < WAIT, time.monotonic() - begun)
        checks.same("the other folder", [name for name, is_volume in NAMES.items() if is_volume and resident(place / "two" / name)], [])
        checks.check("not the one that hangs", resident(place / "one" / "a") > 0)
    finally:
        done.kill()
        holds.release()
    checks.same("its line", done.stderr.read().splitlines(), [f"sdd-refresh: {place / 'one'}: not done: it takes more than 1 seconds"])


def listening(checks, folder, _):
    """A port that is listened on after a while; one that isn't while the daemon goes away; the port that a configuration doesn't name."""
    port = free_port()
    conf = folder / "listening"
    conf.write_text(f"port = {port}\n" + drive("File", folder))
    with socket.socket() as one:
        one.setsockopt(socket.SOL_SOCKET, socket.SO_REUSEADDR, 1)
        one.bind(("127.0.0.1", port))
        timer = threading.Timer(0.4, one.listen)
        timer.start()
        begun = time.monotonic()
        checks.same("it listens", run(conf, environment(MAINPID=os.getpid()), LISTENS), ("", [], 0))
        checks.check("once it does", time.monotonic() - begun > 0.35, time.monotonic() - begun)
        timer.join()
        one.setblocking(False)
        try:
            checks.check("no connection", not one.accept())
        except BlockingIOError:
            checks.check("no connection", True)
    with subprocess.Popen(["sleep", "0.3"]) as gone:
        begun = time.monotonic()
        conf.write_text(f"port = {free_port()}\n")
        threading.Thread(target=gone.wait).start()
        checks.same("it is gone", run(conf, environment(MAINPID=gone.pid), LISTENS), ("", [], 1))
        checks.check("at once", time.monotonic() - begun < 10, time.monotonic() - begun)
    text = LISTENS.read_text()
    checks.check("the port by default", f" {PORT_BY_DEFAULT}," in text and f"port = {PORT_BY_DEFAULT}" in (ROOT / "examples" / "sdd.conf").read_text())


PORT_BY_DEFAULT = 9103
GROUPS = (dropped, failing, wanting, hanging, listening)
