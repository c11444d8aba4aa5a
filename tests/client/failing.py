"""What fails while a job is made: stages, files that change, daemons that refuse, hang, break off and are killed, clients that
are ended. Never status 0 without a backup, never 1 with one."""
import collections
import contextlib
import json
import os
import pathlib
import random
import re
import signal
import subprocess
import threading
import time

import standin
from daemon import CLIENT, WAIT, later_second, until
from site_of_test import is_told, say
from trees import differences

SEED, KILLS = 82, 8
BROKEN_STAGES = [["false"], ["sh -c 'cat; exit 3'"], ["gzip", "sh -c 'cat > /dev/null; kill -9 $$'"], ["no-such-program"],
                 ["sh -c 'exec <&-; exit 1'", "gzip"], ["gzip", "sh -c 'head -c 10; exit 1'", "gzip"]]
OPENING, PHASE, BUSY, NO_LANE = "append open", "phase", "3908 Busy", "3911 No free lane"
# Refusals by the command that gets them, for how many seconds it is tried again, and the status.
REFUSALS = [({OPENING: [NO_LANE]}, 9, 0), ({OPENING: 99 * [NO_LANE]}, 1, 1), ({PHASE: [BUSY]}, 9, 0), ({PHASE: 99 * [BUSY]}, 1, 1),
            ({PHASE: ["3960 Want of memory"]}, 9, 1), ({OPENING: ["3910 No drive of this media"]}, 9, 1),
            ({"append end": ["3905 Session failed"]}, 9, 1), ({"append close": ["3907 Not yet"]}, 9, 0)]


def said_by(site, port, *words, **options):
    return say(port, *words, **{"env": site.env, **options})


def stages(checks, site):
    """Each stage that fails loses the job, wherever it stands, and so does a producer; what it printed isn't kept."""
    site.draw()
    with standin.StandIn() as daemon:
        for place, through in enumerate(BROKEN_STAGES):
            options = [word for stage in through for word in ("--through", stage)]
            is_told(checks, f"stages {place}", said_by(site, daemon.port, "backup", "j", *options, site.files), 1)
            checks.check(f"none is closed {place}", all(one.status != "closed" for one in daemon.sessions))
            spans = site.folder / f"spans{place}"
            is_told(checks, f"append {place}", said_by(site, daemon.port, "append", *options, site.files / "39", spans), 1)
            checks.same(f"no spans {place}", spans.exists(), False)
        for command in ("exit 2", "echo part; exit 2", "echo part; kill -9 $$", "head -c 300000 /dev/zero; false"):
            spans = site.folder / "spans"
            is_told(checks, command, said_by(site, daemon.port, "append", "--command", command, spans), 1, "ended")
            checks.same(f"no spans of {command}", (spans.exists(), daemon.sessions[-1].status), (False, "cancelled"))
        came = said_by(site, daemon.port, "append", "--command", "echo all", "--through", "gzip", site.folder / "spans")
        checks.same("a good one", came, ("", 0))
        came = said_by(site, daemon.port, "read", site.folder / "spans", "-", "--undo", "gzip -d")
        checks.check("read", came[0].startswith("all\n") and came[1] == 0, came)
        checks.same("jobs", {row["status"] for row in json.loads(said_by(site, daemon.port, "list", "--json")[0])}, {"failed"})
    checks.same("parts", site.parts(), [])


def killed_tars(checks, site):
    """A tar that is killed, while it reads or while it writes, loses the job or is told."""
    site.files.mkdir()
    for name in "abc":
        (site.files / name).write_bytes(bytes([ord(name)]) * 9_000_000)
    with standin.StandIn() as daemon:
        command = [CLIENT, "--port", str(daemon.port)]
        with subprocess.Popen([*command, "backup", "j", "--through", slow("cat"), site.files], env=site.env,
                              stderr=subprocess.PIPE) as one:
            kill_child(one.pid, "tar")
            is_told(checks, "backup", (one.communicate(timeout=WAIT)[1].decode(), one.returncode), 1, "tar was ended by signal 9")
        checks.check("none is closed", all(one.status != "closed" for one in daemon.sessions))
        is_told(checks, "good", said_by(site, daemon.port, "backup", "j", "--through", "cat", site.files), 0)
        words = [*command, "restore", "j", "--undo", slow("cat"), "--to", site.folder / "back"]
        with subprocess.Popen(words, env=site.env, stderr=subprocess.PIPE) as one:
            kill_child(one.pid, "tar")
            said, status = one.communicate(timeout=WAIT)[1].decode(), one.returncode
            checks.check("restore", status in (1, 3) and "Traceback" not in said and "not restored whole" in said, said, status)


def slow(command):
    """A stage that waits a while after its first bytes."""
    return f"sh -c 'head -c 1500000; sleep 2; exec {command}'"


def kill_child(parent, name):
    """Kills a child of a process by its program's name, once it is there and has worked for a moment."""
    def child():
        for status in pathlib.Path("/proc").glob("[0-9]*/stat"):
            with contextlib.suppress(OSError):
                text = status.read_text()
                if f"({name})" in text and int(text.rpartition(")")[2].split()[1]) == parent:
                    return int(status.parent.name)
        return None

    found = until(child)
    time.sleep(0.5)
    os.kill(found, signal.SIGKILL)


def changing(checks, site):
    """Files that are truncated, grow or vanish while they are read are named, and the rest is kept."""
    site.files.mkdir()
    for name in ("cut", "grows", "stays", "vanishes"):
        (site.files / name).write_bytes(bytes([7]) * 16_000_000)
    changes = {"cut": (lambda path: os.truncate(path, 100), "File shrank by"),
               "grows": (lambda path: append_to(path, 3_000_000), "file changed as we read it"),
               "vanishes": (os.unlink, "File removed before we read it")}
    with standin.StandIn() as daemon:
        for name, (change, told) in changes.items():
            # Each piece waits for a stage that is slow, so that tar is still within the first file of several.
            paths = [site.files] if name == "vanishes" else [site.files / name, site.files / "stays"]
            before = daemon.taken

            def work():
                until(lambda: daemon.taken > before + 500_000)
                change(site.files / name)

            changer = threading.Thread(target=work)
            changer.start()
            came = said_by(site, daemon.port, "backup", name, "--through", slow("cat"), *paths)
            changer.join()
            is_told(checks, f"{name}: backup", came, 3, f"/{name}: {told}", "kept, but for")
            rows = json.loads(said_by(site, daemon.port, "files", name, "--json")[0])
            checks.check(f"{name}: in the catalogue", any(row["kind"] == "!" and row["path"].endswith(f"/{name}") for row in rows), rows)
            back = site.folder / f"back-{name}"
            is_told(checks, f"{name}: restore", said_by(site, daemon.port, "restore", name, "--undo", "cat", "--to", back), 0)
            got = back / str(site.files).lstrip("/") / "stays"
            checks.same(f"{name}: the others", got.read_bytes(), (site.files / "stays").read_bytes())


def without_blocks(checks, site):
    """A file whose file system tells no blocks, so that tar takes it for a hole: it is named. A file that is one hole isn't."""
    there = pathlib.Path("/sys/devices/virtual/net/lo/mtu")
    if not there.exists() or there.stat().st_blocks:
        print(f"not run: {checks.group}, which needs a file of /sys")
        return
    site.files.mkdir()
    with open(site.files / "hole", "wb") as file:
        file.truncate(300_000)
    (site.files / "plain").write_text("plain")
    with standin.StandIn() as daemon:
        is_told(checks, "holes", said_by(site, daemon.port, "backup", "j", site.files), 0)
        came = said_by(site, daemon.port, "backup", "j", site.files, there)
        is_told(checks, "without blocks", came, 3, f"{there}: File has bytes, but no blocks", "kept, but for")
        rows = json.loads(said_by(site, daemon.port, "files", "j", "--json")[0])
        # Tar may also tell it as changed, since such a file may be another one at each look.
        checks.same("in the catalogue", {row["path"] for row in rows if row["kind"] == "!"}, {str(there)})
        is_told(checks, "restore", said_by(site, daemon.port, "restore", "j", site.files, "--to", site.folder / "out"), 0)
        checks.same("the others", differences(site.files, site.folder / "out" / str(site.files).lstrip("/")), "")


def append_to(path, count):
    with open(path, "ab") as file:
        file.write(bytes(count))


def refusals(checks, site):
    """3911 and 3908 are tried again for the stated time, and no longer; other refusals lose the job at once."""
    site.draw()
    (site.files / "39").chmod(0o644)
    one = site.files / "39"
    for refuse, retry, status in REFUSALS:
        for words in (["backup", "j", one], ["append", one], ["backup", "--spans", "-", one]):
            given = {name: list(lines) for name, lines in refuse.items()}
            with standin.StandIn(refuse=given) as daemon:
                came = said_by(site, daemon.port, "--retry", retry, *words)
                checks.check(f"{words[0]} {refuse if status == 0 else list(refuse)} {retry}", came[1] == status, came)
                if status and words[0] == "backup" and words[1] == "j":
                    checks.same("no job", [one.status for one in daemon.sessions].count("closed"), 0)
    # What came of a pipe can't come again.
    with standin.StandIn(refuse={PHASE: [BUSY]}) as daemon:
        command = [CLIENT, "--port", str(daemon.port), "append", "-"]
        run = subprocess.run(command, input=b"x", stderr=subprocess.PIPE, timeout=WAIT)
        is_told(checks, "a pipe", (run.stderr.decode(), run.returncode), 1, BUSY)


def slow_replies(checks, site):
    """Replies that take 5 milliseconds each don't hold up many small files, and a job takes few of them."""
    site.files.mkdir()
    for number in range(1000):
        (site.files / str(number)).write_bytes(bytes(4096))
    took = []
    for delay in (0.0, 0.005):
        with standin.StandIn(delay=delay) as daemon:
            begun = time.monotonic()
            is_told(checks, f"delay {delay}", said_by(site, daemon.port, "backup", "j", site.files), 0)
            took.append(time.monotonic() - begun)
    print(f"1000 files: {took[0]:.2f} seconds, {took[1]:.2f} with 5 ms more for each reply")


def ended_clients(checks, site):
    """A client that is ended leaves no file behind, and no job that counts."""
    site.draw()
    with standin.StandIn() as daemon:
        for number in (signal.SIGTERM, signal.SIGINT, signal.SIGHUP, signal.SIGKILL):
            for words in (["append", "--command", "echo x; exec sleep 60", "spans"], ["append", "-", "spans"],
                          ["backup", "j", "--through", "sh -c 'sleep 60'", site.files]):
                before = len(daemon.sessions)
                command = [CLIENT, "--port", str(daemon.port), *map(str, words)]
                piped = {"stdin": subprocess.PIPE, "stderr": subprocess.PIPE}
                with subprocess.Popen(command, env=site.env, cwd=site.folder, **piped) as one:
                    end = time.monotonic() + WAIT
                    while len(daemon.sessions) == before and time.monotonic() < end:
                        time.sleep(0.02)
                    time.sleep(0.1)
                    one.send_signal(number)
                    status = one.wait(timeout=WAIT)
                wanted = -number if number == signal.SIGKILL else 128 + number
                checks.same(f"{words[0]} {number.name}", status, wanted)
                left = [*site.folder.glob("*.part"), *site.folder.glob(".sdd*"), *site.folder.glob("spans")]
                checks.same("nothing left", left, [])
                checks.check("not closed", all(one.status != "closed" for one in daemon.sessions))


def ended_restores(checks, site):
    """A restore that is ended, or loses a stage, names what it lacks, and leaves no half file; nor does a read."""
    site.files.mkdir()
    for name in "abc":
        (site.files / name).write_bytes(bytes([ord(name)]) * 4_000_000)
    with standin.StandIn() as daemon:
        is_told(checks, "backup", said_by(site, daemon.port, "backup", "j", "--through", "cat", site.files), 0)
        checks.same("append", said_by(site, daemon.port, "append", site.files / "a", site.folder / "spans"), ("", 0))
        stuck, failing = "sh -c 'head -c 6000000; exec sleep 20'", "sh -c 'head -c 6000000; exit 3'"
        for number in (signal.SIGTERM, signal.SIGINT, signal.SIGHUP, signal.SIGKILL):
            out = site.folder / number.name
            words = ["restore", "j", "--undo", stuck, "--to", out]
            status, said = ended_at(site, daemon.port, number, words, lambda: list(out.rglob("b")))
            checks.same(f"restore {number.name}", status, -number if number == signal.SIGKILL else 128 + number)
            if number != signal.SIGKILL:
                checks.same(f"whole {number.name}", {path.name: path.stat().st_size for path in out.rglob("[abc]")}, {"a": 4_000_000})
                checks.check(f"named {number.name}", all(f"/{name}: not restored whole" in said for name in "bc"), said)
            words = ["read", site.folder / "spans", site.folder / "got", "--undo", stuck]
            status, said = ended_at(site, daemon.port, number, words, lambda: True)
            checks.same(f"read {number.name}", status, -number if number == signal.SIGKILL else 128 + number)
            left = [*site.folder.glob("*.part"), *site.folder.glob(".sdd*"), *site.folder.glob("got")]
            checks.same(f"nothing left {number.name}", left, [])
        out = site.folder / "stage"
        is_told(checks, "a stage", said_by(site, daemon.port, "restore", "j", "--undo", failing, "--to", out), 3, "not restored whole")
        checks.same("whole", {path.name: path.stat().st_size for path in out.rglob("[abc]")}, {"a": 4_000_000})
        is_told(checks, "read by a stage", said_by(site, daemon.port, "read", site.folder / "spans", site.folder / "got", "--undo", failing),
                1, "ended with status 3")
        checks.same("not there", (site.folder / "got").exists(), False)
        for words, told in ((["--undo", "false"], "nothing is restored"), (["--undo", "cat", "--undo", "cat"], "--undo is given for 2")):
            is_told(checks, f"{words}", said_by(site, daemon.port, "restore", "j", *words, "--to", site.folder / "no"), 1, told)


def ended_at(site, port, number, words, is_time):
    """The status of a command that gets a signal at some time, and what it said."""
    command = [CLIENT, "--port", str(port), *map(str, words)]
    with open(site.folder / "said", "w+") as said, subprocess.Popen(command, env=site.env, stderr=said) as one:
        until(lambda: handles_signals(one.pid) and is_time())
        time.sleep(0.5)
        one.send_signal(number)
        status = one.wait(timeout=WAIT)
        said.seek(0)
        return status, said.read()


def handles_signals(process):
    """Whether the client is so far that it has a handler of SIGTERM: before that any program is ended at once."""
    text = pathlib.Path(f"/proc/{process}/status").read_text()
    caught = int(re.search(r"^SigCgt:\s*([0-9a-f]+)$", text, re.MULTILINE)[1], 16)
    return caught >> (signal.SIGTERM - 1) & 1


def broken_restores(checks, site):
    """A restore that the daemon breaks off names what it lacks, and leaves no half file."""
    site.files.mkdir()
    for name in "abc":
        (site.files / name).write_bytes(bytes([ord(name)]) * 700_000)
    with standin.StandIn() as daemon:
        is_told(checks, "backup", said_by(site, daemon.port, "backup", "j", site.files), 0)
        records = daemon.sessions[0].records
        for count, status in ((0, 1), (1, 3), (4, 3), (6, 3)):
            daemon.sessions[0].records = records[:count]
            out = site.folder / str(count)
            came = said_by(site, daemon.port, "restore", "j", "--to", out)
            is_told(checks, f"{count} records", came, status, "not restored whole", "shorter than the catalogue says")
            for path in out.rglob("[abc]"):
                checks.same(f"{count} records: {path.name}", path.stat().st_size, 700_000)
            lacking = [path for name in "abc" if not (path := out / str(site.files).lstrip("/") / name).exists()]
            checks.check("named", all(f"/{path.name}: not restored whole" in came[0] for path in lacking), lacking, came)


def hanging(checks, site):
    """A daemon that hangs for a while holds a job up, and doesn't lose it; one that hangs for long does."""
    site.draw()
    with site.daemon() as daemon:
        site.label("Vol-0001")
        command = [CLIENT, "--port", str(site.port), "backup", "j", "--session", "100K", site.files]
        with subprocess.Popen(command, env=site.env, stderr=subprocess.DEVNULL) as one:
            time.sleep(0.5)
            daemon.process.send_signal(signal.SIGSTOP)
            time.sleep(1)
            daemon.process.send_signal(signal.SIGCONT)
            checks.same("status", one.wait(timeout=2 * WAIT), 0)
        is_told(checks, "restore", site.say("restore", "j", "--to", site.folder / "back"), 0)
        checks.same("the same", differences(site.files, site.folder / "back" / str(site.files).lstrip("/")), "")
        daemon.process.send_signal(signal.SIGSTOP)
        is_told(checks, "for long", site.say("--timeout", "0.5", "backup", "j", site.files), 1, "no answer for 0.5 seconds")
        daemon.process.send_signal(signal.SIGCONT)


def killed_daemons(checks, site):
    """The daemon is killed at drawn moments of a job: once so much of it is on the volume, or soon after all of it. A job of
    status 0 is found on the volumes alone, and restored from them; one of status 1 is not."""
    site.draw()
    numbers, came, growth = random.Random(SEED), {}, 0
    volume = site.volumes / "Vol-0001"
    for turn in range(KILLS):
        later_second()
        moment = 1.2 * (turn - 1 + numbers.random()) / (KILLS - 1)
        with site.daemon() as daemon:
            if turn:
                site.say("adopt-all", site.conf)
            else:
                site.label(volume.name)
            before = volume.stat().st_size
            command = [CLIENT, "--port", str(site.port), "--retry", "0", "backup", f"job{turn}", "--session", "60K", site.files]
            with subprocess.Popen(command, env=site.env, stderr=subprocess.DEVNULL) as one:
                if turn:
                    until(lambda: volume.stat().st_size >= before + moment * growth or one.poll() is not None, 4 * WAIT)
                    daemon.kill()
                came[f"job{turn}"] = one.wait(timeout=4 * WAIT)
            growth = growth or volume.stat().st_size - before
    noted, found = by_names(site), by_names(site, found_anew(checks, site))
    for name, status in came.items():
        if status == 3:
            checks.same(f"{name} is unknown", noted.get(name), "unknown")
        else:
            checks.same(f"{name} of status {status}", (noted.get(name), found.get(name)),
                        ("kept", "kept") if status == 0 else ("failed", None))
    for name in [name for name, status in came.items() if status == 0][:2]:
        words = ["--catalogue", site.folder / "anew", "--volumes", site.volumes, "restore", name, "--to", site.folder / name]
        is_told(checks, f"restore {name}", site.say(*words), 0)
        checks.same(f"the same {name}", differences(site.files, site.folder / name / str(site.files).lstrip("/")), "")
    counts = collections.Counter(came.values())
    print("daemons killed:", *(f"status {status} {count}" for status, count in sorted(counts.items())))
    checks.check("enough of each", counts[0] >= 1 and counts[1] >= 3 and set(counts) <= {0, 1, 3}, counts)


def restarted_daemon(checks, site):
    """The daemon is ended gently while a job sends its files, and another begins: the job's last session goes to that one."""
    site.draw()
    # More than a record, so that some of it is sent before the end.
    (site.files / "large").write_bytes(os.urandom(4_000_000))
    stop, go, volume = site.folder / "stop", site.folder / "go", site.volumes / "Vol-0001"
    # The session of the files isn't at its end before that file is there.
    stage = f"sh -c 'cat; until [ -e {go} ]; do sleep 0.05; done'"
    command = [CLIENT, "--port", str(site.port), "backup", "restarted", "--through", stage, site.files]
    with site.daemon("--until", stop) as daemon:
        site.label(volume.name)
        labelled = volume.stat().st_size
        with subprocess.Popen(command, env=site.env, stderr=subprocess.PIPE, text=True) as one:
            checks.check("it sends", until(lambda: volume.stat().st_size > labelled or one.poll() is not None, 4 * WAIT))
            stop.touch()
            checks.check("no client more is taken", until(lambda: site.say("console", "status")[1] == 3, WAIT))
            go.touch()
            checks.same("that daemon ends", daemon.process.wait(timeout=4 * WAIT), 0)
            later_second()
            with site.daemon("--adopt"):
                said = one.communicate(timeout=4 * WAIT)[1]
    is_told(checks, "a daemon that is restarted", (said, one.returncode), 0, "it is tried again")
    checks.same("the job is kept", by_names(site).get("restarted"), "kept")


def found_anew(checks, site):
    """A new catalogue, made from the volumes alone."""
    anew = site.folder / "anew"
    checks.same("rebuilt", site.say("--catalogue", anew, "rebuild", site.volumes)[1], 0)
    return anew


def by_names(site, catalogue=None):
    """How the jobs of a catalogue stand, by their names."""
    words = ["--catalogue", catalogue] if catalogue else []
    return {row["name"]: row["status"] for row in json.loads(site.say(*words, "list", "--json")[0])}


GROUPS = dict.fromkeys([stages, killed_tars, changing, without_blocks, refusals, slow_replies, ended_clients, ended_restores,
                        broken_restores, hanging, killed_daemons, restarted_daemon], "")
