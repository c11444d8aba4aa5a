"""Notes while a daemon runs: how soon they are written, that none is ahead of what the disk has, what the console's label and adopt do
with one, and what comes of faults while one is written."""
from __future__ import annotations

import errno
import os
import pathlib
import random
import re
import shutil
import statistics
import time
import typing

from blocks import Note, note_in
from checks import Checks
from clients import client
from daemon import SDD, WAIT, until
from noters import noters
from shim import loaded
from site_of import Site, settles
from volumes import daemon_label, note

SEED, CLOSES = 17, 12
# A note may lag so long behind a close, in seconds: its thread looks four times a second.
SOON_NOTED = 1.5
# A line of strace: a thread, a call with its descriptors' paths, and what it answers.
CALL = re.compile(r"(\d+) +(?:\d+\.\d+ )?(\w+)\((.*)\) += (-?\d+)")


def read_note(path: pathlib.Path) -> typing.Any:
    try:
        return note_in(path.with_name(f"{path.name}~").read_bytes())
    except FileNotFoundError:
        return None


def in_time(checks: Checks, folder: pathlib.Path, _: pathlib.Path):
    """Within a moment after a close the note says all that was synced; a label's note comes as soon. What a gentle stop leaves is
    noted to the end."""
    site, draw, waits = Site(folder / "in_time", settings="block = 1024\n"), random.Random(SEED), []
    path, stop = site.place / "Vol-1", site.folder / "stop"
    with site.daemon("--until", stop) as daemon:
        run = site.time_of(daemon)
        site.ask("label 1 Vol-1 Default File")
        for number in range(CLOSES):
            begun = time.monotonic()
            if number:
                lines = site.job([draw.randbytes(draw.randrange(3000))])
                begun = time.monotonic()
                end = int(lines[-1].split()[-1])
            else:
                end = path.stat().st_size
            found = until(lambda: isinstance(one := read_note(path), Note) and one.end >= end and one, WAIT)
            waits.append(time.monotonic() - begun)
            checks.same(f"note {number}", found and (found.end, found.torn, found.time), (end, None, run if number else 0))
        checks.check("in time", statistics.median(waits) <= SOON_NOTED, sorted(waits))
        beside = path.with_name("Vol-1~")
        checks.same("its mode", beside.stat().st_mode & 0o777, 0o600)
        before = beside.stat().st_ino
        site.read(lines)
        time.sleep(1)
        checks.same("not written again without a change", beside.stat().st_ino, before)
        lines = site.job([draw.randbytes(5000)])
        site.ends(daemon, stop)
    last = read_note(path)
    checks.same("the last note", (last.end, last.end == path.stat().st_size), (int(lines[-1].split()[-1]), True))
    print(f"in_time: a note came {statistics.median(waits):.2f} seconds after a close in the middle of {CLOSES}, {max(waits):.2f} at most")


def traced(program_words: list, to: pathlib.Path) -> list:
    return ["strace", "-f", "-yy", "-xx", "-s", "64", "-o", to, "-e", "trace=pwrite64,write,fdatasync,fsync,rename,renameat,renameat2,ftruncate", *program_words]


def not_ahead(checks: Checks, folder: pathlib.Path, _: pathlib.Path):
    """No note says more than a sync had the disk have that began before it was written, by the system's calls as strace saw them: under
    jobs of many sizes, and several volumes that fill up."""
    if not shutil.which("strace"):
        print("not run: the order of notes and syncs, for want of strace")
        return
    site, draw = Site(folder / "not_ahead", settings="block = 4096\nvolume = 60000\n"), random.Random(SEED)
    calls = folder / "calls"
    program = folder / "traced"
    program.write_text("#!/bin/sh\nexec " + " ".join(map(str, traced([SDD], calls))) + ' "$@"\n')
    program.chmod(0o755)
    stop = site.folder / "stop"
    with site.daemon("--until", stop, program=program) as daemon:
        for number in range(6):
            site.ask(f"label 1 Vol-{number} Default File")
        for number in range(15):
            lines = site.job([draw.randbytes(draw.choice((10, 3000, 9000)))])
            if number % 3:
                time.sleep(draw.choice((0, 0.2)))
                continue
            # (jobs that follow one another quickly share a note)
            _, name, *_, end = lines[-1].split()
            checks.check(f"the note of job {number}", settles(lambda: isinstance(one := read_note(site.place / name), Note) and one.end >= int(end)))
        site.ends(daemon, stop)
    notes, ahead = checked_order(calls.read_text(errors="replace").splitlines())
    checks.same("notes that were ahead of their volume", ahead, [])
    checks.check("notes enough", notes >= 10, notes)
    print(f"not_ahead: {notes} notes")


def checked_order(lines: typing.Iterable[str]) -> tuple[int, list[str]]:
    """How many notes were written, and those that said more than what was synced by then."""
    length, synced, count, ahead = {}, {}, 0, []
    for line in whole_calls(lines):
        if not (found := CALL.match(line)) or int(found[4]) < 0:
            continue
        _, call, words, answer = found.groups()
        path = (re.search(r"<([^>]*)>", words) or ["", ""])[1]
        path = bytes.fromhex(path.replace("\\x", "")).decode() if path.startswith("\\x") else path
        name = os.path.basename(path)
        if call == "pwrite64":
            at = int(words.rpartition(",")[2])
            length[name] = max(length.get(name, 0), at + int(answer))
        elif call in ("fdatasync", "fsync"):
            synced[name] = length.get(name, 0)
        elif call == "write" and name.endswith("~~"):
            text = re.search(r'"((?:\\x[0-9a-f]{2})*)"', words)[1]
            one = note_in(bytes.fromhex(text.replace("\\x", "")))
            count += 1
            if isinstance(one, Note) and one.end > synced.get(name[:-2], 0):
                ahead.append(f"{name} says {one.end}, but {synced.get(name[:-2], 0)} were synced")
    return count, ahead


def put(site: Site, files: dict[str, bytes]):
    """Puts files into the folder of a daemon that has started."""
    for name, content in files.items():
        (site.place / name).write_bytes(content)


def whole_calls(lines: typing.Iterable[str]) -> typing.Iterator[str]:
    """The lines of calls, each whole: strace breaks one off if another thread calls before it answers."""
    begun: dict[str, str] = {}
    for line in lines:
        thread, _, rest = line.partition(" ")
        if line.endswith(" <unfinished ...>"):
            begun[thread] = line.removesuffix(" <unfinished ...>")
        elif found := re.match(r" *<\.\.\. \w+ resumed> ?", rest):
            yield begun.pop(thread, "") + rest[found.end():]
        else:
            yield line


def taken_away(checks: Checks, folder: pathlib.Path, _: pathlib.Path):
    """The console's label and adopt take the note away, and put it back if they are refused: it is as it was then."""
    site = Site(folder / "taken_away", [("File", "d1"), ("Tape", "d2")])
    path, content = site.place / "Vol-1", note(7, 92, 0, 1, 0)
    image = daemon_label(b"Vol-1", moment=7)
    rows = (("label 1 Vol-1 Default File", image, "3935 Volume already labelled"), ("label 1 Vol-1 Default Tape", None, "3932 Other pool or media"),
            ("adopt 1 Vol-1", None, "3930 Volume not on the shelf"), ("adopt 1 Vol-1", b"x" + image, "3931 Not a volume of this profile"),
            ("adopt 1 Vol-1", daemon_label(b"Vol-1", media=b"Disc"), "3932 Other pool or media"), ("adopt 3 Vol-1", image, "3938 No such drive"))
    for line, left, answer in rows:
        site.lay(str(site.place), {})
        with site.daemon():
            put(site, {"Vol-1~": content, **({} if left is None else {"Vol-1": left})})
            checks.same(line, site.ask(line), [[answer]])
        checks.same(f"{line}: the files", site.left()[str(site.place)], {"Vol-1~": content, **({} if left is None else {"Vol-1": left})})
    for line, files, answer, end in (("label 1 Vol-1 Default File", {"Vol-1~": note(7, 5000, 4000, 9, 70)}, "ok labelled", len(image)),
                                     ("adopt 1 Vol-1", {"Vol-1~": note(7, 5000, 4000, 9, 70), "Vol-1": image}, f"ok adopted {len(image)} 1", len(image))):
        site.lay(str(site.place), {})
        with site.daemon():
            put(site, files)
            checks.same(line, site.ask(line), [[answer]])
            checks.check(f"{line}: its note", settles(lambda: isinstance(one := read_note(path), Note) and (one.end, one.last, one.next_number) == (end, 0, 1)),
                         read_note(path))


def two_at_once(checks: Checks, folder: pathlib.Path, _: pathlib.Path):
    """A drive's notes go on while another's folder is full of what can't be written; see `faulty` for the calls that fail one by one."""
    site = Site(folder / "two_at_once", [("File", "d1"), ("Tape", "d2")])
    stop, place = site.folder / "stop", site.place
    # Nobody, root neither, makes a file in the place of a folder.
    with site.daemon("--until", stop, "--metrics", site.figures_file) as daemon:
        site.ask("label 1 Vol-1 Default File", "label 2 Vol-2 Default Tape")
        checks.check("notes", settles(lambda: read_note(place / "Vol-1") is not None and read_note(pathlib.Path(site.drives[1][1], "Vol-2")) is not None))
        (place / "Vol-1~~").mkdir()
        lines = [site.job([b"hello"], media=media) for media in ("File", "Tape")]
        checks.check("the other's note", settles(lambda: read_note(pathlib.Path(site.drives[1][1], "Vol-2")).end == int(lines[1][-1].split()[-1])))
        checks.check("its line", daemon.logs("drive 1: the note of volume Vol-1 can't be written"), daemon.log())
        checks.same("its volume goes on", [site.read(one) for one in lines], 2 * [([(1, 2, b"hello")], "")])
        time.sleep(1)
        checks.same("told once", sum("can't be written" in line for line in daemon.log()), 1)
        (place / "Vol-1~~").rmdir()
        checks.check("written again", daemon.logs("drive 1: the note of volume Vol-1 is written again"), daemon.log())
        checks.same("its note", read_note(place / "Vol-1").end, int(lines[0][-1].split()[-1]))
        site.ends(daemon, stop)
    got = site.figures()
    checks.check("its figure", got.get('sdd_note_failures_total{drive="1"}', 0) >= 1, got)
    checks.same("the other's", got.get('sdd_note_failures_total{drive="2"}'), 0)


# A call of a note's writing that fails: its kind, which of the kind, how, and the system's error.
FAULTS = (("open", 1, "fail", errno.ENOSPC), ("open", 1, "fail", errno.EACCES), ("write", 1, "fail", errno.ENOSPC), ("write", 1, "full", errno.ENOSPC),
          ("write", 1, "fail", errno.EIO), ("datasync", 1, "fail", errno.EIO), ("rename", 1, "fail", errno.EIO), ("open", 2, "fail", errno.EMFILE),
          ("sync", 1, "fail", errno.EIO))


def faulty(checks: Checks, folder: pathlib.Path, library: pathlib.Path):
    """A full disk and a failing one while a note is written, at each call of that: the job is closed and read, the log and the figure
    tell it, and once the disk is well the note is written. No other file is left."""
    site, draw = Site(folder / "faulty"), random.Random(SEED)
    plan, stop = site.folder / "plan", site.folder / "stop"
    plan.write_text("0 none 1 fail 0")
    words = ("--until", str(stop), "--metrics", str(site.figures_file))
    env = loaded(library, FAULTS_FOLDER=site.place, ASIDE=noters(library, 1, *words), ASIDE_PLAN=plan)
    fails, again = "drive 1: the note of volume Vol-1 can't be written", "drive 1: the note of volume Vol-1 is written again"
    path = site.place / "Vol-1"
    with site.daemon(*words, adopts=False, env=env) as daemon:
        site.ask("label 1 Vol-1 Default File")
        checks.check("its note", settles(lambda: read_note(path) is not None))
        for number, call in enumerate(FAULTS, 1):
            plan.write_text(" ".join(map(str, (number, *call[:3], int(call[3])))))
            data = draw.randbytes(500)
            lines = site.job([data])
            checks.check(f"{call}: told", until(lambda: daemon.log().count(fails) == number, WAIT), daemon.log()[-3:])
            checks.check(f"{call}: written again", until(lambda: daemon.log().count(again) == number, WAIT), daemon.log()[-3:])
            checks.same(f"{call}: its note", read_note(path).end, int(lines[-1].split()[-1]))
            checks.same(f"{call}: its session", site.read(lines), ([(1, 2, data)], ""))
            checks.same(f"{call}: no other file", sorted(site.left()[str(site.place)]), ["Vol-1", "Vol-1~"])
        site.ends(daemon, stop)
    checks.same("its figure", site.figures().get('sdd_note_failures_total{drive="1"}'), len(FAULTS))


def torn(checks: Checks, folder: pathlib.Path, library: pathlib.Path):
    """After a sync that failed the note says where the volume is torn: a later start doesn't adopt it, its closed sessions are read, and jobs
    go to the next volume. Once an operator gives the word it takes blocks again."""
    site, draw = Site(folder / "torn"), random.Random(SEED)
    plan, path = site.folder / "plan", site.place / "Vol-1"
    env = loaded(library, FAULTS_FOLDER=site.place, FAULTS_PLAN=plan, ASIDE=noters(library))
    plan.write_text("0 none 1 fail 0")
    data = [draw.randbytes(size) for size in (900, 700)]
    with site.daemon(adopts=False, env=env):
        site.ask("label 1 Vol-1 Default File", "label 1 Vol-2 Default File")
        closed = site.job(data)
        end = int(closed[-1].split()[-1])
        plan.write_text(f"1 datasync 1 fail {int(errno.EIO)}")
        try:
            checks.check("a job whose sync fails", False, site.job([b"lost"]))
        except client.Refused as why:
            checks.same("a job whose sync fails", str(why), "3905 Session failed")
        checks.check("its note", settles(lambda: isinstance(one := read_note(path), Note) and (one.end, one.torn) == (end, end)), read_note(path))
    before = path.read_bytes()
    checks.check("what lies behind", len(before) > end, len(before))
    with site.daemon() as daemon:
        later = site.job([b"later"])
        checks.same("the next volume", [line.split()[1] for line in later[1:]], ["Vol-2"])
        checks.check("the log", any(line.startswith("drive 1: volume Vol-1 ") and "adopted" in line and str(end) in line for line in daemon.log()[:2]), daemon.log()[:3])
        checks.same("what was closed", site.read(closed), ([(1, 2, one) for one in data], ""))
        checks.same("its bytes", path.read_bytes(), before)
    with site.daemon("--adopt-damaged", "Vol-1") as daemon:
        status = site.ask("status")[0]
        checks.check("adopted", any(line.startswith("volume Vol-1 Default File append ") for line in status), status, daemon.log())
        checks.same("what was closed then", site.read(closed), ([(1, 2, one) for one in data], ""))
        checks.check("its note", settles(lambda: isinstance(one := read_note(path), Note) and one.torn is None), read_note(path))


GROUPS = (in_time, not_ahead, taken_away, two_at_once, faulty, torn)
