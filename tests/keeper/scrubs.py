"""Damage on volumes that aren't written any more: found when it is due, at a rate, and told with the jobs that it hits."""
import contextlib
import datetime
import os
import shutil
import signal
import time

import keeper.rounds
import keeper.scrubs
from keeper.configuration import configured
from keeper.folders import ALONE
from keeper.notes import why_unlike
from keeper.scrubs import one_at_a_time, scrub
from keeper.state import Session, State
from keeper.verification import Known, wrong
from sdd_client.errors import Failed
from world import DAY, World

POOL = ('scan = "1s"\n[pool.Daily]\ndrives = [1]\nnames = "Daily-%05d"\nready = 2\nkeep = {{ last = 9 }}\nverify = "30d"\n{}')


def figure(world, name):
    """The figures of that name, each line without it."""
    lines = (world.folder / "keeper.prom").read_text().splitlines()
    return [line.removeprefix(name) for line in lines if line.startswith(name) and not line.startswith("#")]


def run(checks, folder):
    with World(folder / "found", POOL.format("")) as world:
        days(world, 3, 18_500)
        found(checks, world)
    for part in (hits, noted, kinds, broken, catalogue, hardships, unreadable, told_apart, notes_told, rate):
        part(checks, folder / part.__name__)


def days(world, count, size):
    """So many days with a job of so many bytes each, and the keeper after it."""
    world.round()
    for _ in range(count):
        world.backup("www", "home", "Daily", [size])
        world.now += DAY
        world.round()


def turn(path, place):
    """Turns a bit. A disk that forgets changes no file's time."""
    data, when = bytearray(path.read_bytes()), path.stat()
    data[place] ^= 1
    with open(path, "r+b") as file:
        file.write(data)
    os.utime(path, ns=(when.st_atime_ns, when.st_mtime_ns))


def scrubbed(world):
    """What a scrub told, and its status."""
    told = []
    with replaced(told):
        status = scrub(configured(world.keeper_conf), lambda: world.now)
    return told, status


@contextlib.contextmanager
def replaced(told):
    """What is told goes into a list."""
    before = keeper.scrubs.tell
    keeper.scrubs.tell = keeper.rounds.tell = lambda text: told.append(str(text))
    try:
        yield
    finally:
        keeper.scrubs.tell = keeper.rounds.tell = before


def found(checks, world):
    checks.same("nothing is due", scrubbed(world), ([], 0))
    world.now += 31 * DAY
    checks.same("all is well", scrubbed(world), ([], 0))
    checks.same("no damage", figure(world, "sdd_keeper_damaged_volumes"), ['{pool="Daily"} 0'])
    turn(world.folders[0] / "Daily-00001", 5_000)
    checks.same("not yet due", scrubbed(world), ([], 0))
    world.now += 31 * DAY
    told, status = scrubbed(world)
    checks.check("it is found", status == 1 and any("damage Daily-00001 " in line for line in told), told)
    checks.check("with the job", any("www/home of 2026-01-05 00:00:00" in line for line in told), told)
    told = []
    with replaced(told):
        world.round()
    checks.same("its figure", figure(world, "sdd_keeper_damaged_volumes"), ['{pool="Daily"} 1'])
    checks.same("its jobs", figure(world, "sdd_keeper_damaged_jobs"), [" 1"])
    checks.check("a round tells it", any("Daily-00001 is damaged" in line for line in told), told)
    with replaced(told):
        checks.same("it isn't read again before it is due", scrubbed(world)[1], 0)


def hits(checks, folder):
    """Damage hits the jobs that have blocks there, and no others of the volume: these restore, and it doesn't."""
    with World(folder, POOL.format("")) as world:
        days(world, 6, 5_500)
        for name in world.volumes():
            world.note(name)
        first = [one for one in world.kept if one.volumes() == {"Daily-00001"}]
        span = first[1].head.sessions[0].lines[1].split()
        world.now += 31 * DAY
        turn(world.folders[0] / "Daily-00001", (int(span[5]) + int(span[6])) // 2)
        told, status = scrubbed(world)
        checks.check("the second is hit, and the first isn't", status == 1 and len(told) == 1
                     and "www/home of 2026-01-06 00:00:00 is hit; " in told[0] and "2026-01-05" not in told[0], told)
        lie = sum("Daily-00001" in one.volumes() for one in world.kept)
        checks.check("how many others are on it", lie >= 3 and f"hit; {lie - 1} other jobs are on it" in told[0], told, lie)
        checks.same("which of them restore", [world.restores(one) is True for one in world.kept], [True, False] + 4 * [True])
        world.round()
        checks.same("one job is hit", figure(world, "sdd_keeper_damaged_jobs"), [" 1"])


def noted(checks, folder):
    """A note tells of blocks that have gone without a trace, and the jobs that lie there. A damaged note is no damage."""
    with World(folder, POOL.format("")) as world:
        days(world, 6, 4_800)
        for name in world.volumes():
            world.note(name)
        path, fields = world.folders[0] / "Daily-00001", world.note("Daily-00001")
        world.now += 31 * DAY
        checks.same("all is well", scrubbed(world), ([], 0))
        world.now += 31 * DAY
        note = path.with_name("Daily-00001~")
        note.write_bytes(note.read_bytes()[:-1])
        checks.same("a damaged note", scrubbed(world), ([], 0))
        world.now += 31 * DAY
        world.note("Daily-00001", last=fields["last"] - 1)
        told, status = scrubbed(world)
        checks.check("other blocks", status == 1 and f"(damage Daily-00001 {fields['end']} note)" in told[0], told, status)
        world.note("Daily-00001")
        os.truncate(path, fields["last"])
        # It is read as it changed, which finds a volume that is whole, and is due later.
        world.round()
        checks.same("a scan finds nothing", lines_of(world), [])
        world.now += 31 * DAY
        told, status = scrubbed(world)
        checks.check("a block that has gone", status == 1 and f"(damage Daily-00001 {fields['last']} note)" in told[0], told, status)
        checks.same("its job, and no other", [f"www/home of {began(one)}" in told[0] for one in world.kept],
                    [lies_behind(one, "Daily-00001", fields["last"]) for one in world.kept])


def lies_behind(backup, name, place):
    """Whether a job has bytes of a volume behind a place."""
    lines = [line.split() for text in (backup.lines, *(one.lines for one in backup.head.sessions)) for line in text[1:]]
    return any(words[1] == name and int(words[6]) > place for words in lines)


def began(backup):
    return datetime.datetime.fromtimestamp(backup.head.began // 1_000_000, datetime.timezone.utc).strftime("%Y-%m-%d %H:%M:%S")


def kinds(checks, folder):
    """A label, and the end of what the daemon answered for."""
    with World(folder, POOL.format("")) as world:
        days(world, 4, 18_500)
        path = world.folders[0] / "Daily-00001"
        world.now += 31 * DAY
        turn(path, 40)
        told, status = scrubbed(world)
        checks.check("a label", status == 1 and "(damage Daily-00001 0 label)" in told[0], told, status)
        turn(path, 40)
        world.now += 31 * DAY
        checks.same("it is well again", scrubbed(world), ([], 0))
        with open(path, "ab") as file:
            file.write(b"a block that was torn")
        world.round()
        checks.same("what follows the last block is none", (figure(world, "sdd_keeper_damaged_volumes"), lines_of(world)),
                    (['{pool="Daily"} 0'], ["damage Daily-00001 19399 short"]))
        os.truncate(path, 19_398)
        world.round()
        checks.check("a block that is torn is one", figure(world, "sdd_keeper_damaged_volumes") == ['{pool="Daily"} 1']
                     and figure(world, "sdd_keeper_damaged_jobs") == [" 1"], lines_of(world))


def lines_of(world):
    """The damage of the first volume, as the keeper keeps it."""
    with contextlib.closing(State(world.folder / "state")) as state:
        return state.volumes()["Daily-00001"].damage


def broken(checks, folder):
    """A session that isn't whole though no block is damaged is told, but not one whose beginning was given back."""
    with World(folder, POOL.format('min_age = "1s"').replace("last = 9", "last = 2")) as world:
        days(world, 5, 18_500)
        first = min(world.volumes())
        checks.same("some are given back", first > "Daily-00002", True)
        # What a scan finds of it from now on is of this volume alone.
        os.utime(world.folders[0] / first)
        world.round()
        world.now += 31 * DAY
        checks.same("it goes on from one that has gone", scrubbed(world), ([], 0))
    whole, part = Session((9, 1), True, ["session 9 1", "span A 1 1 2 92 500"]), Session((9, 2), False, ["session 9 2", "span A 1 1 2 500 900"])
    across = Session((9, 3), True, ["session 9 3", "span B 1 1 1 92 300", "span A 2 2 2 900 1200"])
    known = Known({(9, 1), (9, 2), (9, 3)}, {one.key: one for one in (whole, part, across)})
    sessions = [{"line": "session", "time": 9, "id": number, "end": "cut"} for number in (1, 2, 3)]
    broken_ones = [{"line": "broken", "time": 9, "id": number} for number in (1, 2, 3)]
    done = {"line": "done", "volumes": 1, "sessions": 3}
    checks.same("an end that is lost", wrong("A", known, 3, [*sessions, done]), ["cut 9 1"])
    checks.same("a block that is lost", wrong("A", known, 1, [*broken_ones, done]), ["broken 9 1"])
    checks.same("of those that begin elsewhere", wrong("A", known, 1, [*sessions[1:], *broken_ones[1:], done]), [])


def catalogue(checks, folder):
    """Sessions that the catalogue doesn't know are found, and known from then on."""
    with World(folder, POOL.format("")) as world:
        days(world, 3, 18_500)
        world.now += 31 * DAY
        with contextlib.closing(State(folder / "state")) as state, state.change() as base:
            base.execute("DELETE FROM sessions WHERE volume = 'Daily-00002' AND id = 2")
        told, status = scrubbed(world)
        checks.check("told", status == 1 and told == ["Daily-00002: 2 sessions are on it, and 1 were known: it is read again "
                                                      "to know them"], told, status)
        checks.same("then they are known", scrubbed(world), ([], 0))
        with contextlib.closing(State(folder / "state")) as state:
            checks.same("both", len(state.keys_on()["Daily-00002"]), 2)


# What stands for sdtool: it fails where something holds of its words, as that it verifies or scans one volume.
FAILING = """#!/bin/sh
if {}; then
  {}
fi
exec {} "$@"
"""
VERIFIES = '[ "$1" = verify ] && [ -e "$5/Daily-00001" ]'
SCANS = '[ "$1" = scan ] && [ "$*" != "${*#*Daily-00001}" ]'


def hardships(checks, folder):
    """What can't be read is told, and the others are read all the same."""
    unreadable = """printf '{"line":"volume","volume":"Daily-00001","bytes":7}\\n{"line":"refused","refusal":"3940 Device fault"}\\n'; exit 1"""
    memory = """echo '{"line":"refused","refusal":"3949 No memory"}'; exit 1"""
    cases = [("a disk that gives nothing", unreadable, "(unreadable Daily-00001 3940 Device fault)", True),
             ("want of memory", memory, "Daily-00001: sdtool verify: 3949 No memory", False),
             ("it is killed", "kill -9 $$", "Daily-00001: sdtool verify broke off with status -9", False),
             ("no words", "echo nothing; exit 0", "Daily-00001: sdtool verify says what isn't JSON", False)]
    with World(folder, POOL.format("")) as world:
        days(world, 3, 18_500)
        for name, does, told_of, is_damage in cases:
            world.now += 31 * DAY
            with tool_that(folder, VERIFIES, does):
                told, status = scrubbed(world)
            checks.check(name, status == 1 and len(told) == 1 and told_of in told[0], told, status)
            checks.same(f"{name}: damage", bool(lines_of(world)), is_damage)
            with contextlib.closing(State(folder / "state")) as state:
                checks.same(f"{name}: the others", state.volumes()["Daily-00002"].scanned, world.now)
            checks.same(f"{name}: again", scrubbed(world), ([], 0))
            world.now += 31 * DAY
            checks.same(f"{name}: it is well", (scrubbed(world), lines_of(world)), (([], 0), []))
        one_at_once(checks, world)
        stopped(checks, world)


@contextlib.contextmanager
def tool_that(folder, where, does):
    """A folder with a program sdtool comes first in the path."""
    place, before = folder / "tool", os.environ["PATH"]
    place.mkdir(exist_ok=True)
    (place / "sdtool").write_text(FAILING.format(where, does, shutil.which("sdtool")))
    (place / "sdtool").chmod(0o755)
    os.environ["PATH"] = f"{place}:{before}"
    try:
        yield
    finally:
        os.environ["PATH"] = before


def one_at_once(checks, world):
    configuration = configured(world.keeper_conf)
    with one_at_a_time(configuration.state):
        try:
            scrub(configuration, lambda: world.now)
            checks.check("a second one", False)
        except Failed as why:
            checks.same("a second one", str(why), "another scrub goes on")


def stopped(checks, world):
    """A scrub that is killed while it reads leaves a second name of a volume, which goes with the volume, or at the next one."""
    place = world.folders[0] / ALONE
    world.note("Daily-00001")
    world.now += 31 * DAY
    with tool_that(world.folder, VERIFIES, "kill -9 $PPID; kill -9 $$"):
        child = os.fork()
        if not child:
            scrub(configured(world.keeper_conf), lambda: world.now)
            os._exit(0)
        checks.same("it is killed", os.waitpid(child, 0)[1], signal.SIGKILL)
    checks.same("what is left", sorted(one.name for one in place.iterdir()), ["Daily-00001", "Daily-00001~", "expected~"])
    world.write(POOL.format('min_age = "1s"').replace("last = 9", "last = 1"))
    world.round()
    checks.same("it has gone with its volume", ("Daily-00001" in world.volumes(), [one.name for one in place.iterdir()]),
                (False, ["expected~"]))
    checks.same("the next one", (scrubbed(world), place.exists()), (([], 0), False))


def unreadable(checks, folder):
    """A volume that a round can't read stays, is told as damaged, and keeps it from nothing else."""
    with World(folder, POOL.format('min_age = "1s"').replace("last = 9", "last = 1").replace("ready = 2", "ready = 5")) as world:
        world.round()
        for _ in range(3):
            world.backup("www", "home", "Daily", [18_500])
            world.now += DAY
        with tool_that(folder, SCANS, "echo '3940 Device fault'; exit 1"):
            told = []
            with replaced(told):
                why = {one.name: one.why for one in world.round().verdicts}
            checks.same("it stays", why["Daily-00001"], "it couldn't be read")
            checks.check("it is told", any("damaged (unreadable Daily-00001 3940 Device fault)" in line for line in told), told)
            # What is first seen now is as young as that.
            world.now += DAY
            world.round()
            checks.same("another one goes", sorted(world.volumes())[:2], ["Daily-00001", "Daily-00003"])
        os.utime(world.folders[0] / "Daily-00001")
        world.round()
        checks.same("once it can be read it is well", (lines_of(world), figure(world, "sdd_keeper_damaged_volumes")),
                    ([], ['{pool="Daily"} 0']))


def told_apart(checks, folder):
    """Folder, daemon and catalogue: what doesn't fit is told, and nothing else."""
    with World(folder, POOL.format("")) as world:
        days(world, 2, 18_500)
        world.say("unmount 1")
        world.say("label 1 Other-1 Other File")
        world.note("Daily-00001")
        (world.folders[0] / "Daily-00002~text").write_text("a text of the operator's")
        checks.same("all fits", differing(world), [])
        (world.folders[0] / "Gone-1~").write_bytes((world.folders[0] / "Daily-00001~").read_bytes())
        (world.folders[0] / "Lost-1").write_bytes((world.folders[0] / "Daily-00001").read_bytes())
        checks.same("a note, and a file", differing(world), [
            "Lost-1: its file is there, and the daemon hasn't adopted it",
            f"{world.folders[0]}: Gone-1~ goes with a volume that isn't there"])
        for name in ("Gone-1~", "Lost-1"):
            (world.folders[0] / name).unlink()
        os.truncate(world.folders[0] / "Daily-00001", 9_000)
        told = differing(world)
        checks.check("a file that is too short", "Daily-00001: its file has 9000 bytes, and the daemon knows blocks up to 19399"
                     in told and any("2026-01-05 00:00:00: not whole" in line for line in told), told)
        (world.folders[0] / "Daily-00001").unlink()
        told = differing(world)
        checks.check("a file that has gone", "Daily-00001: the daemon has it, and its file isn't there" in told, told)
        checks.same("how many", figure(world, "sdd_keeper_differences"), [f" {len(told)}"])


def notes_told(checks, folder):
    """What a volume's note says that doesn't fit is told; a note that isn't there, or of a later form, is passed over."""
    with World(folder, POOL.format("")) as world:
        days(world, 3, 18_500)
        path = world.folders[0] / "Daily-00001~"
        fields = world.note("Daily-00001")
        end = fields["end"]
        checks.same("it fits", differing(world), [])
        cases = [("one of an earlier moment", {"end": fields["last"]}, []), ("a later form", {"form": b"SN02"}, []),
                 ("another label", {"moment": fields["moment"] + 1}, ["Daily-00001: its note is of another label"]),
                 ("a length", {"end": end + 7}, [f"Daily-00001: its file has {end} bytes, and its note knows blocks up to {end + 7}"])]
        for name, changed, wanted in cases:
            world.note("Daily-00001", **changed)
            checks.same(name, (differing(world), figure(world, "sdd_keeper_differences")), (wanted, [f" {len(wanted)}"]))
        world.note("Daily-00001")
        # Where no daemon writes it anew.
        apart, whole = folder / "apart", path.read_bytes()
        apart.mkdir()
        shutil.copy(world.folders[0] / "Daily-00001", apart)
        for at in (*range(4), *range(8, 48)):
            (apart / path.name).write_bytes(whole[:at] + bytes([whole[at] ^ 1]) + whole[at + 1:])
            checks.same(f"byte {at}", why_unlike(apart, "Daily-00001", None), "its note isn't whole")
        for content in (b"", whole[:-1], whole + b"x"):
            (apart / path.name).write_bytes(content)
            checks.same(f"{len(content)} bytes", why_unlike(apart, "Daily-00001", None), "its note isn't whole")
        # More than the daemon knows, but for a volume that takes blocks.
        for name, wanted in (("Daily-00001", [f"Daily-00001: the daemon knows blocks up to {end}, and its note up to {end + 7}"]),
                             (max(world.volumes()), [])):
            with open(world.folders[0] / name, "ab") as file:
                file.write(b"a block")
            world.note(name, end=(world.folders[0] / name).stat().st_size)
            checks.same(f"more in {name}", differing(world), wanted)
            path.unlink(missing_ok=True)
        checks.same("without a note", differing(world), [])


def differing(world):
    """What a round tells of what doesn't fit."""
    told = []
    with replaced(told):
        world.round()
    return [line for line in told if " is hit; " not in line]


def rate(checks, folder):
    """A volume of 2 MB at 1 MB/s takes 2 seconds, and a round goes on beside it."""
    with World(folder, POOL.format('rate = "1M"'), volume=2_000_000, block=64_512) as world:
        world.round()
        world.backup("www", "home", "Daily", [2_500_000])
        for days in (0, 1, 31):
            # The session's end is found a day later, by reading both of its volumes.
            world.now += days * DAY
            if days < 31:
                world.round()
        began = time.monotonic()
        told, status = scrubbed(world)
        took = time.monotonic() - began
        checks.check("as long as it must", status == 0 and 1.5 < took < 30, told, status, took)
