"""Volumes given back, with the keeper killed, the volume mounted, or the daemon killed at each step."""
import contextlib
import itertools

from reader import Reader
from sdd_client.errors import Failed
from world import DAY, World

POOL = ('[pool.Daily]\ndrives = [1]\nnames = "Daily-%05d"\nready = 2\nkeep = {{ last = 2 }}\nmin_age = "1s"\n{}')
STEPS = ("scan", "write down", "rename", "ask", "remove notes", "remove", "note")


def run(checks, folder):
    for number, (step, event) in enumerate(itertools.product(STEPS, ("killed", "mounted", "restarted"))):
        one(checks, folder / str(number), step, event)
    checks.group = "removals"
    held(checks, folder / "held")
    failed(checks, folder / "failed")
    late(checks, folder / "late")
    unknown(checks, folder / "unknown")
    chains(checks, folder / "chains")
    unmounted(checks, folder / "unmounted")


def one(checks, folder, step, event):
    """Something happens before a step of the first removal; in the end all is as if nothing had."""
    checks.group = f"{event} before '{step}'"
    with World(folder, POOL.format("")) as world:
        days(world, 3)
        # The fourth job ends the first one's time: its volumes are to go, and the first one has a note.
        world.backup("www", "home", "Daily", [18_500])
        world.now += DAY
        first = sorted(world.volumes())[0]
        world.note(first)
        reader = Reader(world.folders)
        if event == "killed":
            checks.check("it comes to that step", world.killed(step))
        else:
            before_rename = step in ("scan", "write down", "rename")
            said = happen(world, step, event, first)
            checks.check("what comes between", said.startswith("ok") == (before_rename or event == "restarted"), said)
            checks.same("it has its name again, or is gone", first in world.volumes(), before_rename)
        left = [name for name in names(world) if name.startswith(first)]
        wanted = {"scan": 2, "write down": 2, "rename": 2, "ask": 2, "remove notes": 2, "remove": 1, "note": 0}[step]
        if event == "killed":
            checks.same("what is left of it", len(left), wanted)
        if event == "mounted":
            world.say("unmount 1")
        world.now += DAY
        world.round()
        # After a start a volume takes blocks until one finds no room.
        checks.check("the next job", world.restores(world.backup("www", "home", "Daily", [18_500])))
        world.now += DAY
        world.round()
        left = sorted(one.name for one in world.folders[0].iterdir() if one.name.startswith(first))
        checks.same("it is gone, with its note", left, [])
        needed = set().union(*(names for _, names in reader.heads().values()))
        checks.check("what is there is needed", needed <= set(world.volumes()), needed, world.volumes())
        for backup in world.kept[-2:]:
            checks.same("a kept job restores", world.restores(backup), True)


def days(world, count):
    """So many days with a job each, and the keeper after it."""
    world.round()
    for _ in range(count):
        world.backup("www", "home", "Daily", [18_500])
        world.now += DAY
        world.round()


def lies_on(backups):
    return set().union(*(one.volumes() for one in backups))


def happen(world, step, event, name):
    """A round in which something happens before the first such step."""
    done = []

    def hook(now):
        if now == step and not done:
            world.restart()
            # A full volume can be mounted only after a start, which knows it as one that takes blocks.
            done.append(world.say(f"mount 1 {name}") if event == "mounted" else ["ok"])

    world.round(hook)
    return done[0][0]


def held(checks, folder):
    """What holds a volume: that it takes blocks, is loaded, is of a kept job, of one too young, or of the last good ones."""
    text = POOL.format("").replace('min_age = "1s"', 'min_age = "9d"\nmin_good = 3').replace("last = 2", "last = 1")
    with World(folder, text) as world:
        days(world, 6)
        why = {one.name: one.why for one in world.round().verdicts}
        checks.same("all are there", lies_on(world.kept) - set(world.volumes()), set())
        checks.check("why the first stays", "younger than min_age" in why["Daily-00001"], why)
        checks.check("why the last one stays", why[max(why)] == "it takes blocks", why)
        world.now += 5 * DAY
        world.round()
        checks.same("two are old enough to go", [one.volumes() <= set(world.volumes()) for one in world.kept],
                    [False, False, True, True, True, True])
        world.now += 50 * DAY
        world.round()
        checks.same("three are the last good ones", [one.volumes() <= set(world.volumes()) for one in world.kept],
                    [False, False, False, True, True, True])
        first = min(world.volumes())
        checks.check("why they stay", "last good ones" in {one.name: one.why for one in world.round().verdicts}[first])
        world.restart()
        checks.same("mount", world.say(f"mount 1 {first}"), ["ok mounted"])
        checks.same("a loaded one", {one.name: one.why for one in world.round(no_labels).verdicts}[first], "it is loaded")


def no_labels(step):
    """The drive is left as it is."""
    assert step not in ("unmount", "label"), step


def failed(checks, folder):
    """A volume whose device failed goes as a full one does: not before its jobs aren't kept, with what was lost on it."""
    with World(folder, POOL.format('unknown = "1d"')) as world:
        world.round()
        first = world.backup("www", "home", "Daily", [3_000])
        path, away = world.folders[0] / "Daily-00001", folder / "away"
        # The next sync finds no file of its name, as if the device had failed.
        path.rename(away)
        with contextlib.suppress(Failed):
            checks.check("a job is lost", not world.session("Daily", [(2, world.draw.randbytes(3_000))]))
        away.rename(path)
        checks.same("it is in error", world.status()["Daily-00001"], "error")
        world.note("Daily-00001")
        world.now += 2 * DAY
        why = {one.name: one.why for one in world.round().verdicts}
        checks.check("a kept job holds it", "needs it" in why["Daily-00001"] and world.restores(first) is True, why)
        days(world, 2)
        world.now += 2 * DAY
        world.round()
        checks.same("then it goes", ("Daily-00001" in world.volumes(), "Daily-00001~" in names(world)), (False, False))
        checks.same("the kept ones restore", [world.restores(one) for one in world.kept[-2:]], [True, True])


def late(checks, folder):
    """The daemon knows a volume that was given back until it ends, and may write one more note of it: that goes too. The notes of
    other volumes stay, be they there or not."""
    with World(folder, POOL.format("")) as world:
        days(world, 5)
        checks.check("it went", "Daily-00001" not in world.volumes(), world.volumes())
        last = max(world.volumes())
        world.note(last)
        content = (world.folders[0] / f"{last}~").read_bytes()
        for name in ("Daily-00001~", "Daily-00001~~", "Other-1~"):
            (world.folders[0] / name).write_bytes(content)
        world.round()
        checks.same("what stays", [name in names(world) for name in ("Daily-00001~", "Daily-00001~~", f"{last}~", "Other-1~")],
                    [False, False, True, True])


def names(world):
    return sorted(one.name for one in world.folders[0].iterdir())


def unknown(checks, folder):
    """Sessions of no job hold a volume, unless it is said for how long."""
    with World(folder, POOL.format("")) as world:
        world.round()
        world.session("Daily", [(2, world.draw.randbytes(9_000))])
        world.session("Daily", [(2, world.draw.randbytes(3_000))] * 4, stop_after=2)
        world.session("Daily", [(2, world.draw.randbytes(9_000))])
        world.round()
        world.now += 100 * DAY
        seen = world.round()
        why = {one.name: one.why for one in seen.verdicts}
        checks.check("held", "are of no job" in why["Daily-00001"], why)
        world.write(POOL.format('unknown = "101d"'))
        world.round()
        checks.check("not for so long", "Daily-00001" in world.volumes())
        world.now += 2 * DAY
        world.round()
        checks.check("then it goes", "Daily-00001" not in world.volumes(), world.volumes())


def chains(checks, folder):
    """What a kept job stands on is kept with it."""
    with World(folder, POOL.format("").replace("last = 2", "last = 1")) as world:
        days(world, 1)
        full = world.kept[0]
        for _ in range(4):
            last = world.backup("www", "home", "Daily", [18_500], chain=[full.key()])
            world.now += DAY
            world.round()
        checks.check("the full one and the last", lies_on([full, last]) <= set(world.volumes()), world.volumes())
        checks.check("none between", not world.kept[2].volumes() <= set(world.volumes()), world.volumes())
        checks.same("both restore", (world.restores(full), world.restores(last)), (True, True))


def unmounted(checks, folder):
    """A folder without the daemon's lock is left alone, and so are all others."""
    with World(folder, POOL.format("")) as world:
        world.round()
        world.folders[0].rename(folder / "away")
        world.folders[0].mkdir()
        try:
            world.round()
            checks.check("refused", False)
        except Exception as why:
            checks.check("refused", "mounted" in str(why), why)
        world.folders[0].rmdir()
        (folder / "away").rename(world.folders[0])
        world.round()
