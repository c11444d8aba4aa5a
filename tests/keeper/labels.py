"""When a volume is labelled, under which name, and when not."""
import re
import threading
import unittest.mock

import keeper.rounds
from daemon import WAIT, until
from world import DAY, World

POOL = '[pool.Daily]\ndrives = [1]\nnames = "Daily-%05d"\nkeep = {{ last = 100 }}\n{}'


def run(checks, folder):
    for part in (ahead, asked, limits, coming, names):
        part(checks, folder / part.__name__)


def ahead(checks, folder):
    """As many are ready as are to be, but for a drive with a job, and never without need."""
    with World(folder, POOL.format("ready = 3")) as world:
        world.round()
        checks.same("three", sorted(world.volumes()), ["Daily-00001", "Daily-00002", "Daily-00003"])
        world.round()
        checks.same("no more", len(world.volumes()), 3)
        world.backup("www", "home", "Daily", [30_000])
        checks.same("one is used up", sorted(world.status().values()), ["append", "append", "full"])
        world.round()
        checks.same("one more", len(world.volumes()), 4)
        checks.check("the loaded one was unmounted", world.say("status")[0] == "drive 1 File - 0", world.say("status"))


def asked(checks, folder):
    """A job that waits for a volume goes on once the keeper was there, again and again."""
    with World(folder, POOL.format("ready = 0")) as world:
        done = []
        job = threading.Thread(target=lambda: done.append(world.backup("www", "home", "Daily", [70_000, 30_000])))
        job.start()
        until(lambda: "request 1 Daily File" in world.say("requests"))
        checks.same("none without need", world.volumes(), {})
        while job.is_alive():
            world.round()
            job.join(0.05)
        checks.check("it is kept", done and world.restores(done[0]), done)
        checks.same("as many as it took", len(world.volumes()), len(done[0].volumes()))
        checks.same("in their order", sorted(world.volumes()), [f"Daily-{at:05}" for at in range(1, len(world.volumes()) + 1)])
        # A pool that isn't the keeper's is nobody's business but the operator's.
        other = threading.Thread(target=lambda: world.session("Other", [(2, b"x")] * 3), daemon=True)
        other.start()
        until(lambda: "request 1 Other File" in world.say("requests"))
        before = world.volumes()
        world.round()
        checks.same("another pool's request", world.volumes(), before)
        world.say("unmount 1")
        world.say("label 1 Other-1 Other File")
        other.join(30)


def limits(checks, folder):
    """Neither the reserve nor `most` is passed, and it is told."""
    with World(folder, POOL.format('ready = 9\nmost = 4\nreserve = "30K"'), capacity=91_000) as world:
        checks.same("up to the reserve", (*told(world, "are the reserve"), len(world.volumes())), (1, "1", 3))
        world.backup("www", "home", "Daily", [50_000])
        world.round()
        checks.same("not below it", (len(world.volumes()), world.free() >= 30_000), (3, True))
        world.capacity = 10**9
        checks.same("up to the most", (*told(world, "'most' is 4"), len(world.volumes())), (1, "1", 4))
        world.write(POOL.format('ready = 4\nreserve = "30K"'))
        checks.same("with room for all", (*told(world, "no volume is labelled"), len(world.volumes())), (0, "0", 6))
        already = set()
        world.write(POOL.format('ready = 9\nreserve = "999900K"'))
        checks.same("once, until there is room", [told(world, "are the reserve", already)[0] for _ in range(3)], [1, 0, 0])
        world.write(POOL.format('ready = 4\nreserve = "30K"'))
        checks.same("then there is", told(world, "are the reserve", already), (0, "0"))
        world.write(POOL.format('ready = 9\nreserve = "999900K"'))
        checks.same("and then again none", told(world, "are the reserve", already), (1, "1"))


def told(world, text, already=None):
    """How often a round tells that, and what its figure says then. `already` is what the keeper told in earlier ones."""
    lines = []
    with unittest.mock.patch.object(keeper.rounds, "tell", lines.append):
        world.round(already=already)
    found = re.search(r'^sdd_keeper_no_room\{pool="Daily",drive="1"} (.*)$', (world.folder / "keeper.prom").read_text(), re.MULTILINE)
    return sum(text in line for line in lines), found[1]


def coming(checks, folder):
    """While the daemon starts, volumes that it hasn't adopted yet count as ready, and with all that they may still get."""
    with World(folder, POOL.format('ready = 3\nreserve = "30K"'), capacity=91_000) as world:
        world.round()
        made = sorted(world.volumes())
        world.daemon.kill()
        world.start(adopts=False)
        seen = world.round()
        checks.same("none is labelled", (sorted(world.volumes()), seen.no_room), (made, {}))
        world.write(POOL.format('ready = 9\nreserve = "30K"'))
        world.round()
        checks.same("nor below the reserve", sorted(world.volumes()), made)
        world.write(POOL.format("ready = 9\nmost = 3"))
        world.round()
        checks.same("nor more than the most", sorted(world.volumes()), made)
        # A drive that asks gets one if there is room.
        world.capacity = 112_000
        world.write(POOL.format('ready = 3\nreserve = "30K"'))
        done = []
        job = threading.Thread(target=lambda: done.append(world.backup("www", "home", "Daily", [5_000])), daemon=True)
        job.start()
        checks.check("it asks", until(lambda: "request 1 Daily File" in world.say("requests")))
        world.round()
        job.join(WAIT)
        checks.check("a job goes on", done and world.restores(done[0]), done)
        world.say("unmount 1")
        world.adopt()
        world.round()
        checks.same("with all of them", (len(world.volumes()), set(world.status().values())), (4, {"append"}))


def names(checks, folder):
    """No name comes twice, whatever was removed or lost."""
    with World(folder, POOL.format("ready = 2\nmin_age = \"1s\"").replace("last = 100", "last = 1")) as world:
        world.killed("label")
        checks.same("killed before its first label", world.volumes(), {})
        used = set()
        for _ in range(6):
            world.round()
            used |= set(world.volumes())
            world.backup("www", "home", "Daily", [19_000])
            world.now += DAY
        world.round()
        checks.check("some are gone", len(world.volumes()) < len(used) - 2, world.volumes(), used)
        checks.check("the number that was killed isn't used", "Daily-00001" not in used, used)
        (folder / "state" / "keeper.sqlite").unlink()
        before = set(world.volumes())
        world.backup("www", "home", "Daily", [19_000])
        world.round()
        new = set(world.volumes()) - before
        checks.check("without its state it goes on from what is there", new and min(new) > max(used), new, used)
