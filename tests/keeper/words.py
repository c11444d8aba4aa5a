"""The file of pools, its faults, and the command line."""
import subprocess
import time

from daemon import ROOT
from keeper.configuration import configured
from sdd_client.errors import Misused
from world import DAY, World

KEEPER = ROOT / "keeper" / "sdd-keeper"
RIGHT = {"drives": "[1]", "names": '"Daily-%05d"', "keep": "{ daily = 7 }"}


def pool(name="Daily", **keys):
    lines = [f"{key} = {value}" for key, value in {**RIGHT, **keys}.items()]
    return "\n".join([f"[pool.{name}]", *lines, ""])


# Keys of a pool, and a part of what is told of them.
FAULTS = [
    ({"drives": "[]"}, "list of drives"), ({"drives": "[2]"}, "list of drives"), ({"drives": "1"}, "list of drives"),
    ({"drives": '["1"]'}, "list of drives"), ({"names": '"Daily"'}, "one number"), ({"names": '"Daily-%d"'}, "one number"),
    ({"names": '"%05d-%05d"'}, "one number"), ({"names": '"a/%05d"'}, "one number"), ({"names": "7"}, "is a text"),
    ({"ready": "-1"}, "ready is a number"), ({"ready": '"1"'}, "ready is a number"), ({"most": "0"}, "most is a number"),
    ({"reserve": "7"}, "is a text"), ({"reserve": '"7 GB"'}, "is a size"), ({"keep": "{}"}, "one at least"),
    ({"keep": "{ daily = 0 }"}, "daily is a number"), ({"keep": "{ often = 1 }"}, "no key"), ({"keep": "7"}, "is a table"),
    ({"keep": '{ within = "30" }'}, "is no duration"), ({"min_age": '"1x"'}, "is a time"), ({"min_good": "0"}, "is a number"),
    ({"unknown": "true"}, "is a text"), ({"unknown": '"1h"'}, "at least a day"), ({"verify": '"0d"'}, "is a time"),
    ({"rate": '"fast"'}, "is a size"), ({"drive": "[1]"}, "no key"),
]
WHOLE = [("", "no pool"), ("pool = 1", "has tables"), ("[pool.Daily", "at line 2"), ("every = 7\n" + pool(), "is a text"),
         ('port = "9103"\n' + pool(), "port is a number"), ('[pool."a b"]', "no pool's name"), ("states = 1", "no key"),
         ('daemon = "/nowhere"', "/nowhere")]


def run(checks, folder):
    conf, daemon = folder / "keeper.toml", folder / "sdd.conf"
    daemon.write_text('[[drive]]\nmedia = "File"\nfolder = "/srv/a"\n')
    faults = [(f'daemon = "{daemon}"\n{pool(**keys)}', part) for keys, part in FAULTS]
    faults += [(text if text.startswith("daemon") else f'daemon = "{daemon}"\n{text}\n', part) for text, part in WHOLE]
    faults.append((f'daemon = "{daemon}"\n{pool()}{pool("Other")}', "names of another pool"))
    for text, part in faults:
        conf.write_text(text)
        try:
            configured(conf)
            checks.check(f"{text!r}", False, "no fault")
        except Misused as why:
            checks.check(f"{text!r}", part in str(why), why)
    conf.write_text(f'daemon = "{daemon}"\n' + pool(reserve='"20G"', unknown='"30d"', rate='"50M"'))
    one = configured(conf).pools[0]
    checks.same("what is right", (one.reserve, one.unknown, one.rate, one.min_age, one.name_of(7), one.number_in("Daily-00012"),
                                  one.number_in("Daily-012")),
                (20_000_000_000, 30 * DAY, 50_000_000, 7 * DAY, "Daily-00007", 12, None))
    commands(checks, folder)


def said(*words):
    run = subprocess.run([KEEPER, *words], capture_output=True, text=True, timeout=300)
    return run.stdout, run.stderr, run.returncode


def commands(checks, folder):
    """Statuses of the command line, and that a dry run does nothing."""
    checks.same("no file", said(folder / "nowhere")[2], 2)
    checks.same("no words", said()[2], 2)
    with World(folder / "world", 'scan = "1s"\n' + pool(ready="3", min_age='"1s"', keep="{ last = 1 }")) as world:
        out, err, status = said(world.keeper_conf, "--once")
        checks.check("once", status == 0 and len(world.volumes()) == 3, out, err, status)
        # Each lies on two volumes. By the machine's clock, which counts here, they are old.
        for _ in range(2):
            world.backup("www", "home", "Daily", [18_500])
            world.now += 2
        time.sleep(1.1)
        said(world.keeper_conf, "--dry-run")
        time.sleep(1.1)
        before = world.volumes()
        out, _, status = said(world.keeper_conf, "--dry-run")
        checks.check("why each stays or goes", [line.split(":")[0] for line in out.splitlines()] == [
            "Daily-00001 goes", "Daily-00002 stays", "Daily-00003 stays"], out)
        checks.same("nothing is done", (world.volumes(), status), (before, 0))
        said(world.keeper_conf, "--once")
        checks.check("then it is", "Daily-00001" not in world.volumes(), world.volumes())
        before = world.volumes()
        world.daemon.kill()
        out, err, status = said(world.keeper_conf, "--once")
        checks.check("no daemon", status == 3 and "no daemon" in err, err, status)
    checks.same("its volumes stay", world.volumes(), before)
