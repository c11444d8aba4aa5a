"""The catalogue is lost, and made anew from the volumes: the same lists, and the same restores."""
import random

from daemon import later_second
from jobs import is_root, key_in, restored
from site_of_test import is_told
from trees import Tree, differences

SEED = 83


def lists(site, names):
    """What the catalogue says of all its jobs."""
    said = [site.say("list")[0], site.say("list", "--json")[0]]
    return said + [site.say("files", name, "--json")[0] for name in names] + [site.say("find", "*a*")[0]]


def rebuilt(checks, site):
    """Jobs in many sessions, by lanes and stages, found on the volumes alone."""
    if not is_root(checks):
        return
    Tree(random.Random(SEED), site.files, True).grow(60)
    key, identity = key_in(site.folder), ("--identity", site.folder / "key")
    ways = {"plain": (), "small": ("--session", "20K", "--parallel", "2"), "zipped": ("--through", "gzip"),
            "secret": ("--through", f"age -r {key}")}
    with site.daemon():
        site.label("Vol-0001")
        for name, options in ways.items():
            is_told(checks, f"backup {name}", site.say("backup", name, *options, site.files), 0)
        # What was begun and isn't whole is no job, and what is no job at all neither.
        site.say("backup", "plain", "--through", "false", site.files)
        site.say("append", site.conf)
    before = lists(site, ways)
    site.catalogue.unlink()
    is_told(checks, "without the key", site.say("rebuild", site.volumes), 3, "4 jobs, 4 of them new", "job secret", "aren't listed")
    is_told(checks, "all of it", site.say("--volumes", site.volumes, "restore", "secret", *identity, "--to", site.folder / "all"), 0)
    checks.same("unlisted", differences(site.files, restored(site, "all")), "")
    is_told(checks, "with it", site.say("rebuild", site.volumes, *identity), 0, "4 jobs, 1 of them new")
    is_told(checks, "again", site.say("rebuild", site.volumes, *identity), 0, "4 jobs, 0 of them new")
    after = lists(site, ways)
    without = [line for line in before[0].splitlines() if not line.endswith("failed")]
    checks.same("list", after[0].splitlines(), without)
    checks.same("files", after[2:], before[2:])
    later_second()
    with site.daemon():
        site.say("adopt-all", site.conf)
        for name in ways:
            is_told(checks, f"check {name}", site.say("check", name, *identity), 0)
            is_told(checks, f"restore {name}", site.say("restore", name, *identity, "--to", site.folder / name), 0)
            checks.same(f"{name}: what rsync would do", differences(site.files, restored(site, name)), "")
    (site.folder / "empty").mkdir()
    is_told(checks, "no volumes", site.say("rebuild", site.folder / "empty"), 0, "0 jobs")
    is_told(checks, "no folder", site.say("rebuild", site.folder / "nowhere"), 1, "nowhere")


GROUPS = {rebuilt: ""}
