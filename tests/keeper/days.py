"""Simulated days of three clients on a small disk, without an operator; with the keeper, the daemon and clients killed at
random. Beside it stands a reader of the folders that shares nothing with the keeper."""
import datetime
import os
import random
import threading

import rules
from reader import Reader
from removals import STEPS
from world import BEGIN, DAY, World

DAYS = int(os.environ.get("KEEPER_DAYS", "90"))
# A client, its job, its pool, and the bytes of a full job, which comes once a week, and of an incremental one.
CLIENTS = [("www", "home", "Daily", 1_300_000, 200_000), ("desk", "home", "Daily", 900_000, 150_000),
           ("mail", "spool", "Other", 1_200_000, 300_000)]
# The disk holds what these write in 30 days, and no more.
CAPACITY = 30 * sum(full + 6 * more for *_, full, more in CLIENTS) // 7
# Besides what is kept, 11 days at most, it has what killed jobs left, a volume that is ready in each pool, the reserve, and
# volumes that have still room or of which only a part is kept: since the daemon chooses a job's drive, a pool has them in both.
VOLUME, RESERVE = 2_000_000, 2_000_000
KEEP, MIN_AGE, MIN_GOOD = {"last": 2, "daily": 4, "weekly": 1}, 4 * DAY, 2
POOLS_ON = (("Daily", 1), ("Other", 2))
POOLS = "".join(
    f'[pool.{name}]\ndrives = [{drive}]\nnames = "{name}-%05d"\nready = 1\nreserve = "{RESERVE}"\nmin_age = "4d"\n'
    'min_good = 2\nunknown = "5d"\nkeep = { last = 2, daily = 4, weekly = 1 }\n' for name, drive in POOLS_ON)


class Simulation:
    def __init__(self, checks, world):
        self.checks, self.world, self.draw = checks, world, random.Random(int(os.environ.get("KEEPER_SEED", "83")))
        self.reader, self.counts = Reader(world.folders), {}
        self.chains, self.lost = {}, []
        self.failed_before = checks.failed

    def run(self):
        for day in range(DAYS):
            self.world.now = BEGIN + day * DAY + 3600.0
            # (what isn't kept from this day on is removed with no job beside)
            self.keep()
            for client in CLIENTS:
                self.job(day, client)
            self.keep()
            self.world.now += 6 * 3600
            self.keep()
            self.look()
            # What another part found ends no day of these.
            if self.checks.failed > self.failed_before:
                break
        self.ended()

    def count(self, what):
        self.counts[what] = self.counts.get(what, 0) + 1

    # Jobs.

    def job(self, day, client):
        """A job, with rounds of the keeper beside it. At times its client or the daemon is killed, and it runs again."""
        name, job, pool, full, more = client
        self.world.now += 600
        if self.draw.random() < 0.06:
            self.count("client killed")
            stop = self.draw.randrange(1, 9)
            self.beside(lambda: self.world.backup(name, job, pool, [full // 2, full // 2], stop_after=stop))
        if self.draw.random() < 0.06:
            self.count("daemon killed in a job")
            self.beside(lambda: self.world.backup(name, job, pool, [full]), kill=True)
        chain = self.chains.get(name, [])
        is_full = day % 7 == 0 or not chain
        sizes = [full // 3, full - full // 3] if is_full else [more]
        self.world.now += 60
        made = self.beside(lambda: self.world.backup(name, job, pool, sizes, [] if is_full else chain))
        self.checks.check(f"day {day}: {name}'s job is kept", made, self.lost)
        self.count("full" if is_full else "incremental")
        if made:
            self.chains[name] = [made.key()] if is_full else [*chain, made.key()]

    def beside(self, job, kill=False):
        """Runs a job in a thread, with rounds of the keeper until it ends; maybe the daemon is killed meanwhile."""
        made = []

        def hold():
            try:
                made.append(job())
            except Exception as why:
                self.lost.append(repr(why))

        thread = threading.Thread(target=hold, daemon=True)
        thread.start()
        if kill:
            thread.join(self.draw.random() * 0.05)
            self.world.restart()
        rounds = 0
        while thread.is_alive() and rounds < 400:
            self.keep(whole=False)
            thread.join(0.02)
            rounds += 1
        self.checks.check("no job is stuck", not thread.is_alive(), self.world.say("status"), self.world.say("requests"))
        return made[0] if made else None

    # The keeper.

    def keep(self, whole=True):
        """A round; at times it is killed before a step, or the daemon is, and then the next round goes on."""
        there, heads = self.world.volumes(), self.reader.heads()
        if self.draw.random() < 0.5 and self.world.killed(self.draw.randrange(1, 9)):
            self.count("keeper killed")
        if whole and self.draw.random() < 0.06:
            self.count("daemon killed")
            self.world.restart()
        self.world.round(lambda step: self.comes_between(step, whole))
        self.check_free()
        # The job beside it may have ended before the round looked, or after.
        before, after = self.needed(heads), self.needed({**heads, **self.reader.heads()})
        for name in set(there) - set(self.world.volumes()):
            self.count("removed")
            self.checks.check(f"{name} was of no kept job", name not in before or name not in after, before.get(name))

    def comes_between(self, step, whole):
        """Before a step of a removal the daemon is at times killed and started again, and maybe given the oldest volume to load."""
        self.check_free()
        if not whole or step not in STEPS or self.draw.random() >= 0.2:
            return
        self.count("daemon killed in a removal")
        self.world.restart()
        drive = self.draw.choice((1, 2, None))
        names = sorted(name for name, folder in self.world.volumes().items() if folder == self.world.folders[(drive or 1) - 1])
        if drive and names and self.world.say(f"mount {drive} {names[0]}") == ["ok mounted"]:
            self.count("mounted in a removal")

    def check_free(self):
        if self.world.free() < RESERVE:
            self.checks.check("never under the reserve", False, self.world.free())

    def kept(self, heads):
        """The jobs that are to be kept of these, by the model: for each its volumes."""
        groups = {}
        for key, (head, _) in heads.items():
            groups.setdefault((head["pool"], head["client"], head["job"]), []).append((head["began"] / 1e6, key))
        kept = set()
        for moments in groups.values():
            chosen = rules.kept_by([moment for moment, _ in moments], KEEP)
            last = sorted(moments)[-MIN_GOOD:]
            kept |= {key for moment, key in moments
                     if moment in chosen or self.world.now - moment < MIN_AGE or (moment, key) in last}
        for key in list(kept):
            kept |= {tuple(one) for one in heads[key][0]["chain"]}
        return {key: heads[key][1] for key in kept if key in heads}

    def needed(self, heads):
        """For each volume a job that is kept and has a block on it."""
        return {name: key for key, names in self.kept(heads).items() for name in names}

    # The checks of a day.

    def look(self):
        """Each job that the reader says is kept is there, and one of them restores."""
        keys = self.kept(self.reader.heads())
        kept = [one for one in self.world.kept if one.key() in keys]
        if kept:
            one = self.draw.choice(kept)
            self.checks.same(f"{one.head.client}'s job of {moment(one)} restores", self.world.restores(one), True)
        status, there = self.world.status(), self.world.volumes()
        for pool, _ in POOLS_ON:
            ready = [name for name in there if name.startswith(pool) and status.get(name) == "append"]
            self.checks.check(f"one of {pool} is ready", ready, status)

    def ended(self):
        """In the end every kept job restores."""
        kept = self.kept(self.reader.heads())
        for one in self.world.kept:
            if one.key() in kept:
                self.count("restored")
                self.checks.same(f"{one.head.client}'s job of {moment(one)} restores", self.world.restores(one), True)
        self.checks.check("the last jobs are among them", all(chain[-1] in kept for chain in self.chains.values()))
        print(f"{DAYS} days:", ", ".join(f"{what} {count}" for what, count in sorted(self.counts.items())),
              f"and {len(self.world.volumes())} volumes are left")
        for what, least in (("removed", DAYS // 3), ("keeper killed", DAYS // 9), ("daemon killed", DAYS // 20),
                            ("client killed", DAYS // 20), ("daemon killed in a job", DAYS // 20), ("restored", 15),
                            ("daemon killed in a removal", DAYS // 45), ("mounted in a removal", 1)):
            self.checks.check(f"{what} came up", self.counts.get(what, 0) >= least, self.counts)


def moment(backup):
    return datetime.datetime.fromtimestamp(backup.head.began // 1_000_000, datetime.timezone.utc).strftime("%Y-%m-%d")


def run(checks, folder):
    with World(folder / "world", POOLS, drives=2, volume=VOLUME, block=64_512, capacity=CAPACITY) as world:
        Simulation(checks, world).run()
