"""A disk that is nearly full, with volumes, spools, catalogue, the keeper's state and the daemon's log on it: nothing is told as
kept that isn't, and nothing is taken for damage."""
import contextlib
import hashlib
import json
import os
import random
import subprocess

from daemon import CLIENT, ROOT, SDTOOL, WAIT, Daemon, drive, environment, free_port, later_second, listed

KEEPER = ROOT / "keeper" / "sdd-keeper"
DISK, ROOM, RESERVE = 6_000_000, 900_000, 1_000_000
SEED, JOBS = 85, 8
POOL = ('[pool.Default]\ndrives = [1]\nnames = "Default-%05d"\nready = 2\nkeep = {{ last = 1 }}\nmin_age = "1s"\nreserve = "{}"\n')
KEPT = (0, 3)


@contextlib.contextmanager
def disk(folder):
    """A file system of its own, in memory. Gives whether it could be made."""
    folder.mkdir()
    options = ["-o", f"size={DISK},mode=755", "nearly-full", folder]
    made = os.geteuid() == 0 and subprocess.run(["mount", "-t", "tmpfs", *options], stderr=subprocess.DEVNULL).returncode == 0
    try:
        yield made
    finally:
        if made:
            subprocess.run(["umount", "--lazy", folder], check=True)


class Site:
    """All that a backup server writes, in one folder."""

    def __init__(self, place):
        self.place, self.port, self.volumes = place, free_port(), place / "volumes"
        for name in ("volumes", "spools", "temporary"):
            (place / name).mkdir()
        self.conf, self.pools = place / "sdd.conf", place / "keeper.toml"
        self.conf.write_text(f'port = {self.port}\nvolume = 1000000\nspool = 300000\nspool_folder = "{place}/spools"\n'
                             + drive("File", self.volumes))
        self.pools.write_text(f'daemon = "{self.conf}"\nport = {self.port}\nstate = "{place}/state"\n'
                              f'figures = "{place}/keeper.prom"\n{POOL.format(RESERVE)}')
        self.env = environment(PATH=f"{SDTOOL.parent}:{os.environ['PATH']}", SDD_CATALOGUE=place / "catalogue",
                               TMPDIR=place / "temporary")

    def daemon(self):
        later_second()
        return Daemon(self.conf, "--wait", "1", port=self.port)

    def say(self, program, *words):
        command = [program, *(["--port", str(self.port)] if program == CLIENT else []), *map(str, words)]
        run = subprocess.run(command, stdout=subprocess.PIPE, stderr=subprocess.STDOUT, text=True, errors="replace",
                             stdin=subprocess.DEVNULL, timeout=20 * WAIT, env=self.env)
        return run.stdout, run.returncode

    def backup(self, name, path):
        return self.say(CLIENT, "--timeout", 30, "--retry", 0, "backup", name, path)

    def keep(self):
        return self.say(KEEPER, "--once", self.pools)

    def free(self):
        found = os.statvfs(self.place)
        return found.f_bavail * found.f_frsize

    def fill(self, left):
        """A file takes all but so many bytes."""
        with open(self.place / "ballast", "ab") as file:
            os.posix_fallocate(file.fileno(), file.tell(), max(1, self.free() - left))

    def kept(self):
        """What the catalogue says of each job's last run."""
        said, status = self.say(CLIENT, "list", "--json")
        return {row["name"]: row["status"] for row in json.loads(said)} if status == 0 else None


def run(checks, folder, _):
    with disk(folder / "disk") as made:
        if not made:
            print("not run: a disk that is nearly full, which needs root")
            return None
        site, numbers, told = Site(folder / "disk"), random.Random(SEED), {}
        with site.daemon():
            checks.same("the keeper labels", site.keep()[1], 0)
            first = draw(folder, numbers, "first", 200_000)
            checks.same("with room", site.backup("first", first)[1], 0)
            site.fill(ROOM)
            for number in range(JOBS):
                name = f"job{number}"
                came = site.backup(name, draw(folder, numbers, name, numbers.choice([2_000, 60_000, 200_000, 500_000])))
                told[name] = came[1]
                checks.check(f"{name} says what came of it", came[1] in (0, 1, 3) and "Traceback" not in came[0], came)
                refused(checks, site)
            print(f"nearly full: {sum(one in KEPT for one in told.values())} of {JOBS} jobs were kept, {site.free()} bytes are free")
            checks.same("some were kept, and some not", {one in KEPT for one in told.values()}, {True, False})
            nothing_damaged(checks, site, folder, "while it is full")
        (site.place / "ballast").unlink()
        with site.daemon():
            adopted = site.say(CLIENT, "adopt-all", site.conf)
            checks.check("all volumes are adopted", adopted[1] == 0 and "ok adopted" in adopted[0], adopted)
            checks.same("the keeper goes on", site.keep()[1], 0)
            nothing_damaged(checks, site, folder, "afterwards")
            afterwards(checks, site, folder, told)


def draw(folder, numbers, name, size):
    path = folder / "files" / name
    path.mkdir(parents=True)
    (path / "data").write_bytes(numbers.randbytes(size))
    return path


def refused(checks, site):
    """The keeper labels nothing below its reserve, and removes nothing; where it can't write it says so."""
    before = listed(site.volumes)
    said, status = site.keep()
    checks.check("the keeper says what came of it", "Traceback" not in said and (status == 0 or status == 1 and said), said, status)
    after = listed(site.volumes)
    checks.check("no volume more", set(after) <= set(before), before, after)


def nothing_damaged(checks, site, folder, when):
    """What a write that failed has left is behind all that was answered for: no block before it is damaged."""
    said, status = site.say(SDTOOL, "verify", "--json", site.volumes)
    lines = [json.loads(line) for line in said.splitlines() if line.startswith("{")]
    places = {line["volume"]: line["place"] for line in lines if line["line"] == "damage"}
    behind = [line for line in lines if line["line"] in ("behind", "broken", "refused")]
    ends = {line.split()[1]: int(line.split()[5]) for line in site.say(CLIENT, "console", "status")[0].splitlines()
            if line.startswith("volume ")}
    torn = [name for name, place in places.items() if place != ends.get(name)]
    checks.check(f"no damage {when}", status in (0, 1, 3, 4) and not torn and not behind, said, ends)


def afterwards(checks, site, folder, told):
    """Each job that was told as kept restores, and no other is in the catalogue as kept."""
    known = site.kept()
    checks.check("the catalogue can be read", known is not None)
    for name, status in {"first": 0, **told}.items():
        in_catalogue = (known or {}).get(name) in ("kept", "partly")
        checks.same(f"{name} is kept as it was told", in_catalogue, status in KEPT)
        if status in KEPT:
            to = folder / "back" / name
            came = site.say(CLIENT, "restore", name, "--to", to)
            data = to / str(folder / "files" / name / "data").lstrip("/")
            checks.check(f"{name} restores", came[1] == 0 and data.exists()
                         and sum_of(data) == sum_of(folder / "files" / name / "data"), came)
    last = site.backup("last", folder / "files" / "first")
    checks.check("the next job", last[1] == 0, last, site.say(CLIENT, "console", "status")[0], site.free())


def sum_of(path):
    return hashlib.sha256(path.read_bytes()).hexdigest()
