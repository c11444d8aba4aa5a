"""An older package and a later one in turn over the same volumes, notes, catalogue and configuration, and back to the older one
in the end: after each change every run that was told as kept restores as it was."""
import hashlib
import pathlib
import random
import shutil
import threading

import booted
from daemon import until
from debian import Machine, debian
from package import Lacking, field, later, older

SEED, CHANGES, LONG = 92, 7, 300
DATA, HOLDS = "srv/data", ("srv/data/www", "srv/data/mail")
INSTALL = "DEBIAN_FRONTEND=noninteractive dpkg --force-confold -i"
KEEPER = """every = "1s"
daemon = "/etc/sdd/sdd.conf"
[pool.Default]
drives = [1]
names = "Default-%05d"
ready = 2
reserve = "1M"
keep = { last = 1000 }
"""
# An administrator's own lines, which are to stay.
MINE = "# mine\nvolume = 1000000\n"
# Jobs one after another, each with its status and the moment after it, until it is said that there are enough.
BESIDE = """until [ -e /root/enough ]; do
  sdd-client backup beside /srv/data/beside; echo "status $? $(date +%FT%T.%6N)"
  touch /root/begun
done"""


def run(checks, folder, deb):
    (folder / "layer").mkdir()
    clean, why = machine_of()
    with clean(folder / "layer") as machine:
        if machine.problem:
            print(f"not run: packages of two versions, for want of {machine.problem}")
            return None
        if why:
            print(f"on this machine's own files, for want of {why}")
        before = older()
        one = Site(checks, machine, before or deb, deb if before else later(folder / "later"))
        one.lives()
    return f"systemd, with {one.names['older']} and {one.names['later']} in turn"


def machine_of():
    """A clean Debian; and if there is none, this machine as it is, of which nothing is changed but in memory."""
    try:
        debian()
    except Lacking as why:
        return booted.Machine, str(why)
    return Machine, ""


class Site:
    """A machine with jobs, and which runs of them were told as kept: the job, a moment after it, and its files."""

    def __init__(self, checks, machine, before, after):
        self.checks, self.machine, self.draw = checks, machine, random.Random(SEED)
        self.root = pathlib.Path(f"/proc/{machine.first()}/root")
        self.names = {"older": field(before, "Version"), "later": field(after, "Version")}
        self.kept, self.counts = [], {}
        for name, path in (("older", before), ("later", after)):
            shutil.copy(path, self.root / "root" / f"{name}.deb")
        # (an image of a container says here that nothing is to be started)
        (self.root / "usr/sbin/policy-rc.d").unlink(missing_ok=True)

    def must(self, text):
        said, status = self.machine.say("bash", "-c", text)
        self.checks.check(text, status == 0, said)
        return said

    def count(self, what, number=1):
        self.counts[what] = self.counts.get(what, 0) + number

    def lives(self):
        self.must(f"{INSTALL} /root/older.deb")
        self.set_up()
        now = "older"
        for day in range(CHANGES):
            self.jobs()
            # There and back come first, and in the end it is the older one again.
            to = {0: "later", 1: "older", CHANGES - 1: "older"}.get(day) or self.draw.choice(("older", "later"))
            self.change(day, to)
            self.count(f"{now} to {to}")
            now = to
        self.jobs()
        self.restores("in the end")
        self.found_anew()
        print("versions:", ", ".join(f"{what} {count}" for what, count in sorted(self.counts.items())))
        self.checks.check("each way came up", all(self.counts.get(f"{one} to {other}") for one, other in (("older", "later"), ("later", "older"))), self.counts)
        self.checks.check("jobs came up", self.counts["full"] >= 2 and self.counts["incremental"] >= 5 and self.counts["beside"] >= CHANGES, self.counts)

    def set_up(self):
        """A small limit of volumes, with the keeper."""
        conf = self.root / "etc/sdd/sdd.conf"
        conf.write_text(MINE + conf.read_text())
        (self.root / "etc/sdd/keeper.toml").write_text(KEEPER)
        for place in (*HOLDS, "srv/data/beside"):
            (self.root / place).mkdir(parents=True)
            for number in range(6):
                self.write(place, number)
        self.must("systemctl restart sdd && systemctl enable --now sdd-keeper")
        self.checks.check("volumes are ready", until(lambda: " append " in self.must("sdd-client console status"), LONG))

    def write(self, place, number):
        (self.root / place / f"file{number}").write_bytes(self.draw.randbytes(self.draw.choice((0, 500, 20_000, 90_000))))

    # Jobs.

    def jobs(self):
        """Some drawn jobs, of trees that change."""
        for _ in range(self.draw.randrange(1, 4)):
            place = self.draw.choice(HOLDS)
            for number in self.draw.sample(range(9), 3):
                self.write(place, number)
            (self.root / place / f"file{self.draw.randrange(9)}").unlink(missing_ok=True)
            kind = self.draw.choice(("full", "incremental"))
            name = place.rpartition("/")[2]
            said = self.must(f"sdd-client backup {'--incremental' if kind == 'incremental' else ''} {name} /{place} 2>&1; "
                             "status=$?; date +%FT%T.%6N; exit $status")
            self.kept.append((name, said.splitlines()[-1], self.tree(place)))
            self.count(kind)

    def tree(self, place):
        """The files of a folder there, with their sums and modes."""
        top = self.root / place
        return {str(path.relative_to(top)): (oct(path.stat().st_mode), hashlib.sha256(path.read_bytes()).hexdigest())
                for path in sorted(top.rglob("*")) if path.is_file()}

    # Changes of the package.

    def change(self, day, to):
        """Another package is installed while jobs go on, one after another. What is told as kept is."""
        self.must("rm -f /root/enough /root/begun")
        lines = []
        jobs = threading.Thread(target=lambda: lines.extend(self.machine.say("bash", "-c", BESIDE)[0].splitlines()))
        jobs.start()
        self.checks.check(f"change {day}: jobs go on", until(lambda: (self.root / "root/begun").exists(), LONG))
        self.must(f"{INSTALL} /root/{to}.deb")
        self.must("touch /root/enough")
        jobs.join(LONG)
        told = [line.split() for line in lines if line.startswith("status ")]
        kept = [words[2] for words in told if words[1] == "0"]
        # A job that needs a connection while the daemon comes to its end isn't kept, and says so by its status.
        self.checks.check(f"change {day}: each job says what came of it", {words[1] for words in told} <= {"0", "1", "3"} and kept,
                          "\n".join(lines))
        self.count("not kept beside", len(told) - len(kept))
        self.kept += [("beside", moment, self.tree("srv/data/beside")) for moment in kept]
        self.count("beside", len(kept))
        self.checks.same(f"change {day}: it is there", self.must("dpkg-query --show --showformat='${Version} ${Status}' sdd"),
                         f"{self.names[to]} install ok installed")
        self.checks.same(f"change {day}: all of it runs", self.must("systemctl is-active sdd sdd-keeper").split(), ["active", "active"])
        conf = (self.root / "etc/sdd/sdd.conf").read_text()
        self.checks.check(f"change {day}: the configuration stays", conf.startswith(MINE)
                          and (self.root / "etc/sdd/keeper.toml").read_text() == KEEPER, conf)
        self.adopt_behind_jobs()
        self.restores(f"change {day}")
        # One of those beside each other is enough from now on.
        beside = [one for one in self.kept if one[0] == "beside"]
        self.kept = [one for one in self.kept if one[0] != "beside" or one == beside[-1]]

    def adopt_behind_jobs(self):
        """A daemon that doesn't adopt by itself takes jobs before its client has adopted all for it. Behind the volume that a job then
        has loaded none is adopted, and so it is started again once no job waits."""
        if "--adopt" not in self.must("systemctl cat sdd"):
            self.must("systemctl restart sdd")
            self.count("started again")

    def restores(self, when):
        for name, moment, wanted in self.kept:
            said = self.must(f"rm -rf /srv/back && sdd-client restore {name} --at {moment} --to /srv/back 2>&1")
            place = f"srv/back/{DATA}/{name}"
            self.checks.check(f"{when}: {name} of {moment} restores", (self.root / place).exists() and self.tree(place) == wanted, said)
            self.count("restored")

    def found_anew(self):
        """A new catalogue finds on the volumes what the old one has, and nothing is damaged."""
        known = len([line for line in self.must("sdd-client list").splitlines() if line.endswith("kept")])
        said = self.must("SDD_CATALOGUE=/root/anew sdd-client rebuild /var/lib/sdd 2>&1")
        self.checks.check("the volumes have all jobs", f"{known} jobs, {known} of them new" in said, said, known)
        self.must("systemctl stop sdd-keeper sdd")
        said, status = self.machine.say("sdtool", "verify", "/var/lib/sdd")
        self.checks.check("no volume is damaged", status in (0, 3), said)
