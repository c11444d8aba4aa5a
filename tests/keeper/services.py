"""The keeper's units as systemd runs them, beside the daemon's: in namespaces over this machine's files, of which nothing is
changed but in memory."""
import pathlib
import shutil
import sys
import time

from daemon import ROOT, SDD, SDTOOL, until
from scrubs import turn

sys.path.append(str(ROOT / "tests" / "relay"))
from booted import Machine
from units import sources

# Nothing is waited for longer, in seconds: a round reads some volumes.
LONG = 180
FIGURES = "/var/lib/sdd-keeper/sdd-keeper.prom"
# So long after a reading the next one is due, by `verify` below.
DUE = 1.1
AS_KEEPER = ("setpriv", "--reuid=sdd", "--regid=sdd", "--init-groups")
# What an administrator types, by docs/use/OPERATIONS.md. Of a keeper's times only those are other that a test can't wait for.
SETUP = r"""
set -e
cd /tmp/source
./install /usr/local >/dev/null
useradd --system --no-create-home --shell /usr/sbin/nologin sdd
sed -i '1i volume = 2000000' /usr/local/etc/sdd.conf
sed -e 's/^reserve = .*/reserve = "1M"/' -e 's/^keep = .*/keep = { last = 2 }/' -e 's/^min_age = .*/min_age = "1s"/' \
    -e 's/^verify = .*/verify = "1s"/' -e '1i every = "1s"\nscan = "1s"' \
    /usr/local/share/sdd/examples/keeper.toml > /usr/local/etc/keeper.toml
for unit in sdd-keeper sdd-keeper-scrub; do
  mkdir -p /etc/systemd/system/$unit.service.d
  printf '[Service]\nStandardError=append:/var/log/%s.log\n' $unit > /etc/systemd/system/$unit.service.d/log.conf
done
mkdir -p /etc/systemd/system/sdd-keeper-scrub.timer.d
printf '[Timer]\nOnActiveSec=1s\nRandomizedDelaySec=0\nAccuracySec=1s\n' > /etc/systemd/system/sdd-keeper-scrub.timer.d/soon.conf
systemctl daemon-reload
systemctl enable --now sdd sdd-keeper
head -c 900000 /dev/urandom > /srv/file
"""
# Each of the three units is given the daemon's own network.
PRIVATE = r"""
set -e
for unit in sdd sdd-keeper sdd-keeper-scrub; do
  mkdir -p /etc/systemd/system/$unit.service.d
  cp /usr/local/share/sdd/examples/sdd-private.conf /etc/systemd/system/$unit.service.d/private.conf
done
systemctl daemon-reload
systemctl restart sdd sdd-keeper
"""


def run(checks, folder):
    (folder / "layer").mkdir()
    with Machine(folder / "layer") as machine:
        if machine.problem:
            print(f"not run: the keeper's units under systemd, for want of {machine.problem}")
            return
        source = sources(folder)
        for program in (SDD, SDTOOL):
            shutil.copy(program, source / "bin")
        root = pathlib.Path(f"/proc/{machine.first()}/root")
        shutil.copytree(source, root / "tmp/source")
        said, status = machine.say("bash", "-s", given=SETUP)
        checks.check("what is typed", status == 0, said)
        labels(checks, machine, root)
        confined(checks, machine)
        removes(checks, machine, root)
        scrubbed(checks, machine, root)
        outlasts(checks, machine, root)
        private(checks, machine, root)


def volumes(root):
    return sorted(one.name for one in (root / "var/lib/sdd").iterdir() if "~" not in one.name)


def figure(root, name):
    text = (root / FIGURES[1:]).read_text() if (root / FIGURES[1:]).exists() else ""
    return next((float(line.split()[-1]) for line in text.splitlines() if line.startswith(f"sdd_keeper_{name}")), None)


def log(root, unit="sdd-keeper"):
    return (root / f"var/log/{unit}.log").read_text()


def labels(checks, machine, root):
    """Volumes are labelled, as the daemon's user, and others may read the figures, and no more."""
    checks.check("two are labelled", until(lambda: volumes(root) == ["Default-00001", "Default-00002"], LONG), volumes(root), log(root))
    checks.check("figures", until(lambda: figure(root, "ready_volumes") == 2, LONG), log(root))
    said, _ = machine.say("stat", "-c", "%n %U %a", "/var/lib/sdd/Default-00001", "/var/lib/sdd-keeper", FIGURES,
                          "/var/lib/sdd-keeper/keeper.sqlite")
    checks.same("whose they are", said.splitlines(), ["/var/lib/sdd/Default-00001 sdd 600", "/var/lib/sdd-keeper sdd 755",
                                                      f"{FIGURES} sdd 644", "/var/lib/sdd-keeper/keeper.sqlite sdd 600"])


def main_process(machine, unit):
    return machine.say("systemctl", "show", "-P", "MainPID", unit)[0]


def confined(checks, machine):
    """It has no privileges, and can write nothing but volumes and its own."""
    process = main_process(machine, "sdd-keeper")
    status, _ = machine.say("cat", f"/proc/{process}/status")
    found = dict(line.split(":\t", 1) for line in status.splitlines() if ":\t" in line)
    checks.same("privileges", (int(found["CapEff"], 16), int(found["CapBnd"], 16), found["NoNewPrivs"], found["Seccomp"]),
                (0, 0, "1", "2"))
    mounts, _ = machine.say("cat", f"/proc/{process}/mountinfo")
    ways = {line.split()[4]: line.split()[5].split(",")[0] for line in mounts.splitlines()}
    checks.same("what it may write", (ways["/"], ways["/var/lib/sdd"], ways["/var/lib/sdd-keeper"]), ("ro", "rw", "rw"))


def backup(machine):
    return machine.say("/usr/local/bin/sdd-client", "--port", "9103", "backup", "www", "/srv/file")


def removes(checks, machine, root):
    """Jobs go on, and what no kept one needs is given back."""
    for number in range(7):
        said, status = backup(machine)
        checks.check(f"job {number}", status == 0, said)
    checks.check("the first one goes", until(lambda: "Default-00001" not in volumes(root), LONG), volumes(root), log(root))
    checks.check("it is told", until(lambda: "sdd-keeper: Default-00001 is given back" in log(root), LONG), log(root))
    checks.check("and counted", until(lambda: (figure(root, "given_back_volumes_total") or 0) >= 1, LONG), log(root))
    checks.check("no kept job lacks anything", "not whole" not in log(root), log(root))
    said, status = machine.say("/usr/local/bin/sdd-client", "--port", "9103", "restore", "www", "--to", "/srv/back")
    checks.check("the last one restores", status == 0, said)
    checks.same("as it was", machine.say("cmp", "/srv/file", "/srv/back/srv/file"), ("", 0))


def scrubbed(checks, machine, root):
    """The timer starts the scrub; one that finds damage fails as a unit, and says which job it hits."""
    checks.same("the timer", machine.say("systemctl", "enable", "--now", "sdd-keeper-scrub.timer")[1], 0)
    checks.same("it has run, and found nothing", until(lambda: ended(machine), LONG), ("success", "0"))
    checks.same("it told nothing", log(root, "sdd-keeper-scrub"), "")
    machine.say("systemctl", "stop", "sdd-keeper-scrub.timer")
    # Nothing gives it back or reads it until it is damaged and due; from then on rounds go on beside the scrub.
    machine.say("systemctl", "stop", "sdd-keeper")
    full = needed(checks, machine)
    turn(root / "var/lib/sdd" / full, 1_000_000)
    time.sleep(DUE)
    machine.say("systemctl", "start", "sdd-keeper")
    checks.check("damage fails it", machine.say("systemctl", "start", "sdd-keeper-scrub")[1] != 0, log(root))
    checks.same("with its status", ended(machine), ("exit-code", "1"))
    told = log(root, "sdd-keeper-scrub")
    checks.check("it names the volume and the job", f"{full} is damaged (damage {full} " in told and "/www of " in told
                 and " is hit" in told, told)
    checks.check("its figure", until(lambda: figure(root, "damaged_volumes") == 1, LONG), log(root))
    checks.same("nothing is left of the reading", (root / "var/lib/sdd/.verify~").exists(), False)
    turn(root / "var/lib/sdd" / full, 1_000_000)
    time.sleep(DUE)
    checks.same("once it is well again", (machine.say("systemctl", "start", "sdd-keeper-scrub"), ended(machine)),
                (("", 0), ("success", "0")))
    checks.check("so says the figure", until(lambda: figure(root, "damaged_volumes") == 0, LONG), log(root))


def needed(checks, machine):
    """A full volume that a kept job needs. No job comes any more, so it stays."""
    said, status = machine.say(*AS_KEEPER, "/usr/local/bin/sdd-keeper", "--dry-run", "/usr/local/etc/keeper.toml")
    names = [line.partition(" stays: ")[0] for line in said.splitlines() if line.endswith(" needs it (last)")]
    checks.check("a kept job needs a full volume", status == 0 and names, said)
    return names[-1]


def ended(machine):
    """How the last scrub ended, with its status; nothing if none did."""
    said, _ = machine.say("systemctl", "show", "-p", "Result,ExecMainStatus,ExecMainExitTimestampMonotonic", "sdd-keeper-scrub")
    found = dict(line.split("=", 1) for line in said.splitlines())
    return (found["Result"], found["ExecMainStatus"]) if found.get("ExecMainExitTimestampMonotonic", "0") != "0" else None


def outlasts(checks, machine, root):
    """The daemon's restart holds up a round or two; a keeper that is killed is started again."""
    before, already = main_process(machine, "sdd-keeper"), len(log(root))
    checks.same("the daemon is stopped", machine.say("systemctl", "stop", "sdd")[1], 0)
    checks.check("it is told", until(lambda: "no daemon listens" in log(root)[already:], LONG), log(root))
    checks.same("the daemon is started", machine.say("systemctl", "start", "sdd")[1], 0)
    checks.check("rounds go on", goes_on(root), log(root))
    checks.same("by the same keeper", main_process(machine, "sdd-keeper"), before)
    machine.say("systemctl", "kill", "--signal=KILL", "sdd-keeper")
    checks.check("another one", until(lambda: main_process(machine, "sdd-keeper") not in (before, "0", ""), LONG), log(root))
    checks.check("goes on", goes_on(root), log(root))


def goes_on(root):
    """Whether a round is done from now on."""
    before = figure(root, "round_seconds")
    return until(lambda: (figure(root, "round_seconds") or 0) > before, LONG)


def private(checks, machine, root):
    """With the daemon in a network of its own the keeper and its scrub reach it by that drop-in too."""
    said, status = machine.say("bash", "-s", given=PRIVATE)
    checks.check("the drop-ins", status == 0, said)
    said, _ = machine.client("", "--port", "9103", "console", "status")
    checks.check("nobody else reaches it", "no daemon listens" in said, said)
    checks.check("the keeper does", goes_on(root), log(root))
    checks.same("so does the scrub", (machine.say("systemctl", "start", "sdd-keeper-scrub"), ended(machine)),
                (("", 0), ("success", "0")))
