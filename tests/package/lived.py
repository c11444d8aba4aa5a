"""A package's life on a clean Debian under systemd: install, first backup, timer, an upgrade during a job, remove, install
again, purge."""
import pathlib
import re
import shutil
import threading
import time

from daemon import ROOT, until
from debian import Machine, debian
from package import Lacking, field, later

LONG = 300
ENABLED = "systemctl is-enabled sdd sdd-keeper sdd-keeper-scrub.timer sdd-clients.socket"
# A drop-in for the timer of a job, and the file of jobs.
SOON = "[Timer]\nOnActiveSec=1s\nRandomizedDelaySec=0\nAccuracySec=1s\n"
JOBS = '[job.www]\npaths = ["/srv/www"]\nschedule = "daily"\nkeep = { daily = 7 }\n'
# It sends a record now and then until the daemon is to stop, and then goes on for a while.
SENDS = """#!/bin/bash
until [ -e /run/sdd/stop ]; do head -c 9000 /dev/urandom; sleep 0.3; done | tee /root/sent
for n in 1 2 3 4 5; do head -c 70000 /dev/urandom; sleep 1; done | tee -a /root/sent
"""
SLOW = "sdd-client append --command /root/sends /root/spans; echo status $?; date +%s.%N"
# A job that waits for the daemon's end before it begins: what then reaches no daemon tries again for minutes.
WAITS = 'before = "touch /root/waits; while systemctl is-active --quiet sdd; do sleep 0.2; done"\n'
NUMBER = re.compile(r"\d+(?:\.\d+)?(?: (?:bytes|[KMG]B))?")
QUIET = "DEBIAN_FRONTEND=noninteractive"


def run(checks, folder, deb):
    try:
        debian()
    except Lacking as why:
        print(f"not run: the package's life on a Debian, for want of {why}")
        return None
    (folder / "layer").mkdir()
    with Machine(folder / "layer") as machine:
        if machine.problem:
            print(f"not run: the package's life on a Debian, for want of {machine.problem}")
            return None
        root = pathlib.Path(f"/proc/{machine.first()}/root")
        shutil.copy(deb, root / "root")
        shutil.copy(later(folder / "later"), root / "root/later.deb")
        first_screen(checks, machine)
        installed(checks, machine)
        first_backup(checks, machine)
        timer(checks, machine, root)
        upgraded(checks, machine, root, field(deb, "Version"))
        removed(checks, machine, root)
        purged(checks, machine, root)
    return "systemd, booted in namespaces on a Debian of debootstrap"


def masked(text):
    return NUMBER.sub("N", text)


def first_screen(checks, machine):
    """README's first commands, which print what is shown, but for numbers."""
    page = (ROOT / "README.md").read_text()
    block = re.search(r"^```console\n(.*?)^```$", page, re.MULTILINE | re.DOTALL)[1]
    began = time.monotonic()
    for part in re.split(r"^\$ ", block, flags=re.MULTILINE)[1:]:
        command, _, wanted = part.partition("\n")
        said = machine.must(checks, f"cd /root && {command}")
        # What apt says isn't shown.
        if not command.startswith("apt "):
            checks.same(command, masked(said), masked(wanted.strip()))
    print(f"the first screen took {time.monotonic() - began:.0f} seconds")
    checks.check("in five minutes", time.monotonic() - began < 300)


def installed(checks, machine):
    """The daemon runs after the installation, and nothing else does."""
    checks.same("it runs", machine.say("systemctl", "is-active", "sdd")[0], "active")
    checks.same("what is enabled", machine.say("bash", "-c", ENABLED)[0].splitlines(), ["enabled", "disabled", "disabled", "disabled"])
    said = machine.must(checks, "getent passwd sdd; getent group sdd-clients; stat -c '%U %a' /var/lib/sdd")
    checks.check("its user, its clients' group, its folder", "/var/lib/sdd:/usr/sbin/nologin" in said and "sdd-clients:" in said
                 and said.endswith("sdd 700"), said)
    checks.same("systemd has no complaint", machine.say("systemctl", "--failed", "--no-legend", "--plain", "list-units", "sdd*")[0], "")


def first_backup(checks, machine):
    machine.must(checks, "mkdir -p /srv/www && head -c 300000 /dev/urandom > /srv/www/a && ln -s a /srv/www/b")
    machine.must(checks, "sdd-client backup www /srv/www")
    machine.must(checks, "sdd-client restore www --to /srv/www-back && diff -r /srv/www /srv/www-back/srv/www")


def runs(machine):
    return len(machine.say("sdd-client", "list", "www")[0].splitlines())


def timer(checks, machine, root):
    (root / "etc/sdd-client").mkdir(exist_ok=True)
    (root / "etc/sdd-client/jobs.toml").write_text(JOBS)
    place = root / "etc/systemd/system/sdd-backup@www.timer.d"
    place.mkdir(parents=True)
    (place / "soon.conf").write_text(SOON)
    before = runs(machine)
    machine.must(checks, "systemctl daemon-reload && systemctl enable --now sdd-backup@www.timer")
    checks.check("the timer's job is kept", until(lambda: runs(machine) > before, LONG), machine.say("sdd-client", "list")[0])
    machine.must(checks, "systemctl stop sdd-backup@www.timer")


def upgraded(checks, machine, root, version):
    """An upgrade waits for the job that runs, which is kept; what was kept before is there after it."""
    said = []
    (root / "root/sends").write_text(SENDS)
    (root / "root/sends").chmod(0o755)
    job = threading.Thread(target=lambda: said.append(machine.say("bash", "-c", SLOW)[0]))
    job.start()
    checks.check("a job runs", until(lambda: " active " in machine.say("sdd-client", "console", "status")[0], LONG))
    before = machine.say("systemctl", "show", "-P", "MainPID", "sdd")[0]
    machine.must(checks, f"{QUIET} dpkg -i /root/later.deb")
    ended = float(machine.must(checks, "date +%s.%N"))
    job.join(LONG)
    lines = said[0].splitlines() if said else []
    checks.check("the job is kept", "status 0" in lines, lines)
    checks.check("the upgrade waited for it", bool(lines) and float(lines[-1]) < ended, lines, ended)
    checks.check("another daemon runs", machine.say("systemctl", "show", "-P", "MainPID", "sdd")[0] not in (before, "0"))
    checks.same("of the later version", machine.say("dpkg-query", "--show", "--showformat=${Version}", "sdd")[0], f"{version}+later")
    machine.must(checks, "sdd-client read /root/spans - 2> /dev/null | cmp - /root/sent")
    checks.check("some after the stop began", (root / "root/sent").stat().st_size > 5 * 70_000)
    machine.must(checks, "sdd-client check www")


def removed(checks, machine, root):
    """A removal ends the daemon and a timer's job, and keeps volumes, catalogue and configuration; another installation finds
    them."""
    (root / "etc/sdd-client/jobs.toml").write_text(JOBS + WAITS)
    machine.must(checks, "systemctl start sdd-backup@www.timer && echo '# mine' >> /etc/sdd/sdd.conf")
    checks.check("a timer's job goes on", until(lambda: (root / "root/waits").exists(), LONG))
    machine.must(checks, f"{QUIET} dpkg -r sdd")
    checks.same("no daemon", machine.say("bash", "-c", "ls /proc/*/exe -l 2> /dev/null | grep -c bin/sdd")[0], "0")
    checks.same("no client", machine.say("bash", "-c", "ls /proc/*/cmdline | xargs cat 2> /dev/null | tr '\\0' '\\n' | grep -c 'bin/sdd-client$'")[0], "0")
    checks.same("no timer, no job", [machine.say("systemctl", "is-active", f"sdd-backup@www.{kind}")[0] in ("inactive", "failed")
                                     for kind in ("timer", "service")], [True, True])
    checks.same("no program, and nothing beside it",
                [str(one) for one in (root / "usr").rglob("*sdd*") if "sysusers" not in str(one)], [])
    there = ("var/lib/sdd/Vol-0001", "var/lib/sdd-client/catalogue", "etc/sdd/sdd.conf")
    checks.same("what stays", [place for place in there if not (root / place).exists()], [])
    (root / "etc/sdd-client/jobs.toml").write_text(JOBS)
    machine.must(checks, f"{QUIET} dpkg -i /root/later.deb")
    checks.check("its configuration", "# mine" in (root / "etc/sdd/sdd.conf").read_text())
    machine.must(checks, "rm -r /srv/back; sdd-client restore www --to /srv/back && diff -r /srv/www /srv/back/srv/www")


def purged(checks, machine, root):
    """A purge keeps the volumes unless it is told to delete them."""
    machine.must(checks, f"{QUIET} dpkg -P sdd")
    checks.same("volumes and catalogue stay", [(root / place).exists() for place in ("var/lib/sdd/Vol-0001", "var/lib/sdd-client/catalogue")],
                [True, True])
    checks.same("no configuration", (root / "etc/sdd").exists(), False)
    machine.must(checks, f"{QUIET} dpkg -i /root/later.deb")
    machine.must(checks, "sdd-client check www")
    machine.must(checks, "echo 'sdd sdd/purge_volumes boolean true' | debconf-set-selections")
    machine.must(checks, f"{QUIET} dpkg -P sdd")
    checks.same("once it is said they are deleted", [(root / "var/lib" / name).exists() for name in ("sdd", "sdd-client", "sdd-keeper")],
                [False, False, False])
