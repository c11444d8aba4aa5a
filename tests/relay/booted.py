"""The units of examples/ as systemd runs them: it is the first process of namespaces of its own, over this machine's files,
of which nothing is changed but in memory."""
import contextlib
import os
import pathlib
import shutil
import subprocess

from daemon import SDD, SDTOOL, WAIT, until
from namespaces import DIES_WITH_US
from units import sources

SYSTEMD = pathlib.Path("/lib/systemd/systemd")
KINDS = ("mount", "pid", "cgroup", "net", "uts", "ipc")
# A boot takes seconds, and longer beside other work.
BOOT_WAIT = 180
# What a first process finds: the files below a layer in memory, and of the machine itself only what it may not change.
BOOT = """
set -e
mount --make-rprivate /
mount -t tmpfs none $1
mkdir $1/up $1/work $1/root
mount -t overlay overlay -o lowerdir=/,upperdir=$1/up,workdir=$1/work $1/root
cd $1/root
rm -rf etc/systemd/system/*.wants
mount -t proc proc proc
mount --bind proc/sys proc/sys
mount -o remount,bind,ro proc/sys
mount -t sysfs -o ro sysfs sys
if [ -e /sys/fs/cgroup/cgroup.controllers ]; then
  mount -t cgroup2 cgroup sys/fs/cgroup
else
  mount -t tmpfs -o mode=755 none sys/fs/cgroup
  mkdir sys/fs/cgroup/systemd
  mount -t cgroup -o none,name=systemd cgroup sys/fs/cgroup/systemd
fi
mount -t tmpfs -o mode=755 none run
mount -t tmpfs -o mode=1777 none tmp
mount -t tmpfs -o mode=755 none dev
mkdir dev/shm dev/pts dev/mqueue
for device in null zero full random urandom tty; do
  mknod -m 666 dev/$device c $(stat -c '0x%t 0x%T' /dev/$device)
done
mount -t devpts -o ptmxmode=666 devpts dev/pts
ln -s pts/ptmx dev/ptmx
ln -s /proc/self/fd dev/fd
ip link set lo up
exec chroot . /usr/bin/env -i container=test PATH="$PATH" /lib/systemd/systemd --system --unit=basic.target --log-target=null
"""
# What an administrator types, by examples/remote/README.md.
SETUP = """
set -e
cd /tmp/source
./install /usr/local >/dev/null
useradd --system --home-dir /var/lib/sdd --shell /usr/sbin/nologin sdd
groupadd --system sdd-clients
mkdir -p /etc/systemd/system/sdd.service.d
cp /usr/local/share/sdd/examples/sdd-private.conf /etc/systemd/system/sdd.service.d/private.conf
systemctl daemon-reload
systemctl start sdd
systemctl enable --now sdd-clients.socket
useradd --groups sdd-clients member
useradd other
"""


class Machine:
    """A machine that is booted. `problem` says what it isn't there for."""

    def __init__(self, folder):
        self.problem = ""
        if os.geteuid() or not SYSTEMD.exists() or not shutil.which("unshare"):
            self.problem = "root, systemd and unshare"
            return
        words = ["unshare", *(f"--{kind}" for kind in KINDS), "--fork", "--kill-child", "bash", "-c", BOOT, "boot", folder]
        self.log = folder.parent / "boot.log"
        with open(self.log, "wb") as log:
            self.process = subprocess.Popen([*DIES_WITH_US, *words], stdin=subprocess.DEVNULL, stdout=log, stderr=log)
        if not until(self.is_up, BOOT_WAIT):
            self.problem = f"a systemd that comes up here within {BOOT_WAIT} seconds: {self.log.read_text()[-300:]!r}"
        elif self.process.poll() is not None:
            self.problem = f"namespaces and mounts to boot systemd in: {self.log.read_text()[-300:]!r}"

    def __enter__(self):
        return self

    def __exit__(self, *_):
        if hasattr(self, "process"):
            self.process.kill()
            self.process.wait()

    def is_up(self):
        return self.process.poll() is not None or self.say("systemctl", "is-active", "basic.target")[0] == "active"

    def first(self):
        """Its first process, as this machine numbers it."""
        return pathlib.Path(f"/proc/{self.process.pid}/task/{self.process.pid}/children").read_text().split()[0]

    def say(self, *words, given=None):
        """What a program prints there, and its status."""
        with contextlib.suppress(OSError, IndexError, subprocess.TimeoutExpired):
            command = ["nsenter", "-t", self.first(), *(f"--{kind}" for kind in KINDS), "--root", "--wd", *words]
            run = subprocess.run(command, input=given, capture_output=True, text=True, timeout=10 * WAIT)
            return (run.stdout + run.stderr).strip(), run.returncode
        return "", None

    def client(self, user, *words):
        """What the client prints to a user there."""
        as_user = ["setpriv", f"--reuid={user}", f"--regid={user}", "--init-groups"] if user else []
        return self.say(*as_user, "/usr/local/bin/sdd-client", *words)


def run(checks, folder):
    (folder / "layer").mkdir()
    with Machine(folder / "layer") as machine:
        if machine.problem:
            print(f"not run: the units under systemd, for want of {machine.problem}")
            return
        source = sources(folder)
        for program in (SDD, SDTOOL):
            if program.exists():
                shutil.copy(program, source / "bin")
        inside = pathlib.Path(f"/proc/{machine.first()}/root/tmp/source")
        shutil.copytree(source, inside)
        said, status = machine.say("bash", "-s", given=SETUP)
        checks.check("what is typed", status == 0, said, machine.say("systemctl", "status", "--no-pager", "sdd")[0])
        ways(checks, machine)
        restarts(checks, machine)


def ways(checks, machine):
    """Members of the group get in by the socket, and others by no way."""
    said, _ = machine.say("stat", "-c", "%U %G %a", "/run/sdd-clients", "/run/sdd-clients/socket")
    checks.same("the socket's folder and the socket", said.splitlines(), ["root root 755", "root sdd-clients 660"])
    for user in ("", "member"):
        said, status = machine.client(user, "console", "status")
        checks.check(f"{user or 'root'} gets in", status == 0 and "ok status" in said, said)
    said, status = machine.client("other", "console", "status")
    checks.check("another user doesn't", status == 3 and "its group may" in said, said)
    for user in ("", "other"):
        said, status = machine.client(user, "--port", "9103", "console", "status")
        checks.check(f"nor {user or 'root'} by the port", status == 3 and "no daemon listens" in said, said)


def restarts(checks, machine):
    """The socket outlasts the daemon, which adopts its volumes in its own network."""
    said, status = machine.client("member", "console", "label", "1", "Vol-0001", "Default", "File")
    checks.check("label", status == 0, said)
    checks.same("restart", machine.say("systemctl", "restart", "sdd"), ("", 0))
    said, _ = machine.client("member", "console", "status")
    checks.check("the volume is adopted", "volume Vol-0001 Default File append" in said, said)
    checks.same("the proxy", machine.say("systemctl", "is-active", "sdd-clients.service")[0], "active")
    checks.same("stop", machine.say("systemctl", "stop", "sdd-clients.socket", "sdd")[1], 0)
    said, status = machine.client("member", "console", "status")
    checks.check("nobody listens", status == 3, said)
