"""A clean Debian, and systemd booted on it."""
import functools
import os
import pathlib
import shutil
import subprocess

import booted
from package import Lacking

SUITE = "bookworm"
# What a server has that backs up: systemd, Python and what the package asks with.
INCLUDED = "systemd,systemd-sysv,dbus,python3,debconf"
# It takes minutes to make, of Debian's archive, and is taken again.
MOST = 600
CACHE = pathlib.Path(os.environ.get("SDD_DEBIAN", "/var/cache/pithoquze/debian"))


@functools.cache
def made():
    """Makes it, or gives why it can't be made. Tried once: it takes long."""
    try:
        return debian_in(CACHE), ""
    except Lacking as why:
        return None, str(why)


def debian():
    """The folder of a Debian that nothing was installed on. Raises Lacking if it can't be made."""
    place, why = made()
    if place is None:
        raise Lacking(why)
    return place


def debian_in(place):
    if os.geteuid() or not shutil.which("unshare"):
        raise Lacking("root and unshare")
    if place.exists():
        return place
    if not shutil.which("debootstrap", path=f"{os.environ['PATH']}:/usr/sbin"):
        raise Lacking("debootstrap (tools/packages)")
    part = place.with_name(f"{place.name}.part")
    shutil.rmtree(part, ignore_errors=True)
    part.parent.mkdir(parents=True, exist_ok=True)
    command = ["debootstrap", "--variant=minbase", f"--include={INCLUDED}", SUITE, part]
    try:
        run = subprocess.run(command, stdout=subprocess.PIPE, stderr=subprocess.STDOUT, text=True, timeout=MOST,
                             env={**os.environ, "PATH": f"{os.environ['PATH']}:/usr/sbin:/sbin"})
    except subprocess.TimeoutExpired as why:
        raise Lacking(f"a Debian by debootstrap within {MOST} seconds") from why
    if run.returncode:
        raise Lacking(f"a Debian by debootstrap: {run.stdout[-300:]!r}")
    part.rename(place)
    return place


class Machine(booted.Machine):
    """A Debian that is booted, over a layer in memory."""

    boot = booted.BOOT.replace("lowerdir=/,", f"lowerdir={CACHE},")

    def __init__(self, folder):
        before, booted.BOOT = booted.BOOT, self.boot
        try:
            super().__init__(folder)
        finally:
            booted.BOOT = before

    def must(self, checks, text, given=None):
        """What a line of the shell prints, which must come to its end."""
        said, status = self.say("bash", "-c", text, given=given)
        checks.check(text, status == 0, said)
        return said
