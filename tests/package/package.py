"""The package, as tools/deb makes it of the programs under test."""
import os
import pathlib
import shutil
import subprocess

from daemon import ROOT, SDD, SDTOOL

NEEDED = {"dh": "debhelper", "dpkg-buildpackage": "dpkg-dev", "po2debconf": "po-debconf"}


class Lacking(Exception):
    """A package of Debian's that isn't there."""


def package(folder, *words):
    """Makes the package in a folder, with these words for tools/deb besides, and gives its path."""
    if lacking := [of for program, of in NEEDED.items() if not shutil.which(program)]:
        raise Lacking(f"{', '.join(lacking)} (tools/packages)")
    programs = folder / "programs"
    programs.mkdir(parents=True)
    for program in (SDD, SDTOOL):
        shutil.copy(program, programs)
    run = subprocess.run([ROOT / "tools" / "deb", "--programs", programs, "--to", folder, *words], capture_output=True, text=True,
                         timeout=1800)
    if run.returncode:
        raise AssertionError(f"tools/deb: {run.stdout[-2000:]} {run.stderr[-2000:]}")
    return pathlib.Path(run.stdout.strip())


def field(deb, name):
    return subprocess.run(["dpkg-deb", "--field", deb, name], capture_output=True, text=True, check=True).stdout.strip()


def later(folder):
    """The package of the same programs with a later version."""
    return package(folder, "--mark", "later")


def older():
    """An older package, if one is handed in by the environment."""
    path = os.environ.get("SDD_OLDER_DEB")
    return pathlib.Path(path) if path else None
