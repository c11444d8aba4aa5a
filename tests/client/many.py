"""Many files: the memory of a job and of its restore doesn't grow with them, nor do the replies that a job waits for. In place
of tar there is a program that prints members, or takes what it is given."""
import os
import subprocess
import sys

import standin
from daemon import CLIENT, WAIT
from sdd_client.tarrun import ARCHIVE

NAME = b"f0000000"
# In MB: how much more a process may take with ten times the files, and how much at most.
GROWS, MOST = 12, 64
TAR = """#!{python}
import sys
if "--extract" in sys.argv:
    while sys.stdin.buffer.read(1 << 20):
        pass
    sys.exit()
with open({member!r}, "rb") as file:
    member = file.read()
for first in range(0, {count}, 100):
    numbers = range(first, first + 100)
    sys.stdout.buffer.write(b"".join(member.replace({name!r}, b"f%07d" % number) for number in numbers))
sys.stdout.buffer.write(bytes(1024))
"""
# Prints what a command says, its status, and the MB of memory that it or a process of its own took at most.
MEASURED = """import resource, subprocess, sys
run = subprocess.run(sys.argv[1:], stdout=subprocess.PIPE, stderr=subprocess.STDOUT, text=True)
print(run.stdout[-1000:], run.returncode, resource.getrusage(resource.RUSAGE_CHILDREN).ru_maxrss / 1024)
"""


def tar_of(site, count):
    """An environment in which tar finds so many empty files."""
    place = site.folder / f"tar of {count}"
    place.mkdir()
    (place / os.fsdecode(NAME)).touch()
    words = ["tar", "--create", *ARCHIVE, "--blocking-factor=1", "-C", str(place), os.fsdecode(NAME)]
    data = subprocess.run(words, stdout=subprocess.PIPE, check=True).stdout
    (place / "member").write_bytes(data[:-1024])
    (place / "tar").write_text(TAR.format(python=sys.executable, member=str(place / "member"), name=NAME, count=count))
    (place / "tar").chmod(0o755)
    return {**site.env, "PATH": f"{place}:{site.env['PATH']}"}


def measured(checks, env, port, *words):
    """The MB of memory of a client that comes to a good end."""
    command = [sys.executable, "-c", MEASURED, CLIENT, "--port", port, *words]
    run = subprocess.run(list(map(str, command)), stdout=subprocess.PIPE, text=True, env=env, timeout=20 * WAIT)
    *said, status, size = run.stdout.split()
    checks.check(f"{words[0]}: status", status == "0", " ".join(said))
    return float(size)


def memory(checks, site):
    """Ten times the files take no more memory, at backup and at restore."""
    found = {}
    for count in (10_000, 100_000):
        env = tar_of(site, count)
        with standin.StandIn(keeps=count < 50_000) as daemon:
            found["backup", count] = measured(checks, env, daemon.port, "backup", f"j{count}", site.folder)
    for count in (3000, 30_000):
        env = tar_of(site, count)
        with standin.StandIn() as daemon:
            measured(checks, env, daemon.port, "backup", f"j{count}", site.folder)
            out = site.folder / f"out {count}"
            found["restore", count] = measured(checks, env, daemon.port, "restore", f"j{count}", "--to", out)
    print("MB of memory:", *(f"{task} of {count} files {size:.0f}," for (task, count), size in found.items()))
    for task, few, many in (("backup", 10_000, 100_000), ("restore", 3000, 30_000)):
        sizes = found[task, few], found[task, many]
        checks.check(f"{task}: grows", sizes[1] <= sizes[0] + GROWS, sizes)
        checks.check(f"{task}: at most", sizes[1] <= MOST, sizes)


def replies(checks, site):
    """A job waits for as many replies whether it has a hundred files or ten thousand, and for few."""
    said = []
    for count in (100, 10_000):
        env = tar_of(site, count)
        with standin.StandIn(keeps=False) as daemon:
            measured(checks, env, daemon.port, "backup", f"r{count}", site.folder)
            said.append(daemon.replies)
    checks.check("as many", said[0] == said[1], said)
    # With 5 ms more for each it is less than 2 seconds by far.
    checks.check("few", said[1] <= 20, said)
    print(f"replies to a job: {said[1]}")


GROUPS = dict.fromkeys([memory, replies], "")
