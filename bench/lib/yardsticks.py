"""What the system itself takes: for the bytes of a job, and for one sync of a folder."""
import itertools
import os
import pathlib
import shlex
import statistics
import subprocess
import time

from jobs import BATCH, LONGEST, Clients, batch, talking
from measures import Took

HERE = pathlib.Path(__file__).resolve().parent
BLOCK, SYNCS = 64_512, 20


class NoCompiler(Exception):
    """There is none, or it fails."""


def compiled(name, folder, *options):
    """Makes a program, or a library, of a C file here. CC names the compiler, cc if it isn't set."""
    made = folder / name
    command = [*shlex.split(os.environ.get("CC", "cc")), "-O2", "-Wall", "-Werror", *options]
    try:
        subprocess.run([*command, "-o", made, HERE / f"{name}.c"], check=True, timeout=120)
    except (OSError, subprocess.SubprocessError) as why:
        raise NoCompiler(f"{name}.c is not compiled: {why}") from why
    return made


def receive(program, folder, total, size):
    """A C program that receives the packets of so many bytes of records, writes them to a file and syncs it."""
    with subprocess.Popen([program, folder / "received"], stdout=subprocess.PIPE, text=True) as process:
        try:
            port = int(process.stdout.readline())
            with Clients([lambda begin: send(port, total, size)]) as clients:
                used = clients.result(0)
                seconds, processor, _ = map(float, process.communicate(timeout=LONGEST)[0].split())
        finally:
            process.kill()
    (folder / "received").unlink()
    return Took(total, seconds, processor, used, 0)


def send(port, total, size):
    """Sends so many bytes of records as a job has them, and nothing else. Gives what that used."""
    used, many = time.process_time(), batch(size)
    with talking(port) as talk:
        for one in itertools.repeat(many, total // BATCH):
            talk.send(one)
    return time.process_time() - used


def copy(folder, total):
    """cp and a sync of as many bytes."""
    source, target = folder / "source", folder / "target"
    with source.open("wb") as file:
        for _ in range(total // BATCH):
            file.write(b"x" * BATCH)
        os.fsync(file.fileno())
    before, start = os.times(), time.perf_counter()
    subprocess.run(["cp", source, target], check=True, timeout=LONGEST)
    subprocess.run(["sync", target], check=True, timeout=LONGEST)
    seconds, after = time.perf_counter() - start, os.times()
    used = after.children_user - before.children_user + after.children_system - before.children_system
    source.unlink()
    target.unlink()
    return Took(total, seconds, used, 0, 0)


def sync_seconds(folder):
    """What one sync takes of a file to which a block was added, if nothing else goes on: the median."""
    took = []
    with (folder / "synced").open("wb", buffering=0) as file:
        for _ in range(SYNCS):
            file.write(bytes(BLOCK))
            start = time.perf_counter()
            os.fdatasync(file.fileno())
            took.append(time.perf_counter() - start)
    (folder / "synced").unlink()
    return statistics.median(took)
