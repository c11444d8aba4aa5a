"""How long starts take and how much they read: over two hundred full volumes with notes, and after a kill in a long job. Without the
notes all of it is read, which the same measure tells."""
from __future__ import annotations

import pathlib
import random
import shutil
import time
import typing

from blocks import note_in
from checks import Checks
from clients import client
from daemon import Daemon, later_second
from site_of import Site, settles
from volumes import MOST_BLOCK, MOST_VOLUME, block, daemon_label, note, start

SEED, VOLUMES, ROOM = 91, 200, "With-room"
# What a user may wait for, in seconds; and what a start may read after a kill, in bytes.
MOST_SECONDS, MOST_READ = 5, 1_000_000_000
# A job that is killed has so many bytes: more than may be above a note, with what is written until the next look.
JOB, RECORD = 700_000_000, 4_000_000


def full_volume(path: pathlib.Path, media: str, draw: random.Random):
    """A volume of the greatest length with its note: a label, some blocks, a hole, and some blocks at the end."""
    moment = draw.randrange(2**50)
    label = daemon_label(path.name.encode(), media=media.encode(), moment=moment)
    head = b"".join(block((1000, 1), number, start(7) + draw.randbytes(draw.randrange(3000))) for number in range(1, 4))
    number = draw.randrange(10**6, 10**7)
    last = start(7) + draw.randbytes(draw.randrange(60_000))
    tail = b"".join(block((1700, 2), number - 2 + at, draw.randbytes(draw.randrange(12, 60_000))) for at in range(2)) + block((1700, 2), number, last)
    with open(path, "wb") as file:
        file.write(label + head)
        file.seek(MOST_VOLUME - len(tail))
        file.write(tail)
    path.with_name(f"{path.name}~").write_bytes(note(moment, MOST_VOLUME, MOST_VOLUME - len(last) - 24, number + 1, 1700))


def read_by(daemon: Daemon) -> int:
    """How many bytes it has read so far, from files and connections."""
    lines = pathlib.Path(f"/proc/{daemon.process.pid}/io").read_text().splitlines()
    return int(dict(line.split(": ") for line in lines)["rchar"])


def many(checks: Checks, folder: pathlib.Path, _: pathlib.Path):
    """Two hundred full volumes on two drives, and one with room: the first job is accepted at once, and goes there."""
    site, draw = Site(folder / "many", [("File", "d1"), ("Tape", "d2")]), random.Random(SEED)
    places = [pathlib.Path(place) for _, place in site.drives]
    for number in range(VOLUMES):
        media, place = site.drives[number % 2]
        full_volume(pathlib.Path(place, f"Vol-{number}"), media, draw)
    (places[0] / ROOM).write_bytes(daemon_label(ROOM.encode(), moment=7))
    before = {path: (path.stat().st_size, path.stat().st_mtime_ns) for place in places for path in place.glob("Vol-*[0-9]")}
    later_second()
    begun = time.monotonic()
    with Daemon(site.conf, "--adopt", port=site.port) as daemon, site.talk() as talk:
        ticket = client.open_session(talk, 7, "Default", "File")
        client.append_packets(talk, ticket, [client.packet(b"hello")])
        took, read = time.monotonic() - begun, read_by(daemon)
        lines = client.close_session(talk, ticket)
        talk.terminate()
        adopted = [line for line in daemon.log() if " is adopted up to " in line]
        checks.same("adopted", len(adopted), VOLUMES + 1)
        checks.same("by their notes", sum(line.endswith(f"cut 0 bytes, read from {MOST_VOLUME} on") for line in adopted), VOLUMES)
        checks.check("the first job is accepted in time", took < MOST_SECONDS, took)
        checks.same("its volume", [line.split()[1] for line in lines[1:]], [ROOM])
        status = site.ask("status")[0]
        checks.same("full ones", sum(line.endswith(f" full {MOST_VOLUME}") for line in status), VOLUMES)
    checks.same("none is touched", {path: (path.stat().st_size, path.stat().st_mtime_ns) for path in before}, before)
    checks.check("how much is read", read < (VOLUMES + 1) * 5 * MOST_BLOCK, read)
    print(f"many: {VOLUMES} full volumes of 64 GB: the first job was accepted after {took:.2f} seconds, {read / 1e6:.0f} MB were read")


def sent(site: Site, size: int) -> typing.Iterator[None]:
    """Sends records of so many bytes in all, and doesn't close."""
    with site.talk() as talk:
        ticket = client.open_session(talk, 7, "Default", "File")
        data = client.packet(random.Random(SEED).randbytes(RECORD))
        client.append_packets(talk, ticket, (data for _ in range(size // RECORD)))
        yield


def killed(checks: Checks, folder: pathlib.Path, _: pathlib.Path):
    """After a kill -9 in a long job the start reads what came behind the note, and no more; without its note, all."""
    memory = pathlib.Path("/dev/shm")
    place = memory if memory.is_dir() and shutil.disk_usage(memory).free > 3 * JOB else folder
    room = place / f"starts-{folder.name}"
    site = Site(room, settings="block = 1048576\nvolume = 4000000000\n")
    try:
        with site.daemon() as daemon:
            site.ask("label 1 Vol-1 Default File")
            closed = site.job([b"closed"])
            path, beside = site.place / "Vol-1", site.place / "Vol-1~"
            going = sent(site, JOB)
            next(going)
            # (a fast machine sends it all between two looks of the notes' thread; the session goes on meanwhile)
            settles(lambda: note_in(beside.read_bytes()).end > 2**28)
            daemon.kill()
        content = beside.read_bytes()
        noted, size = note_in(content), path.stat().st_size
        checks.check("its note lags", size - noted.end < 512 * 2**20 + 2**28, noted, size)
        checks.check("its note grew in the job", noted.end > 2**28, noted)
        reads = {}
        for what, kept in (("with", True), ("without", False)):
            if not kept:
                beside.unlink()
            with site.daemon() as daemon:
                site.ask("status")
                reads[what] = read_by(daemon)
                checks.same(f"{what} its note: what was closed", site.read(closed), ([(1, 2, b"closed")], ""))
            checks.same(f"{what} its note: nothing of it is cut but what isn't whole", size - path.stat().st_size < MOST_BLOCK, True)
        checks.check("how much is read", reads["with"] < MOST_READ, reads)
        checks.check("without a note all is read", reads["without"] > path.stat().st_size, reads)
        checks.check("with one less is", reads["with"] < reads["without"] - noted.end, reads, noted)
        print(f"killed: in a job of {JOB / 1e6:.0f} MB, noted up to {noted.end / 1e6:.0f}: the start read {reads['with'] / 1e6:.0f} MB, "
              f"and {reads['without'] / 1e6:.0f} without the note")
    finally:
        shutil.rmtree(room, ignore_errors=True)


GROUPS = (many, killed)
