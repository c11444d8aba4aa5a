#!/usr/bin/env python3
"""What the daemon keeps in memory of the blocks that it placed: 12 bytes of each, whatever the files are. Clients at once have
jobs of drawn files on two drives, in blocks of the least size; the daemon's memory is read while nothing goes on, after a third of
the blocks and after all of them. And what it keeps of sessions: of those that were cancelled before a block of theirs was placed,
for each of which it has made room, and of those that were closed. tests/serve/run runs it, by itself it takes another number of
blocks:

    tests/serve/placed.py --blocks 10000000
"""
import argparse
import concurrent.futures
import contextlib
import pathlib
import random
import sys
import tempfile

if __name__ == "__main__":
    sys.dont_write_bytecode = True
    sys.path.insert(0, str(pathlib.Path(__file__).resolve().parent.parent / "lib"))
from checks import Checks
from clients import client
from daemon import drive
from serving import Serving, tell

BLOCKS, LEAST_BLOCK = 300_000, 1024
# Of each block a cell, and what the daemon takes besides for sessions, threads and the heap's own.
CELL, BESIDES = 12, 2_000_000
CLIENTS, JOBS, MEDIA = 4, 4, ("File", "Other")
# A file has so many records at the most. A record is an empty one, a few bytes, a part of a block, or many blocks.
RECORDS, SIZES = 6, ((0, 0), (1, 40), (200, 1500), (20_000, 400_000))
DATA = bytes(SIZES[-1][1])
# So many sessions are cancelled, and then so many more, of which each adds so many bytes at the most, with those that it only sets
# aside. Of closed ones with a block that is in use, besides what lists that grow take at once.
CANCELLED, MORE, EACH = 4500, 1500, 4000
CLOSED, MORE_CLOSED, EACH_CLOSED, AT_ONCE = 1000, 4000, 300, 200_000


def file(numbers):
    """The records of a file as packets, and how many bytes they are."""
    sizes = [numbers.randint(*numbers.choice(SIZES)) for _ in range(numbers.randint(1, RECORDS))]
    return [client.packet(DATA[:size]) for size in sizes], sum(sizes)


def append(port, media, seed, total):
    """Jobs of so many bytes together, each of files with an index of its own."""
    numbers = random.Random(seed)
    with client.Talk(port, timeout=600) as talk:
        for _ in range(JOBS):
            ticket, left, index = client.open_session(talk, 1, "Default", media), total // JOBS, 1
            while left > 0:
                packets, size = file(numbers)
                client.append_packets(talk, ticket, packets, index)
                left, index = left - size, index + 1
            client.close_session(talk, ticket)
        talk.terminate()


def ends(port):
    """Where the volumes end, together."""
    return sum(int(line.split()[-1]) for line in tell(port, "status") if line.startswith("volume "))


def place(port, seed, blocks):
    """Has all clients place so many blocks together, about."""
    with concurrent.futures.ThreadPoolExecutor(CLIENTS) as pool:
        jobs = [pool.submit(append, port, MEDIA[number % 2], f"{seed} {number}", blocks * LEAST_BLOCK // CLIENTS)
                for number in range(CLIENTS)]
        for job in jobs:
            job.result()


def placed(checks, folder, _, blocks=BLOCKS):
    """Each block placed adds its cell to the daemon's memory, and no more."""
    folders = [folder / f"placed-{number}" for number in (1, 2)]
    for one in folders:
        one.mkdir()
    text = f"block = {LEAST_BLOCK}\n" + "".join(drive(media, one) for media, one in zip(MEDIA, folders))
    with Serving(folder / "placed.conf", text) as daemon:
        labels = [f"label {number} Vol-000{number} Default {media}" for number, media in enumerate(MEDIA, 1)]
        checks.same("labels", tell(daemon.port, *labels), ["ok labelled"] * 2)
        place(daemon.port, "first", blocks // 3)
        few, before = ends(daemon.port) // LEAST_BLOCK, daemon.memory("VmRSS")
        place(daemon.port, "rest", blocks - blocks // 3)
        # (no block is longer, so there are at least so many)
        more, added = ends(daemon.port) // LEAST_BLOCK - few, daemon.memory("VmRSS") - before
        checks.check("blocks", few + more >= blocks * 9 // 10, f"{few} and {more}")
        checks.check("memory of a block", added <= CELL * more + BESIDES, f"{added} bytes for {more} blocks")
        return more, added


def cancel(talk, sessions):
    """Opens so many sessions, one after another, and cancels each before it has a record."""
    for _ in range(sessions):
        ticket = client.open_session(talk, 1, "Default", "File")
        talk.console(f"cancel {ticket}")
        # (only a command of the session tells the talk that it is over)
        with contextlib.suppress(client.Refused):
            talk.ask(f"append end session {ticket}")


def cancelled(checks, folder, _):
    """Each session that is cancelled adds little to the memory that the daemon sets aside, however many there are."""
    place = folder / "cancelled"
    place.mkdir()
    with Serving(folder / "cancelled.conf", drive("File", place)) as daemon:
        checks.same("label", tell(daemon.port, "label 1 Vol-0001 Default File"), ["ok labelled"])
        with client.Talk(daemon.port, timeout=600) as talk:
            cancel(talk, CANCELLED)
            before = daemon.memory("VmData")
            cancel(talk, MORE)
            added = daemon.memory("VmData") - before
            talk.terminate()
        checks.check("memory of a cancelled session", added <= EACH * MORE, f"{added} bytes for {MORE} sessions")


def close(talk, count):
    """So many sessions of one small record are closed."""
    packets = [client.packet(b"small")]
    for _ in range(count):
        ticket = client.open_session(talk, 1, "Default", "File")
        client.append_packets(talk, ticket, packets)
        client.close_session(talk, ticket)


def closed(checks, folder, _):
    """Each session that is closed keeps little: its line at the desk, and the block's cell."""
    place = folder / "closed"
    place.mkdir()
    with Serving(folder / "closed.conf", drive("File", place)) as daemon:
        checks.same("label", tell(daemon.port, "label 1 Vol-0001 Default File"), ["ok labelled"])
        with client.Talk(daemon.port, timeout=600) as talk:
            close(talk, CLOSED)
            before = daemon.memory("VmRSS")
            close(talk, MORE_CLOSED)
            added = daemon.memory("VmRSS") - before
            talk.terminate()
        checks.check("memory of a closed session", added <= EACH_CLOSED * MORE_CLOSED + AT_ONCE, f"{added} bytes for {MORE_CLOSED} sessions")


GROUPS = (placed, cancelled, closed)


def main():
    words = argparse.ArgumentParser(description=__doc__, formatter_class=argparse.RawDescriptionHelpFormatter)
    words.add_argument("--blocks", type=int, default=BLOCKS)
    words.add_argument("--folder", type=pathlib.Path, help="where the volumes lie, else among the temporary files")
    given = words.parse_args()
    checks = Checks()
    checks.group = "placed"
    with tempfile.TemporaryDirectory(dir=given.folder) as folder:
        more, added = placed(checks, pathlib.Path(folder), None, given.blocks)
    print(f"{added:,} bytes more for {more:,} blocks: {added / more:.2f} each")
    return checks.ended()


if __name__ == "__main__":
    sys.exit(main())
