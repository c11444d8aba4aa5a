"""What a daemon keeps in memory: for talks with open sessions, and for blocks that it placed."""
import contextlib
import math

import jobs
from clients import client
from measures import resident
from runs import Figure

LANES, DRIVES = 32, 8
# What each of many talks sends before the memory is looked at.
RECORDS = [client.packet(b"x" * 65536) * 16]
# Blocks of the least size, of jobs of so many records of the greatest size each.
LEAST_BLOCK, LONGEST, JOB = 1024, 4_000_000, 2


def of_talks(bench, drives):
    """The greatest of a daemon all of whose lanes have a session: once they are open, and once each has its records."""
    with bench.serving(drives=drives, lanes=LANES) as daemon, contextlib.ExitStack() as stack:
        talks = []
        for number in range(drives * LANES):
            talk = stack.enter_context(jobs.talking(daemon.port))
            talks.append((talk, client.open_session(talk, 1, jobs.POOL, jobs.media_of(1 + number % drives))))
        opened = resident(daemon.process)
        for talk, ticket in talks:
            client.append_packets(talk, ticket, RECORDS)
        return opened, resident(daemon.process)


def of_a_block(bench):
    """Bytes that a placed block adds to the greatest memory. Both places at which that is taken are past a power of
    two, so that a list that doubles has done so just before; the second has eight times the blocks of the first."""
    each = math.ceil(JOB * LONGEST / LEAST_BLOCK)
    power = 2 ** int(math.log2(bench.total / LEAST_BLOCK / 1.05))
    few, many = (math.ceil(1.05 * blocks / each) for blocks in (power / 8, power))
    with bench.serving(f"block = {LEAST_BLOCK}\n") as daemon:
        jobs.place(daemon.port, few, JOB, LEAST_BLOCK, LONGEST)
        before = resident(daemon.process)
        blocks = jobs.place(daemon.port, max(1, many - few), JOB, LEAST_BLOCK, LONGEST)
        return (resident(daemon.process) - before) * 1024 ** 2 / blocks, blocks


def kept(bench):
    for drives, aim in ((DRIVES, 128), (1, 64)):
        opened, most = of_talks(bench, drives)
        work = f"memory: {drives * LANES} talks, each with an open session; drives of {LANES} lanes: {drives}"
        measured = f"{most:.0f} MB once each had 1 MB of records, {opened:.0f} MB before"
        yield Figure(8, work, measured, f"at most {aim} MB", most <= aim)
    each, blocks = of_a_block(bench)
    measured = f"{each:.0f} bytes, by {blocks:,} blocks"
    yield Figure(8, "memory: a block that was placed", measured, "at most 16 bytes", each <= 16)
