"""The rates of jobs, and what they take of the processor."""
import time

import jobs
from measures import bytes_read, least
from runs import Figure, Job, took

ONE, FOUR, SPREAD = Job(), Job(clients=4), Job(clients=4, drives=2)
ONE_BEFORE = Job(is_before=True)
ONE_SMALL, FOUR_SMALL = Job(record=4096), Job(clients=4, record=4096)
LONG_QUEUE = 256
ONE_QUEUED, FOUR_QUEUED = Job(queue=LONG_QUEUE), Job(clients=4, queue=LONG_QUEUE)
# What the numbers of the table want measured.
KINDS = {1: (ONE,), 2: (ONE, FOUR), 3: (FOUR, SPREAD), 4: (ONE_SMALL, FOUR_SMALL), 7: (ONE, ONE_QUEUED, FOUR, FOUR_QUEUED)}
# What a client that reads nothing has asked for, as a part of a job; and how long that has to come to its halt.
UNREAD, HALTS = 0.25, 0.5


def measure(bench, rows):
    """Measures the jobs of all these numbers in turn, so that what else the machine does meets all alike."""
    kinds = [ONE_BEFORE] if bench.before and 1 in rows else []
    kinds += [kind for row in rows for kind in KINDS.get(row, ())]
    bench.measure(*dict.fromkeys(kinds))


def one_client(bench):
    work, time_aim, processor_aim = "one client, records of 64 KB", "at most 0.75", "at most 1.15"
    if not bench.before:
        [now] = bench.measure(ONE)
        yield Figure(1, work, f"{now.seconds:.2f} s, {now.rate:.0f} MB/s", f"{time_aim} of the time before threads", None)
        yield Figure(1, "", f"{now.each:.2f} processor s/GB", f"{processor_aim} of those before threads", None)
        return
    before, now = bench.measure(ONE_BEFORE, ONE)
    ratio = now.seconds / before.seconds
    measured = f"{ratio:.2f} of the time before threads: {now.rate:.0f} MB/s in place of {before.rate:.0f}"
    yield Figure(1, work, measured, time_aim, ratio <= 0.75)
    ratio = now.each / before.each
    measured = f"{ratio:.2f} of the processor s/GB before threads: {now.each:.2f} in place of {before.each:.2f}"
    yield Figure(1, "", measured, processor_aim, ratio <= 1.15)


def four_clients(bench):
    yield compared(bench, 2, "four clients, one drive", FOUR, ONE, "one client", 1.3)


def two_drives(bench):
    yield compared(bench, 3, "four clients, two drives", SPREAD, FOUR, "one drive", 1.7)


def small_records(bench):
    yield compared(bench, 4, "four clients, records of 4 KB", FOUR_SMALL, ONE_SMALL, "one such client", 2.5)
    [four] = bench.measure(FOUR_SMALL)
    yield Figure(4, "", f"{four.each:.2f} processor s/GB", "at most 2", four.each <= 2)


def short_queue(bench):
    for work, kind, other in (("one client", ONE, ONE_QUEUED), ("four clients", FOUR, FOUR_QUEUED)):
        yield compared(bench, 7, f"{work}, a queue of 8", kind, other, f"a queue of {LONG_QUEUE}", 0.9)


def compared(bench, number, work, kind, other, name, aim):
    """The rate of jobs of a kind beside that of others."""
    took_it, took_other = bench.measure(kind, other)
    ratio = took_it.rate / took_other.rate
    measured = f"{ratio:.2f} times the rate of {name}: {took_it.rate:.0f} MB/s beside {took_other.rate:.0f}"
    return Figure(number, work, measured, f"at least {aim}", ratio >= aim)


def beside_a_restore(bench):
    tries = [one_beside(bench) for _ in range(bench.rounds)]
    alone, beside = map(least, zip(*tries))
    alone.tell("an append behind another")
    beside.tell("an append beside a restore whose client reads nothing")
    ratio = beside.rate / alone.rate
    measured = f"{ratio:.2f} times its rate alone: {beside.rate:.0f} MB/s beside {alone.rate:.0f}"
    yield Figure(9, "an append beside a restore whose client reads nothing", measured, "at least 0.95", ratio >= 0.95)


def one_beside(bench):
    with bench.serving() as daemon:
        def append(size):
            return took(daemon, [jobs.stream(daemon.port, size, ONE.record)], size)
        _, [sent] = append(bench.part(UNREAD))
        alone, _ = append(bench.total)
        with jobs.talking(daemon.port) as talk:
            jobs.ask_to_read(talk, sent.lines)
            time.sleep(HALTS)
            beside, _ = append(bench.total)
        return alone, beside


def restores(bench):
    alone = [one_restore(bench, 1, 1) for _ in range(bench.rounds)]
    among = [one_restore(bench, 4, 0.5) for _ in range(bench.rounds)]
    for text, tries in (("a restore", alone), ("a restore of one job out of four that went on at once", among)):
        taken = least([one for one, _ in tries])
        taken.tell(text)
        measured = f"{taken.each:.2f} processor s/GB, {taken.rate:.0f} MB/s"
        yield Figure(10, text, measured, "at most 0.8", taken.each <= 0.8)
        most = max(read for _, read in tries)
        yield Figure(10, "", f"{most:.3f} bytes read of volumes for each of its records", "its own spans alone", most <= 1.05)


def one_restore(bench, clients, share):
    """What it took to read back one of so many jobs that went on at once, and how many bytes were read of volumes for each
    byte of its records."""
    size = bench.part(share)
    with bench.serving() as daemon:
        _, sent = took(daemon, [jobs.stream(daemon.port, size, ONE.record) for _ in range(clients)], size * clients)
        before = bytes_read(daemon.process)
        taken, _ = took(daemon, [jobs.restore(daemon.port, sent[0].lines)], size)
        return taken, (bytes_read(daemon.process) - before) / size
