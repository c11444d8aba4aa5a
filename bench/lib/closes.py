"""Small jobs that close beside streams, and how often the daemon syncs."""
import re
import statistics
import time

import jobs
from measures import share
from runs import Figure
from serving import tell
from yardsticks import sync_seconds

STREAMS, RECORD = 3, 65536
# So many small jobs, for so many seconds at most; with fewer than the least nothing is said of a twentieth of them. A stream
# has so many jobs' bytes, and is broken off after the last small job.
CLOSES, SECONDS, LEAST_CLOSES, LONG = 100, 20, 20, 4
LIMIT = 0.050
# In the run whose syncs are counted: streams, small jobs, and volumes, of which the streams fill more than one; and records of
# a client that sends one in so many seconds.
COUNTED_STREAMS, COUNTED_CLOSES, VOLUMES, FILLED = 4, 20, 6, 3
SLOW_RECORDS, PAUSE = 200, 0.005
# What the daemon does at rest it has done so long after its last client, in seconds.
RESTS = 0.5
# A talk, a close, and a mount by the drive itself.
EVENT = re.compile(r"talk \d+ begins|talk \d+: session \d+ closed .*|drive \d+: volume \S+ is mounted")


def most_bytes(total):
    """What the streams may write to the disk at the most."""
    return STREAMS * LONG * total


def closes_beside_streams(bench):
    with bench.told(where=bench.disk) as (daemon, syncs):
        alone = sync_seconds(bench.disk)
        closes, rate = streamed_closes(bench, daemon)
        told = syncs()
    work, aim = f"a small close beside {STREAMS} streams of {rate:.0f} MB/s together", "50 ms and one sync"
    if len(closes) < LEAST_CLOSES:
        yield Figure(5, work, f"{len(closes)} closes only while the streams went on", aim, None)
        return
    during = [moments for moments in told if moments[1] >= closes[0].start]
    whole = [close.end - close.start for close in closes]
    beyond = [beyond_sync(close, during) for close in closes]
    syncing = [end - start for start, end in during]
    tell_times("a small close beside streams, its end and its close", whole)
    tell_times("the answer to its close alone", [close.end - close.asked for close in closes])
    tell_times("what it took besides its own sync", beyond)
    tell_times("a sync of the daemon meanwhile", syncing)
    print(f"{'a sync of a block, where nothing else goes on':<56} {milliseconds(alone)}", flush=True)
    measured = (f"95th percentile {milliseconds(share(whole, 0.95))}, and without its own sync "
                f"{milliseconds(share(beyond, 0.95))}; median {milliseconds(statistics.median(whole))}; a sync "
                f"{milliseconds(statistics.median(syncing))} meanwhile, {milliseconds(alone)} alone; {len(closes)} closes")
    yield Figure(5, work, measured, aim, share(beyond, 0.95) <= LIMIT)


def streamed_closes(bench, daemon):
    """The closes of small jobs while all streams go on, and what these sent meanwhile, in MB a second."""
    works = [jobs.small(daemon.port, CLOSES, SECONDS)]
    works += [jobs.stream(daemon.port, LONG * bench.total, RECORD)] * STREAMS
    with jobs.Clients(works) as clients:
        closes = clients.result(0)
        ended = [clients.result(number).end for number in range(1, STREAMS + 1) if clients.has_ended(number)]
        size = sum(int(line.split()[-1]) for line in tell(daemon.port, "status") if line.startswith("volume "))
    rate = size / 1e6 / (closes[-1].end - closes[0].start)
    return [close for close in closes if close.end <= min(ended, default=close.end)], rate


def beyond_sync(close, syncs):
    """What a close took but for the last sync before its answer."""
    before = [moments for moments in syncs if close.start <= moments[1] <= close.end]
    own = before[-1][1] - max(before[-1][0], close.start) if before else 0
    return close.end - close.start - own


def milliseconds(seconds):
    return f"{seconds * 1000:.1f} ms"


def tell_times(text, times):
    print(f"{text:<56} median {milliseconds(statistics.median(times))}, 95th percentile {milliseconds(share(times, 0.95))}, "
          f"most {milliseconds(max(times))}", flush=True)


def sync_calls(bench):
    size = bench.part(1 / COUNTED_STREAMS)
    limit = COUNTED_STREAMS * size // FILLED
    with bench.told(f"volume = {limit}\n", lanes=8, volumes=VOLUMES) as (daemon, syncs):
        finish(daemon.port, [jobs.small(daemon.port, COUNTED_CLOSES, SECONDS)]
               + [jobs.stream(daemon.port, size, RECORD) for _ in range(COUNTED_STREAMS)])
        loaded = next(line.split()[3] for line in tell(daemon.port, "status") if line.startswith("drive "))
        tell(daemon.port, "unmount 1", f"mount 1 {loaded}")
        yield counted(f"{COUNTED_STREAMS} streams, {COUNTED_CLOSES} small jobs", daemon, syncs, VOLUMES + 2)
    with bench.told() as (daemon, syncs):
        finish(daemon.port, [jobs.slow(daemon.port, SLOW_RECORDS, PAUSE)])
        yield counted(f"a client that sends a record in {milliseconds(PAUSE)}, {SLOW_RECORDS} times", daemon, syncs, 1)


def finish(port, works):
    with jobs.Clients(works) as clients:
        clients.results()


def counted(work, daemon, syncs, given):
    """The calls of fdatasync beside all that may need one: what the log tells, and so many lines of the operator."""
    time.sleep(RESTS)
    calls, events = len(syncs()), given + sum(EVENT.fullmatch(line) is not None for line in daemon.log())
    return Figure(6, f"fdatasync: {work}", f"{calls} calls for {events} closes, mounts, unmounts, labels and talks",
                  "at most as many", calls <= events)
