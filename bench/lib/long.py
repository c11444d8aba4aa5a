"""A job over many volumes, each of which is taken away once it is full."""
import contextlib
import itertools
import pathlib
import threading
import time

import jobs
from clients import client
from measures import resident
from runs import Figure

VOLUMES, RECORD = 100, 65536
# A volume is full if it has so many bytes at the most to its limit. Of the limits of all together the job leaves so much.
SHORT, LEFT = 100_000, 0.99
# So long a close may take beyond its last sync, and so many MB more than at the start the daemon may have.
LIMIT, MOST = 0.1, 30
LOOKS = 0.01


@contextlib.contextmanager
def taken_away(folder, limit):
    """Takes each volume away that is full, once another is full after it."""
    ended, full = threading.Event(), []

    def take():
        while not ended.wait(LOOKS):
            for path in folder.iterdir():
                if path not in full and not path.name.endswith("~") and path.stat().st_size >= limit - SHORT:
                    full.append(path)
                    for earlier in full[:-1]:
                        earlier.unlink(missing_ok=True)

    thread = threading.Thread(target=take)
    thread.start()
    try:
        yield full
    finally:
        ended.set()
        thread.join()


def over_volumes(bench):
    limit = bench.total
    total = bench.part(VOLUMES * LEFT)
    with bench.told(f"volume = {limit}\n", volumes=VOLUMES) as (daemon, syncs):
        before = resident(daemon.process)
        with taken_away(pathlib.Path(daemon.conf).parent / "1", limit) as full, jobs.talking(daemon.port) as talk:
            start = time.perf_counter()
            ticket = client.open_session(talk, 1, jobs.POOL, jobs.media_of(1))
            client.append_packets(talk, ticket, itertools.repeat(jobs.batch(RECORD), total // jobs.BATCH))
            asked = time.perf_counter()
            client.close_session(talk, ticket)
            end = time.perf_counter()
            talk.terminate()
        last = max((moments[1] for moments in syncs() if moments[1] <= end), default=asked)
        more = resident(daemon.process) - before
    beyond = end - max(asked, last)
    work = f"a job over {len(full) + 1} volumes of {limit / 1e9:.3g} GB, each taken away when it is full"
    measured = (f"{total / 1e6 / (asked - start):.0f} MB/s; the answer to its close {(end - asked) * 1e3:.1f} ms, "
                f"{beyond * 1e3:.1f} beyond its last sync; {more:.1f} MB more memory than at the start")
    yield Figure(11, work, measured, f"{LIMIT * 1e3:.0f} ms beyond the sync, {MOST} MB", beyond <= LIMIT and more <= MOST)
