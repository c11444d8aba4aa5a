"""Clients at once: many that append and read, and ones that stop, read nothing, send without reading, or go away, while
others go on; a small job beside long ones; as many connections as there may be; and stops and kills under load.
tests/serve/run runs it.
"""
import concurrent.futures
import contextlib
import itertools
import random
import re
import resource
import select
import signal
import socket
import struct
import threading
import time

from clients import client
from daemon import SOON, WAIT, drive, later_second, until
from hardships import HELLO, MORE_THAN_WAITS, Place, await_state, raises

MEDIA = ("File", "Tape")
CLIENTS, JOBS = 8, 3
SIZES = (1, 70_000, 300, 64_512, 0, 4096)
# Drives that take so many sessions at once each, and jobs of so many records of a few KB.
LANES, RECORDS = 8, 40
# More sessions than a status shows at once.
SHOWN = 9000
# So many connections are served at once, and so many more are tried.
MOST_TALKS, MORE = 8 * 32 + 64, 10
# A daemon that may have so many descriptors has room for some connections.
FEW = 14
# So long is waited for what must not come, in seconds.
QUIET = 0.5
# How a daemon under load is ended, one time after the other, and how many jobs are closed before that at least; and
# how often it is stopped and goes on.
ENDS, LEAST_CLOSED, STOPS = (signal.SIGKILL, signal.SIGTERM, signal.SIGKILL), 8, 10
# A small job is closed within so many seconds, of so many beside so many clients that send without a pause.
CLOSES_WITHIN, CLOSES, STREAMS = 1, 10, 3


class Two(Place):
    """A daemon with two drives of two media, each with a volume."""

    def __init__(self, folder, settings=""):
        super().__init__(folder, settings)
        self.tape = folder / "tape"
        self.tape.mkdir()
        with open(self.conf, "a") as conf:
            conf.write(drive("Tape", self.tape))

    def labels(self, checks):
        for number, media in enumerate(MEDIA, 1):
            checks.same(f"label on {number}", self.say("console", "label", str(number), f"Vol-000{number}", "Default", media),
                        ("ok labelled\n", 0))


def drawn(seed):
    """The records of a job."""
    numbers = random.Random(seed)
    return [numbers.randbytes(size) for size in SIZES for _ in range(numbers.randrange(1, 3))]


def with_records(place, records, media, between=lambda: None):
    """Has a job of these records. Something comes between the first and the others. Gives its ticket and its lines."""
    with place.talk() as talk:
        ticket = client.open_session(talk, 7, "Default", media)
        client.append_packets(talk, ticket, [client.packet(records[0])])
        between()
        client.append_packets(talk, ticket, map(client.packet, records[1:]))
        return ticket, client.close_session(talk, ticket)


def comes_to(checks, what, *clients):
    """Runs clients at once, each a call. Gives what each gives; a fault of one is what differs."""
    with concurrent.futures.ThreadPoolExecutor(len(clients)) as pool:
        given = [pool.submit(one) for one in clients]
        faults = [repr(one.exception()) for one in given if one.exception()]
    checks.same(what, faults, [])
    return [] if faults else [one.result() for one in given]


def many(checks, folder, _):
    """Eight clients at once on two drives have several jobs each, and each reads its own bytes back while others append.
    Sessions of all of them are open at once, and each has a number of its own."""
    place, tickets, together = Two(folder / "many"), [], threading.Barrier(CLIENTS)

    def one(number):
        for job in range(JOBS):
            records = drawn(repr((number, job)))
            between = (lambda: together.wait(timeout=WAIT)) if job == 0 else (lambda: None)
            ticket, lines = with_records(place, records, MEDIA[number % 2], between)
            tickets.append(ticket)
            if {line.split()[1] for line in lines[1:]} != {f"Vol-000{1 + number % 2}"}:
                raise ValueError(f"{lines} on the other drive")
            if place.records(lines) != records:
                raise ValueError(f"{lines} has other records")

    with place.daemon("--talks", str(2 + 2 * JOBS * CLIENTS)) as daemon:
        place.labels(checks)
        comes_to(checks, "clients at once", *(lambda number=number: one(number) for number in range(CLIENTS)))
        checks.same("numbers", sorted(tickets), list(range(1, CLIENTS * JOBS + 1)))
        checks.same("its end", daemon.wait(), ("", 0))
        checks.same("its drives", daemon.log()[-2:], ["drive 1 is settled", "drive 2 is settled"])


class Lanes(Place):
    """A daemon with so many drives of one media, each with a volume and eight lanes."""

    def __init__(self, folder, drives):
        super().__init__(folder)
        folders = [folder / f"drive-{number}" for number in range(1, drives + 1)]
        for one in folders:
            one.mkdir()
        self.conf.write_text(f"port = {self.port}\n" + "".join(drive("File", one, f"lanes = {LANES}") for one in folders))

    def labels(self, checks, drives):
        for number in range(1, drives + 1):
            said = self.say("console", "label", str(number), f"Vol-000{number}", "Default", "File")
            checks.same(f"label on {number}", said, ("ok labelled\n", 0))


def few_kilobytes(seed):
    """The records of a job."""
    numbers = random.Random(seed)
    return [numbers.randbytes(numbers.randrange(1000, 6000)) for _ in range(RECORDS)]


def all_lanes(checks, folder, _):
    """A client for each lane of four drives, and of one, all at once. Each has two jobs of small records, of which the first
    begins while all others' are open, and reads them back record for record. While all lanes have a job, no more begin."""
    for drives in (4, 1):
        place, number = Lanes(folder / f"all_lanes-{drives}", drives), drives * LANES

        def looked():
            with place.talk() as talk:
                busy = [line.split()[-1] for line in talk.console("status")[:drives]]
                return busy, refused(client.open_session, talk, 7, "Default", "File")

        seen, tickets = [], []
        together = threading.Barrier(number, action=lambda: seen.append(looked()))

        def one(at):
            for job, between in enumerate((lambda: together.wait(timeout=WAIT), lambda: None)):
                records = few_kilobytes(repr((at, job)))
                ticket, lines = with_records(place, records, "File", between)
                tickets.append(ticket)
                if place.records(lines) != records:
                    raise ValueError(f"{lines} has other records")

        with place.daemon("--talks", str(drives + 1 + 4 * number)) as daemon:
            place.labels(checks, drives)
            comes_to(checks, f"clients at once on {drives} drives", *(lambda at=at: one(at) for at in range(number)))
            checks.same("all lanes", seen, [(drives * [str(LANES)], "3911 No free lane")])
            checks.same("numbers", sorted(tickets), list(range(1, 2 * number + 1)))
            checks.same("its end", daemon.wait(), ("", 0))
            checks.same("its drives", daemon.log()[-drives:], [f"drive {one} is settled" for one in range(1, drives + 1)])


def stops_within(checks, folder, _):
    """A client stops within a record, and one within a packet's length, while others go on. Then both go on, and all that
    they sent is read back."""
    place = Place(folder / "stops_within")
    with place.daemon(), contextlib.ExitStack() as stack:
        place.label(checks)
        data, stopped = random.Random(1).randbytes(500_000), []
        for cut in (2, 250_000):
            talk = stack.enter_context(place.talk())
            ticket = client.open_session(talk, 7, "Default", "File")
            talk.ask(f"append data {ticket}")
            talk.send(client.text_packet("1 2 0"), client.packet(data)[:cut])
            stopped.append((talk, ticket, cut))
        for _ in range(3):
            place.serves(checks, "beside clients that stopped")
        for talk, ticket, cut in stopped:
            end = client.signal(client.END_OF_DATA)
            talk.send(client.packet(data)[cut:], end, end)
            checks.same("its records", talk.line(), "3000 OK append data")
            checks.same("its bytes", place.read(client.close_session(talk, ticket)) == data, True)


def reads_nothing(checks, folder, _):
    """A client reads nothing of what it asked for. The drive of that goes on: others append there and read. What it was
    sent is whole, once it reads."""
    place = Place(folder / "reads_nothing")
    data = random.Random(2).randbytes(1_000_000)
    with place.daemon() as daemon, place.talk() as quiet:
        place.label(checks)
        lines = place.job([client.packet(data)] * (MORE_THAN_WAITS // len(data)))
        begun, given, taken = threading.Event(), [], threading.Event()

        def restore():
            def take(index, stream, one):
                begun.set()
                taken.wait(timeout=2 * WAIT)
                given.append(one == data)

            client.read_session(quiet, lines, take)

        def beside():
            checks.check("it is sent something", begun.wait(timeout=WAIT))
            for _ in range(3):
                place.serves(checks, "beside a client that reads nothing")
            checks.same("jobs of its drive", place.read(place.job([client.packet(data)] * 3)) == 3 * data, True)
            checks.check("nothing was read meanwhile", given == [], given)
            taken.set()

        comes_to(checks, "a restore and jobs beside it", restore, beside)
        checks.same("what it read in the end", given, [True] * (MORE_THAN_WAITS // len(data)))
        checks.check("no fault", not any("3940" in line for line in daemon.log()), daemon.log())


def floods(checks, folder, _):
    """A client sends commands and reads no answer, until nothing of it is taken any more. Others go on, and once it goes
    away its talk ends."""
    place = Place(folder / "floods")
    with place.daemon() as daemon:
        place.label(checks)
        with socket.create_connection(("127.0.0.1", place.port), timeout=QUIET) as flood:
            many = client.text_packet("console status") * 10_000
            checks.check("it is stopped", raises(TimeoutError, lambda: [flood.sendall(many) for _ in range(1000)]))
            talk = sum(line.endswith(" begins") for line in daemon.log())
            for _ in range(3):
                place.serves(checks, "beside a flood")
        ended = until(lambda: [line for line in daemon.log() if line.startswith(f"talk {talk} ended: ")], SOON)
        checks.check("its end", ended, daemon.log())
        place.serves(checks, "behind a flood")


def closes_small(checks, folder, _):
    """Small jobs are closed at once beside clients that send without a pause to the same drive. Blocks are small, so that it
    counts whether a close waits for what others send, and little how fast the disk is."""
    place, over, sent = Place(folder / "closes_small", "block = 4096\n"), threading.Event(), STREAMS * [0]

    def packets(number):
        while not over.is_set():
            sent[number] += 1
            yield client.packet(bytes(60_000))

    def stream(number):
        with place.talk() as talk:
            ticket = client.open_session(talk, 7, "Default", "File")
            client.append_packets(talk, ticket, packets(number))
            client.close_session(talk, ticket)

    def small():
        try:
            for _ in range(CLOSES):
                before = list(sent)
                took = closed_in(place)
                checks.check("a small close", took < CLOSES_WITHIN, f"{took:.2f} seconds")
                # A stream that is stuck would leave the drive to the small job.
                checks.check("the others go on", until(lambda: all(map(int.__gt__, sent, before)), SOON), sent)
        finally:
            over.set()

    with place.daemon():
        place.label(checks)
        comes_to(checks, "small jobs beside streams", small, *(lambda at=at: stream(at) for at in range(STREAMS)))


def closed_in(place):
    """How long the close of a small job takes."""
    with place.talk() as talk:
        ticket = client.open_session(talk, 7, "Default", "File")
        client.append_packets(talk, ticket, HELLO)
        begun = time.monotonic()
        talk.ask(f"append end session {ticket}")
        talk.ask(f"append close session {ticket}")
        return time.monotonic() - begun


def above_the_bound(checks, folder, _):
    """As many connections as there may be are served at once, and more wait. When one of those ends, one more is
    served."""
    place = Place(folder / "above_the_bound")
    with place.daemon(), contextlib.ExitStack() as stack:
        talks = [stack.enter_context(place.talk()) for _ in range(MOST_TALKS)]
        checks.same("all at once", {tuple(talk.console("requests")) for talk in talks}, {("ok requests 0",)})
        more = [stack.enter_context(place.talk()) for _ in range(MORE)]
        for talk in more:
            talk.send(client.text_packet("console requests"))
        checks.same("more wait", answered(more, 0), 0)
        checks.same("the others go on", talks[0].console("requests"), ["ok requests 0"])
        for ended in range(1, MORE + 1):
            talks[-ended].terminate()
            checks.same(f"served as {ended} end", answered(more, ended), ended)
        checks.same("they are served", {tuple(talk.lines()) for talk in more}, {("ok requests 0",)})


def answered(talks, wanted):
    """How many of these have an answer, once as many have as wanted, and a while after that."""
    def ready():
        return len(select.select([talk.socket for talk in talks], [], [], 0)[0])

    until(lambda: ready() >= wanted, SOON)
    time.sleep(QUIET)
    return ready()


def few_descriptors(checks, folder, _):
    """If the system gives a daemon no more descriptors, connections wait, and are served as others end."""
    place = Place(folder / "few_descriptors")
    limit = {"preexec_fn": lambda: resource.setrlimit(resource.RLIMIT_NOFILE, (FEW, FEW))}
    with place.daemon(**limit), contextlib.ExitStack() as stack:
        talks = [stack.enter_context(place.talk()) for _ in range(2 * FEW)]
        for talk in talks:
            talk.send(client.text_packet("console requests"))
        checks.check("some are served, and some wait", 0 < (served := answered(talks, 1)) < FEW, served)
        for number, talk in enumerate(talks):
            checks.same(f"connection {number}", list(talk.lines()), ["ok requests 0"])
            talk.terminate()
        place.label(checks)
        place.serves(checks, "behind them")


def breaks_off(checks, folder, _):
    """A client goes away in the middle of a record, by an end of its connection and by a reset. Its session is cancelled
    with the records before that one, and its lane, which is the only one, comes back."""
    for resets in (False, True):
        place = Place(folder / f"breaks_off-{resets}")
        with open(place.conf, "a") as conf:
            conf.write("lanes = 1\n")
        with place.daemon(), place.talk() as other:
            place.label(checks)
            with place.talk() as talk:
                ticket = client.open_session(talk, 7, "Default", "File")
                talk.ask(f"append data {ticket}")
                talk.send(client.text_packet("1 2 0"), *3 * [client.packet(bytes(200_000))], client.packet(bytes(200_000))[:99_000])
                came = until(lambda: f"session {ticket} active 3" in other.console("status"), SOON)
                checks.check("it is in the middle", came, other.console("status"))
                checks.same("no lane", refused(client.open_session, other, 7, "Default", "File"), "3911 No free lane")
                if resets:
                    talk.socket.setsockopt(socket.SOL_SOCKET, socket.SO_LINGER, struct.pack("ii", 1, 0))
            wanted = ["drive 1 File Vol-0001 0", f"session {ticket} cancelled 3"]
            came = until(lambda: [line for line in other.console("status") if line in wanted] == wanted, SOON)
            checks.check("its lane comes back", came, other.console("status"))
            place.serves(checks, "behind one that broke off")


def refused(act, *words):
    """The refusal that something comes to."""
    try:
        return act(*words)
    except client.Refused as why:
        return str(why)


def others_sessions(checks, folder, _):
    """Of two talks with a session none cancels the other's; both go on. And a running daemon retires no drive and purges no
    volume."""
    place = Place(folder / "others_sessions")
    with place.daemon(), place.talk() as first, place.talk() as second:
        place.label(checks)
        talks = {client.open_session(talk, 7, "Default", "File"): talk for talk in (first, second)}
        lines = ("retire 1", "purge 1 Vol-0001", f"cancel {len(talks) + 1}", "retire 2", "purge 2 Vol-0001")
        in_use, unknown, none = "3933 In use", "3902 Session not open", "3938 No such drive"

        def none_obeyed(when):
            for (ticket, _), talk in zip(talks.items(), (second, first)):
                said = [refused(talk.console, line) for line in (f"cancel {ticket}", *lines)]
                checks.same(f"{when}, {ticket}", said, [in_use, in_use, in_use, unknown, none, none])

        none_obeyed("while they are active")
        for ticket, talk in talks.items():
            client.append_packets(talk, ticket, [client.packet(b"of %d" % ticket)])
        none_obeyed("with a record")
        closed = {ticket: client.close_session(talk, ticket) for ticket, talk in talks.items()}
        none_obeyed("closed")
        for ticket, kept in closed.items():
            checks.same("it goes on", place.records(kept), [b"of %d" % ticket])


def stopped_again(checks, folder, _):
    """A daemon is stopped and goes on, again and again, while clients have job after job. None of them is lost."""
    place, kept, over = Two(folder / "stopped_again", "block = 4096\n"), [], threading.Event()

    def one(number):
        for job in itertools.count():
            if over.is_set():
                return
            records = drawn(repr((number, job)))
            _, lines = with_records(place, records, MEDIA[number % 2])
            kept.append(lines)
            if place.records(lines) != records:
                raise ValueError(f"{lines} has other records")

    def stop(daemon):
        try:
            for _ in range(STOPS):
                closed = len(kept)
                time.sleep(0.05)
                daemon.process.send_signal(signal.SIGSTOP)
                await_state(daemon.process.pid, "T")
                time.sleep(0.05)
                daemon.process.send_signal(signal.SIGCONT)
                checks.check("jobs go on", until(lambda: len(kept) > closed), kept[-1:])
        finally:
            over.set()

    with place.daemon() as daemon:
        place.labels(checks)
        comes_to(checks, "jobs beside stops", lambda: stop(daemon), *(lambda at=at: one(at) for at in range(CLIENTS)))
        checks.check("closed", len(kept) >= LEAST_CLOSED, len(kept))
        faults = [line for line in daemon.log() if re.search(r": 39\d\d |ended: (?!finished)", line)]
        checks.same("faults", faults, [])


def killed_again(checks, folder, _):
    """A daemon under load is killed again and again. In each later run the volumes are adopted, and each session whose
    close was answered in any run before is read to its records."""
    place, kept = Two(folder / "killed_again", "block = 4096\n"), []
    for number, end in enumerate((*ENDS, None)):
        with place.daemon() as daemon:
            if number == 0:
                place.labels(checks)
            else:
                said, status = place.say("adopt-all", str(place.conf))
                checks.check("adopted", status == 0 and said.count(": ok adopted ") == 2, said)
            for lines, records in kept:
                checks.check(f"{lines} in run {number}", place.records(lines) == records, "other records")
            if end:
                closed = len(kept)
                under_load(place, daemon, kept, number, end)
                checks.check(f"closed in run {number}", len(kept) - closed >= LEAST_CLOSED, len(kept) - closed)
                checks.same(f"how run {number} ended", daemon.process.returncode, -end)
        later_second()


def under_load(place, daemon, kept, run, end):
    """Four clients have job after job, each told as it is closed, until the daemon is ended under them by that signal."""
    def one(number):
        for job in itertools.count():
            records = drawn(repr((run, number, job)))
            try:
                _, lines = with_records(place, records, MEDIA[number % 2])
            except client.Lost:
                return
            kept.append((lines, records))

    closed = len(kept)
    clients = [threading.Thread(target=one, args=(number,)) for number in range(4)]
    for thread in clients:
        thread.start()
    until(lambda: len(kept) - closed >= LEAST_CLOSED)
    daemon.process.send_signal(end)
    daemon.process.wait(timeout=WAIT)
    for thread in clients:
        thread.join(timeout=WAIT)


def many_sessions(checks, folder, _):
    """Thousands of sessions are shown while others begin, in pieces: each of them once and in order, and none is missing that had
    its number before."""
    place, numbers = Two(folder / "many_sessions"), [0]

    def opens(media):
        with place.talk() as talk:
            for _ in range(SHOWN // 2):
                ticket = client.open_session(talk, 7, "Default", media)
                numbers.append(ticket)
                talk.console(f"cancel {ticket}")
                # (only a command of the session tells the talk that it is over)
                with contextlib.suppress(client.Refused):
                    talk.ask(f"append end session {ticket}")
            talk.terminate()

    def looks():
        seen, end = 0, time.monotonic() + 4 * WAIT
        with place.talk() as talk:
            while seen < SHOWN and time.monotonic() < end:
                time.sleep(0.05)
                least = max(numbers)
                shown = [int(line.split()[1]) for line in talk.console("status") if line.startswith("session ")]
                if shown != list(range(1, len(shown) + 1)) or len(shown) < least:
                    raise ValueError(f"{len(shown)} sessions of {least}: {shown[:3]} to {shown[-3:]}")
                seen = len(shown)
        return seen

    with place.daemon():
        place.labels(checks)
        *_, seen = comes_to(checks, "sessions", *(lambda media=media: opens(media) for media in MEDIA), looks) or [0]
        checks.same("all are shown", seen, SHOWN)


GROUPS = (many, all_lanes, many_sessions, stops_within, reads_nothing, floods, closes_small, above_the_bound, few_descriptors,
          breaks_off, others_sessions, stopped_again, killed_again)
