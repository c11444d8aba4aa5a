"""Jobs whose drive needs a volume: how long they wait, what goes on beside them, what ends their wait, and what the log has of
it. tests/serve/run runs it.
"""
import contextlib
import socket
import threading
import time

from clients import client
from crowds import QUIET, Two, comes_to, refused, with_records
from daemon import SOON, until
from hardships import HELLO, Place, raises

WAITS, MOUNTED = "drive 1 waits for a volume of pool Default", "drive 1: volume {} is mounted"
# Volumes of so many bytes, and a job that fills one and needs another.
SMALL, OUTGROWS = "block = 1024\nvolume = 20000\n", [client.packet(bytes([at]) * 3000) for at in range(10)]
# So many seconds a job is let wait, and so many more it may take until the refusal is there.
SECONDS, LATE = 2, 3


def waits_for_a_volume(checks, folder, _):
    """A job that outgrows its volumes waits, an operator labels another one meanwhile, and it goes on; so does a close
    before there is a volume. What was full, waited for and mounted is logged."""
    place = Place(folder / "waits_for_a_volume", SMALL)
    with place.daemon("--wait", "60") as daemon:
        def operator(volume, count):
            waits = until(lambda: daemon.log().count(WAITS) == count)
            checks.check(f"it waits {count} times", waits, daemon.log())
            checks.same("the request", place.say("console", "requests"), ("request 1 Default File\nok requests 1\n", 0))
            # A full volume is loaded up to then.
            checks.same("unmount", place.say("console", "unmount", "1"), ("ok unmounted\n", 0))
            place.label(checks, volume)

        first, _ = comes_to(checks, "a close that waits", place.job, lambda: operator("Vol-0001", 1)) or ([], None)
        checks.same("hello", place.read(first), b"hello")
        later, _ = comes_to(checks, "a job that waits", lambda: place.job(OUTGROWS), lambda: operator("Vol-0002", 2)) or ([], None)
        checks.same("its volumes", [line.split()[1] for line in later[1:]], ["Vol-0001", "Vol-0002"])
        checks.same("its records", place.records(later), [one[4:] for one in OUTGROWS])
        met = [line for line in daemon.log() if line.startswith("drive ")]
        checks.same("met", met, [WAITS, MOUNTED.format("Vol-0001"), "drive 1: volume Vol-0001 is full", WAITS,
                                 MOUNTED.format("Vol-0002")])


def waits_for_nothing(checks, folder, _):
    """Without `--wait`, and with 0 seconds, a record and a close are refused at once if their drive has no volume."""
    for number, words in enumerate(([], ["--wait", "0"])):
        place = Place(folder / f"waits_for_nothing-{number}", "queue = 1\n" + SMALL)
        with place.daemon(*words), place.talk() as talk:
            begun = time.monotonic()
            checks.same("a record", record_refused(talk), "3908 Busy")
            checks.same("a close", close_refused(talk), "3907 Not yet")
            checks.check("at once", time.monotonic() - begun < SECONDS, time.monotonic() - begun)


def record_refused(talk):
    """The refusal of a job's records, for which there is no volume."""
    ticket = client.open_session(talk, 7, "Default", "File")
    return refused(client.append_packets, talk, ticket, OUTGROWS)


def close_refused(talk):
    """The refusal of a job's close, for which there is no volume."""
    ticket = client.open_session(talk, 7, "Default", "File")
    talk.ask(f"append end session {ticket}")
    return refused(talk.ask, f"append close session {ticket}")


def waits_so_long(checks, folder, _):
    """A record and a close wait as long as `--wait` says and no longer; also while an operator gives lines that bring the drive
    no volume."""
    for number, line in enumerate(("requests", "unmount 1", "mount 1 Vol-0009")):
        for act, wanted in ((record_refused, "3908 Busy"), (close_refused, "3907 Not yet")):
            place = Place(folder / f"waits_so_long-{act.__name__}-{number}", "queue = 1\n" + SMALL)
            with place.daemon("--wait", str(SECONDS)), place.talk() as talk, given_again(place, line):
                begun = time.monotonic()
                checks.same(f"{act.__name__} beside {line}", act(talk), wanted)
                took = time.monotonic() - begun
                checks.check(f"how long beside {line}", SECONDS <= took < SECONDS + LATE, f"{act.__name__} {took:.1f} seconds")


@contextlib.contextmanager
def given_again(place, line):
    """Meanwhile an operator gives that line again and again, up to a while after the time that a job may wait."""
    over = threading.Event()

    def operator():
        with place.talk() as talk:
            for _ in range(4 * (SECONDS + LATE)):
                with contextlib.suppress(client.Refused):
                    talk.console(line)
                if over.wait(0.25):
                    return

    thread = threading.Thread(target=operator)
    thread.start()
    try:
        yield
    finally:
        over.set()
        thread.join()


def goes_away(checks, folder, _):
    """A client goes away while its record waits, since its drive's volume is full, and one while it waits for the answer to its
    close; what both sent besides waits to be read. Their waits end. The lane of the second, which sent nothing, is free at
    once; that of the first once what it sent is placed."""
    place = Place(folder / "goes_away", "queue = 1\n" + SMALL)
    with open(place.conf, "a") as conf:
        conf.write("lanes = 2\n")
    with place.daemon("--wait", "600") as daemon:
        place.label(checks)
        with place.talk() as appends, place.talk() as closes:
            ticket = client.open_session(appends, 7, "Default", "File")
            appends.ask(f"append data {ticket}")
            appends.send(client.text_packet("1 2 0"), *OUTGROWS)
            checks.check("the drive waits", daemon.logs(WAITS), daemon.log())
            other = client.open_session(closes, 7, "Default", "File")
            closes.ask(f"append end session {other}")
            closes.send(client.text_packet(f"append close session {other}"))
            closes.socket.settimeout(QUIET)
            checks.check("the close waits", raises(TimeoutError, closes.socket.recv, 1))
            for talk in (closes, appends):
                talk.send(client.text_packet("console status"))
        ends = until(lambda: sum(" cancelled with " in line for line in daemon.log()) == 2, SOON)
        checks.check("their waits end", ends, daemon.log())
        with place.talk() as talk, place.talk() as late:
            free = until(lambda: talk.console("status")[0] == "drive 1 File Vol-0001 1", SOON)
            checks.check("one lane is free", free, talk.console("status"))
            status = talk.console("status")
            checks.same("their sessions", [line.split()[2] for line in status if line.startswith("session ")], 2 * ["cancelled"])
            client.open_session(talk, 7, "Default", "File")
            checks.same("no lane", refused(client.open_session, late, 7, "Default", "File"), "3911 No free lane")
            # A full volume is loaded up to then.
            checks.same("unmount", talk.console("unmount 1"), ["ok unmounted"])
            checks.same("label", talk.console("label 1 Vol-0002 Default File"), ["ok labelled"])
            free = until(lambda: talk.console("status")[0] == "drive 1 File Vol-0002 1", SOON)
            checks.check("the other lane is free", free, talk.console("status"))
        place.serves(checks, "behind them")


def ends_its_side(checks, folder, _):
    """A client that waits ends its own side of the connection. That ends its wait too, and it is told so; then its talk ends,
    and its session is cancelled."""
    place = Place(folder / "ends_its_side", "queue = 1\n" + SMALL)
    with place.daemon("--wait", "600") as daemon:
        with place.talk() as talk:
            ticket = client.open_session(talk, 7, "Default", "File")
            talk.ask(f"append end session {ticket}")
            talk.send(client.text_packet(f"append close session {ticket}"))
            checks.check("the drive waits", daemon.logs(WAITS), daemon.log())
            talk.socket.shutdown(socket.SHUT_WR)
            talk.socket.settimeout(SOON)
            checks.same("it is told", refused(talk.line), "3907 Not yet")
            checks.same("its end", talk.socket.recv(1), b"")
        with place.talk() as talk:
            checks.same("its session", talk.console("status")[-2], f"session {ticket} cancelled 0")


def waits_beside(checks, folder, _):
    """While a job of one drive waits for a volume, jobs of the other drive go on, and the operator is answered. Once there is
    a volume the job goes on."""
    place = Two(folder / "waits_beside", "queue = 1\n" + SMALL)
    with place.daemon("--wait", "600") as daemon:
        tape = ("console", "label", "2", "Vol-0002", "Default", "Tape")
        checks.same("label on 2", place.say(*tape), ("ok labelled\n", 0))

        def beside():
            checks.check("the drive waits", daemon.logs(WAITS), daemon.log())
            for number in range(3):
                _, lines = with_records(place, [b"one", bytes([number])], "Tape")
                checks.same("a job of the other drive", place.records(lines), [b"one", bytes([number])])
            with place.talk() as talk:
                checks.same("requests", talk.console("requests"), ["request 1 Default File", "ok requests 1"])
                checks.same("status", talk.console("status")[:2], ["drive 1 File - 1", "drive 2 Tape Vol-0002 0"])
            place.label(checks)

        lines, _ = comes_to(checks, "a job that waits", lambda: place.job(HELLO), beside) or ([], None)
        checks.same("the job that waited", place.records(lines), [b"hello"])


GROUPS = (waits_for_a_volume, waits_for_nothing, waits_so_long, goes_away, ends_its_side, waits_beside)
