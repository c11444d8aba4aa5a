"""A job for a pool without volumes, as by a typo in `--pool`: it waits, is asked for, and given up. From then on its lane and its
drive are free for others, who were served by other drives meanwhile. tests/serve/run runs it.
"""
import pathlib
import time

from checks import Checks
from clients import client
from crowds import refused
from daemon import SOON, drive, until
from hardships import HELLO, Place
from waiting import LATE, OUTGROWS, SECONDS, SMALL

TYPO, WAITS = "Defualt", "drive 1 waits for a volume of pool Defualt"
REQUEST = [f"request 1 {TYPO} File", "ok requests 1"]
# The figures are written so often.
FIGURES = 12


def placed(folder: pathlib.Path, drives: int, lanes: int) -> Place:
    """A daemon with so many drives of one media, of so many lanes each."""
    place = Place(folder, "queue = 1\n" + SMALL)
    place.figures = folder / "figures.prom"
    with open(place.conf, "a") as conf:
        conf.write(f"lanes = {lanes}\n")
        for number in range(2, drives + 1):
            more = folder / f"volumes-{number}"
            more.mkdir()
            conf.write(drive("File", more, f"lanes = {lanes}"))
    return place


def label(place: Place, number: int, volume: str, pool: str) -> list[str]:
    with place.talk() as talk:
        return talk.console(f"label {number} {volume} {pool} File")


def is_figure(place: Place, text: str) -> bool:
    return until(lambda: place.figures.exists() and f"{text}\n" in place.figures.read_text(), FIGURES)


def sends(talk: client.Talk, pool: str, packets: list[bytes] = OUTGROWS) -> int:
    """Opens a session of that pool and sends records, whose answer isn't read. Its number."""
    ticket = client.open_session(talk, 7, pool, "File")
    talk.ask(f"append data {ticket}")
    end = client.signal(client.END_OF_DATA)
    talk.send(client.text_packet("1 2 0"), *packets, end, end)
    return ticket


def heads(place: Place) -> list[str]:
    with place.talk() as talk:
        return [line for line in talk.console("status") if line.startswith("drive ")]


def given_up(checks: Checks, folder: pathlib.Path, _: pathlib.Path):
    """A client of a wrong pool waits and goes away, or gives its session up; a client of the right pool is refused before
    that, and served after it. A drive of another client's goes on meanwhile."""
    for how in ("goes away", "is refused"):
        for drives in (1, 2):
            place = placed(folder / f"given_up-{how.replace(' ', '-')}-{drives}", drives, 1)
            words = ("--wait", "600" if how == "goes away" else str(SECONDS), "--metrics", str(place.figures))
            with place.daemon(*words) as daemon:
                place.label(checks)
                if drives == 2:
                    # Drive 1 has the fewest sessions and comes first; a volume that is loaded draws the pool's jobs.
                    checks.same("label", label(place, 2, "Vol-0002", "Default"), ["ok labelled"])
                with place.talk() as typo, place.talk() as right:
                    ticket = sends(typo, TYPO)
                    checks.check(f"{how}: it is logged", daemon.logs(WAITS), daemon.log())
                    checks.same(f"{how}: it is asked for", right.console("requests"), REQUEST)
                    if how == "goes away":
                        checks.check(f"{how}: the figure", is_figure(place, 'sdd_waits_for_volume{drive="1"} 1'))
                    if drives == 1:
                        said = refused(client.open_session, right, 7, "Default", "File")
                        checks.same(f"{how}: no lane", said, "3911 No free lane")
                    else:
                        place.serves(checks, f"{how}: the other drive")
                    if how == "is refused":
                        checks.same(f"{how}: its records", refused(typo.line), "3908 Busy")
                        said = refused(typo.ask, f"append end session {ticket}")
                        checks.same(f"{how}: its session", said, "3906 Session cancelled")
                free = until(lambda: heads(place)[0].endswith(" 0"), SOON)
                checks.check(f"{how}: its lane is free", free, heads(place))
                for _ in range(2):
                    came = refused(place.job)
                    is_back = isinstance(came, list) and place.read(came) == b"hello"
                    checks.check(f"{how}: the right pool, {drives} drives", is_back, came)


def at_its_moments(checks: Checks, folder: pathlib.Path, _: pathlib.Path):
    """The refusals of such a job come when they are due: at once without `--wait`, and after that time with it."""
    for seconds in (0, SECONDS):
        place = placed(folder / f"at_its_moments-{seconds}", 1, 2)
        with place.daemon("--wait", str(seconds)):
            place.label(checks)
            with place.talk() as talk:
                begun = time.monotonic()
                sends(talk, TYPO)
                checks.same(f"records, {seconds} s", refused(talk.line), "3908 Busy")
                took = time.monotonic() - begun
                checks.check(f"its moment, {seconds} s", seconds <= took < seconds + LATE, f"{took:.2f} s")
            with place.talk() as talk:
                ticket = client.open_session(talk, 7, TYPO, "File")
                client.append_packets(talk, ticket, HELLO)
                talk.ask(f"append end session {ticket}")
                begun = time.monotonic()
                checks.same(f"a close, {seconds} s", refused(talk.ask, f"append close session {ticket}"), "3907 Not yet")
                took = time.monotonic() - begun
                checks.check(f"its moment, {seconds} s", seconds <= took < seconds + LATE, f"{took:.2f} s")
                # It may be given up or closed once there is a volume.
                checks.same("it is ended", [line for line in talk.console("status") if line.startswith(f"session {ticket} ")],
                            [f"session {ticket} ended 1"])
            free = until(lambda: heads(place)[0].endswith(" 0"), SOON)
            checks.check(f"its lane is free, {seconds} s", free, heads(place))
            came = refused(place.job)
            checks.check(f"the right pool, {seconds} s", isinstance(came, list), came)


def has_a_volume_then(checks: Checks, folder: pathlib.Path, _: pathlib.Path):
    """A volume is labelled for the pool while its job waits: it goes on with it, and is read back."""
    place = placed(folder / "has_a_volume_then", 1, 2)
    with place.daemon("--wait", "60") as daemon, place.talk() as talk:
        place.label(checks)
        records = [client.packet(bytes([at]) * 700) for at in range(8)]
        ticket = sends(talk, TYPO, records)
        checks.check("it waits", daemon.logs(WAITS), daemon.log())
        checks.same("label", label(place, 1, "Vol-0002", TYPO), ["ok labelled"])
        checks.same("it goes on", talk.line(), "3000 OK append data")
        lines = client.close_session(talk, ticket)
        checks.same("its volume", [line.split()[1] for line in lines[1:]], ["Vol-0002"])
        checks.same("its records", place.records(lines), [one[4:] for one in records])
        checks.same("no request is left", talk.console("requests"), ["ok requests 0"])


GROUPS = (given_up, at_its_moments, has_a_volume_then)
