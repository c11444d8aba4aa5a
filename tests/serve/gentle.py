"""A stop by a file (`sdd serve --until FILE`): once it is there no client comes in any more, those that are there come to their
end, and the daemon ends. Jobs on two drives go on meanwhile, also if the folder of one vanishes; a daemon at its bound of
connections; a job that waits for a volume; and a stop that is killed. tests/serve/run runs it.
"""
import configparser
import contextlib
import errno
import os
import random
import shlex
import shutil
import signal
import socket
import subprocess
import threading
import time

from clients import client
from crowds import MOST_TALKS, Two
from daemon import ROOT, SDD, SOON, WAIT, later_second, until
from hardships import HELLO, Place, await_state
from waiting import SMALL, WAITS

# The file is looked for about once a second; a loaded machine takes longer.
LOOKED = 5
# A job waits so many seconds for a volume.
SECONDS = 3


def ends_at(place):
    """The file that ends the daemon of a place."""
    return place.folder / "stop"


def ending(place, *words, **options):
    """A daemon that the file ends."""
    return place.daemon("--until", str(ends_at(place)), *words, **options)


def told(place, count):
    """The line of the log that tells of the file, with so many connections open."""
    return f"{ends_at(place)} is there: no connection is taken any more, {count} are open"


def takes_none(place):
    """Whether no connection is taken any more, or isn't soon."""
    def refuses():
        with socket.socket() as one:
            one.settimeout(LOOKED)
            return one.connect_ex(("127.0.0.1", place.port)) == errno.ECONNREFUSED

    return until(refuses, LOOKED)


def stop(checks, place, daemon, count):
    """Makes the file. The daemon tells of it, with so many connections, and takes none more."""
    begun = time.monotonic()
    ends_at(place).touch()
    checks.check("it tells of the file", daemon.logs(told(place, count)), daemon.log()[-3:])
    checks.check("soon", time.monotonic() - begun < LOOKED, time.monotonic() - begun)
    checks.check("no client comes in", takes_none(place))


def there_at_start(checks, folder, _):
    """If the file is there at the start, the daemon listens, takes no connection and ends; whatever it is, but a link to
    nothing. Nothing is left but its lock."""
    for number, make in enumerate((lambda path: path.touch(), lambda path: path.mkdir(), lambda path: path.symlink_to("conf"))):
        place = Place(folder / f"there_at_start-{number}")
        make(ends_at(place))
        words = [SDD, "serve", place.conf, "--until", ends_at(place), "--log"]
        run = subprocess.run(words, capture_output=True, text=True, timeout=WAIT)
        checks.same("its end", (run.stdout, run.returncode), ("", 0))
        log = [line.split(" ", 1)[1] for line in run.stderr.splitlines()]
        checks.check("it listened", log and log[0].startswith(f"listening on {place.port} "), log)
        checks.same("its log", log[1:], [told(place, 0)])


def never_there(checks, folder, _):
    """A file that doesn't come, or can't be looked at, ends nothing: `--talks` does."""
    for name in ("stop", "nowhere/stop", "conf/stop", "s" * 300, ""):
        place = Place(folder / f"never_there-{len(name)}")
        with place.daemon("--talks", "3", "--until", str(place.folder / name) if name else "") as daemon:
            place.label(checks)
            place.serves(checks, f"until {name[:20]!r}")
            checks.same("its end", daemon.wait(), ("", 0))
            checks.same("its drive", daemon.log()[-1], "drive 1 is settled")


def link_to_nothing(checks, folder, _):
    """A link to nothing isn't there; once what it names is, the daemon ends, also while nobody comes."""
    place = Place(folder / "link_to_nothing")
    ends_at(place).symlink_to("later")
    with ending(place) as daemon:
        place.label(checks)
        time.sleep(2)
        place.serves(checks, "beside a link to nothing")
        (place.folder / "later").touch()
        checks.same("its end", daemon.wait(), ("", 0))
        checks.same("its log", daemon.log()[-1], told(place, 0))


def under_jobs(checks, folder, _):
    """Two jobs run on two drives as the file comes. They go on, and are closed; meanwhile no client comes in. The daemon ends
    after them, and the next run reads both."""
    place, data = Two(folder / "under_jobs"), random.Random(5).randbytes(300_000)
    with ending(place) as daemon:
        place.labels(checks)
        with contextlib.ExitStack() as stack:
            talks = [stack.enter_context(place.talk()) for _ in range(2)]
            tickets = [client.open_session(talk, 7, "Default", media) for talk, media in zip(talks, ("File", "Tape"))]
            for talk, ticket in zip(talks, tickets):
                client.append_packets(talk, ticket, [client.packet(data)])
            stop(checks, place, daemon, 2)
            for _ in range(3):
                for talk, ticket in zip(talks, tickets):
                    client.append_packets(talk, ticket, [client.packet(data)])
                time.sleep(0.5)
            checks.check("it goes on", daemon.process.poll() is None)
            lines = [client.close_session(talk, ticket) for talk, ticket in zip(talks, tickets)]
            for talk in talks:
                talk.terminate()
        checks.same("its end", daemon.wait(), ("", 0))
        checks.check("no drive is settled", not [line for line in daemon.log() if line.startswith("drive ") and "settled" in line], daemon.log()[-2:])
    later_second()
    ends_at(place).unlink()
    with ending(place):
        adopted = [place.say("console", "adopt", str(number), f"Vol-000{number}")[1] for number in (1, 2)]
        checks.same("adopted", adopted, [0, 0])
        checks.same("read back", [place.read(one) == 4 * data for one in lines], [True, True])


def at_its_bound(checks, folder, _):
    """As many connections are open as may be, and the daemon waits for one to end: it sees the file all the same, and ends
    after them."""
    place = Place(folder / "at_its_bound")
    with ending(place) as daemon, contextlib.ExitStack() as stack:
        talks = [stack.enter_context(place.talk()) for _ in range(MOST_TALKS)]
        checks.same("all at once", {tuple(talk.console("requests")) for talk in talks}, {("ok requests 0",)})
        stop(checks, place, daemon, MOST_TALKS)
        checks.same("they go on", {tuple(talk.console("requests")) for talk in talks}, {("ok requests 0",)})
        for talk in talks:
            talk.terminate()
        checks.same("its end", daemon.wait(), ("", 0))


def waits_for_a_volume(checks, folder, _):
    """A job that waits for a volume waits on as long as `--wait` says, since nobody can come and label one; then it is refused,
    and the daemon ends."""
    place = Place(folder / "stop-waits_for_a_volume", "queue = 1\n" + SMALL)
    with ending(place, "--wait", str(SECONDS)) as daemon:
        with place.talk() as talk:
            ticket = client.open_session(talk, 7, "Default", "File")
            client.append_packets(talk, ticket, HELLO)
            talk.ask(f"append end session {ticket}")
            talk.send(client.text_packet(f"append close session {ticket}"))
            checks.check("the drive waits", daemon.logs(WAITS), daemon.log())
            stop(checks, place, daemon, 1)
            checks.same("its answer", talk.receive(), b"3907 Not yet\n")
            talk.terminate()
        checks.same("its status", daemon.wait()[1], 0)


def stopped_meanwhile(checks, folder, _):
    """The daemon is stopped by a signal for a while as it comes to its end, and then goes on to that: its last job is
    closed."""
    place = Two(folder / "stopped_meanwhile")
    with ending(place) as daemon:
        place.labels(checks)
        with place.talk() as talk:
            ticket = client.open_session(talk, 7, "Default", "Tape")
            client.append_packets(talk, ticket, HELLO)
            stop(checks, place, daemon, 1)
            daemon.process.send_signal(signal.SIGSTOP)
            await_state(daemon.process.pid, "T")
            time.sleep(1)
            daemon.process.send_signal(signal.SIGCONT)
            lines = client.close_session(talk, ticket)
            talk.terminate()
        checks.same("its end", daemon.wait(), ("", 0))
        checks.same("its lines", [line.split()[1] for line in lines[1:]], ["Vol-0002"])


def drive_vanishes(checks, folder, _):
    """The folder of a drive is removed as the file comes. The job on the other drive is closed; one on this drive comes to an
    end too, by what its client is told or by going away; and the daemon ends."""
    place = Two(folder / "drive_vanishes")
    with ending(place) as daemon:
        place.labels(checks)
        with place.talk() as lasts, place.talk() as lost:
            tickets = [client.open_session(talk, 7, "Default", media) for talk, media in ((lasts, "File"), (lost, "Tape"))]
            client.append_packets(lasts, tickets[0], HELLO)
            client.append_packets(lost, tickets[1], HELLO)
            shutil.rmtree(place.tape)
            stop(checks, place, daemon, 2)
            checks.check("its lines", client.close_session(lasts, tickets[0]))
            lasts.terminate()
        checks.same("its end", daemon.wait()[1], 0)


def killed(checks, folder, _):
    """A stop that takes too long is killed. What was closed before lasts, and what was closed during the stop; the job that
    went on is lost, and cut off."""
    place, data = Place(folder / "killed"), random.Random(6).randbytes(200_000)
    with ending(place) as daemon:
        place.label(checks)
        before = place.job([client.packet(data)])
        with place.talk() as during, place.talk() as goes_on:
            ticket = client.open_session(during, 8, "Default", "File")
            other = client.open_session(goes_on, 9, "Default", "File")
            stop(checks, place, daemon, 2)
            client.append_packets(during, ticket, [client.packet(data)])
            client.append_packets(goes_on, other, [client.packet(data)])
            closed = client.close_session(during, ticket)
            daemon.kill()
    later_second()
    ends_at(place).unlink()
    with ending(place) as daemon:
        checks.same("adopted", place.say("console", "adopt", "1", "Vol-0001")[1], 0)
        checks.same("read back", [place.read(one) == data for one in (before, closed)], [True, True])
        stop(checks, place, daemon, 0)
        checks.same("its end", daemon.wait(), ("", 0))


def by_the_unit(checks, folder, _):
    """What the unit gives at a stop ends a daemon that has a job, after that; and what it gives before a start removes the
    file."""
    place = Place(folder / "by_the_unit")
    unit = configparser.ConfigParser(strict=False, interpolation=None)
    unit.optionxform = str
    unit.read(ROOT / "examples" / "sdd.service")
    service = unit["Service"]
    start, file = shlex.split(service["ExecStart"]), "/run/sdd/stop"
    checks.same("its file", start[start.index("--until") + 1], file)
    checks.check("its folder", service["RuntimeDirectory"] == "sdd")
    checks.check("its bound", 60 <= int(service["TimeoutStopSec"]) <= 3600)
    lines = (ROOT / "examples" / "sdd.service").read_text().splitlines()
    checks.check("it is removed", f"ExecStartPre=/bin/rm -f {file}" in lines)
    words = shlex.split(service["ExecStop"].replace(file, str(ends_at(place))))
    with ending(place) as daemon:
        place.label(checks)
        with place.talk() as talk:
            ticket = client.open_session(talk, 7, "Default", "File")
            env = {**os.environ, "MAINPID": str(daemon.process.pid)}
            stopping = subprocess.Popen(words, env=env)
            # The daemon's end is seen once somebody asks for its status, as the system does for a unit.
            ended = threading.Thread(target=daemon.process.wait)
            ended.start()
            checks.check("it tells of the file", daemon.logs(told(place, 1)), daemon.log())
            checks.check("it waits", stopping.poll() is None)
            client.append_packets(talk, ticket, HELLO)
            checks.check("it is closed", client.close_session(talk, ticket))
            talk.terminate()
        checks.same("the stop", stopping.wait(timeout=WAIT), 0)
        ended.join(timeout=SOON)
        checks.same("its end", daemon.wait(), ("", 0))


GROUPS = (there_at_start, never_there, link_to_nothing, under_jobs, at_its_bound, waits_for_a_volume,
          stopped_meanwhile, drive_vanishes, killed, by_the_unit)
