"""What a daemon may meet: clients that take nothing, that send what is dropped; another daemon
over its folder; being out of memory; a log that nobody reads or that isn't wanted; being stopped for a while; a limit
of its files. No signal is masked here. tests/serve/run runs it.
"""
import collections
import concurrent.futures
import contextlib
import itertools
import os
import re
import resource
import signal
import socket
import subprocess
import time

from clients import client, say
from daemon import LOCK, SDTOOL, WAIT, Daemon, dated, drive, free_port, listed, serve_status, until
from shim import loaded

# So much is neither kept by the system for a client that reads nothing, nor long to write.
MORE_THAN_WAITS = 24_000_000
WANT = "3960 Want of memory"
# Lines in the place of a span, none of which is one: another word, a field too few or too many, a number that is none or out
# of its range, a name that is none, another line of the text, two lines, no line, and what is no ASCII.
NO_SPANS = (b"no span", b"span Vol-0001 1 1 1 92", b"span Vol-0001 1 1 1 92 259 7", b"span Vol-0001 01 1 1 92 259",
            b"span Vol-0001 1 4294967296 1 92 259", b"span Vol~0001 1 1 1 92 259", b"session 1 1",
            b"span Vol-0001 1 1 1 92 259\nspan Vol-0001 2 1 1 259 300", b"", "span V\u00f6l 1 1 1 92 259".encode())
# What a client sends after one of them, and what that may cost: less than a third of it.
DROPPED = [client.packet(b"x" * 1_000_000)] * 30
MOST_GROWN = 10_000_000
HELLO, HELLO_READ = [client.packet(b"hello")], b"rec 1 2 5\nhello\nok read 1 5 ended\n"
# At least so many allocations come before the daemon listens, and so many in the talks after that.
LEAST_ALLOCATIONS, LEAST_WANTS = 100, 10
# Among so many of its last are those of the settling of a drive. How a daemon ends that settles it, and one that can't: what
# it prints, its status, and the last line of its log.
LAST_ALLOCATIONS = 40
SETTLED, UNSETTLED = ("", 0, "drive 1 is settled"), ("fault settle 1\n", 1, "drive 1 can't be settled")


class Place:
    """A folder with a daemon's configuration and volumes, and what is said to that daemon."""

    def __init__(self, folder, settings=""):
        folder.mkdir()
        self.folder, self.conf, self.port = folder, folder / "conf", free_port()
        self.volumes = folder / "volumes"
        self.volumes.mkdir()
        self.conf.write_text(f"port = {self.port}\n{settings}" + drive("File", self.volumes))

    def daemon(self, *words, **options):
        return Daemon(self.conf, *words, port=self.port, **options)

    def talk(self):
        return client.Talk(self.port, timeout=WAIT)

    def say(self, *words):
        return say(self.port, *words)

    def label(self, checks, name="Vol-0001"):
        checks.same(f"label {name}", self.say("console", "label", "1", name, "Default", "File"), ("ok labelled\n", 0))

    def job(self, packets=HELLO):
        """The lines of a job of its own."""
        with self.talk() as talk:
            ticket = client.open_session(talk, 7, "Default", "File")
            client.append_packets(talk, ticket, packets)
            return client.close_session(talk, ticket)

    def records(self, lines):
        """The data of each record of the session with these lines, over a talk of its own."""
        records = []
        with self.talk() as talk:
            client.read_session(talk, lines, lambda index, stream, one: records.append(one))
        return records

    def read(self, lines):
        """The data of the records of the session with these lines, one after the other, over a talk of its own."""
        return b"".join(self.records(lines))

    def serves(self, checks, what):
        """The daemon goes on: a job is closed, and read back."""
        checks.same(f"{what}: a job", self.read(self.job()), b"hello")


def takes_nothing(checks, folder, library):
    """A client that takes nothing of what it is sent loses its connection, and the next one is served."""
    place = Place(folder / "takes_nothing")
    with place.daemon(env=loaded(library, QUIET_SECONDS=1)) as daemon:
        place.label(checks)
        lines = place.job([client.packet(bytes(1_000_000))] * (MORE_THAN_WAITS // 1_000_000))
        with socket.create_connection(("127.0.0.1", place.port)) as quiet:
            _, seconds, number = lines[0].split()
            quiet.sendall(client.text_packet(f"read session Time={seconds} Id={number}")
                          + b"".join(map(client.text_packet, lines[1:])) + client.signal(client.END_OF_DATA))
            place.serves(checks, "behind a client that takes nothing")
            ends = until(lambda: [line for line in daemon.log() if line.endswith(" ended: nothing could be written")])
        checks.same("how it ended", len(ends), 1)


def raises(kind, act, *words):
    try:
        act(*words)
    except kind:
        return True
    return False


def without_log(checks, folder, _):
    """Without `--log` a daemon serves as ever, and says nothing on standard output or error."""
    place = Place(folder / "without_log")
    with place.daemon("--talks", "6", log=False) as daemon:
        place.label(checks)
        place.serves(checks, "without a log")
        checks.same("a fault", place.say("console", "adopt", "1", "Vol-0009")[1], 1)
        with place.talk() as talk:
            client.open_session(talk, 7, "Default", "File")
        with socket.create_connection(("127.0.0.1", place.port)) as broken:
            broken.sendall(b"\x7f")
        checks.same("printed, and its status", daemon.wait(), ("", 0))
        checks.same("logged", daemon.log(), [])


def log_unread(checks, folder, _):
    """When the log's reader goes away, the daemon goes on."""
    place = Place(folder / "log_unread")
    reads, writes = os.pipe()
    with place.daemon("--log", log=False, stderr=writes) as daemon:
        os.close(writes)
        with open(reads) as log:
            checks.check("the log", dated(log.readline().rstrip("\n"))[1].startswith("listening on "))
        place.label(checks)
        place.serves(checks, "with a log that nobody reads")
        checks.same("it runs", daemon.process.poll(), None)


def stopped_a_while(checks, folder, _):
    """A daemon that is stopped and goes on serves as before. The job that it was at is closed and read, as what was closed
    before is."""
    place = Place(folder / "stopped_a_while")
    with place.daemon() as daemon:
        place.label(checks)
        lines = place.job()
        for data_comes in (False, True):
            with place.talk() as talk:
                ticket = client.open_session(talk, 8, "Default", "File")
                if data_comes:
                    talk.ask(f"append data {ticket}")
                    talk.send(client.text_packet("1 2 0"))
                time.sleep(0.1)
                daemon.process.send_signal(signal.SIGSTOP)
                await_state(daemon.process.pid, "T")
                daemon.process.send_signal(signal.SIGCONT)
                time.sleep(0.1)
                checks.same("its job", place.read(went_on(talk, ticket, data_comes)), b"hello")
        checks.same("what was closed", place.read(lines), b"hello")
        place.serves(checks, "behind a stop")


def went_on(talk, ticket, data_comes):
    """Goes on with the job of a talk, closes it, and gives its lines."""
    if not data_comes:
        talk.ask(f"append data {ticket}")
        talk.send(client.text_packet("1 2 0"))
    end = client.signal(client.END_OF_DATA)
    talk.send(*HELLO, end, end)
    talk.line()
    return client.close_session(talk, ticket)


def await_state(process, state):
    until = time.monotonic() + WAIT
    while f") {state} " not in open(f"/proc/{process}/stat").read() and time.monotonic() < until:
        time.sleep(0.01)


def limited_files(checks, folder, _):
    """A daemon whose files the system limits (LimitFSIZE) is ended by the system at a longer one. What was closed lasts,
    and a run without the limit goes on with the volume."""
    place = Place(folder / "limited_files")
    limit = {"preexec_fn": lambda: resource.setrlimit(resource.RLIMIT_FSIZE, (200_000, 200_000))}
    with place.daemon(**limit) as daemon:
        place.label(checks)
        lines = place.job()
        checks.check("a longer file", raises(client.Lost, place.job, 5 * [client.packet(bytes(100_000))]))
        checks.same("its end", daemon.process.wait(timeout=WAIT), -signal.SIGXFSZ)
    time.sleep(1.1)
    with place.daemon():
        said, status = place.say("adopt-all", str(place.conf))
        checks.check("adopted", status == 0 and said.startswith("Vol-0001: ok adopted "), said)
        checks.same("what was closed", place.read(lines), b"hello")
        place.serves(checks, "without the limit")


def beside(place, *folders, settings=""):
    """The configuration of another daemon, over these folders, and its port."""
    port = free_port()
    conf = place.folder / f"conf-{port}"
    conf.write_text(f"port = {port}\n{settings}" + "".join(drive("File", folder) for folder in folders))
    return conf, port


def holds(folder):
    """What the files of a folder hold but for notes, and their modes."""
    return {name: ((folder / name).read_bytes(), (folder / name).stat().st_mode & 0o777) for name in listed(folder)}


def two_daemons(checks, folder, _):
    """Another daemon over a folder that is served is refused, on a port of its own too, and changes nothing there. Once the
    first one is killed it starts, and reads what was closed. The lock's file is no volume to the tool."""
    place = Place(folder / "two_daemons")
    free = place.folder / "free"
    free.mkdir()
    conf, port = beside(place, free, place.volumes)
    with place.daemon() as daemon:
        place.label(checks)
        lines = place.job()
        held = holds(place.volumes)
        checks.same("the lock", held[LOCK], (b"", 0o600))
        for _ in range(2):
            checks.same("the second", serve_status(conf), (f"fault folder {place.volumes} locked\n", 1))
        checks.same("the folder", holds(place.volumes), held)
        place.serves(checks, "beside another")
        for word in ("scan", "verify"):
            done = subprocess.run([SDTOOL, word, place.volumes], capture_output=True, text=True, timeout=WAIT)
            checks.check(word, done.returncode == 0 and "lock" not in done.stdout + done.stderr, done.stdout)
        daemon.kill()
    time.sleep(1.1)
    with Daemon(conf, port=port):
        checks.same("the first, behind it", serve_status(place.conf), (f"fault folder {place.volumes} locked\n", 1))
        checks.same("adopted", say(port, "console", "adopt", "2", "Vol-0001")[1], 0)
        place.port = port
        checks.same("what was closed", place.read(lines), b"hello")


def one_folder(checks, folder, _):
    """Drives of one folder start, even if it is named in other ways; and no other daemon has it by any of its names."""
    place = Place(folder / "one_folder")
    link = place.folder / "link"
    link.symlink_to(place.volumes)
    names = (place.volumes, place.volumes, f"{place.volumes}/.", link, f"{link}/../volumes")
    place.conf.write_text(f"port = {place.port}\n" + "".join(drive("File", name) for name in names))
    with place.daemon():
        for number, _ in enumerate(names, 1):
            said = place.say("console", "label", str(number), f"Vol-{number}", "Default", "File")
            checks.same(f"label on drive {number}", said, ("ok labelled\n", 0))
        for name in names:
            checks.same(f"as {name}", serve_status(beside(place, name)[0]), (f"fault folder {name} locked\n", 1))


def spooling(folder):
    """The settings of a daemon whose spools lie in this folder."""
    return f'spool = 1000000\nspool_folder = "{folder}"\n'


def one_spool_folder(checks, folder, _):
    """A daemon is refused whose spools would lie in the folder of another's spools, by any of its names, or in that of its
    volumes; or whose volumes would lie among another's spools. One that doesn't spool may name the folder."""
    place = Place(folder / "one_spool_folder", spooling(folder / "one_spool_folder" / "spools"))
    spools, free = place.folder / "spools", place.folder / "free"
    spools.mkdir()
    free.mkdir()
    with place.daemon():
        place.label(checks)
        for name in (spools, f"{spools}/.", place.volumes):
            conf, _ = beside(place, free, settings=spooling(name))
            checks.same(f"spools in {name}", serve_status(conf), (f"fault folder {name} locked\n", 1))
        checks.same("volumes among spools", serve_status(beside(place, spools)[0]), (f"fault folder {spools} locked\n", 1))
        conf, port = beside(place, free, settings=f'spool_folder = "{spools}"\n')
        with Daemon(conf, port=port):
            said = say(port, "console", "label", "1", "Vol-0002", "Default", "File")
            checks.same("without spooling", said, ("ok labelled\n", 0))
        place.serves(checks, "beside them")


def volumes_and_spools(checks, folder, _):
    """A daemon may have its volumes and its spools in one folder."""
    place = Place(folder / "volumes_and_spools", spooling(folder / "volumes_and_spools" / "volumes"))
    with place.daemon():
        place.label(checks)
        place.serves(checks, "with its spools among its volumes")


def without_lock(checks, folder, _):
    """If something other than a file has the name of the lock's, it stays as it is, and the daemon serves without a
    lock."""
    kinds = {"folder": os.mkdir, "pipe": os.mkfifo, "link": lambda path: path.symlink_to("nothing")}
    for kind, make in kinds.items():
        place = Place(folder / f"without_lock-{kind}")
        make(place.volumes / LOCK)
        made = (place.volumes / LOCK).lstat().st_mode
        with place.daemon():
            place.label(checks)
            place.serves(checks, f"beside a {kind}")
        checks.same(f"the {kind}", (place.volumes / LOCK).lstat().st_mode, made)
        checks.same("files", listed(place.volumes), [LOCK, "Vol-0001"])


def dropped_spans(checks, folder, _):
    """After a line that is no span, what a client sends of a read is dropped as it comes: the daemon's memory doesn't
    grow with it. The refusal is where the reply would be, and the talk goes on."""
    place = Place(folder / "dropped_spans")
    with place.daemon() as daemon, place.talk() as talk:
        checks.same("before", talk.console("requests"), ["ok requests 0"])
        most = daemon.memory("VmPeak")
        for line in NO_SPANS:
            spans = (b"span Vol-0001 1 1 1 92 259", line)
            talk.send(client.text_packet("read session Time=1 Id=1"), *map(client.packet, spans))
            talk.send(*DROPPED)
            talk.send(client.signal(client.END_OF_DATA))
            checks.same(f"{line}", (talk.receive(), talk.receive()), (client.END_OF_DATA, b"3950 Bad span\n"))
        grown = daemon.memory("VmPeak") - most
        checks.check("memory", grown < MOST_GROWN, grown)
        checks.same("behind it", talk.console("requests"), ["ok requests 0"])


def want_of_memory(checks, folder, library):
    """Each allocation of a daemon that serves a label, a job, its reading and the status is refused in turn. The daemon
    says so before it listens, or refuses, or ends that talk. Given once more all goes well, and what was closed is read."""
    counted = allocations(checks, folder, library)
    kinds = collections.Counter()
    with concurrent.futures.ThreadPoolExecutor(os.cpu_count()) as pool:
        numbers = range(1, counted + 1)
        for number, (kind, faults) in zip(numbers, pool.map(wanting, itertools.repeat((folder, library)), numbers)):
            kinds[kind] += 1
            checks.same(f"allocation {number}", faults, [])
    checks.check("want of memory", kinds["not started"] > 0 and kinds["refused"] >= LEAST_WANTS, kinds)


def wanting(where, number):
    """A daemon whose allocation of that number is refused: what came of that first, and what is wrong."""
    folder, library = where
    place = Place(folder / f"wanting-{number}")
    try:
        daemon = place.daemon(env=loaded(library, FAIL_ALLOC=number))
    except TimeoutError:
        printed = place.conf.with_suffix(".out").read_text()
        return "not started", [] if printed == f"{WANT}\n" else [printed]
    with daemon:
        came, faults = served(place)
        if daemon.process.poll() is not None:
            faults.append(f"the daemon ended: {daemon.log()}")
    return (came or ["unseen"])[0], faults


def allocations(checks, folder, library):
    """How many allocations a daemon makes that does all this and ends."""
    place, count = Place(folder / "ample"), folder / "count"
    with place.daemon("--talks", "4", env=loaded(library, COUNT_ALLOC=count)) as daemon:
        checks.same("with ample memory", (served(place), daemon.wait()), (([], []), ("", 0)))
    counted = sum(map(int, count.read_text().split()))
    checks.check("allocations", counted >= LEAST_ALLOCATIONS, counted)
    return counted


def served(place):
    """Has a label, a job that is read, and the status; each once more if it was out of memory. Gives what came of that,
    and what is wrong."""
    came, faults = [], []
    for act in (labelled, closed_and_read, shown):
        for _ in range(2):
            try:
                if not act(place):
                    faults.append(f"{act.__name__} comes otherwise")
                break
            except client.Refused as why:
                came.append("refused")
                if str(why) != WANT:
                    faults.append(f"{act.__name__}: {why}")
            except client.Lost:
                came.append("lost")
        else:
            faults.append(f"{act.__name__} comes to no end: {came}")
    return came, faults


def unsettled(checks, folder, library):
    """The last allocations of a daemon that ends are refused, one in each run. A drive that can't be settled for that is
    told by a line and by the status, and in the log. What was closed is read all the same."""
    count, kinds = folder / "settling-count", collections.Counter()
    checks.same("with ample memory", ended(checks, folder / "settling", loaded(library, COUNT_ALLOC=count)), SETTLED)
    counted = sum(map(int, count.read_text().split()))
    checks.check("allocations", counted >= LEAST_ALLOCATIONS, counted)
    for number in range(counted, max(0, counted - LAST_ALLOCATIONS), -1):
        came = ended(checks, folder / f"settling-{number}", loaded(library, FAIL_ALLOC=number))
        checks.check(f"allocation {number}", came in (SETTLED, UNSETTLED) or came[:2] == (f"{WANT}\n", 1), came)
        kinds[came] += 1
    checks.check("unsettled", kinds[UNSETTLED] > 0, kinds)


def ended(checks, folder, env):
    """What a daemon prints that ends after a job, its status, and the last line of its log. What was closed is read."""
    place, lines = Place(folder), []
    with place.daemon("--talks", "1", env=env) as daemon:
        with contextlib.suppress(client.Failed), place.talk() as talk:
            talk.console("label 1 Vol-0001 Default File")
            ticket = client.open_session(talk, 7, "Default", "File")
            client.append_packets(talk, ticket, HELLO)
            lines = client.close_session(talk, ticket)
        came = (*daemon.wait(), daemon.log()[-1])
    if lines:
        checks.same(f"{folder.name}: its job", read_by_tool(place, lines), HELLO_READ)
    return came


def labelled(place):
    """A volume is labelled, under a new name if the first one was refused: such a label may leave its name."""
    place.names = getattr(place, "names", 0) + 1
    with place.talk() as talk:
        return talk.console(f"label 1 Vol-000{place.names} Default File") == ["ok labelled"]


def closed_and_read(place):
    lines = place.job()
    return read_by_tool(place, lines) == HELLO_READ and place.read(lines) == b"hello"


def read_by_tool(place, lines, volumes=None):
    """What `sdtool read` prints of the session with these lines, from the place's first drive or another folder."""
    spans = place.folder / "spans"
    spans.write_text("".join(f"{line}\n" for line in lines))
    return subprocess.run([SDTOOL, "read", spans, volumes or place.volumes], capture_output=True, timeout=WAIT).stdout


def shown(place):
    with place.talk() as talk:
        return re.fullmatch(r"session \d+ closed 1", talk.console("status")[-2]) is not None


GROUPS = (takes_nothing, without_log, log_unread, stopped_a_while, limited_files, two_daemons, one_folder, one_spool_folder,
          volumes_and_spools, without_lock, dropped_spans, want_of_memory, unsettled)
