"""The figures that a daemon writes to a file (`--metrics`), compared with what its clients did: a job of known records, one that
is cancelled, a restore; a drive that waits for a volume, volumes that are full, one with which the device fails; and a file
that can't be written. tests/serve/run runs it.
"""
import collections
import concurrent.futures
import contextlib
import errno
import os
import re
import stat

from clients import client
from crowds import MOST_TALKS, Two
from daemon import ROOT, SOON, until
from hardships import HELLO, SETTLED, UNSETTLED, WANT, Place
from noters import noters
from shim import loaded
from waiting import OUTGROWS, SMALL, WAITS

FILE = "figures.prom"
# A sample: its name, its labels and its value, a number or seconds to the microsecond.
SAMPLE = re.compile(r"(sdd_[a-z_]+(?:\{[a-z]+=\"[\w:. -]+\"(?:,[a-z]+=\"[\w:. -]+\")*\})?) (\d+|\d+\.\d{6})")
HELP, TYPE = re.compile(r"# HELP (sdd_[a-z_]+) \S.*"), re.compile(r"# TYPE (sdd_[a-z_]+) (counter|gauge)")
# The figures that each drive has one of, of a drive that did nothing, with the lanes that it has if nothing else is
# said.
OF_A_DRIVE = {"sdd_records_total": 0, "sdd_bytes_total": 0, "sdd_blocks_total": 0, "sdd_block_bytes_total": 0,
              "sdd_syncs_total": 0, "sdd_free_lanes": 4, "sdd_queued_blocks": 0, "sdd_volume_waits_total": 0,
              "sdd_waits_for_volume": 0, "sdd_full_volumes_total": 0, "sdd_damaged_volumes": 0, "sdd_missing_volumes": 0,
              "sdd_note_failures_total": 0}
SESSIONS = ("active", "ended", "closed", "cancelled", "failed")
SINGLE = ("sdd_restored_records_total", "sdd_restored_bytes_total", "sdd_labels_total", "sdd_refused_labels_total",
          "sdd_adoptions_total", "sdd_refused_adoptions_total", "sdd_talks_total", "sdd_talks", "sdd_talks_with_session",
          "sdd_talks_bound")
# Why a job is refused.
WHY = ("3909 No session number left", "3910 No drive of this media", "3911 No free lane", "3920 Spool fault",
       "3960 Want of memory")
QUEUED = 'sdd_queued_blocks{drive="1"}'
SYNC_SECONDS, OLDEST = "sdd_sync_seconds_total", "sdd_oldest_talk_seconds"
# How many seconds go by between two writings.
PERIOD = 10
# Records of several blocks each, and what the figure of a queue for one block may be that they fill while the drive hangs: the
# block in the drive's hand is counted with it until the turn that it was taken in is over.
FILLS, FULL = [bytes(range(250)) * 20, bytes(range(200)) * 25], (1, 2)
# The records of a job, and those of one that is given up: the first one fills a block, which is sent before the next is taken.
RECORDS, GIVEN_UP = [b"a" * 5, b"b" * 70_000, b""], [b"c" * 100_000, b"d"]
UNWRITTEN = "metrics {} can't be written"
# How a daemon ends of which an allocation was refused.
WANTING = (SETTLED[:2], UNSETTLED[:2], (f"{WANT}\n", 1))


def samples_in(text):
    """The value of each sample in a text of figures, by its name with its labels. Each name has one help and one type above its
    samples; what has another form is told as `ValueError`."""
    samples, headed = {}, []
    for line in text.splitlines():
        if found := HELP.fullmatch(line):
            headed.append(found[1])
        elif found := TYPE.fullmatch(line):
            if found[1] != headed[-1] or (found[2] == "counter") != found[1].endswith("_total"):
                raise ValueError(f"{line!r} below the help of {headed[-1]}")
        elif not (found := SAMPLE.fullmatch(line)) or found[1].partition("{")[0] != headed[-1] or found[1] in samples:
            raise ValueError(f"{line!r} below the help of {headed[-1]}")
        else:
            samples[found[1]] = float(found[2]) if "." in found[2] else int(found[2])
    if len(headed) != len(set(headed)) or not text.endswith("\n"):
        raise ValueError(f"the headings {headed}")
    return samples


def expected(drives, sessions=(), single=(), faults=()):
    """All samples of a daemon, but for the seconds of syncs: of each of its drives, the statuses and the other figures what is
    said, and else 0."""
    wanted = {f'{name}{{drive="{number}"}}': value
              for number, drive in enumerate(drives, 1) for name, value in {**OF_A_DRIVE, **drive}.items()}
    wanted |= {f'sdd_sessions{{status="{status}"}}': dict(sessions).get(status, 0) for status in SESSIONS}
    wanted |= {name: dict(single).get(name, 0) for name in SINGLE} | {"sdd_talks_bound": MOST_TALKS}
    wanted |= {refused(why): 0 for why in WHY}
    return wanted | {f'sdd_device_faults_total{{drive="{drive}",volume="{volume}"}}': count for drive, volume, count in faults}


def refused(why):
    """The name of the figure of the jobs that are refused so."""
    return f'sdd_refused_jobs_total{{why="{why}"}}'


def figures(place):
    """What the file of a place says, without the seconds of syncs and the age of the oldest talk; and the former, drive by
    drive."""
    samples = samples_in((place.folder / FILE).read_text())
    samples.pop(OLDEST)
    seconds = [samples.pop(name) for name in list(samples) if name.startswith(SYNC_SECONDS)]
    return samples, seconds


def metered(place, *words, **options):
    return place.daemon("--metrics", str(place.folder / FILE), *words, **options)


def length_of(lines):
    """How many bytes the spans of these lines have."""
    spans = [line.split() for line in lines if line.startswith("span ")]
    return sum(int(end) - int(start) for *_, start, end in spans)


def settled(checks, place, daemon, wanted):
    """The daemon ends by itself; its last figures are those, and nothing lies beside them."""
    checks.same("its end", daemon.wait(), ("", 0))
    got, seconds = figures(place)
    for name in sorted(got.keys() | wanted.keys()):
        checks.same(name, got.get(name), wanted.get(name))
    checks.same("the part", [path.name for path in place.folder.iterdir() if path.name.endswith(".part")], [])
    return seconds


def known_jobs(checks, folder, _):
    """A job of three records that is closed, one that is cancelled after a block, and a restore, on the first of two
    drives: each figure is the number that it has to be, by the lines of the close and those that are told of the
    cancelled one."""
    place = Two(folder / "known_jobs")
    with metered(place, "--talks", "6") as daemon:
        place.labels(checks)
        lines = place.job([client.packet(record) for record in RECORDS])
        with place.talk() as talk:
            ticket = client.open_session(talk, 8, "Default", "File")
            client.append_packets(talk, ticket, map(client.packet, GIVEN_UP))
        with place.talk() as talk:
            # Its one block may come behind that line, if the machine has much to do.
            given_up = until(lambda: f"session {ticket} cancelled 2" in talk.console("status")
                             and len(said := talk.console(f"jobmedia {ticket}")) == 2 and said, SOON) or []
        checks.same("its records", place.records(lines), RECORDS)
        # Each span of these is of blocks that lie one after the other: of the first job two, and of the second one.
        checks.check("their blocks", len(lines) == len(given_up) == 2, lines, given_up)
        taken = sum(map(len, RECORDS + GIVEN_UP))
        first = {"sdd_records_total": 5, "sdd_bytes_total": taken, "sdd_blocks_total": 3,
                 "sdd_block_bytes_total": length_of(lines) + length_of(given_up), "sdd_syncs_total": 2}
        single = {"sdd_restored_records_total": 3, "sdd_restored_bytes_total": sum(map(len, RECORDS)), "sdd_talks_total": 6,
                  "sdd_labels_total": 2}
        seconds = settled(checks, place, daemon, expected([first, {}], {"closed": 1, "cancelled": 1}, single))
    checks.check("the time of its syncs", len(seconds) == 2 and 0 < seconds[0] < SOON and seconds[1] == 0, seconds)


def hang(calls):
    """From now on each call on the files of a folder waits, since the pipe in which it is told is read by nobody."""
    pipe = calls.with_suffix(".pipe")
    os.mkfifo(pipe)
    pipe.replace(calls)


@contextlib.contextmanager
def going_on(calls):
    """Those calls go on, and so do later ones."""
    read = os.open(calls, os.O_RDONLY | os.O_NONBLOCK)
    calls.unlink()
    try:
        yield
    finally:
        os.close(read)


def in_between(checks, folder, library):
    """While the daemon runs, the file is there from the beginning on, and is written anew in each period, also if a drive hangs.
    It shows what goes on: a session that takes records, one that has its end label, and one that fills the queue of the drive
    that hangs; their lanes, and their talks. Once the drive goes on the last one is closed, and read back."""
    place, calls = Place(folder / "in_between", "block = 1024\nqueue = 1\n"), folder / "in_between-calls"
    environment = loaded(library, FAULTS_FOLDER=place.volumes, FAULTS_PLAN=os.devnull, FAULTS_LOG=calls)
    with metered(place, env=environment) as daemon:
        checks.check("at once", until((place.folder / FILE).exists, SOON))
        checks.same("in the beginning", figures(place)[0], expected([{}]))
        place.label(checks)
        hang(calls)
        with place.talk() as active, place.talk() as ended, place.talk() as fills:
            client.append_packets(active, client.open_session(active, 7, "Default", "File"), HELLO)
            ended.ask(f"append end session {client.open_session(ended, 8, 'Default', 'File')}")
            ticket = client.open_session(fills, 9, "Default", "File")
            fills.ask(f"append data {ticket}")
            fills.send(client.text_packet("1 2 0"), *map(client.packet, FILLS), *2 * [client.signal(client.END_OF_DATA)])
            drive = {"sdd_records_total": 2, "sdd_bytes_total": 5 + len(FILLS[0]), "sdd_free_lanes": 1}
            wanted = expected([drive], {"active": 2, "ended": 1},
                              {"sdd_talks_total": 4, "sdd_talks": 3, "sdd_talks_with_session": 3, "sdd_labels_total": 1})
            del wanted[QUEUED]
            until(lambda: in_queue(place) == (True, wanted), PERIOD + SOON)
            checks.same("meanwhile", in_queue(place), (True, wanted))
            with going_on(calls):
                checks.same("its records are taken", fills.line(), "3000 OK append data")
                checks.same("its records", place.records(client.close_session(fills, ticket)), FILLS)
        checks.same("told of them", [line for line in daemon.log() if line.startswith("metrics ")], [])


def in_queue(place):
    """Whether the queue of the first drive is full, and all other figures as in `figures`."""
    got, _ = figures(place)
    return got.pop(QUEUED) in FULL, got


def waits_and_fills(checks, folder, _):
    """A job outgrows a volume, and waits for another one that doesn't come. Its client goes away, and the daemon ends: the drive
    has filled one volume, had to ask once and waits. The lane of the job is taken, since a piece of it is in the drive's hand.
    Whether another had been sent before the volume was full isn't said; later none is."""
    place = Place(folder / "waits_and_fills", "queue = 1\n" + SMALL)
    with metered(place, "--talks", "2", "--wait", "60") as daemon:
        place.label(checks)
        with place.talk() as talk:
            ticket = client.open_session(talk, 7, "Default", "File")
            talk.ask(f"append data {ticket}")
            talk.send(client.text_packet("1 2 0"), *OUTGROWS)
            checks.check("the drive waits", daemon.logs(WAITS), daemon.log())
        checks.same("its end", daemon.wait(), ("", 0))
    got, _ = figures(place)
    wanted = {"sdd_free_lanes": 3, "sdd_volume_waits_total": 1, "sdd_waits_for_volume": 1, "sdd_full_volumes_total": 1}
    for name, value in wanted.items():
        checks.same(name, got[f'{name}{{drive="1"}}'], value)
    checks.check("its queue", got[QUEUED] in (0, 1), got[QUEUED])
    size, placed = (place.volumes / "Vol-0001").stat().st_size, got['sdd_block_bytes_total{drive="1"}']
    checks.check("its blocks", size - 200 < placed < size, size, placed)
    checks.same("its session", [got[f'sdd_sessions{{status="{status}"}}'] for status in SESSIONS], [0, 0, 0, 1, 0])


def answered(checks, folder, _):
    """After a volume that a drive had to ask for, it waits no more."""
    place = Place(folder / "answered")
    with metered(place, "--talks", "2", "--wait", "60") as daemon:
        with place.talk() as talk, place.talk() as operator:
            ticket = client.open_session(talk, 7, "Default", "File")
            client.append_packets(talk, ticket, HELLO)
            talk.ask(f"append end session {ticket}")
            talk.send(client.text_packet(f"append close session {ticket}"))
            checks.check("the drive waits", daemon.logs(WAITS), daemon.log())
            checks.same("label", operator.console("label 1 Vol-0001 Default File"), ["ok labelled"])
            lines = list(talk.lines())
        drive = {"sdd_records_total": 1, "sdd_bytes_total": 5, "sdd_blocks_total": 1, "sdd_block_bytes_total": length_of(lines),
                 "sdd_syncs_total": 1, "sdd_volume_waits_total": 1}
        settled(checks, place, daemon, expected([drive], {"closed": 1}, {"sdd_talks_total": 2, "sdd_labels_total": 1}))


def failing_device(checks, folder, library):
    """A write to a volume fails, and the job goes on with the next one; then a sync fails, and the session with it. Each of the
    volumes is told with one fault, by its name."""
    place = Place(folder / "failing_device")
    plan = folder / "failing_device-plan"
    # (a note's sync, a moment later, is none of a volume)
    aside = noters(library, 1, "--metrics", str(folder / "failing_device-aside"))
    environment = loaded(library, FAULTS_FOLDER=place.volumes, FAULTS_PLAN=plan, FAULTS_LOG=folder / "failing_device-calls", ASIDE=aside)
    plan.write_text("0 none 1 fail 0")
    with metered(place, "--talks", "4", env=environment) as daemon:
        place.label(checks, "Vol-0001")
        place.label(checks, "Vol-0002")
        with place.talk() as talk:
            plan.write_text(f"1 write 1 fail {errno.EIO}")
            ticket = client.open_session(talk, 7, "Default", "File")
            client.append_packets(talk, ticket, HELLO)
            lines = client.close_session(talk, ticket)
        with place.talk() as talk:
            plan.write_text(f"2 datasync 1 fail {errno.EIO}")
            ticket = client.open_session(talk, 7, "Default", "File")
            client.append_packets(talk, ticket, HELLO)
            talk.ask(f"append end session {ticket}")
            try:
                talk.ask(f"append close session {ticket}")
                checks.check("it is closed", False)
            except client.Refused as why:
                checks.same("it fails", str(why), "3905 Session failed")
        # Both sessions have a block of the same length.
        drive = {"sdd_records_total": 2, "sdd_bytes_total": 10, "sdd_blocks_total": 2,
                 "sdd_block_bytes_total": 2 * length_of(lines), "sdd_syncs_total": 2}
        single = {"sdd_talks_total": 4, "sdd_labels_total": 2}
        settled(checks, place, daemon, expected([drive], {"closed": 1, "failed": 1}, single,
                                                [(1, "Vol-0001", 1), (1, "Vol-0002", 1)]))


def unwritable(checks, folder, _):
    """A file that can't be written is told in the log once, while the daemon goes on; once it could be written and can't be any
    more it is told again."""
    place = Place(folder / "unwritable")
    home = place.folder / "none"
    file = home / FILE
    with place.daemon("--metrics", str(file), "--talks", "1") as daemon:
        told = UNWRITTEN.format(file)
        checks.check("it is told", daemon.logs(told), daemon.log())
        # The next one fails too, and isn't told.
        home.mkdir()
        checks.check("it is written", until(file.exists, PERIOD + SOON))
        checks.same("told once", daemon.log().count(told), 1)
        samples_in(file.read_text())
        file.unlink()
        home.rmdir()
        with place.talk() as talk:
            checks.same("it serves", talk.console("requests"), ["ok requests 0"])
        checks.same("its end", daemon.wait(), ("", 0))
        checks.same("told again", daemon.log().count(told), 2)


def stays_silent(checks, folder, _):
    """If each writing fails, that is reported once."""
    place = Place(folder / "stays_silent")
    (place.folder / FILE).mkdir()
    with metered(place, "--talks", "1") as daemon:
        told = UNWRITTEN.format(place.folder / FILE)
        checks.check("it is told", daemon.logs(told), daemon.log())
        with place.talk() as talk:
            talk.console("requests")
        checks.same("its end", daemon.wait(), ("", 0))
        checks.same("told once", daemon.log().count(told), 1)


def without_file(checks, folder, _):
    """Without `--metrics` nothing is written but volumes; with it the file has the mode that the system gives."""
    place = Place(folder / "without_file")
    with place.daemon("--talks", "2") as daemon:
        place.label(checks)
        place.job()
        checks.same("its end", daemon.wait(), ("", 0))
    checks.same("files", sorted(os.listdir(place.folder)), ["conf", "conf.log", "conf.out", "volumes"])
    with metered(place, "--talks", "1", umask=0o027) as daemon:
        with place.talk() as talk:
            talk.console("requests")
        daemon.wait()
    checks.same("its mode", stat.S_IMODE((place.folder / FILE).stat().st_mode), 0o640)


def want_of_memory(checks, folder, library):
    """Each allocation of a daemon that writes figures and ends after a talk is refused in turn. It says so before it
    listens, or goes on; figures that can't be written for that are reported, and those in the file are whole."""
    count, kinds = folder / "metered-count", collections.Counter()
    checks.same("with ample memory", wanting(folder / "metered-ample", loaded(library, COUNT_ALLOC=count)), ("written", ("", 0)))
    counted = sum(map(int, count.read_text().split()))
    with concurrent.futures.ThreadPoolExecutor(os.cpu_count()) as pool:
        places = [folder / f"metered-{number}" for number in range(1, counted + 1)]
        came = pool.map(wanting, places, [loaded(library, FAIL_ALLOC=number) for number in range(1, counted + 1)])
        for number, (kind, ended) in enumerate(came, 1):
            kinds[kind] += 1
            checks.check(f"allocation {number}", ended in WANTING, kind, ended)
    checks.check("kinds", min(kinds[kind] for kind in ("not started", "written", "told")) > 0, kinds)


def wanting(folder, env):
    """What came of the figures of such a daemon, what it printed, and its status."""
    place = Place(folder)
    try:
        daemon = metered(place, "--talks", "1", env=env)
    except TimeoutError:
        return "not started", (place.conf.with_suffix(".out").read_text(), 1)
    with daemon:
        with contextlib.suppress(client.Failed), place.talk() as talk:
            talk.console("requests")
        ended = daemon.wait()
        told = UNWRITTEN.format(place.folder / FILE) in daemon.log()
    if (place.folder / FILE).exists():
        samples_in((place.folder / FILE).read_text())
    return "told" if told else "written", ended


def told_in_documents(checks, folder, _):
    """Each figure is in the table of docs/use/OPERATIONS.md, and nothing else is; and each that a rule of
    examples/alerts.yml asks for is one of them."""
    place = Place(folder / "told_in_documents")
    with metered(place, "--talks", "1") as daemon:
        with place.talk() as talk:
            talk.console("requests")
        daemon.wait()
    names = set(re.findall(r"^# TYPE (\w+)", (place.folder / FILE).read_text(), re.MULTILINE))
    section = (ROOT / "docs" / "use" / "OPERATIONS.md").read_text().partition("\n## What to watch\n")[2].partition("\n## ")[0]
    rows = re.findall(r"^\| (`sdd_[^|]*) \|", section, re.MULTILINE)
    checks.same("in the table", sorted(re.findall(r"`(sdd_\w+)`", " ".join(rows))), sorted(names))
    asked = set(re.findall(r"\bsdd_\w+", (ROOT / "examples" / "alerts.yml").read_text()))
    checks.check("in the rules", asked and asked <= names, sorted(asked - names))


GROUPS = (known_jobs, in_between, waits_and_fills, answered, failing_device, unwritable, stays_silent, without_file,
          want_of_memory, told_in_documents)
