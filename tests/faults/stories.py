"""Days of a daemon on volumes and spools that are files, of which one call of the system fails: what was closed stays,
and the daemon goes on.
"""
import collections
import errno
import itertools
import os
import pathlib
import random
import re
import shutil
import stat
import tempfile

from files import FAULT, FULL_ERRORS, LABELLED, NO_ROOM, NOT_OURS, NOT_THERE, differs, said
from scripts import each
from daemon import LOCK, SDD, SOON, until
from sites import Site, Talk, client, session_body, volume_of, whole
from session_model import Session

NOBODY = 65534
VOLUMES = ("Vol-0001", "Vol-0002", "Vol-0003")
# How calls of a kind fail.
WAYS = {
    "open": [("fail", errno.EIO), ("fail", errno.ENOSPC), ("fail", errno.EACCES)],
    "look": [("fail", errno.EACCES), ("elsewhere", 0)],
    "stat": [("fail", errno.EIO)],
    "read": [("fail", errno.EIO), ("fail", errno.EINTR), ("short", 0)],
    "write": [("fail", errno.EIO), ("fail", errno.ENOSPC), ("fail", errno.EDQUOT), ("fail", errno.EACCES),
              ("full", errno.ENOSPC), ("full", errno.EIO), ("fail", errno.EINTR), ("short", 0)],
    "truncate": [("fail", errno.EIO), ("fail", errno.ENOSPC), ("fail", errno.EACCES)],
    "datasync": [("fail", errno.EIO), ("fail", errno.ENOSPC), ("fail", errno.EDQUOT)],
    "sync": [("fail", errno.EIO), ("fail", errno.ENOSPC)],
}
# In these ways a call doesn't fail, or is made again.
HARMLESS = (("short", 0), ("fail", errno.EINTR))
LOST, LATER = "3905 Session failed", "3907 Not yet"
SPOOL_FAULT = "3920 Spool fault"
REFUSED_JOB = f"job 7 of pool Default and media File is refused: {SPOOL_FAULT}"
DATA = random.Random(3).randbytes(12_000)
# The records of the jobs of a day.
JOBS = {"first": [DATA[:2500], b"", DATA[:10]], "second": [DATA[:700], DATA[:5000]], "third": [b"x"]}
# A job whose data go through a spool of a few blocks several times.
FILLINGS = [DATA, DATA[:3000], DATA]


class Day:
    """What was answered in a day: each line and its answer, and the jobs that were closed, with their lines."""

    def __init__(self, site):
        self.site, self.answers, self.closed = site, [], {}

    def say(self, line):
        self.answers.append((line, self.site.say(line)))

    def job(self, name, records):
        lines = self.site.job(records)
        self.answers.append(("job", lines[0] if len(lines) == 1 else "closed"))
        if len(lines) > 1:
            self.closed[name] = lines, records

    def read(self):
        """Reads each closed job twice."""
        for name, (lines, records) in self.closed.items():
            got = [self.site.read(lines) for _ in range(2)]
            fit = [one for one in got if one == (records, whole(records))]
            met = [one for one in got if one[1] == FAULT and one[0] == records[:len(one[0])]]
            if not fit or len(fit) + len(met) < 2:
                yield f"the job {name} is read as {[last for _, last in got]}"
            self.answers += [("read", last) for _, last in got]


def first_day(site):
    """Three volumes are labelled; jobs are closed and read, over a mount and an unmount."""
    day = Day(site)
    for volume in VOLUMES:
        day.say(f"label 1 {volume} Default File")
    day.job("first", JOBS["first"])
    day.say("unmount 1")
    day.say("mount 1 Vol-0002")
    day.job("second", JOBS["second"])
    day.say("unmount 1")
    faults = list(day.read())
    day.job("third", JOBS["third"])
    return day, faults


def second_day(site, closed, labelled="Vol-0009"):
    """The volumes are adopted, at a second time if the first fails; what was closed is read; another job is closed."""
    day = Day(site)
    day.closed = dict(closed)
    for volume in VOLUMES:
        day.say(f"adopt 1 {volume}")
        day.say(f"adopt 1 {volume}")
    faults = list(day.read())
    day.job("later", JOBS["second"])
    day.say("unmount 1")
    day.say(f"label 1 {labelled} Default File")
    day.job("last", JOBS["first"])
    faults += day.read()
    return day, faults


# The refusals that a call that fails may bring.
ALLOWED = {
    "label": {NO_ROOM, FAULT}, "mount": {NOT_THERE, FAULT, "3934 Volume not appendable", "3933 In use"},
    "unmount": {FAULT}, "job": {LOST, LATER}, "read": {FAULT}, "adopt": {FAULT, NOT_OURS, NOT_THERE, LABELLED},
}


def not_allowed(day, call):
    """A refusal is one that the line may have; and none comes if the call doesn't really fail."""
    harmless = call is None or call[2:] in HARMLESS
    for line, answer in day.answers:
        word = line.split(" ")[0]
        if answer.startswith("39") and (answer not in ALLOWED[word] or harmless and answer != LABELLED):
            yield f"{line}: {answer}"
        if answer == NO_ROOM and (call is None or call[0] != "write" or call[3] not in FULL_ERRORS):
            yield f"{line}: {answer}"


def is_kept(site, closed):
    """What was closed is read by `sdtool read` too, and the files are their owner's alone."""
    for name, (lines, records) in closed.items():
        data, last = site.by_tool(lines)
        wanted = f"ok read {len(records)} {sum(map(len, records))} ended"
        if (data, last) != (b"".join(records), wanted):
            yield f"sdtool reads the job {name} as {last}"
    modes = {stat.S_IMODE(path.stat().st_mode) for path in site.volumes.iterdir()}
    if modes - {0o600}:
        yield f"modes {modes}"


def fails_first(shim, call):
    """A call fails in the first day; the second is without a fault."""
    with tempfile.TemporaryDirectory() as folder:
        site = Site(pathlib.Path(folder), shim)
        yield from two_days(site, call, None)


def fails_second(shim, folder, closed, call):
    """A call fails in the second day, after a first one without a fault. A volume whose sync failed in its adoption isn't
    adopted in that run, and a later one adopts it."""
    with tempfile.TemporaryDirectory() as copy:
        site = Site(pathlib.Path(copy), shim)
        shutil.copytree(folder, site.volumes, dirs_exist_ok=True)
        with site.daemon(2000):
            site.fail(*call)
            day, faults = second_day(site, closed)
        if is_torn(day, call):
            with site.daemon(3000):
                site.well()
                day, faults = second_day(site, closed, "Vol-0010")
            call = None
        for fault in itertools.chain(faults, not_allowed(day, call), is_kept(site, day.closed)):
            yield f"second day, {said(*call) if call else 'behind a torn one'}: {fault}"
        missing = set(closed) - set(day.closed)
        if missing or day.answers[-1][1] == LATER:
            yield f"second day, {said(*call) if call else 'behind a torn one'}: {day.answers}"


def is_torn(day, call):
    """Whether a volume was refused twice, since the sync of its adoption failed: by one of its calls, one of which opens the
    folder and some look at the file."""
    adoptions = [answer for line, answer in day.answers if line.startswith("adopt")]
    is_refused = any(pair == (FAULT, FAULT) for pair in zip(adoptions[::2], adoptions[1::2]))
    return is_refused and call[0] in ("datasync", "sync", "open", "look", "stat")


def two_days(site, call, second):
    with site.daemon(1000):
        site.fail(*call) if call else site.well()
        day, faults = first_day(site)
    with site.daemon(2000):
        site.well()
        later, more = second_day(site, day.closed)
    about = said(*call) if call else "no fault"
    others = [answer for line, answer in later.answers if not line.startswith("adopt")]
    for fault in itertools.chain(faults, more, not_allowed(day, call), is_kept(site, later.closed)):
        yield f"first day, {about}: {fault}"
    if any(answer.startswith("39") for answer in others) or {"later", "last"} - set(later.closed):
        yield f"behind the first day, {about}: {later.answers}"
    if (call is None or call[2:] in HARMLESS) and set(day.closed) != set(JOBS):
        yield f"first day, {about}: {day.answers}"


def calls_of(lines):
    """Each call of a day, failing in each way of its kind."""
    for kind, ways in WAYS.items():
        count = sum(line.startswith(kind + " ") for line in lines)
        for nth, (how, number) in itertools.product(range(1, count + 1), ways):
            yield kind, nth, how, number


def days(folder, shim):
    """Each call of the system on the volumes fails in turn, in a day of labels, jobs and readings, and in a later one of
    adoptions and readings."""
    site = Site(folder, shim)
    with site.daemon(1000):
        site.well()
        first, faults = first_day(site)
        yield from faults
    calls = site.calls()
    after = folder / "after"
    shutil.copytree(site.volumes, after)
    with site.daemon(2000):
        site.well()
        second, faults = second_day(site, first.closed)
        yield from faults
    later_calls = site.calls()
    yield from not_allowed(first, None)
    yield from not_allowed(second, None)
    yield from each(fails_first, [(shim, call) for call in calls_of(calls)])
    yield from each(fails_second, [(shim, after, first.closed, call) for call in calls_of(later_calls)])


# What becomes of a volume by a call on it that fails, as the log has it.
IS_FULL, HAS_FAILED = "drive 1: volume Vol-0001 is full", "drive 1: the device failed with volume Vol-0001"
MET = {("write", errno.ENOSPC): IS_FULL, ("write", errno.EIO): HAS_FAILED, ("datasync", errno.EIO): HAS_FAILED,
       ("sync", errno.EIO): HAS_FAILED}


def met(folder, shim):
    """The log has what a drive met with a volume that takes no more, and which it goes on with."""
    for (kind, number), line in MET.items():
        site = Site(made_in(folder, f"{kind}-{number}"), shim)
        site.well()
        with site.daemon(1000) as daemon:
            for volume in VOLUMES[:2]:
                site.say(f"label 1 {volume} Default File")
            site.fail(kind, 1, "fail", number)
            site.job(JOBS["first"])
            if not daemon.logs(line):
                yield f"{kind} {number}: {daemon.log()}"
            site.well()
            yield from differs(f"{kind} {number}", len(site.job(JOBS["first"])), 2)
            if not daemon.logs("drive 1: volume Vol-0002 is mounted"):
                yield f"{kind} {number}: {daemon.log()}"


SPOOL = 4096
SPOOLING = ("block = 1024", f"spool = {SPOOL}")


def spool_day(site, call):
    """A job of many fillings of the spool between two others. Gives the day, what is wrong, and the calls on the spool's
    file that the job of many fillings made."""
    day = Day(site)
    site.well()
    day.say("label 1 Vol-0001 Default File")
    day.job("first", JOBS["first"])
    site.calls()
    site.fail(*call) if call else site.well()
    day.job("many", FILLINGS)
    calls = site.calls()
    site.well()
    day.job("third", JOBS["second"])
    return day, list(day.read()), calls


def fails_spooling(shim, call):
    """A call on the spool's file fails: the job fails, or isn't opened; the others are closed and read."""
    with tempfile.TemporaryDirectory() as folder:
        site = Site(pathlib.Path(folder), shim, "spools", SPOOLING)
        with site.daemon(1000) as daemon:
            day, faults, _ = spool_day(site, call)
            log = daemon.log()
        about = f"spool, {said(*call)}"
        for fault in faults:
            yield f"{about}: {fault}"
        opens = call[:2] == ("truncate", 1)
        wanted = "closed" if call[2:] in HARMLESS else SPOOL_FAULT if opens else LOST
        yield from differs(about, [answer for line, answer in day.answers if line == "job"], ["closed", wanted, "closed"])
        told = REFUSED_JOB if opens else f"session 2 on drive 1: {wanted}"
        if wanted != "closed" and not any(re.fullmatch(rf"talk \d+: {told}", line) for line in log):
            yield f"{about}: not logged: {log[-4:]}"


def spooling(folder, shim):
    """Each call of the system on a spool's file fails in turn, while a job goes through the spool in many fillings. Each
    body is written once and read once, and the file is emptied for each filling."""
    site = Site(folder, shim, "spools", SPOOLING)
    with site.daemon(1000):
        day, faults, calls = spool_day(site, None)
        yield from faults
        found = {path.name: stat.S_IMODE(path.stat().st_mode) for path in site.spools.iterdir()}
        yield from differs("spools", found, {"spool~1~1": 0o600, LOCK: 0o600})
    yield from differs("jobs", set(day.closed), {"first", "many", "third"})
    kinds = collections.Counter(line.split(" ")[0] for line in calls)
    bodies, fillings = bodies_of(FILLINGS), kinds.pop("truncate", 0)
    yield from differs("calls", dict(kinds), {"write": bodies, "read": bodies})
    if not sum(map(len, FILLINGS)) // SPOOL < fillings < bodies:
        yield f"{fillings} fillings for {bodies} bodies"
    yield from each(fails_spooling, [(shim, call) for call in calls_of(calls)])


def bodies_of(records):
    """How many bodies a session of these records has."""
    session = Session(1, 7, ("Default", "File"), None, 1024, 0)
    for data in records:
        session.put_record(1, 2, data)
        session.records.append((1, 2, data))
    session.end()
    return len(session.waiting)


# What becomes of a spool's file: what an earlier run left in its place, what takes that place before the daemon ends,
# which call fails then; and what is there in the end: nothing, some file, or one of these bytes.
SPOOL_FILES = {
    "made": (None, None, None, "nothing"), "left": (b"an earlier run" * 999, None, None, "some file"),
    "replaced": (None, b"another file", None, b"another file"), "kept": (None, None, ("unlink", 1), "some file"),
    "not looked at": (None, None, ("look", 1), "some file"), "not compared": (None, None, ("stat", 1), "some file"),
}


def spool_files(folder, shim):
    """A spool's file goes with the daemon that made it. One that an earlier run left is emptied and stays, one that took
    its place stays as it is; if the file can't be removed, the daemon ends all the same."""
    for name, (before, between, call, wanted) in SPOOL_FILES.items():
        site = Site(made_in(folder, name), shim, "spools", SPOOLING)
        path = site.spools / "spool~1~1"
        if before:
            path.write_bytes(before)
        site.well()
        with site.daemon(1000, "--talks", "3") as daemon:
            site.say("label 1 Vol-0001 Default File")
            yield from differs(name, len(site.job(JOBS["first"])), 2)
            if before and before[:14] in path.read_bytes():
                yield f"{name}: not emptied"
            if between:
                path.unlink()
                path.write_bytes(between)
            if call:
                site.fail(*call, "fail", errno.EACCES)
            site.say("status")
            yield from differs(name, daemon.wait(), ("", 0))
        stands = path.read_bytes() if path.exists() else "nothing"
        yield from differs(name, "some file" if wanted == "some file" and stands != "nothing" else stands, wanted)


# The calls by which a spool's file is found that an earlier run left, and then cleared for each session.
FINDS = [("open", 1, errno.EIO), ("open", 1, errno.EACCES), ("look", 1, errno.EACCES), ("look", 2, None),
         ("open", 2, errno.EACCES), ("stat", 1, errno.EIO), ("truncate", 1, errno.EIO), ("truncate", 1, errno.ENOSPC)]


def spool_opens(folder, shim):
    """If a spool's file can't be found or emptied, no session is opened. The next one is."""
    for at, (kind, nth, number) in enumerate(FINDS):
        site = Site(made_in(folder, str(at)), shim, "spools", SPOOLING)
        (site.spools / "spool~1~1").write_bytes(b"an earlier run")
        with site.daemon(1000):
            site.say("label 1 Vol-0001 Default File")
            site.fail(kind, nth, "fail" if number else "elsewhere", number or 0)
            answers = [site.job(JOBS["first"]) for _ in range(2)]
            if answers[0] != [SPOOL_FAULT] or len(answers[1]) != 2:
                yield f"{kind} {nth} {number}: {answers}"


def spool_opens_again(folder, shim):
    """If a spool's file can't be emptied, no session is opened in a talk that had one before either. The log says it of
    the job, and not of the session that was closed."""
    site = Site(folder, shim, "spools", SPOOLING)
    site.well()
    with site.daemon(1000) as daemon:
        site.say("label 1 Vol-0001 Default File")
        with Talk(site.port) as talk:
            ticket = client.open_session(talk, 7, "Default", "File")
            client.append_packets(talk, ticket, map(client.packet, JOBS["first"]))
            client.close_session(talk, ticket)
            site.fail("truncate", 1)
            talk.send(client.text_packet("append open session JobId=7 Pool=Default Media=File"))
            yield from differs("another open", talk.receive(), f"{SPOOL_FAULT}\n".encode())
        if not daemon.logs(f"talk 2: {REFUSED_JOB}"):
            yield f"not logged: {daemon.log()[-3:]}"


def made_in(folder, name):
    place = folder / name
    place.mkdir()
    return place


def spool_places(folder, shim):
    """What is no file under a spool's name, and what is no folder of spools: no session is opened, and nothing becomes of
    what is there."""
    target = folder / "target"
    target.write_bytes(b"kept")
    for name, make in {
            "link": lambda spools: (spools / "spool~1~1").symlink_to(target),
            "dangling": lambda spools: (spools / "spool~1~1").symlink_to(folder / "nothing"),
            "folder": lambda spools: (spools / "spool~1~1").mkdir(),
            "pipe": lambda spools: os.mkfifo(spools / "spool~1~1"),
            "no folder": lambda spools: spools.rmdir(),
            "a file": lambda spools: (spools.rmdir(), spools.write_bytes(b"kept"))}.items():
        site = Site(made_in(folder, name), shim, "spools", SPOOLING)
        site.well()
        make(site.spools)
        with site.daemon(1000) as daemon:
            site.say("label 1 Vol-0001 Default File")
            answer = site.job(JOBS["first"])
            if answer != [SPOOL_FAULT]:
                yield f"{name}: {answer}"
            if name == "no folder":
                site.spools.mkdir()
                answer = site.job(JOBS["first"])
                if len(answer) == 1:
                    yield f"the folder is made: {answer}"
            if not any(line.endswith(f": {REFUSED_JOB}") for line in daemon.log()):
                yield f"{name}: not logged"
    kept = [(folder / path).read_bytes() for path in ("target", "a file/spools")]
    yield from differs("what stands there", (kept, (folder / "nothing").exists()), (2 * [b"kept"], False))


# A volume that the job OUTGROWS doesn't fit on, but two of FILLINGS do, beside what that job had sent of itself.
OUTGROWN, OUTGROWS = ("queue = 1", "volume = 65536"), 7 * [DATA]


def spool_lanes(folder, shim):
    """Each lane has a spool of its own, and a session gets the lowest lane that is free: one that sent a block keeps its lane
    until that is placed, here while the volume is full; one that sent none gives it back at once."""
    site = Site(folder, shim, "spools", (*SPOOLING, *OUTGROWN))
    site.well()
    used = []

    def job(records, volume, lanes):
        """A job, after which so many lanes are taken."""
        site.calls()
        lines = site.job(records)
        used.append({line.split(" ")[1] for line in site.calls()})
        return lines, frees(volume, lanes)

    def frees(volume, lanes):
        return until(lambda: site.say("status").startswith(f"drive 1 File {volume} {lanes}\n"), SOON)

    with site.daemon(1000):
        yield from differs("without a volume", [job(JOBS["third"], "-", 0) for _ in range(2)], 2 * [([LATER], True)])
        site.say("label 1 Vol-0001 Default File")
        yield from differs("a volume is full", job(OUTGROWS, "Vol-0001", 1), (["3908 Busy"], True))
        yield from differs("beside it", [job(JOBS["third"], "Vol-0001", 1) for _ in range(2)], 2 * [([LATER], True)])
        site.say("unmount 1")
        site.say("label 1 Vol-0002 Default File")
        yield from differs("its lane is free", frees("Vol-0002", 0), True)
        for _ in range(2):
            lines, is_free = job(FILLINGS, "Vol-0002", 0)
            yield from differs("a job with a volume", (site.read(lines), is_free), ((FILLINGS, whole(FILLINGS)), True))
    yield from differs("spools", used, [{f"spool~1~{lane}"} for lane in (1, 1, 1, 2, 2, 1, 1)])


def as_nobody(folder, shim):
    """By a user who may not write what an adoption or a spool asks for, the device fails. What is there is kept."""
    user = {"user": NOBODY, "group": NOBODY, "extra_groups": []} if os.geteuid() == 0 else {}
    for place in (folder, folder.parent):
        place.chmod(0o755)
    site = Site(folder, shim, "volumes", SPOOLING)
    program = pathlib.Path(shutil.copy(SDD, folder))
    files = {"Vol-Read": 0o400, "Vol-None": 0o000, "Vol-Both": 0o600}
    size = len(volume_of("Vol-Both", [session_body([b"hello"])]))
    for name, mode in files.items():
        (site.volumes / name).write_bytes(volume_of(name, [session_body([b"hello"])]) + bytes(9))
        (site.volumes / name).chmod(mode)
    site.well()
    if user:
        for path in (folder, site.volumes, site.spools, *site.volumes.iterdir()):
            os.chown(path, NOBODY, NOBODY)
    site.spools.chmod(0o500)
    with site.daemon(1000, program=program, **user):
        for name, answer in {"Vol-Read": FAULT, "Vol-None": FAULT, "Vol-Both": f"ok adopted {size} 2"}.items():
            yield from differs(f"adopt {name}", site.say(f"adopt 1 {name}"), answer)
        yield from differs("a job without a spool", site.job([b"a"], "Vol-Both"), [SPOOL_FAULT])
        site.spools.chmod(0o700)
        yield from differs("a job with a spool", len(site.job([b"a"], "Vol-Both")), 2)
    for name in ("Vol-Read", "Vol-None"):
        yield from differs(f"{name} is kept", (site.volumes / name).read_bytes()[-9:], bytes(9))
