"""Volumes as files of a daemon, of which a call of the system fails: what each operation answers, what stays closed, and
what is no file.
"""
import errno
import os
import re
import shutil
import socket
import stat

from drive_model import label_block, seal
from sites import Site, session_body, volume_of, whole
from volumes import note

OK_LABEL, LABELLED = "ok labelled", "3935 Volume already labelled"
NOT_THERE, NOT_OURS = "3930 Volume not on the shelf", "3931 Not a volume of this profile"
NO_ROOM, FAULT = "3939 No room on the device", "3940 Device fault"
FULL_ERRORS = (errno.ENOSPC, errno.EDQUOT, errno.EFBIG)
# The label block of a volume whose name and pool have eight letters each.
LABEL_SIZE = len(volume_of("Vol-0001", []))

# The time of the run in which they are labelled, in seconds, and that moment in microseconds.
TIME = 1000
MOMENT = TIME * 1_000_000
# The host of a daemon whose configuration names none.
HOST = "localhost"

# The calls that operations make, in their order. A label and an adoption begin with a look at the volume's note, and take one away
# that is there: it is opened, compared, read to its end, removed, and the folder is synced. If the volume is refused the note
# comes back, as a new file that takes its place. A file is opened once for many calls, and the folder is synced once for
# each create or load. After each sync it is looked whether the file has its name still. Each talk reads by a device of its
# own, which loads also the volume that its drive has loaded.
LOOK_CALLS = ["look V", "stat V"]
SYNC_CALLS = ["datasync V", "open .", "sync .", *LOOK_CALLS]
NOTE_CALLS = ["look V~"]
TAKE_CALLS = [*NOTE_CALLS, "open V~", "stat V~", "read V~", "read V~", "unlink V~", "open .", "sync ."]
BACK_CALLS = ["unlink V~~", "open V~~", "write V~~", "datasync V~~", "rename V~~", "open .", "sync ."]
LABEL_CALLS = ["open V", "write V", *SYNC_CALLS]
LOAD_CALLS = ["look V", "open V", "stat V"]
READ_CALLS = [*LOAD_CALLS, "stat V", "read V", "read V"]

# What a label answers if one of its calls fails: the call's kind, which of the kind, how, and the system's error; what
# the same label answers then, and how much of the label the file has.
LABELS = [
    *(("open", 1, "fail", number, FAULT, OK_LABEL, "whole") for number in (
        errno.ENOENT, errno.ENOMEM, errno.EEXIST, errno.ENOSPC, errno.EDQUOT, errno.EACCES, errno.EIO)),
    *(("write", 1, "fail", number, NO_ROOM, LABELLED, "nothing") for number in FULL_ERRORS),
    *(("write", 1, "fail", number, FAULT, LABELLED, "nothing") for number in (errno.EIO, errno.ENOMEM, errno.EACCES)),
    ("write", 1, "fail", errno.EINTR, OK_LABEL, LABELLED, "whole"),
    ("write", 1, "short", 0, OK_LABEL, LABELLED, "whole"),
    *(("write", 1, "full", number, NO_ROOM, LABELLED, "half") for number in FULL_ERRORS),
    ("write", 1, "full", errno.EIO, FAULT, LABELLED, "half"),
    *(("datasync", 1, "fail", number, FAULT, LABELLED, "whole") for number in (errno.EIO, errno.ENOSPC, errno.EDQUOT)),
    *(("open", 2, "fail", number, FAULT, LABELLED, "whole") for number in (errno.EMFILE, errno.EACCES)),
    ("sync", 1, "fail", errno.EIO, FAULT, LABELLED, "whole"),
    # The first look is for a note, and without one nothing is to be taken away; the second is for the file's name.
    *(("look", 1, "fail", number, OK_LABEL, LABELLED, "whole") for number in (errno.ENOENT, errno.EACCES, errno.EIO)),
    *(("look", 2, *how, FAULT, LABELLED, "whole") for how in (
        ("fail", errno.ENOENT), ("fail", errno.EACCES), ("elsewhere", 0), ("abroad", 0))),
    ("stat", 1, "fail", errno.EIO, FAULT, LABELLED, "whole"),
]
# What a label answers if a file of that name is there already: the call's kind, which of the kind, how, the system's
# error, and the answer. The first look is for a note.
STANDING = [
    ("none", 1, "fail", 0, LABELLED), ("look", 1, "fail", errno.EACCES, LABELLED), ("look", 2, "fail", errno.EACCES, FAULT),
    ("look", 2, "fail", errno.ENOENT, FAULT),
]
# What becomes of a note that is there, and of the label or adoption before which it is to be taken away, if a call of that fails:
# whether the event is given. A note that can't be read counts as none, and stays.
TAKES = [
    ("look", 1, "fail", errno.EACCES, True), ("open", 1, "fail", errno.EACCES, True), ("open", 1, "fail", errno.EIO, True),
    ("stat", 1, "fail", errno.EIO, True), ("read", 1, "fail", errno.EIO, True), ("read", 2, "fail", errno.EIO, True),
    ("read", 1, "short", 0, True), ("read", 1, "fail", errno.EINTR, True), *(("unlink", 1, "fail", number, False) for number in (
        errno.EACCES, errno.EIO, errno.EROFS)), ("open", 2, "fail", errno.EMFILE, False), ("sync", 1, "fail", errno.EIO, False),
]
# What a load answers, inside a mount or an adoption; the look at the name, its opening and the look at the open file.
LOADS = [
    ("look", "fail", errno.ENOENT, NOT_THERE), ("look", "fail", errno.EACCES, FAULT), ("look", "elsewhere", 0, FAULT),
    ("look", "abroad", 0, FAULT),
    ("open", "fail", errno.ENOENT, NOT_THERE), ("open", "fail", errno.EACCES, FAULT), ("open", "fail", errno.EIO, FAULT),
    ("stat", "fail", errno.EIO, FAULT),
]
# What an adoption answers if another of its calls fails. A volume is read to its end, and once more there.
ADOPTIONS = [
    ("stat", 2, "fail", errno.EIO, FAULT), ("read", 1, "fail", errno.EIO, FAULT), ("read", 2, "fail", errno.EIO, FAULT),
    ("read", 1, "fail", errno.EINTR, None), ("read", 1, "short", 0, None), ("stat", 4, "fail", errno.EIO, FAULT),
    ("truncate", 1, "fail", errno.EIO, FAULT), ("truncate", 1, "fail", errno.EACCES, FAULT),
]
# The calls of its sync. If one fails, what the disk has isn't known: the volume isn't adopted in this run. The fourth look is the one
# after the sync, behind those for a note, at the survey and at the load.
TORN = [
    ("datasync", 1, "fail", errno.EIO), ("datasync", 1, "fail", errno.ENOSPC), ("open", 3, "fail", errno.EACCES),
    ("sync", 1, "fail", errno.EIO), ("look", 4, "fail", errno.ENOENT), ("look", 4, "elsewhere", 0),
    ("look", 4, "abroad", 0), ("stat", 5, "fail", errno.EIO),
]
# What a reading answers if another of its calls fails; None if it goes on.
READINGS = [
    ("stat", 2, "fail", errno.EIO, FAULT), ("read", 1, "fail", errno.EIO, FAULT), ("read", 2, "fail", errno.EIO, FAULT),
    ("read", 1, "fail", errno.EINTR, None), ("read", 1, "short", 0, None),
]
# Where the three blocks of a job lie, of two volumes of its pool, and the status of the first one then, if a call
# fails. `lost` is a job that isn't closed, since a block of it may not last. A volume that can't be loaded is passed over.
JOBS = [
    ("none", 1, "fail", 0, "A", "append"),
    *(("look", 1, "fail", number, "B", "append") for number in (errno.ENOENT, errno.EACCES)),
    ("look", 1, "elsewhere", 0, "B", "append"), ("open", 1, "fail", errno.EACCES, "B", "append"),
    ("stat", 1, "fail", errno.EIO, "B", "append"), ("stat", 2, "fail", errno.EIO, "B", "error"),
    *(("write", 1, "fail", number, "B", "full") for number in FULL_ERRORS),
    *(("write", 1, "fail", number, "B", "error") for number in (errno.EIO, errno.EACCES)),
    *(("write", nth, "fail", errno.ENOSPC, "AB", "full") for nth in (2, 3)),
    *(("write", nth, "fail", errno.EIO, "AB", "error") for nth in (2, 3)),
    ("write", 1, "full", errno.ENOSPC, "B", "full"), ("write", 2, "full", errno.EDQUOT, "AB", "full"),
    ("write", 3, "full", errno.EIO, "AB", "error"), ("write", 2, "short", 0, "A", "append"),
    ("write", 2, "fail", errno.EINTR, "A", "append"),
    *(("datasync", 1, "fail", number, "lost", "error") for number in (errno.EIO, errno.ENOSPC, errno.EDQUOT)),
    ("open", 2, "fail", errno.EMFILE, "lost", "error"), ("sync", 1, "fail", errno.EIO, "lost", "error"),
    ("look", 2, "fail", errno.ENOENT, "lost", "error"), ("look", 2, "elsewhere", 0, "lost", "error"),
    ("stat", 3, "fail", errno.EIO, "lost", "error"),
]
RECORDS = [b"x" * 2000, b"", b"last"]


def differs(about, got, wanted):
    if got != wanted:
        yield f"{about}: {got!r} in place of {wanted!r}"


def said(kind, nth, how, number):
    return f"{kind} {nth} {how} {errno.errorcode.get(number, '')}"


def calls_made(site):
    """Which calls of the system the operations make."""
    def made(name):
        return [line.replace(name, "V") for line in site.calls()]

    site.calls()
    yield from differs("label", site.say("label 1 Vol-A Calls File"), OK_LABEL)
    yield from differs("calls of a label", made("Vol-A"), NOTE_CALLS + LABEL_CALLS)
    yield from differs("mount", site.say("mount 1 Vol-A"), "ok mounted")
    yield from differs("calls of a mount", made("Vol-A"), LOAD_CALLS)
    lines = site.job(RECORDS, "Calls")
    yield from differs("calls of a first job", made("Vol-A"), ["stat V", *3 * ["write V"], *SYNC_CALLS])
    site.job(RECORDS, "Calls")
    yield from differs("calls of a second job", made("Vol-A"), [*3 * ["write V"], "datasync V", *LOOK_CALLS])
    yield from differs("a job is read", site.read(lines), (RECORDS, whole(RECORDS)))
    yield from differs("calls of a reading from the loaded volume", made("Vol-A"), READ_CALLS)
    site.say("unmount 1")
    site.read(lines)
    yield from differs("calls of a reading", made("Vol-A"), READ_CALLS)
    site.read(lines)
    yield from differs("calls of another reading", made("Vol-A"), READ_CALLS)
    (site.volumes / "Made-B").write_bytes(volume_of("Made-B", [session_body([b"hello"])]) + bytes(9))
    site.say("adopt 1 Made-B")
    yield from differs("calls of an adoption", made("Made-B"), [
        *NOTE_CALLS, *LOAD_CALLS, "stat V", *3 * ["read V"], *LOAD_CALLS, "stat V", "truncate V", *SYNC_CALLS])
    (site.volumes / "Noted-C~").write_bytes(note())
    yield from differs("label over a note", site.say("label 1 Noted-C Calls File"), OK_LABEL)
    yield from differs("calls of a label over a note", made("Noted-C"), TAKE_CALLS + LABEL_CALLS)
    (site.volumes / "Noted-D~").write_bytes(note())
    yield from differs("adoption of a note", site.say("adopt 1 Noted-D"), NOT_THERE)
    yield from differs("calls of an adoption of a note", made("Noted-D"), [*TAKE_CALLS, "look V", *BACK_CALLS])


def notes_taken(site):
    """A label and an adoption over a note that is to be taken away, the calls of which fail in turn: they are done, or refused with all as
    it was but for the note, which may be gone."""
    for at, (*call, is_given) in enumerate(TAKES):
        content = note(7, 92, 0, 1, 0)
        for word in ("label", "adopt"):
            name = f"Taken-{word}-{at}"
            path, beside = site.volumes / name, site.volumes / f"{name}~"
            bytes_ = volume_of(name, [session_body([b"hello"])])
            line, done = {"label": (f"label 1 {name} Calls File", OK_LABEL), "adopt": (f"adopt 1 {name}", f"ok adopted {len(bytes_)} 2")}[word]
            beside.write_bytes(content)
            if word == "adopt":
                path.write_bytes(bytes_ + bytes(50))
            site.fail(*call)
            yield from differs(f"{word} over a note, {said(*call)}", site.say(line), done if is_given else FAULT)
            site.well()
            if not is_given:
                left = path.read_bytes() if path.exists() else b""
                yield from differs(f"{word}: the volume, {said(*call)}", left, bytes_ + bytes(50) if word == "adopt" else b"")
                kept = [content] if call[0] == "unlink" else [content, None]
                yield from differs(f"{word}: the note, {said(*call)}", (beside.read_bytes() if beside.exists() else None) in kept, True)
                yield from differs(f"{word} behind {said(*call)}", site.say(line), done)


def bytes_written(site):
    """The bytes of a volume: its label, and a block for each job."""
    site.say("label 1 Vol-Bytes Calls File")
    wanted = label_block("Vol-Bytes", "Calls", "File", MOMENT, HOST)
    for number, records in enumerate(([b"hello"], [], [b"", b"last"]), 1):
        lines = site.job(records, "Calls")
        key = (TIME, int(lines[0].split(" ")[2]))
        wanted += seal(key, number, session_body(records, "Calls", MOMENT))
    yield from differs("the volume", (site.volumes / "Vol-Bytes").read_bytes(), wanted)


def labels(site):
    """A label whose calls fail in turn, and then the same label."""
    for at, (*call, answer, again, size) in enumerate(LABELS):
        name = f"Vol-{at:04}"
        site.fail(*call)
        yield from differs(f"label, {said(*call)}", site.say(f"label 1 {name} Labels File"), answer)
        site.well()
        yield from differs(f"label behind {said(*call)}", site.say(f"label 1 {name} Labels File"), again)
        label = label_block(name, "Labels", "File", MOMENT, HOST)
        wanted = {"nothing": b"", "half": label[:len(label) // 2 + len(label) % 2], "whole": label}[size]
        yield from differs(f"the file behind {said(*call)}", (site.volumes / name).read_bytes(), wanted)
    for at, (*call, answer) in enumerate(STANDING):
        name = f"Standing-{at}"
        (site.volumes / name).write_bytes(b"kept")
        site.fail(*call)
        yield from differs(f"label of a name that stands, {said(*call)}", site.say(f"label 1 {name} Labels File"), answer)
        site.well()
        yield from differs(f"{name} is kept", (site.volumes / name).read_bytes(), b"kept")


def mounts(site):
    """A mount whose calls fail in turn, and then the same mount; of volumes of the pool that the drive serves."""
    for at, (kind, how, number, answer) in enumerate(LOADS):
        name = f"Mount-{at}"
        yield from differs(f"label {name}", site.say(f"label 1 {name} Calls File"), OK_LABEL)
        site.fail(kind, 1, how, number)
        yield from differs(f"mount, {said(kind, 1, how, number)}", site.say(f"mount 1 {name}"), answer)
        site.well()
        yield from differs(f"mount behind {said(kind, 1, how, number)}", site.say(f"mount 1 {name}"), "ok mounted")
        site.say("unmount 1")


def adoptions(site):
    """An adoption whose calls fail in turn, and then the same one. The volume is cut after its last whole block."""
    # The first look is for a note.
    rows = [(kind, nth + (kind == "look"), *rest) for kind, *rest in LOADS for nth in (1, 3 if kind == "stat" else 2)] + ADOPTIONS
    for at, (*call, answer) in enumerate(rows + [(*call, FAULT) for call in TORN]):
        name = f"Adopt-{at}"
        bytes_ = volume_of(name, [session_body([b"hello"])])
        path = site.volumes / name
        path.write_bytes(bytes_ + bytes(50))
        adopted = f"ok adopted {len(bytes_)} 2"
        site.fail(*call)
        yield from differs(f"adopt, {said(*call)}", site.say(f"adopt 1 {name}"), answer or adopted)
        site.well()
        again = LABELLED if not answer else FAULT if tuple(call) in TORN else adopted
        yield from differs(f"adopt behind {said(*call)}", site.say(f"adopt 1 {name}"), again)
        yield from differs(f"bytes behind {said(*call)}", path.read_bytes(), bytes_)


def readings(site):
    """A reading whose calls fail in turn, and then the same one."""
    site.say("label 1 Reading Readings File")
    lines = site.job(RECORDS, "Readings")
    for *call, answer in [(kind, 1, *rest) for kind, *rest in LOADS] + READINGS:
        # What was open for reading is closed by a load.
        site.say("unmount 1")
        yield from differs("mount", site.say("mount 1 Reading"), "ok mounted")
        site.say("unmount 1")
        site.fail(*call)
        records, last = site.read(lines)
        yield from differs(f"read, {said(*call)}", last, answer or whole(RECORDS))
        yield from differs(f"records, {said(*call)}", records, [] if answer else RECORDS)
        site.well()
        yield from differs(f"read behind {said(*call)}", site.read(lines), (RECORDS, whole(RECORDS)))


def jobs(site):
    """A job whose calls fail in turn, with two volumes of its pool; then another job of that pool. What is closed reads
    whole, also while a shorter volume is loaded, which has nothing of it."""
    for at, (*call, places, status) in enumerate(JOBS):
        names = {f"Job{letter}-{at}": letter for letter in "AB"}
        site.say("unmount 1")
        for name in names:
            yield from differs(f"label {name}", site.say(f"label 1 {name} Jobs{at} File"), OK_LABEL)
        site.fail(*call)
        lines = site.job(RECORDS, f"Jobs{at}")
        site.well()
        where = "".join(names[line.split(" ")[1]] for line in lines[1:])
        yield from differs(f"job, {said(*call)}", "lost" if lines == ["3905 Session failed"] else where, places)
        yield from differs(f"volume, {said(*call)}", site.status(f"JobA-{at}"), status)
        next_lines = site.job(RECORDS, f"Jobs{at}")
        where = [names[line.split(" ")[1]] for line in next_lines[1:]]
        yield from differs(f"job behind {said(*call)}", where, ["A" if status == "append" and places != "B" else "B"])
        closed = [next_lines] + ([lines] if places != "lost" else [])
        for one in closed:
            yield from differs(f"reading behind {said(*call)}", site.read(one), (RECORDS, whole(RECORDS)))
        site.say("unmount 1")
        yield from differs("label", site.say(f"label 1 JobC-{at} Jobs{at} File"), OK_LABEL)
        yield from differs("mount", site.say(f"mount 1 JobC-{at}"), "ok mounted")
        for one in closed:
            yield from differs(f"reading beside another, {said(*call)}", site.read(one), (RECORDS, whole(RECORDS)))


def cut_volumes(site):
    """A volume that is cut at each place of its last block, and one with a wrong byte at some places, are adopted."""
    bodies = [b"twelve bytes", b"the body of another block"]
    start, end = LABEL_SIZE + 36, LABEL_SIZE + 36 + 49
    for size in range(start, end + 1):
        name = f"Cut-{size:04}"
        (site.volumes / name).write_bytes(volume_of(name, bodies)[:size])
        yield from differs(f"cut at {size}", site.say(f"adopt 1 {name}"), f"ok adopted {end} 3" if size == end
                           else f"ok adopted {start} 2")
        yield from differs(f"size of {name}", (site.volumes / name).stat().st_size, end if size == end else start)
    for at in (0, 8, 40, LABEL_SIZE - 1, LABEL_SIZE, 90, start - 1, start, 130, 142, 143, end - 1):
        name = f"Bad-{at:04}"
        bytes_ = bytearray(volume_of(name, bodies))
        bytes_[at] ^= 0x40
        (site.volumes / name).write_bytes(bytes_)
        wanted = NOT_OURS if at < LABEL_SIZE else f"ok adopted {LABEL_SIZE} 1" if at < start else f"ok adopted {start} 2"
        yield from differs(f"a wrong byte at {at}", site.say(f"adopt 1 {name}"), wanted)


def other_volumes(site):
    """Volumes that are another's, have blocks of this run, are too long, full, or no files at all."""
    files = {
        "Named": volume_of("Other", []), "Tape": volume_of("Tape", [], "Tape"), "Empty": b"", "Text": b"no volume",
        "Late": volume_of("Late", [session_body([b"late"])], key=(2_000_000_000, 1)),
        "This": volume_of("This", [session_body([b"this"])], key=(TIME, 1)),
    }
    for name, bytes_ in files.items():
        (site.volumes / name).write_bytes(bytes_)
    for name, size in (("Longest", 2**36), ("Too-long", 2**36 + 1)):
        (site.volumes / name).write_bytes(volume_of(name, []))
        os.truncate(site.volumes / name, size)
    longest = len(volume_of("Longest", []))
    for name, wanted in {
            "Named": NOT_OURS, "Tape": "3932 Other pool or media", "Empty": NOT_OURS, "Text": NOT_OURS,
            "Late": "3936 Volume has blocks of this run", "This": "3936 Volume has blocks of this run",
            "Longest": f"ok adopted {longest} 1", "Too-long": NOT_OURS, "Missing": NOT_THERE}.items():
        yield from differs(f"adopt {name}", site.say(f"adopt 1 {name}"), wanted)
    for name, bytes_ in files.items():
        yield from differs(f"{name} is kept", (site.volumes / name).read_bytes(), bytes_)
    yield from differs("the longest is cut", (site.volumes / "Longest").stat().st_size, longest)


def no_files(site):
    """Links, a folder, a pipe and a socket under the name of a volume are no volumes, and nothing becomes of them."""
    (site.folder / "target").write_bytes(b"kept")
    for name, target in {"Link": site.folder / "target", "Dangling": site.folder / "nothing", "Device": "/dev/full",
                         "Null": "/dev/null"}.items():
        (site.volumes / name).symlink_to(target)
    (site.volumes / "Folder").mkdir()
    os.mkfifo(site.volumes / "Pipe")
    with socket.socket(socket.AF_UNIX) as one:
        one.bind(str(site.volumes / "Socket"))
    for name in ("Link", "Dangling", "Device", "Null", "Folder", "Pipe", "Socket"):
        yield from differs(f"label {name}", site.say(f"label 1 {name} Default File"), FAULT)
        yield from differs(f"adopt {name}", site.say(f"adopt 1 {name}"), FAULT)
    yield from differs("the target", (site.folder / "target").read_bytes(), b"kept")
    yield from differs("nothing", (site.folder / "nothing").exists(), False)


def replaced(site):
    """A volume whose file is taken away, or replaced by another thing, can't be loaded or read. Once it is back it can."""
    (site.folder / "target").write_bytes(b"kept")
    for at, (make, answer) in enumerate((
            (lambda path: None, NOT_THERE), (lambda path: path.symlink_to(site.folder / "target"), FAULT),
            (lambda path: path.symlink_to(site.folder / f"back-{path.name}"), FAULT), (lambda path: path.mkdir(), FAULT),
            (os.mkfifo, FAULT))):
        site.say("unmount 1")
        name, pool = f"Gone-{at}", f"Gone{at}"
        path, back = site.volumes / name, site.folder / f"back-Gone-{at}"
        site.say(f"label 1 {name} {pool} File")
        lines = site.job(RECORDS, pool)
        site.say("unmount 1")
        path.rename(back)
        make(path)
        yield from differs(f"mount of {name}", site.say(f"mount 1 {name}"), answer)
        yield from differs(f"reading of {name}", site.read(lines), ([], answer))
        if path.is_dir() and not path.is_symlink():
            path.rmdir()
        elif os.path.lexists(path):
            path.unlink()
        back.rename(path)
        yield from differs(f"mount of {name} again", site.say(f"mount 1 {name}"), "ok mounted")
        yield from differs(f"reading of {name} again", site.read(lines), (RECORDS, whole(RECORDS)))
    yield from differs("the target", (site.folder / "target").read_bytes(), b"kept")


# What becomes of the file of a loaded volume while a job is open.
TAKEN = {
    "removed": lambda path, away: path.unlink(), "moved": lambda path, away: path.rename(away),
    "replaced": lambda path, away: (shutil.copyfile(path, away), os.replace(away, path)),
    "linked": lambda path, away: (path.rename(away), path.symlink_to(away)),
}


def taken(site):
    """The file of the loaded volume is removed, moved or replaced while a job is open: the job isn't told as closed, and
    the next one goes to another volume. A volume that was moved takes no more in this run, also if it is back."""
    for at, (how, take) in enumerate(TAKEN.items()):
        names = {f"Taken{letter}-{at}": letter for letter in "AB"}
        pool, away = f"Taken{at}", site.folder / f"away-{at}"
        for name in names:
            yield from differs(f"label {name}", site.say(f"label 1 {name} {pool} File"), OK_LABEL)
        path = site.volumes / f"TakenA-{at}"
        first = site.job(RECORDS, pool)
        lost = site.job(RECORDS, pool, between=lambda: take(path, away))
        yield from differs(f"a job whose file is {how}", lost, ["3905 Session failed"])
        yield from differs(f"volume that is {how}", site.status(path.name), "error")
        lines = site.job(RECORDS, pool)
        yield from differs(f"job after one is {how}", [names[line.split(" ")[1]] for line in lines[1:]], ["B"])
        yield from differs(f"reading after one is {how}", site.read(lines), (RECORDS, whole(RECORDS)))
        if how == "moved":
            away.rename(path)
        if how in ("moved", "replaced"):
            yield from differs(f"reading what is {how}", site.read(first), (RECORDS, whole(RECORDS)))
        site.say("unmount 1")


def full_device(site):
    """No write finds room any more: a label and a job are refused, all volumes are full. Once there is room, another volume
    is labelled and another job is closed; what was closed before is read at any time."""
    for name in ("Before-1", "Before-2"):
        site.say(f"label 1 {name} Room File")
    lines = site.job(RECORDS, "Room")
    site.fail("write", 1, "on", errno.ENOSPC)
    yield from differs("a job", site.job(RECORDS, "Room"), ["3907 Not yet"])
    yield from differs("the volumes", [site.status(f"Before-{at}") for at in (1, 2)], ["full", "full"])
    yield from differs("requests", site.say("requests"), "request 1 Room File\nok requests 1")
    site.say("unmount 1")
    yield from differs("a label", site.say("label 1 Before-3 Room File"), NO_ROOM)
    yield from differs("reading", site.read(lines), (RECORDS, whole(RECORDS)))
    site.well()
    yield from differs("another label", site.say("label 1 Before-4 Room File"), OK_LABEL)
    later = site.job(RECORDS, "Room")
    yield from differs("another job", [line.split(" ")[1] for line in later[1:]], ["Before-4"])
    for one in (lines, later):
        yield from differs("reading again", site.read(one), (RECORDS, whole(RECORDS)))
    yield from differs("requests then", site.say("requests"), "ok requests 0")


def no_folders(site):
    """A drive whose folder isn't there, one with a file in its place, and one in which nobody makes a file."""
    (site.folder / "file").write_bytes(b"kept")
    for number, media, adopted in ((2, "Lost", NOT_THERE), (3, "Blocked", FAULT), (4, "Proc", NOT_THERE)):
        yield from differs(f"label on {media}", site.say(f"label {number} Vol-{media} Default {media}"), FAULT)
        yield from differs(f"adopt on {media}", site.say(f"adopt {number} Vol-{media}"), adopted)
        yield from differs(f"job on {media}", site.job([b"a"], media=media), ["3907 Not yet"])
    yield from differs("the file", (site.folder / "file").read_bytes(), b"kept")
    (site.folder / "lost").mkdir()
    yield from differs("label in the folder", site.say("label 2 Vol-Lost Default Lost"), OK_LABEL)
    yield from differs("job in the folder", len(site.job([b"a"], media="Lost")), 2)


def modes(site):
    """Volumes are made for their owner alone, whatever the user's mask."""
    found = {path.name: stat.S_IMODE(path.lstat().st_mode) for path in site.volumes.iterdir()
             if path.name.startswith(("Vol-", "Mount-", "Job", "Reading", "Before-"))}
    yield from differs("modes", set(found.values()), {0o600})


def readers(folder, shim):
    """`sdtool ls` and `sdtool read` if a call on the volume fails: what was printed before stays."""
    site = Site(folder, shim)
    bytes_ = volume_of("Vol-0001", [session_body([b"hello"])])
    (site.volumes / "Vol-0001").write_bytes(bytes_)
    spans = ["session 900 1", f"span Vol-0001 1 1 1 {LABEL_SIZE} {len(bytes_)}"]
    listed = f"label Vol-0001 Vol-0001 File\nblock 1 {LABEL_SIZE} {len(bytes_) - LABEL_SIZE} 900 1\n"
    for *call, answer in [(kind, 1, *rest) for kind, *rest in LOADS] + READINGS:
        site.fail(*call)
        yield from differs(f"ls, {said(*call)}", site.tool("ls", site.volumes / "Vol-0001"),
                           (f"{answer}\n" if answer else f"{listed}tail 0\n", int(bool(answer))))
        site.fail(*call)
        yield from differs(f"sdtool read, {said(*call)}", site.by_tool(spans, site.env(TIME)),
                           (b"", answer) if answer else (b"hello", "ok read 1 5 ended"))
    site.fail("read", 3)
    yield from differs("ls, its last read", site.tool("ls", site.volumes / "Vol-0001"), (f"{listed}{FAULT}\n", 1))


OPERATIONS = (bytes_written, calls_made, notes_taken, labels, mounts, adoptions, readings, jobs, taken, full_device, cut_volumes, other_volumes,
              no_files, replaced, no_folders, modes)
DRIVES = (("File", "volumes"), ("Lost", "lost"), ("Blocked", "file"), ("Proc", "/proc"))


# Of a fault the log has where it was met; of a drive, what became of its volume.
LOGGED = (rf"talk \d+: label 1 \S+ \S+ File: {FAULT}", rf"talk \d+: reading session \d+ from \S+: {FAULT}",
          r"drive 1: volume \S+ is full", r"drive 1: the device failed with volume \S+", r"drive 1: volume \S+ is mounted",
          r"drive 1 waits for a volume of pool Room")


def not_logged(daemon):
    """Of what each log of such operations has, what this one hasn't."""
    log = daemon.log()
    return (form for form in LOGGED if not any(re.fullmatch(form, line) for line in log))


def operations(folder, shim):
    """Each operation on volumes that are files, with its calls failing in turn, by one daemon."""
    site = Site(folder, shim, drives=DRIVES)
    with site.daemon(TIME) as daemon:
        for check in OPERATIONS:
            site.well()
            site.say("unmount 1")
            for fault in check(site):
                yield f"{check.__name__}: {fault}"
        if missing := list(not_logged(daemon)):
            yield f"not logged: {missing}, but {daemon.log()[-3:]}"
