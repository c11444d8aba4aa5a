"""The words that need no catalogue: plain files and streams with a file of spans, lines of the operator, adoptions."""
import contextlib
import io
import os
import pathlib
import signal
import subprocess
import time

from clients import client
from daemon import CLIENT, WAIT, drive, later_second
from sdd_client import newfile, plainfiles
from sdd_client.connection import Address, connect
from sdd_client.dialogue import Appending, Target
from sdd_client.errors import Refused
from site_of_test import FILES, NUMBERS, answering, is_told, say, with_tools

def found_in(folder):
    """What the plain files below a folder hold, with their modes and moments, by their names."""
    found = {}
    for where, _, names in os.walk(os.fsencode(folder)):
        for name in names:
            path = os.path.join(where, name)
            status = os.stat(path)
            with open(path, "rb") as file:
                found[os.path.relpath(path, os.fsencode(folder))] = file.read(), status.st_mode, status.st_mtime_ns
    return found


def backups(checks, site):
    """Files are backed up, in a phase each, and restored with their data, modes and moments, also after a restart."""
    site.draw()
    with site.daemon():
        checks.same("label", site.label("Vol-0001"), ("ok labelled\n", 0))
        spans, back = site.folder / "spans", site.folder / "back"
        came = site.say("--job", 7, "--record", "1000,1,70000", "backup", "--spans", spans, site.files)
        is_told(checks, "backup", came, 0, f"{len(FILES)} files are backed up\n")
        checks.same("mode of the spans", spans.stat().st_mode & 0o777, 0o600)
        is_told(checks, "restore", site.say("restore", spans, back), 0, f"{len(FILES)} files are restored\n")
        same_files(checks, site, back)
        is_told(checks, "restore over it", site.say("restore", spans, back), 0)
        same_files(checks, site, back)
        # Paths from the current folder on, given one by one.
        words = ["backup", "--spans", "../spans-2", "empty", "./under", "under/another"]
        is_told(checks, "some", site.say(*words, cwd=site.files), 0, "3 files are backed up")
        came = site.say("restore", site.folder / "spans-2", site.folder / "some")
        is_told(checks, "restore some", came, 0, "3 files are restored")
        checks.same("some files", sorted(found_in(site.folder / "some")), [b"empty", b"under/a/folder", b"under/another"])
    for words, told, status in ((["restore", spans, site.folder / "without"], f"{len(FILES)} files are restored", 0),
                                (["read", spans, site.folder / "data"], "ok read", 0),
                                (["console", "status"], "--volumes is for restore and read", 2)):
        came = site.say("--volumes", site.volumes, *words, env=with_tools(site.folder))
        checks.check(f"{words[0]} without the daemon", came[1] == status and told in came[0], came)
    same_files(checks, site, site.folder / "without")
    is_told(checks, "no lines", site.say("--volumes", site.volumes, "read", site.conf, "-", env=with_tools(site.folder)), 4,
            "these are not the lines of a session")
    without = {**site.env, "PATH": os.environ["PATH"]}
    is_told(checks, "no sdtool", site.say("--volumes", site.volumes, "read", spans, "-", env=without), 4, "sdtool")
    later_second()
    with site.daemon():
        checks.same("adopt", site.say("console", "adopt", 1, "Vol-0001")[1], 0)
        is_told(checks, "restore by a later run", site.say("restore", spans, site.folder / "later"), 0)
        same_files(checks, site, site.folder / "later")
    checks.same("parts", site.parts(), [])


def same_files(checks, site, folder):
    root = os.path.join(os.fsencode(folder), os.fsencode(site.files).lstrip(b"/"))
    checks.same(f"files in {folder.name}", found_in(root), found_in(site.files))


def left_out(checks, site):
    """What is no plain file or isn't there is told and left out; the others are backed up."""
    site.draw()
    (site.files / "link").symlink_to("empty")
    os.mkfifo(site.files / "queue")
    (site.files / "nowhere").symlink_to("/nowhere")
    with site.daemon():
        site.label("Vol-0001")
        spans = site.folder / "spans"
        came = site.say("backup", "--spans", spans, site.files, site.files / "missing")
        is_told(checks, "backup", came, 4, "link", "queue is no plain file", "nowhere", "missing", "4 left out",
                f"{len(FILES)} files are backed up")
        is_told(checks, "restore", site.say("restore", spans, site.folder / "back"), 0, f"{len(FILES)} files are restored")
        is_told(checks, "nothing", site.say("backup", "--spans", site.folder / "none", site.files / "missing"), 4, "no file to back up")
        is_told(checks, "above", site.say("backup", "--spans", site.folder / "none", "../x"), 4, "leads above the current folder")
        # Open to be read, but not read: a folder of the system whose files say so.
        is_told(checks, "unreadable", site.say("backup", "--spans", site.folder / "none", "/proc/self/mem"), 4, "rror")
        checks.same("spans", (site.folder / "none").exists(), False)
        checks.check("cancelled", "session 3 cancelled 1" in site.say("console", "status")[0], site.say("console", "status"))
    checks.same("parts", site.parts(), [])


def kept_spans(checks, site):
    """Lines are kept in a new file alone, and the job isn't begun if it can't be made."""
    site.draw()
    with site.daemon():
        site.label("Vol-0001")
        spans, lost = site.folder / "spans", site.folder / "nowhere" / "spans"
        spans.write_text("kept\n")
        data = site.files / "a byte"
        for words in (["backup", "--spans", spans, data], ["append", data, spans]):
            is_told(checks, f"{words[0]} over spans", site.say(*words), 4, "is there already")
        for words in (["backup", "--spans", lost, data], ["append", data, lost], ["backup", "--spans", "/proc/spans", data]):
            is_told(checks, f"{words[0]} without a place", site.say(*words), 4, "No such file or directory")
        checks.same("kept", spans.read_text(), "kept\n")
        checks.same("no session", site.say("console", "status")[0].count("session"), 0)
        # The job is closed, and its lines can't be kept: they are printed.
        with unfinished(OSError(28, "No space left on device")):
            printed = io.StringIO()
            with contextlib.redirect_stdout(printed), contextlib.suppress(OSError), newfile.Spans(site.folder / "full") as kept:
                kept.keep(["session 1 1", "span Vol-0001 1 1 1 92 259"])
        checks.same("printed", printed.getvalue(), "session 1 1\nspan Vol-0001 1 1 1 92 259\n")
        checks.same("nothing kept", (site.folder / "full").exists(), False)
    checks.same("parts", site.parts(), [])


@contextlib.contextmanager
def unfinished(why):
    """No new file can be finished meanwhile."""
    def fails(self):
        raise why

    finish, newfile.NewFile.finish = newfile.NewFile.finish, fails
    try:
        yield
    finally:
        newfile.NewFile.finish = finish


def streams(checks, site):
    """A stream of bytes from the standard input, and back to a file and to the standard output."""
    site.draw()
    data = NUMBERS.randbytes(300_000)
    command, options = [CLIENT, "--port", str(site.port)], {"capture_output": True, "timeout": WAIT}
    spans = site.folder / "spans"
    with site.daemon():
        site.label("Vol-0001")
        printed = subprocess.run([*command, "append", "-"], input=data, check=True, **options).stdout
        done = subprocess.run([*command, "append", "-", spans], input=data, **options)
        checks.same("append", (done.stdout, done.stderr, done.returncode), (b"", b"", 0))
        for text, words in ((printed, ["-", "-"]), (b"", [spans, "-"]), (printed, ["-", site.folder / "got"])):
            done = subprocess.run([*command, "read", *words], input=text, **options)
            checks.same(f"read {words}", done.stdout, data if words[1] == "-" else b"")
            checks.check(f"told {words}", done.returncode == 0 and b"Ended=1" in done.stderr, done.stderr)
        checks.same("got", (site.folder / "got").read_bytes(), data)
        told = {"stderr": subprocess.PIPE, "text": True, "timeout": WAIT}
        for place in ("/dev/full", None):
            with open(place, "wb") if place else gone() as out:
                done = subprocess.run([*command, "read", spans, "-"], stdout=out, **told)
            is_told(checks, f"read to {place}", (done.stderr, done.returncode), 4)
            with open(place, "wb") if place else gone() as out:
                done = subprocess.run([*command, "console", "status"], stdout=out, **told)
            is_told(checks, f"status to {place}", (done.stderr, done.returncode), 4)
        is_told(checks, "a stream isn't restored", site.say("restore", spans, site.folder / "back"), 4, "no backup of files",
                "0 files are restored")
    checks.same("parts", site.parts(), [])


@contextlib.contextmanager
def gone():
    """A pipe that nobody reads."""
    reads, writes = os.pipe()
    os.close(reads)
    with open(writes, "wb") as file:
        yield file


def no_daemon(checks, site):
    """No daemon, one that is stopped, and what only looks like one."""
    site.draw()
    is_told(checks, "none", site.say("console", "status"), 3, "no daemon listens")
    is_told(checks, "none for a job", site.say("backup", "--spans", site.folder / "spans", site.files), 3, "no daemon listens")
    with site.daemon() as daemon:
        daemon.process.send_signal(signal.SIGSTOP)
        begun = time.monotonic()
        came = site.say("--timeout", 0.5, "console", "status")
        is_told(checks, "stopped", came, 3, "no answer for 0.5 seconds")
        checks.check("in time", time.monotonic() - begun < 10)
        daemon.kill()
    ticket = client.text_packet("3000 OK open ticket = 1")
    for number, answer in enumerate([b"", b"\0", b"\xff\xff\xff\xff", b"\0\0\0\3abc", b"\x7f\xff\xff\xff", 3 * ticket,
                                     client.text_packet("3000 OK open ticket = none"), ticket + b"\0\0"]):
        with answering(answer) as port:
            is_told(checks, f"nonsense {number}", say(port, "--timeout", "5", "append", "/dev/null"), 3)
    checks.same("parts", site.parts(), [])


def refused(checks, site):
    """What the daemon refuses is told in its words."""
    site.draw()
    with site.daemon():
        spans, data = site.folder / "spans", site.files / "a byte"
        is_told(checks, "media", site.say("--media", "Tape", "backup", "--spans", spans, data), 1, "3910 No drive of this media")
        is_told(checks, "pool", site.say("--pool", "a/b", "append", data, spans), 1, "3937 Bad name")
        is_told(checks, "line", site.say("console", "seek", 1), 1, "3901 Bad command")
        checks.same("printed", site.say("console", "requests"), ("ok requests 0\n", 0))
        # No volume is there: the close waits for one, and the client tells so.
        told = io.StringIO()
        with connect(Address(site.port)) as talk, contextlib.redirect_stderr(told):
            try:
                plainfiles.closed(talk, Appending(talk, Target(7)), 0.2)
                checks.check("not closed", False)
            except Refused as why:
                checks.same("not closed", str(why), "3907 Not yet")
        checks.same("told", told.getvalue().splitlines(), [f"sdd-client: the daemon says: {line}" for line in (
            "request 1 Default File", "ok requests 1")])
        for text in ("", "session 1\n", "session 1 1\nspan x\n", "\xff", "span Vol-0001 1 1 1 92 259\n"):
            (site.folder / "text").write_bytes(text.encode("latin-1"))
            for word, to in (("read", "got"), ("restore", "back")):
                came = site.say(word, site.folder / "text", site.folder / to)
                is_told(checks, f"{word} {text!r}", came, 4, "these are not the lines of a session")
        is_told(checks, "no spans", site.say("read", site.folder / "none", site.folder / "got"), 4, "No such file")
        (site.folder / "text").write_text("session 0 1\nspan Vol-0001 1 1 1 92 259\n")
        is_told(checks, "no session", site.say("read", site.folder / "text", site.folder / "got"), 1, "3901 Bad command")
        (site.folder / "text").write_text("session 1 1\nspan Vol-0009 1 1 1 92 259\n")
        is_told(checks, "no volume", site.say("read", site.folder / "text", site.folder / "got"), 1, "3930 Volume not on the shelf")
        checks.same("no file", ((site.folder / "got").exists(), sorted(spans.parent.glob("spans*"))), (False, []))
    checks.same("usage", [site.say(*words)[1] for words in ([], ["frob"], ["--record", "0", "append", "-"], ["backup", "x"],
                                                             ["--timeout", "0", "console", "x"])], 5 * [2])
    checks.same("parts", site.parts(), [])


def damaged(checks, site):
    """After a refusal, the files before it are whole, and of the one that it came in nothing is there."""
    site.draw()
    names = ["first", "second", "third"]
    for name in names:
        (site.files / name).write_bytes(NUMBERS.randbytes(3000))
    with site.daemon():
        site.label("Vol-0001")
        spans = site.folder / "spans"
        is_told(checks, "backup", site.say("backup", "--spans", spans, *names, cwd=site.files), 0)
        volume = site.volumes / "Vol-0001"
        whole = volume.read_bytes()
        volume.write_bytes(whole[:-1500] + b"?" + whole[-1499:])
        is_told(checks, "restore", site.say("restore", spans, site.folder / "back"), 1, "3951 Damaged block", "2 files are restored")
        checks.same("restored", sorted(found_in(site.folder / "back")), [b"first", b"second"])
        is_told(checks, "read", site.say("read", spans, site.folder / "got"), 1, "3951 Damaged block")
        came = site.say("--volumes", site.volumes, "read", spans, site.folder / "got", env=with_tools(site.folder))
        is_told(checks, "read without the daemon", came, 1, "3951 Damaged block")
        checks.same("nothing read", (site.folder / "got").exists(), False)
        volume.write_bytes(whole)
        # A session that was given up has no end.
        with client.Talk(site.port) as talk:
            ticket = client.open_session(talk, 8, "Default", "File")
            for index, name in enumerate(names, 1):
                client.append_packets(talk, ticket, [client.packet(f"644 0 {name}".encode())], index, plainfiles.NAME_STREAM)
                client.append_packets(talk, ticket, 3 * [client.packet(bytes(2000))], index)
        lines = site.say("console", "jobmedia", ticket)[0]
        (site.folder / "given up").write_text(lines)
        words = ["--volumes", site.volumes, "read", site.folder / "given up", site.folder / "got"]
        came = site.say(*words, env=with_tools(site.folder))
        is_told(checks, "given up, without the daemon", came, 1, "given up before its end")
        is_told(checks, "given up", site.say("restore", site.folder / "given up", site.folder / "cut"), 1, "given up before its end")
        checks.same("what was whole", sorted(found_in(site.folder / "cut")), [b"first", b"second"])
    checks.same("parts", site.parts(), [])


def other_records(checks, site):
    """Records that name no file, or one outside the folder. A FileIndex that looks like a refusal is none."""
    with site.daemon():
        site.label("Vol-0001")
        for number, head in enumerate([b"", b"644 0 ", b"644 0 ../x", b"644 0 /x", b"644 0 a//b", b"644 0 a/../../x",
                                       b"644 0 .", b"x 0 a", b"644 x a", b"644 0 a\0b", b"7777777 0 a"]):
            spans = site.folder / f"spans{number}"
            job(site, spans, [(1, 1, head), (1, 2, b"data")])
            is_told(checks, repr(head), site.say("restore", spans, site.folder / "back"), 4, "a record names no file")
        for number, records in enumerate([[(1, 2, b"data")], [(1, 1, b"644 0 a"), (1, 3, b"x")], [(1, 1, b"644 0 a"), (2, 2, b"x")]]):
            spans = site.folder / f"others{number}"
            job(site, spans, records)
            is_told(checks, f"records {number}", site.say("restore", spans, site.folder / "back"), 4, "no backup of files")
        checks.same("nothing", (found_in(site.folder / "back"), (site.folder / "x").exists()), ({}, False))
        job(site, site.folder / "many", [(index, 2, b"x") for index in range(1, 4001)])
        with client.Talk(site.port) as talk:
            indexes = []
            client.read_session(talk, newfile.lines_in(site.folder / "many"), lambda index, stream, data: indexes.append(index))
        checks.same("4000 records", indexes, list(range(1, 4001)))
    checks.same("parts", site.parts(), [])


def job(site, spans, records):
    """A job of these records, each an index, a stream and data, in one phase."""
    with client.Talk(site.port) as talk:
        ticket = client.open_session(talk, 7, "Default", "File")
        talk.ask(f"append data {ticket}")
        for index, stream, data in records:
            talk.send(client.text_packet(f"{index} {stream} 0"), client.packet(data), client.signal(client.END_OF_DATA))
        talk.send(client.signal(client.END_OF_DATA))
        talk.line()
        spans.write_text("".join(f"{line}\n" for line in client.close_session(talk, ticket)))


def phases(checks, site):
    """Many records go in several phases, and a refusal ends them at the first of these."""
    client.PHASE, phase = 10_000, client.PHASE
    sent = []
    with site.daemon(), client.Talk(site.port) as talk:
        site_label = talk.console("label 1 Vol-0001 Default File")
        checks.same("label", site_label, ["ok labelled"])
        ticket = client.open_session(talk, 7, "Default", "File")
        packets = [client.packet(bytes([number]) * 999) for number in range(50)]
        client.append_packets(talk, ticket, packets)
        lines, got = client.close_session(talk, ticket), []
        client.read_session(talk, lines, lambda index, stream, data: got.append((index, stream, client.packet(data))))
        checks.same("read", got, [(1, 2, packet) for packet in packets])
        ticket = client.open_session(talk, 7, "Default", "File")
        try:
            client.append_packets(talk, ticket, (sent.append(one) or one for one in packets), index=2)
            checks.check("refused", False)
        except client.Refused as why:
            checks.same("refused", (str(why), len(sent)), ("3903 Bad file index", 10))
    client.PHASE = phase


def adoptions(checks, site):
    """All volumes are adopted by the order of their names, also by a client that is there before the daemon."""
    with site.daemon():
        for name in ("Vol-10", "Vol-9", "b", "a:1"):
            site.label(name)
        job(site, site.folder / "spans", [(1, 2, b"x")])
    later_second()
    command = [CLIENT, "adopt-all", site.conf]
    with subprocess.Popen(command, stdout=subprocess.PIPE, stderr=subprocess.STDOUT, text=True) as early:
        time.sleep(0.5)
        with site.daemon():
            said, _ = early.communicate(timeout=WAIT)
            names = [line.partition(":")[0] for line in said.replace("a:1", "a;1").splitlines()]
            checks.same("adopted", (names, early.returncode), (["Vol-9", "Vol-10", "a;1", "b"], 0))
            checks.same("read", site.say("read", site.folder / "spans", site.folder / "got")[1], 0)
            checks.same("again", adopted(command), ("", 0))
            (site.volumes / "notes.txt").write_text("no volume")
            (site.volumes / "spool~1~1").write_text("no name of a volume")
            (site.volumes / "folder").mkdir()
            told = "drive 1, notes.txt: 3931 Not a volume of this profile"
            is_told(checks, "no volume", adopted(command), 1, told, "1 not adopted")
    site.conf.write_text(f"port = {site.port}\n" + drive("File", site.folder / "lost") + drive("File", site.volumes))
    (site.volumes / "notes.txt").unlink()
    later_second()
    with site.daemon():
        is_told(checks, "a folder is lost", adopted(command), 4, "drive 1: ", "Vol-9: ok adopted", "1 folders can't be read")
    for text in ("port", "", "drive = 1", "[[drive]]\n", "drive = [1]", "port = []\n[[drive]]\nfolder = 'x'\n", "\xff"):
        site.conf.write_bytes(text.encode("latin-1"))
        is_told(checks, f"configuration {text!r}", adopted(command), 4, "is no configuration")
    site.conf.unlink()
    is_told(checks, "no configuration", adopted(command), 4, "No such file")


def adopted(command):
    done = subprocess.run(command, capture_output=True, text=True, timeout=2 * WAIT)
    return done.stdout + done.stderr, done.returncode


SMALL = "block = 1024\n"
GROUPS = {backups: "", left_out: "", kept_spans: "", streams: "", no_daemon: "", refused: "", damaged: SMALL, other_records: "",
          phases: "", adoptions: ""}
