"""A daemon over a folder of volumes that is stopped at a call on their files, what such a stop may leave of the folder and of the
notes in it, and a client of the daemon.
"""
import contextlib
import itertools
import signal
import struct
import subprocess
import typing
import zlib

from blocks import Note, note_in
from clients import END_OF_DATA, client
from daemon import SDTOOL, WAIT, Daemon, NotListening, drive, free_port, is_listened_on, until
from noters import noters
from shim import loaded

# A close that comes too early is told at once.
client.CLOSING, client.PAUSE = 0, 0
BLOCK_HEADER, LEAST_BLOCK, MOST_BLOCK = 24, 36, 1_048_576


class Stopped(Exception):
    """The daemon was stopped in the middle of a talk."""


class StoppedAtStart(Exception):
    """The daemon was stopped before it listened."""


class NotReached(Exception):
    """The run came to its end with fewer calls than the one that it was to be stopped at."""


class Talk(client.Talk):
    """A connection that doesn't wait for ever. If the daemon goes away, that is reported."""

    def __init__(self, port):
        super().__init__(port, timeout=WAIT)

    def __exit__(self, kind, why, _):
        with contextlib.suppress(OSError):
            super().__exit__()
        if isinstance(why, client.Lost):
            raise Stopped from why

    def console(self, line):
        """The lines that answer a line of the operator, or the refusal alone."""
        self.send(client.text_packet(f"console {line}"))
        lines = []
        while not isinstance(packet := self.receive(), int):
            lines.append(packet.decode().rstrip("\n"))
            if lines[0].startswith("39"):
                break
        return lines

    def append(self, records):
        """Opens a session and appends the records, each an index, a stream and data. Gives its ticket."""
        ticket = client.open_session(self, 7, "Default", "File")
        self.ask(f"append data {ticket}")
        for (index, stream), alike in itertools.groupby(records, key=lambda record: record[:2]):
            self.send(client.text_packet(f"{index} {stream} 0"), *(client.packet(data) for *_, data in alike), END_OF_DATA)
        self.send(END_OF_DATA)
        self.line()
        return ticket

    def read(self, lines):
        """The records of the session with these lines, and the last line that is said."""
        _, seconds, number = lines[0].split()
        spans = map(client.text_packet, lines[1:])
        self.send(client.text_packet(f"read session Time={seconds} Id={number}"), *spans, END_OF_DATA)
        records = []
        while not isinstance(header := self.receive(), int):
            index, stream, _ = map(int, header.split())
            records.append((index, stream, self.receive()))
            self.receive()
        return records, self.receive().decode().rstrip("\n")


class Volume(typing.NamedTuple):
    """A volume as it is, how many of its bytes last through a stop, and whether its name does."""
    bytes: bytes
    stable: int
    is_named: bool

    @property
    def lasting(self):
        return self.stable if self.is_named else 0


class Site:
    """A folder with a configuration and the folders of the volumes and of the spools. The threads that write notes come when they are
    let, and their calls count if they are asked to."""

    def __init__(self, folder, settings):
        self.folder, self.port = folder, free_port()
        self.volumes, self.spools, self.conf, self.log = (folder / word for word in ("volumes", "spools", "conf", "calls"))
        self.gate = folder / "gate"
        self.spools.mkdir(parents=True)
        self.volumes.mkdir()
        # The notes that the disk had when all of them were written last, or when the run began.
        self.noted = {}
        lines = [*settings, f"port = {self.port}", f'spool_folder = "{self.spools}"', drive("File", self.volumes)]
        self.conf.write_text("\n".join(lines))

    def lay(self, files):
        """Makes the folder what a stop left: bytes by their names."""
        for path in self.volumes.iterdir():
            path.unlink()
        for name, content in files.items():
            (self.volumes / name).write_bytes(content)
        self.noted = self.notes()

    def notes(self):
        """The notes that are there, by the names of their files."""
        return {path.name: path.read_bytes() for path in self.volumes.glob("*[!~]~") if path.name != ".lock~"}

    @contextlib.contextmanager
    def daemon(self, shim, seconds, *words, **stop):
        """The port of a daemon in the run of that time, which is stopped as the words of tests/lib/shim.c say."""
        self.log.write_text("")
        self.gate.touch()
        named = {word.upper(): number for word, number in stop.items()}
        env = loaded(shim, STOP_FOLDER=self.volumes, STOP_LOG=self.log, CLOCK_SECONDS=seconds, ASIDE=noters(shim, 1, *words),
                     ASIDE_GATE=self.gate, **named)
        stops = any(word.startswith(("stop_before", "stop_after")) for word in stop)
        try:
            daemon = Daemon(self.conf, *words, port=self.port, env=env)
        except NotListening as why:
            if stops and why.status == -signal.SIGKILL:
                raise StoppedAtStart from why
            raise
        is_stopped = False
        with daemon:
            try:
                yield self.port
            except (Stopped, client.Lost):
                is_stopped = daemon.process.wait(timeout=WAIT) == -signal.SIGKILL
        if stops and not is_stopped and len(self.calls()) < max(stop.get("stop_before", 0), stop.get("stop_after", 0)):
            raise NotReached
        if is_stopped != stops:
            raise RuntimeError(f"the daemon is stopped otherwise than by {stop}: {daemon.process.returncode}")

    def let_notes(self, port):
        """Lets the notes be written, all of them. If the daemon is stopped at that, this is told."""
        with Talk(port) as talk:
            said = [line.split() for line in talk.console("status") if line.startswith("volume ")]
        begun = len(self.calls())
        # The first ones are written by a start itself, before it serves anybody.
        self.noted = self.notes()
        self.gate.unlink()

        def are_written():
            if not is_listened_on(self.port):
                return True
            now, calls = self.notes(), self.calls()[begun:]
            changed = sum(content != self.noted.get(name) for name, content in now.items())
            is_named = "rename" not in [kind for kind, *_ in itertools.takewhile(lambda call: call[0] != "folder", reversed(calls))]
            return (all(self.is_noted(name, status, int(end)) for _, name, _, _, status, end in said)
                    and sum(kind == "rename" for kind, *_ in calls) >= changed and is_named)

        until(are_written, WAIT)
        self.gate.touch()
        self.noted = self.notes()
        # If it was stopped at that there is no talk.
        with Talk(port) as talk:
            talk.console("requests")

    def is_noted(self, name, status, end):
        """Whether the note says what the status of a volume says. One in error is torn if a sync of it failed, and else as any other."""
        try:
            note = note_in((self.volumes / f"{name}~").read_bytes())
        except FileNotFoundError:
            return False
        return isinstance(note, Note) and ((note.end, note.torn) == (end, None) or status == "error" and note.torn is not None)

    def calls(self):
        """The calls that were made, each as its words."""
        return [line.split(" ") for line in self.log.read_text().splitlines()]

    def left(self, before):
        """The volumes after a run that began with these."""
        volumes = dict(before)
        for kind, *words in self.calls():
            if kind == "folder":
                volumes = {name: volume._replace(is_named=True) for name, volume in volumes.items()}
                continue
            name, *numbers = words
            if name.endswith("~"):
                continue
            numbers = [int(number) for number in numbers]
            volume = volumes.get(name, Volume(b"", 0, False))
            if kind == "write":
                at, count = numbers
                # What is written comes from the file; here its place is enough.
                volume = volume._replace(bytes=volume.bytes[:at].ljust(at + count, b"?"))
            elif kind == "cut":
                volume = volume._replace(bytes=volume.bytes[:numbers[0]], stable=min(volume.stable, numbers[0]))
            elif kind == "sync":
                volume = volume._replace(stable=len(volume.bytes))
            elif kind != "create":
                raise RuntimeError(f"the daemon makes a call of another kind: {kind} {name}")
            volumes[name] = volume
        return {name: self.as_written(name, volume) for name, volume in volumes.items()}

    def left_notes(self):
        """What may be left of the notes: the contents that each may have, nothing for none, and what is there of a new one."""
        now, unsettled = self.notes(), set()
        for kind, *words in self.calls():
            if kind == "folder":
                unsettled.clear()
            if kind in ("rename", "unlink"):
                unsettled.update(word for word in words if word.endswith("~") and not word.endswith("~~"))
        names = {*now, *self.noted}
        contents = {name: ([self.noted.get(name)] if name in unsettled else []) + [now.get(name)] for name in names}
        return contents, {path.name: path.read_bytes() for path in self.volumes.glob("*~~")}

    def as_written(self, name, volume):
        content = (self.volumes / name).read_bytes()
        if len(content) != len(volume.bytes):
            raise RuntimeError(f"{name} has {len(content)} bytes, but its calls make {len(volume.bytes)}")
        return volume._replace(bytes=content)

    def by_tool(self, lines):
        """What `sdtool read` prints of the session with these lines."""
        spans = self.folder / "spans"
        spans.write_text("".join(f"{line}\n" for line in lines))
        return subprocess.run([SDTOOL, "read", spans, self.volumes], capture_output=True, timeout=WAIT).stdout


def whole(records):
    """What is said of a session that is read whole."""
    return f"3000 OK read Records={len(records)} Bytes={sum(len(data) for *_, data in records)} Ended=1"


def printed(records):
    """What `sdtool read` prints of these records of a session that ended."""
    lines = [b"rec %d %d %d\n%s\n" % (index, stream, len(data), data) for index, stream, data in records]
    return b"".join(lines) + b"ok read %d %d ended\n" % (len(records), sum(len(data) for *_, data in records))


def walked(image):
    """Where the blocks of a volume end, and the number of the next one."""
    end = number = 0
    while len(image) - end >= LEAST_BLOCK:
        total, size, at, mark = struct.unpack_from(">III4s", image, end)
        whole = image[end + 4:end + size]
        if mark != b"BB02" or not LEAST_BLOCK <= size <= len(image) - end or at != number or zlib.crc32(whole) != total:
            break
        end, number = end + size, number + 1
    return end, number


def block(time, number, body):
    """A block of a session of that time."""
    rest = struct.pack(">II4sII", BLOCK_HEADER + len(body), number, b"BB02", 1, time) + body
    return struct.pack(">I", zlib.crc32(rest)) + rest


def ends_of(closed):
    """Up to where each volume has to last for these sessions."""
    ends = {}
    for volume, *_, end in (line.split()[1:] for one in closed for line in one.lines[1:]):
        ends[volume] = max(int(end), ends.get(volume, 0))
    return ends
