"""The relay as a program, a daemon that keeps what reaches it, and a client that speaks packets."""
import contextlib
import pathlib
import socket
import struct
import subprocess
import threading

import fake
from daemon import ROOT, WAIT, until
from fake import packet, signal

RELAY = ROOT / "relay" / "sdd-relay"
RUN = 5000


class Server:
    """Listens on a socket, and holds each talk by a fake daemon in a thread."""

    def __init__(self, path, made=fake.Fake, seed=1):
        self.path, self.made, self.seed, self.talks, self.status = path, made, seed, [], {}
        self.listens = socket.socket(socket.AF_UNIX, socket.SOCK_STREAM)
        path.unlink(missing_ok=True)
        self.listens.bind(str(path))
        self.listens.listen(50)
        threading.Thread(target=self.serve, daemon=True).start()

    def __enter__(self):
        return self

    def __exit__(self, *_):
        self.listens.shutdown(socket.SHUT_RDWR)
        self.listens.close()

    def serve(self):
        with contextlib.suppress(OSError):
            while True:
                end, _ = self.listens.accept()
                talk = self.made(end, RUN, f"{self.seed} {len(self.talks)}", self.status)
                self.talks.append(talk)
                talk.start()

    def talk(self, number=-1):
        """One of the talks, once it is there."""
        until(lambda: self.talks)
        return self.talks[number]


class Always(fake.Fake):
    """Refuses nothing by chance."""

    def __init__(self, *words):
        super().__init__(*words)
        self.draw = Content()


class Content:
    """Draws what lets a dialogue go on."""

    def random(self):
        return 0.5

    def randrange(self, *bounds):
        return bounds[-1] - 1

    def choice(self, items):
        return items[0]


class Relayed:
    """A client of the relay: its program, with a socket as standard input and output."""

    def __init__(self, conf, *words, **options):
        self.near, far = socket.socketpair()
        self.near.settimeout(WAIT)
        with far:
            self.process = subprocess.Popen(
                [RELAY, "--conf", conf, *words], stdin=far, stdout=far, stderr=subprocess.PIPE, **options)

    def __enter__(self):
        return self

    def __exit__(self, *_):
        self.near.close()
        if self.process.poll() is None:
            self.process.kill()
        self.process.wait(WAIT)
        self.process.stderr.close()

    def send(self, *packets):
        self.near.sendall(b"".join(one if isinstance(one, bytes) else signal(one) if isinstance(one, int) else
                                   packet(one.encode()) for one in packets))

    def bytes(self, count):
        got = b""
        while len(got) < count:
            if not (more := self.near.recv(count - len(got))):
                raise EOFError(got)
            got += more
        return got

    def receive(self):
        """The next packet's text, without its newline, or a signal's number, or None at the end."""
        try:
            (length,) = struct.unpack(">i", self.bytes(4))
            return length if length < 0 else self.bytes(length).decode("latin-1").removesuffix("\n")
        except (EOFError, ConnectionResetError):
            return None

    def ask(self, *packets):
        self.send(*packets)
        return self.receive()

    def lines(self):
        """What comes up to a signal, and the signal's number."""
        got = []
        while isinstance(one := self.receive(), str):
            got.append(one)
        return [*got, one]

    def open(self, pool="Default", job=7):
        said = self.ask(f"append open session JobId={job} Pool={pool} Media=File")
        return int(said.rpartition(" ")[2]) if said.startswith("3000") else said

    def ended(self):
        """Its status, once it ends, and what it says on standard error."""
        said = self.process.stderr.read().decode()
        return self.process.wait(WAIT), said

    def memory(self):
        text = pathlib.Path(f"/proc/{self.process.pid}/status").read_text()
        return next(int(line.split()[1]) * 1024 for line in text.splitlines() if line.startswith("VmHWM"))


class Place:
    """A folder with a configuration of names, and a socket for the daemon."""

    def __init__(self, folder, names=""):
        self.folder, self.socket = folder, folder / "socket"
        self.state, self.log, self.conf = folder / "state", folder / "log", folder / "relay.toml"
        self.write(names)

    def write(self, names):
        self.conf.write_text(f'socket = "{self.socket}"\nstate = "{self.state}"\nlog = "{self.log}"\n{names}')

    def relayed(self, name, **options):
        return Relayed(self.conf, "--as", name, **options)

    def logged(self):
        return self.log.read_text().splitlines() if self.log.exists() else []


def table(name, role, **limits):
    """A name's table: with pool Default, media File and jobs 7 to 9, unless otherwise said."""
    keys = {"pools": '["Default"]', "media": '["File"]', "jobs": '["7-9"]', **limits}
    return "\n".join([f"[name.{name}]", f'role = "{role}"', *(f"{key} = {value}" for key, value in keys.items()), ""])


NAMES = table("www", "client") + table("sink", "append-only")


class Places:
    """Checks, each in a place of its own with a daemon that keeps what reaches it."""

    def __init__(self, checks, folder):
        self.checks, self.folder = checks, folder

    @contextlib.contextmanager
    def place(self, name, made=Always, names=NAMES):
        folder = self.folder / str(len(list(self.folder.iterdir())))
        folder.mkdir()
        self.checks.group = name
        place = Place(folder, names)
        with Server(place.socket, made) as server:
            yield place, server
