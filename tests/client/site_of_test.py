"""A folder of a test's own with a daemon's configuration, and what all tests of the client ask of what it says."""
import contextlib
import os
import pathlib
import random
import socket
import subprocess
import threading

from daemon import CLIENT, SDTOOL, WAIT, Daemon, drive, environment, free_port

NUMBERS = random.Random(5)
# Names from the folder that is backed up on, as bytes, and how much each file holds.
FILES = {b"empty": 0, b"a byte": 1, b"of\na line": 70_000, b"under/a/folder": 65_536, b"under/another": 131_073,
         "\u00e4\u20ac".encode(): 300, b"no text \xff": 12, b"39": 5, b"-": 7, b" ": 9}


def say(port, *words, **options):
    """What the command prints for these words, on standard output and error, and its status."""
    command = [CLIENT, "--port", str(port), *map(str, words)]
    run = subprocess.run(command, stdout=subprocess.PIPE, stderr=subprocess.STDOUT, errors="surrogateescape",
                         stdin=subprocess.DEVNULL, timeout=10 * WAIT, **options)
    return run.stdout, run.returncode


class Site:
    """A folder with a daemon's configuration, its volumes, a catalogue, and a place for files to back up."""

    def __init__(self, folder, settings=""):
        self.folder, self.port = folder, free_port()
        self.volumes, self.files, self.conf = folder / "volumes", folder / "files", folder / "sdd.conf"
        self.catalogue = folder / "state" / "catalogue"
        self.volumes.mkdir(parents=True)
        self.conf.write_text(f"port = {self.port}\n{settings}" + drive("File", self.volumes, "lanes = 8"))
        self.env = with_tools(folder)

    def draw(self):
        """Makes plain files."""
        for name, size in FILES.items():
            path = os.path.join(os.fsencode(self.files), name)
            os.makedirs(os.path.dirname(path), exist_ok=True)
            with open(path, "wb") as file:
                file.write(NUMBERS.randbytes(size))
            os.chmod(path, 0o640 if size % 2 else 0o600)
            os.utime(path, ns=(10**18 + size, 10**18 + 7 * size))

    def daemon(self, *words):
        return Daemon(self.conf, *words, port=self.port)

    def say(self, *words, **options):
        return say(self.port, *words, **{"env": self.env, **options})

    def label(self, name):
        return self.say("console", "label", 1, name, "Default", "File")

    def parts(self):
        """What is left of files that weren't finished."""
        return [str(path) for path in self.folder.rglob("*.part")]


def is_told(checks, what, came, status, *words):
    """It ended with that status and said these words, without a traceback."""
    said, ended = came
    lines = [line for line in said.splitlines() if line.startswith("sdd-client: ")]
    fits = ended == status and "Traceback" not in said and "Exception" not in said and lines
    checks.check(what, fits and all(word in said for word in words), came)


def with_tools(folder):
    """An environment whose path has sdtool."""
    place = folder / "bin"
    place.mkdir(exist_ok=True)
    if not (place / "sdtool").is_symlink():
        (place / "sdtool").symlink_to(SDTOOL)
    return environment(PATH=f"{place}:{os.environ['PATH']}", SDD_CATALOGUE=folder / "state" / "catalogue", TZ="UTC")


@contextlib.contextmanager
def answering(answer):
    """The port of what answers a first connection by these bytes, and ends it."""
    with socket.create_server(("127.0.0.1", 0)) as listening:
        def serve():
            with listening.accept()[0] as one:
                one.sendall(answer)
                one.shutdown(socket.SHUT_WR)
                while one.recv(1 << 16):
                    pass

        server = threading.Thread(target=serve, daemon=True)
        server.start()
        yield listening.getsockname()[1]
        server.join(timeout=WAIT)
