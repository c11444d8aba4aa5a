"""The programs that the tests run, and a daemon of a test's own."""
import collections
import datetime
import itertools
import os
import pathlib
import random
import re
import signal
import socket
import subprocess
import sys
import time

ROOT = pathlib.Path(__file__).resolve().parent.parent.parent
CLIENT = ROOT / "client" / "sdd-client"
SDD = ROOT / "crates" / "sdd" / "out" / "sdd"
SDTOOL = ROOT / "crates" / "sdtool" / "out" / "sdtool"
SD_PLAIN = ROOT / "crates" / "sd_plain" / "out" / "sd_plain"
# Nothing is waited for longer, in seconds.
WAIT = 30
# What goes on beside a talk may take so long after it.
SOON = 10
LISTENS = "0A"
# A line of the log: its moment, in whole seconds, and its text.
DATED = re.compile(r"(\d{4}-\d\d-\d\dT\d\d:\d\d:\d\dZ) (.+)")
# The file that a daemon has locked in the folder of each drive.
LOCK = ".lock~"
# The ports in the order in which they are given out, so that none comes twice before all others came.
ports = itertools.cycle(random.sample(range(20_000, 32_000), 12_000))
# The datagrams' ports of those that were given out last.
kept_ports = collections.deque(maxlen=400)


def build(*programs):
    """Builds these programs, or `sdtool` and `sdd`, unless the command line says that they are built."""
    if "--built" not in sys.argv[1:]:
        subprocess.run([ROOT / "build", *programs], check=True)


def free_port():
    """A port that nothing has. No other test is given it between the runs of its daemon: this process gives it once, and
    keeps the datagrams' port of that number from others for a while; and the system gives none of these to a client.
    It is not bound here to try it: a process that is just being started would have that socket for a moment too."""
    for port in itertools.islice(ports, 12_000):
        kept = socket.socket(type=socket.SOCK_DGRAM)
        try:
            kept.bind(("127.0.0.1", port))
        except OSError:
            kept.close()
            continue
        if len(kept_ports) == kept_ports.maxlen:
            kept_ports.popleft().close()
        kept_ports.append(kept)
        if not any(local == port for local, _ in sockets()):
            return port
    raise OSError("no port is free")


def sockets():
    """The local port and the state of each socket, those of connections that ended a while ago too."""
    for line in pathlib.Path("/proc/net/tcp").read_text().splitlines()[1:]:
        _, local, _, state, *_ = line.split()
        yield int(local.partition(":")[2], 16), state


def is_listened_on(port):
    """Whether a socket listens on that port. No connection is made, since the daemon would take that for a talk."""
    return (port, LISTENS) in sockets()


def dated(line):
    """The moment of a line of the log, in seconds, and its text."""
    if not (found := DATED.fullmatch(line)):
        raise ValueError(f"the log has {line!r}")
    return datetime.datetime.fromisoformat(found[1]).timestamp(), found[2]


def until(holds, seconds=WAIT):
    """Waits until that holds, for so many seconds at most, and gives what it gives then."""
    end = time.monotonic() + seconds
    while not (given := holds()) and time.monotonic() < end:
        time.sleep(0.005)
    return given


def is_note(name):
    """Whether that is the name of a volume's note, or of one that is being written."""
    return name.endswith("~") and name != LOCK


def listed(folder):
    """The names of the files in a folder but for notes, which the daemon writes when it comes to that."""
    return sorted(name for name in os.listdir(folder) if not is_note(name))


def drive(media, folder, *lines):
    """The lines of a drive in a configuration."""
    return "\n".join(["[[drive]]", f'media = "{media}"', f'folder = "{folder}"', *lines, ""])


def later_second():
    """Waits for another second: no two runs may have one time."""
    now = int(time.time())
    while int(time.time()) == now:
        time.sleep(0.02)


class NotListening(TimeoutError):
    """A daemon doesn't listen. Its status, if it has ended."""

    def __init__(self, said, status):
        super().__init__(said)
        self.status = status


class Daemon:
    """A running `sdd serve`, which listens from the start on. What it prints and logs goes to two files beside its
    configuration."""

    def __init__(self, conf, *words, port, program=SDD, log=True, **options):
        self.out, self.logged = conf.with_suffix(".out"), conf.with_suffix(".log")
        words = ["--log", *words] if log else words
        with open(self.out, "wb") as out, open(self.logged, "wb") as logged:
            options = {"stdout": out, "stderr": logged, **options}
            self.process = subprocess.Popen([program, "serve", conf, *words], **options)
        end = time.monotonic() + WAIT
        while not is_listened_on(port) or (log and not self.log()):
            if (status := self.process.poll()) is not None or time.monotonic() > end:
                self.kill()
                said = f"not listening: {self.out.read_text()!r} {self.logged.read_text(errors='replace')!r}"
                raise NotListening(said, status)
            time.sleep(0.002)

    def __enter__(self):
        return self

    def __exit__(self, *_):
        self.kill()

    def log(self):
        """The lines of its log, without their moments."""
        whole, _, _ = self.logged.read_text(errors="replace").rpartition("\n")
        return [dated(line)[1] for line in whole.splitlines()]

    def logs(self, text):
        """Whether its log has that line, or has it soon."""
        return until(lambda: text in self.log(), SOON)

    def printed(self):
        return self.out.read_text(errors="replace")

    def memory(self, kind="VmSize"):
        """How many bytes of memory it has asked for; the most that it had, if the kind is VmPeak."""
        status = pathlib.Path(f"/proc/{self.process.pid}/status").read_text()
        return 1024 * int(re.search(rf"^{kind}:\s+(\d+) kB$", status, re.MULTILINE)[1])

    def kill(self):
        if self.process.poll() is None:
            self.process.send_signal(signal.SIGKILL)
        self.process.wait(timeout=WAIT)

    def wait(self):
        """What it printed and its status, if it ends by itself."""
        status = self.process.wait(timeout=WAIT)
        return self.printed(), status


def serve_status(conf, **options):
    """What `sdd serve` prints of a configuration that it can't serve, and its status."""
    run = subprocess.run([SDD, "serve", conf], capture_output=True, text=True, timeout=WAIT, **options)
    return run.stdout, run.returncode


def environment(**words):
    """The environment of a program, with these words besides."""
    return {**os.environ, **{name: str(word) for name, word in words.items()}}
