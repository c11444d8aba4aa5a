"""What a client was told to be closed: a session by its lines, with a digest of its records; and whether the daemon and `sdtool
read` give it whole."""
import dataclasses
import hashlib
import pathlib
import subprocess

from clients import client
from daemon import SDTOOL, WAIT

# A program that reads a session may take so long, in seconds: the machine may have much other work.
READS = 10 * WAIT


class Records:
    """The records of a session as they are appended or read: a digest of all that `sdtool read` prints of them."""

    def __init__(self):
        self._hash, self.count, self.bytes = hashlib.sha256(), 0, 0

    def take(self, index: int, stream: int, data: bytes):
        self._hash.update(b"rec %d %d %d\n%b\n" % (index, stream, len(data), data))
        self.count, self.bytes = self.count + 1, self.bytes + len(data)

    def digest(self) -> str:
        whole = self._hash.copy()
        whole.update(b"ok read %d %d ended\n" % (self.count, self.bytes))
        return whole.hexdigest()


@dataclasses.dataclass(frozen=True)
class Session:
    """A session whose close was answered: its lines, and its records by their digest."""
    lines: tuple[str, ...]
    digest: str

    def spans(self) -> list[tuple[str, int]]:
        """Its volumes, and up to where it needs them."""
        words = [line.split() for line in self.lines[1:]]
        return [(one[1], int(one[-1])) for one in words]

    def by_tool(self, folder: pathlib.Path) -> str:
        """What is wrong with what `sdtool read` prints of it; nothing if it is whole."""
        text = "".join(f"{line}\n" for line in self.lines)
        run = subprocess.run([SDTOOL, "read", "/dev/stdin", folder], input=text.encode(), capture_output=True, timeout=READS)
        if run.returncode == 0 and hashlib.sha256(run.stdout).hexdigest() == self.digest:
            return ""
        return f"{' '.join(self.lines)}: sdtool read gives {run.returncode}, {run.stdout[-60:]!r}"

    def by_daemon(self, talk: client.Talk) -> str:
        """The same of what a daemon gives of it. A refusal is raised."""
        records = Records()
        client.read_session(talk, list(self.lines), records.take)
        return "" if records.digest() == self.digest else f"{self.lines[0]}: the daemon gives other records"
