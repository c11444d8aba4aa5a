"""sdtool, held to a rate: what reads whole volumes beside the jobs is to leave them the disk."""
from __future__ import annotations

import contextlib
import os
import pathlib
import signal
import subprocess
import time

from sdd_client.errors import Failed

# So often a reading is held to its rate, in seconds.
CHECK = 0.02


class Throttle:
    """Runs sdtool so that it reads so many bytes in a second at most, by stopping and letting it go on."""

    def __init__(self, rate: int | None):
        self.rate = rate

    def __call__(self, words: list[str]) -> subprocess.CompletedProcess[str]:
        try:
            tool = subprocess.Popen(["nice", "sdtool", *words], stdout=subprocess.PIPE, stderr=subprocess.DEVNULL, text=True,
                                    errors="replace")
        except OSError as why:
            raise Failed(f"sdtool: {why.strerror}") from why
        with Paced(tool, self.rate):
            said, _ = tool.communicate()
        return subprocess.CompletedProcess(words, tool.returncode, said)


class Paced:
    """Holds a process to a rate, from a process of its own, until it ends."""

    def __init__(self, tool: subprocess.Popen[str], rate: int | None):
        self.tool, self.rate, self.watcher = tool, rate, 0

    def __enter__(self) -> None:
        if self.rate:
            self.watcher = os.fork()
            if not self.watcher:
                with contextlib.suppress(OSError, ValueError, StopIteration):
                    hold_back(self.tool.pid, self.rate)
                os._exit(0)

    def __exit__(self, *_: object) -> None:
        if self.watcher:
            with contextlib.suppress(ProcessLookupError):
                os.kill(self.watcher, signal.SIGKILL)
            os.waitpid(self.watcher, 0)
        with contextlib.suppress(ProcessLookupError):
            os.kill(self.tool.pid, signal.SIGCONT)


def hold_back(process: int, rate: int) -> None:
    """Stops a process while it has read more than its time allows."""
    began = time.monotonic()
    while True:
        ahead = read_by(process) / rate - (time.monotonic() - began)
        os.kill(process, signal.SIGSTOP if ahead > 0 else signal.SIGCONT)
        time.sleep(CHECK)


def read_by(process: int) -> int:
    """The bytes that a process has read so far."""
    text = pathlib.Path(f"/proc/{process}/io").read_text()
    return int(next(line for line in text.splitlines() if line.startswith("rchar:")).split()[1])
