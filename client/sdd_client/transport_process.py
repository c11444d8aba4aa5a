"""Through a program that carries bytes between its standard input and output and a daemon elsewhere: ssh, or the one of
`transport_tls`."""
from __future__ import annotations

import contextlib
import fcntl
import os
import shlex
import subprocess

# So long the program may take to end once nothing comes any more, in seconds.
END = 5
PIPE_SIZE = 1 << 20


class ProcessTransport:
    """The pipes of a running program. What it says on standard error goes where the client's does."""

    def __init__(self, command: list[str]):
        """Raises OSError if the program can't be started."""
        self.process = subprocess.Popen(command, stdin=subprocess.PIPE, stdout=subprocess.PIPE, bufsize=0)
        for file in (self.reads(), self.writes()):
            with contextlib.suppress(OSError):
                fcntl.fcntl(file, fcntl.F_SETPIPE_SZ, PIPE_SIZE)
            os.set_blocking(file, False)

    def reads(self) -> int:
        assert self.process.stdout
        return self.process.stdout.fileno()

    def writes(self) -> int:
        assert self.process.stdin
        return self.process.stdin.fileno()

    def end(self) -> None:
        """Ends it for whoever waits for it. Its descriptors stay."""
        with contextlib.suppress(OSError):
            self.process.terminate()

    def close(self) -> None:
        """Closes the pipes and waits for the program, which ends then."""
        for file in (self.process.stdin, self.process.stdout):
            if file:
                file.close()
        try:
            self.process.wait(END)
        except subprocess.TimeoutExpired:
            self.process.kill()
            self.process.wait()


def by_shell(rsh: str) -> ProcessTransport:
    """By a remote shell's words, as `ssh backup@host`. What it runs there is the host's to say: its forced command."""
    words = shlex.split(rsh)
    if not words:
        raise ValueError("--rsh names no program")
    return ProcessTransport(words)
