"""GNU tar as a program: what it is told, and what it says of files."""
from __future__ import annotations

import os
import re
import subprocess
import threading
import typing

from .errors import Failed
from .stages import ending, widen

# What any run of it begins with. Names in its messages are escaped, so that each message is one line.
TAR = ["tar", "--quoting-style=escape"]
ARCHIVE = ["--format=posix", "--blocking-factor=512", "--sparse", "--acls", "--xattrs", "--xattrs-include=*", "--sort=name",
           "--pax-option=exthdr.name=%d/PaxHeaders/%f,delete=atime,delete=ctime"]
# What tar leaves out knowingly, and what needs no telling. Neither changes the status.
LEFT_OUT = re.compile(rb"socket ignored|door ignored|file is on a different filesystem; not dumped|"
                      rb"contains a cache directory tag .*|Unknown file type; file ignored")
NO_MATTER = re.compile(rb"Exiting with failure status due to previous errors|Error is not recoverable: exiting now|"
                       rb"Removing leading .*|Error exit delayed from previous errors")
# What it says of a file or a folder that changed between its beginning and its end.
CHANGED = b"file changed as we read it"
# A name, in which a colon is escaped, and what is said of it.
NAMED = re.compile(rb"tar: ((?:[^\\:]|\\.)+): (.*)")
ESCAPED = re.compile(rb"\\([0-7]{3}|.)", re.DOTALL)
LETTERS = {b"n": b"\n", b"t": b"\t", b"r": b"\r", b"a": b"\a", b"b": b"\b", b"f": b"\f", b"v": b"\v"}


class Said(typing.NamedTuple):
    """What tar says of a file: that it isn't kept as it is, or that it is left out knowingly."""

    path: bytes
    text: str
    is_fault: bool


def unescaped(name: bytes) -> bytes:
    def plain(found: re.Match[bytes]) -> bytes:
        letter = found[1]
        return bytes([int(letter, 8)]) if len(letter) == 3 else LETTERS.get(letter, letter)

    return ESCAPED.sub(plain, name)


def heard(line: bytes) -> Said | None:
    """What a line of its messages says."""
    line = line.rstrip(b"\n")
    text = line.removeprefix(b"tar: ")
    if NO_MATTER.fullmatch(text) or not text:
        return None
    found = NAMED.fullmatch(line)
    name, text = (unescaped(found[1]), found[2]) if found else (b"", text)
    return Said(name, text.decode(errors="replace"), not LEFT_OUT.fullmatch(text))


class TarRun:
    """A run of tar. What it says is heard beside whoever feeds it or takes its output."""

    def __init__(self, words: list[str], **options: typing.Any):
        environment = {**os.environ, "LC_ALL": "C"}
        environment.pop("TAR_OPTIONS", None)
        try:
            # A signal of the terminal is for the client, which then ends tar in order.
            self.process = subprocess.Popen([*TAR, *words], stderr=subprocess.PIPE, env=environment, process_group=0, **options)
        except OSError as why:
            raise Failed(f"tar: {why.strerror}") from why
        for pipe in (self.process.stdin, self.process.stdout):
            if pipe:
                widen(pipe.fileno())
        self.said: list[Said] = []
        self.listener = threading.Thread(target=self._listen, daemon=True)
        self.listener.start()

    def _listen(self) -> None:
        for line in self.process.stderr:
            if one := heard(line):
                self.said.append(one)

    def __enter__(self) -> TarRun:
        return self

    def __exit__(self, *_: object) -> None:
        if self.process.poll() is None:
            self.process.kill()
        self.process.wait()
        self.listener.join()
        for pipe in (self.process.stdin, self.process.stdout, self.process.stderr):
            if pipe:
                try:
                    pipe.close()
                except OSError:
                    pass

    def wait(self) -> int:
        """Its status, once it has ended and all that it said is heard."""
        status = self.process.wait()
        self.listener.join()
        if status < 0 or status > 2:
            raise Failed(f"tar {ending(status)}")
        if status and not self.faults():
            self.said.append(Said(b"", f"tar ended with status {status}", True))
        return status

    def faults(self) -> list[Said]:
        return [one for one in self.said if one.is_fault]
