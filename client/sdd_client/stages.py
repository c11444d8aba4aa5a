"""Programs that a stream goes through on its way to a session, as zstd and age, and their inverse on its way back. The
status of each of them counts."""
from __future__ import annotations

import contextlib
import fcntl
import os
import shlex
import subprocess
import threading
import typing

from .connection import Buffer
from .errors import Failed

# What a pipe holds, where the system lets it.
PIPE = 1 << 20
# Options that the inverse of a program begins with.
INVERSES = {"zstd": ["-d", "-c"], "gzip": ["-d", "-c"], "xz": ["-d", "-c"], "bzip2": ["-d", "-c"], "lz4": ["-d", "-c"],
            "pigz": ["-d", "-c"], "cat": []}


def widen(pipe: int) -> None:
    """Lets a pipe hold more. It is a matter of speed alone."""
    with contextlib.suppress(OSError):
        fcntl.fcntl(pipe, fcntl.F_SETPIPE_SZ, PIPE)


def words_of(stage: str) -> list[str]:
    """A stage's program and its words."""
    words = shlex.split(stage)
    if not words:
        raise Failed("a stage is a program and its words")
    return words


def inverse_of(stages: list[str], undo: list[str], identity: str | None) -> list[str]:
    """The stages of the way back, the last one first. `undo` has them in the order of the way there where they are given."""
    if undo and len(undo) != len(stages):
        raise Failed(f"the backup went through {len(stages)} stages, {stages}; --undo is given for {len(undo)}")
    return [one for one in reversed(undo or [inverse_of_one(stage, identity) for stage in stages])]


def inverse_of_one(stage: str, identity: str | None) -> str:
    program = words_of(stage)[0]
    name = os.path.basename(program)
    if name == "age":
        if not identity:
            raise Failed("the backup is encrypted by age: --identity FILE names the key")
        return shlex.join([program, "-d", "-i", identity])
    if name not in INVERSES:
        raise Failed(f"the inverse of '{stage}' isn't known: --undo 'COMMAND' says it")
    return shlex.join([program, *INVERSES[name]])


class Chain:
    """Programs, each fed by the one before it. The first is fed by `feed`, or has no input; the last one's output is read
    from the descriptor `output`."""

    def __init__(self, commands: list[list[str]], is_fed: bool = True):
        self.commands, self.programs = commands, []
        source: typing.Any = subprocess.PIPE if is_fed else subprocess.DEVNULL
        try:
            for words in commands:
                one = subprocess.Popen(words, stdin=source, stdout=subprocess.PIPE)
                if self.programs and self.programs[-1].stdout:
                    self.programs[-1].stdout.close()
                self.programs.append(one)
                source = one.stdout
                widen(one.stdout.fileno())
        except OSError as why:
            self.kill()
            raise Failed(f"{words[0]}: {why.strerror}") from why
        self.input = self.programs[0].stdin
        if self.input:
            widen(self.input.fileno())

    @property
    def output(self) -> int:
        return self.programs[-1].stdout.fileno()

    def write(self, data: Buffer) -> None:
        self.input.write(data)

    def end_input(self) -> None:
        if self.input:
            self.input.close()

    def wait(self) -> None:
        """Waits for all of them. One that failed is raised."""
        for words, one in zip(self.commands, self.programs):
            status = one.wait()
            if status:
                raise Failed(f"'{shlex.join(words)}' {ending(status)}")

    def kill(self) -> None:
        for one in self.programs:
            if one.poll() is None:
                one.kill()
        for one in self.programs:
            with contextlib.suppress(OSError):
                if one.stdin:
                    one.stdin.close()
            if one.stdout:
                one.stdout.close()
            one.wait()


def ending(status: int) -> str:
    """How a program ended, in words."""
    return f"was ended by signal {-status}" if status < 0 else f"ended with status {status}"


class Feeder(threading.Thread):
    """Feeds a chain with what comes of an iterator, beside whoever reads the chain's output."""

    def __init__(self, chain: Chain, pieces: typing.Iterable[Buffer]):
        super().__init__(daemon=True)
        self.chain, self.pieces, self.why = chain, pieces, None
        self.start()

    def run(self) -> None:
        try:
            for piece in self.pieces:
                self.chain.write(piece)
        except BrokenPipeError:
            # That the program went away its own status tells, or the reader has what it wants.
            pass
        except BaseException as why:
            self.why = why
        finally:
            with contextlib.suppress(OSError):
                self.chain.end_input()

    def ended(self) -> None:
        """Waits for its end. What went wrong is raised."""
        self.join()
        if self.why:
            raise self.why
