"""How far a job is, on a terminal: bytes, rate, files, and how long it still takes if that is known."""
from __future__ import annotations

import sys
import threading
import time
import typing

from . import errors

EACH = 0.5
CLEAR = "\r\x1b[K"


class Now(typing.NamedTuple):
    """How far it is."""

    bytes: int
    files: int


def size_of(count: float | None) -> str:
    """Bytes in three digits or so."""
    size = float(count or 0)
    if size < 1000:
        return f"{size:.0f} bytes"
    for unit in ("KB", "MB", "GB", "TB"):
        size /= 1000
        if size < 1000:
            break
    return f"{size:.1f} {unit}"


def line_of(now: Now, seconds: float, whole: int | None) -> str:
    """What is shown after so many seconds, if the whole has so many bytes, or nobody knows."""
    rate = now.bytes / seconds if seconds else 0.0
    text = f"{size_of(now.bytes)}, {size_of(rate)}/s, {now.files} files"
    if whole and rate and now.bytes < whole:
        left = int((whole - now.bytes) / rate)
        text += f", {left // 3600}:{left // 60 % 60:02}:{left % 60:02} left"
    return text


class Shown(threading.Thread):
    """Shows on standard error how far it is, if that is a terminal."""

    def __init__(self, now: typing.Callable[[], Now], whole: int | None = None):
        super().__init__(daemon=True)
        self.now, self.whole, self.begun = now, whole, time.monotonic()
        self.is_over = threading.Event()

    def __enter__(self) -> Shown:
        if sys.stderr.isatty():
            errors.before = CLEAR
            self.start()
        return self

    def __exit__(self, *_: object) -> None:
        self.is_over.set()
        if self.ident:
            self.join()
            errors.before = ""
            print(CLEAR, end="", file=sys.stderr, flush=True)

    def run(self) -> None:
        while not self.is_over.wait(EACH):
            line = line_of(self.now(), time.monotonic() - self.begun, self.whole)
            print(f"{CLEAR}{line}", end="", file=sys.stderr, flush=True)
