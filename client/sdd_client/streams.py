"""`append` and `read`: one stream of bytes."""
from __future__ import annotations

import contextlib
import typing

from .connection import Connection
from .dialogue import Appending
from .errors import Failed
from .lanes import DATA_STREAM, Alive, Way, opened, pieces_of
from .newfile import Spans, opened as opened_file, output
from .plainfiles import closed
from .sources import Reader, Source
from .stages import Chain, Feeder, words_of

SHELL = ["/bin/sh", "-c"]
PIECE = 1 << 20


def append(talk: Connection, way: Way, file: str, spans_file: str, sizes: list[int]) -> None:
    """Backs up what is in a file, or comes of the standard input."""
    with Spans(spans_file) as spans, opened_file(file) as given:
        appending = opened(talk, way)
        if way.stages:
            chain = Chain([words_of(stage) for stage in way.stages])
            append_chain(appending, chain, sizes, iter(lambda: given.read1(PIECE), b""))
        else:
            append_pipe(appending, given.fileno(), sizes)
        spans.keep(closed(talk, appending, way.patience))


def append_command(talk: Connection, way: Way, command: str, spans_file: str, sizes: list[int]) -> None:
    """Backs up what a command of the shell prints. Unless it ends with status 0 nothing is kept."""
    with Spans(spans_file) as spans:
        appending = opened(talk, way)
        try:
            chain = Chain([[*SHELL, command], *map(words_of, way.stages)], is_fed=False)
            append_chain(appending, chain, sizes)
        except Failed:
            with contextlib.suppress(Failed):
                appending.cancel()
            raise
        spans.keep(closed(talk, appending, way.patience))


def append_pipe(appending: Appending, pipe: int, sizes: list[int]) -> None:
    for piece in pieces_of(pipe, sizes, Alive(appending.keep_alive)):
        appending.append(piece, 1, DATA_STREAM)
    appending.end_phase()


def append_chain(appending: Appending, chain: Chain, sizes: list[int], given: typing.Iterable[bytes] | None = None) -> None:
    """Appends what comes of programs, and waits for their good end."""
    try:
        feeder = Feeder(chain, given) if given is not None else None
        append_pipe(appending, chain.output, sizes)
        if feeder:
            feeder.ended()
        chain.wait()
    finally:
        chain.kill()


def read(source: Source, lines: list[str], file: str, inverse: list[str]) -> str:
    """Restores such a stream: the data of a session's records, one after another. Gives what the source said of
    it at its end."""
    with output(file) as given:
        with Reader(source, lines, inverse, stream=None) as reader:
            while (piece := reader.take(PIECE)) is not None:
                given.write(piece)
        given.finish()
    return source.said
