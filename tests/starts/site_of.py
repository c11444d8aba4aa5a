"""Folders of drives with a configuration of their own, what is laid there and found there, and daemons over them."""
from __future__ import annotations

import contextlib
import os
import pathlib
import re
import shutil
import typing

from acknowledged import Records
from clients import client
from daemon import SOON, WAIT, Daemon, drive, free_port, later_second, until
from model import Files

LISTENS = re.compile(r"listening on \d+ in the run of (\d+)")
FIGURES = re.compile(r'(\w+)(?:\{([^}]*)\})? (\d+)')


class Talk(client.Talk):
    """A connection that waits for a daemon which judges its volumes, and not for ever."""

    def __init__(self, port: int, timeout: float = 4 * WAIT):
        super().__init__(port, timeout=timeout)


class Site:
    """A folder with those of drives, each of a media and a place in it."""

    def __init__(self, folder: pathlib.Path, drives: typing.Sequence[tuple[str, str]] = (("File", "d1"),), settings: str = ""):
        folder.mkdir(parents=True)
        self.folder, self.drives, self.port = folder, [(media, str(folder / place)) for media, place in drives], free_port()
        self.conf, self.figures_file = folder / "conf", folder / "figures"
        for _, place in self.drives:
            os.makedirs(place, exist_ok=True)
        self.conf.write_text(f"port = {self.port}\n{settings}" + "".join(drive(*one) for one in self.drives))

    @property
    def place(self) -> pathlib.Path:
        """The first drive's folder."""
        return pathlib.Path(self.drives[0][1])

    def lay(self, place: str, files: Files):
        """Has a folder hold just that. What is no file's bytes is a folder."""
        shutil.rmtree(place, ignore_errors=True)
        os.makedirs(place)
        for name, content in files.items():
            path = pathlib.Path(place, name)
            path.mkdir() if content is None else path.write_bytes(content)

    def left(self) -> dict[str, Files]:
        """What the folders hold, but for the daemon's lock."""
        return {place: {path.name: path.read_bytes() if path.is_file() else None for path in pathlib.Path(place).iterdir() if path.name != ".lock~"}
                for place in dict.fromkeys(place for _, place in self.drives) if os.path.isdir(place)}

    def daemon(self, *words: str, adopts: bool = True, **options: typing.Any) -> Daemon:
        """A daemon in a later run, which adopts if nothing else is said."""
        later_second()
        return Daemon(self.conf, *(["--adopt"] if adopts else []), *words, port=self.port, **options)

    def talk(self) -> Talk:
        return Talk(self.port)

    def ask(self, *lines: str) -> list[list[str]]:
        """What answers each of the operator's lines: its lines, or the refusal alone."""
        said = []
        with self.talk() as talk:
            for line in lines:
                try:
                    said.append(talk.console(line))
                except client.Refused as why:
                    said.append([str(why)])
            talk.terminate()
        return said

    def job(self, records: typing.Sequence[bytes], pool: str = "Default", media: str = "File") -> list[str]:
        """Appends a session and closes it: its lines."""
        with self.talk() as talk:
            ticket = client.open_session(talk, 7, pool, media)
            client.append_packets(talk, ticket, map(client.packet, records))
            lines = client.close_session(talk, ticket)
            talk.terminate()
            return lines

    def read(self, lines: typing.Sequence[str]) -> tuple[list[tuple[int, int, bytes]], str]:
        """The records that the daemon gives of a session with these lines, and the refusal that ends them, if one does."""
        records: list[tuple[int, int, bytes]] = []
        with self.talk() as talk:
            try:
                client.read_session(talk, list(lines), lambda *one: records.append((one[0], one[1], bytes(one[2]))))
            except client.Refused as why:
                return records, str(why)
            talk.terminate()
        return records, ""

    def time_of(self, daemon: Daemon) -> int:
        """The time of its run, once it serves."""
        found = until(lambda: next(filter(None, map(LISTENS.fullmatch, daemon.log())), None), WAIT)
        return int(found[1]) if found else 0

    def figures(self) -> dict[str, int]:
        """The figures that the daemon wrote last, by their names with their labels."""
        text = self.figures_file.read_text()
        return {line.rpartition(" ")[0]: int(line.rpartition(" ")[2]) for line in text.splitlines() if FIGURES.fullmatch(line)}

    def ends(self, daemon: Daemon, stop: pathlib.Path) -> tuple[str, int]:
        """Ends it gently by that file: what it printed, and its status."""
        stop.touch()
        try:
            return daemon.wait()
        finally:
            stop.unlink()


def settles(holds: typing.Callable[[], bool]) -> bool:
    """Whether that holds now or soon."""
    return bool(until(holds, SOON))


def digest(records: typing.Iterable[tuple[int, int, bytes]]) -> str:
    whole = Records()
    for one in records:
        whole.take(*one)
    return whole.digest()


@contextlib.contextmanager
def told(checks: typing.Any, group: str) -> typing.Iterator[None]:
    """Checks of a group; what breaks it off is a failed one."""
    checks.group = group
    try:
        yield
    except (client.Failed, OSError, ValueError, TimeoutError) as why:
        checks.check("came to no end", False, repr(why))
