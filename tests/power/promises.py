"""What a daemon answered, and what has to be there after each loss of power from then on: volumes that were labelled, sessions
that were closed. Each kind of answer is a class here, which tells what is lost of it where a cut left the volumes.
"""
import dataclasses
import functools
import pathlib
import struct
import typing

from acknowledged import Session

# The folders of the drives 1 and 2.
DRIVES = ("d1", "d2")
# A block begins with its checksum and its size.
LABEL = struct.Struct(">II")


class Left:
    """What a cut left of the volumes: the folders of the drives below a mount. Each file is read once."""

    def __init__(self, room: pathlib.Path):
        self.room = room
        self.bytes = functools.lru_cache(None)(self._bytes)

    def folder_of(self, name: str) -> pathlib.Path:
        """That of the drive whose number is in the volume's name."""
        return self.room / f"d{name.split('-')[1]}"

    def _bytes(self, name: str) -> bytes:
        """A file that can't be read has no bytes."""
        try:
            return (self.folder_of(name) / name).read_bytes()
        except OSError:
            return b""


# The bytes of each volume at the end of what was recorded.
Ends = dict[str, bytes]


@dataclasses.dataclass(frozen=True)
class Labelled:
    """A volume whose label was answered: it has its label block."""
    name: str
    mark: str

    def volumes(self) -> set[str]:
        return {self.name}

    def lost(self, left: Left, ends: Ends) -> str:
        """What is said of it if it isn't there whole; else nothing."""
        got, end = left.bytes(self.name), ends[self.name]
        _, size = LABEL.unpack_from(end)
        return "" if got[:size] == end[:size] else f"{self.name}: its label is gone, {len(got)} bytes are left"


@dataclasses.dataclass(frozen=True)
class Closed:
    """A session whose close was answered: its volumes have the bytes that they had, up to its end."""
    session: Session
    mark: str

    def volumes(self) -> set[str]:
        return {name for name, _ in self.session.spans()}

    def lost(self, left: Left, ends: Ends) -> str:
        for name, end in self.session.spans():
            got = left.bytes(name)
            if got[:end] != ends[name][:end]:
                same = next((at for at, pair in enumerate(zip(got, ends[name])) if pair[0] != pair[1]), len(got))
                return (f"{self.session.lines[0]}: of {name}, needed up to {end}, {len(got)} bytes are left, "
                        f"as they were up to {same}")
        return ""

    def by_tool(self, left: Left) -> str:
        """The same of what `sdtool read` prints of it."""
        return self.session.by_tool(left.folder_of(min(self.volumes())))


Promise = typing.Union[Labelled, Closed]
