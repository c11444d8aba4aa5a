"""The notes of volumes: what the daemon knew of a volume when it last looked, in a few bytes beside it (docs/use/FORMATS.md, 'A
note'). A volume needs none, and one of a later form counts as none."""
from __future__ import annotations

import pathlib
import struct
import typing
import zlib

from sdd_client.errors import Failed

from keeper.folders import label_of

NOTE, FORM = struct.Struct(">I4s q Q Q I I Q"), b"SN01"
FORM_AT = slice(4, 8)


class Note(typing.NamedTuple):
    """The moment in the label of the volume, and where the whole blocks ended that the disk had."""

    moment: int
    end: int


def note_path(folder: pathlib.Path, name: str) -> pathlib.Path:
    return folder / f"{name}~"


def note_in(content: bytes) -> Note | None:
    """What a note says; nothing if it is of another form. Raises Failed if it isn't whole."""
    if len(content) >= FORM_AT.stop and content[FORM_AT] != FORM:
        return None
    if len(content) != NOTE.size:
        raise Failed("its note isn't whole")
    checksum, _, moment, end, *_ = NOTE.unpack(content)
    if checksum != zlib.crc32(content[FORM_AT.start:]):
        raise Failed("its note isn't whole")
    return Note(moment, end)


def why_unlike(folder: pathlib.Path, name: str, known: int | None) -> str | None:
    """Where a volume's note doesn't fit the volume, if it doesn't. `known` is where its blocks end by the daemon, if there
    come no more. The note is read before the volume is looked at, which only grows."""
    try:
        note = note_in(note_path(folder, name).read_bytes())
        size = (folder / name).stat().st_size
    except FileNotFoundError:
        return None
    except OSError as why:
        return f"its note can't be read: {why.strerror}"
    except Failed as why:
        return str(why)
    if note is None:
        return None
    label = label_of(folder / name)
    if label is None or label.moment != note.moment:
        return "its note is of another label"
    if size < note.end:
        return f"its file has {size} bytes, and its note knows blocks up to {note.end}"
    if known is not None and known < note.end:
        return f"the daemon knows blocks up to {known}, and its note up to {note.end}"
    return None
