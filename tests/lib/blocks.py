"""Volumes and notes as they are read, byte by byte as docs/use/FORMATS.md has them; tests/lib/volumes.py makes them."""
import re
import struct
import typing
import zlib

from volumes import BLOCK_HEADER, LEAST_BLOCK, MOST_BLOCK, NOT_TORN, PROFILE, RECORD_HEADER

NAME = re.compile(r"(?!\.\.?$)[A-Za-z0-9:._-]{1,127}")
NOTE_LENGTH = 48


class Label(typing.NamedTuple):
    """What the label of a volume says, and where its block ends."""
    moment: int
    size: int
    pool: str
    media: str


class Note(typing.NamedTuple):
    """What a note says; `torn` is none if no sync failed."""
    moment: int
    end: int
    last: int
    next_number: int
    time: int
    torn: int | None


def header(image, at):
    """The size, the number and the key of a block's header, or the word for what is wrong with it."""
    if len(image) - at < BLOCK_HEADER:
        return "short"
    _, size, number, mark, session, time = struct.unpack_from(">III4sII", image, at)
    if mark != b"BB02":
        return "id"
    if not LEAST_BLOCK <= size <= MOST_BLOCK:
        return "size"
    return size, number, (time, session)


def whole_block(image, at):
    """The size, number, key and body of the whole block at a place, or the word for what is wrong there."""
    head = header(image, at)
    if isinstance(head, str):
        return head
    size, number, key = head
    if size > len(image) - at:
        return "short"
    if zlib.crc32(image[at + 4:at + size]) != struct.unpack_from(">I", image, at)[0]:
        return "checksum"
    return size, number, key, image[at + BLOCK_HEADER:at + size]


def names_in(data, count):
    """So many texts at the front of the data, each with its zero byte, and what is after them."""
    texts = []
    for _ in range(count):
        text, zero, data = data.partition(b"\0")
        if not zero or not NAME.fullmatch(text.decode("latin-1")):
            return None
        texts.append(text.decode())
    return texts, data


def label_of(name, image):
    """The label of that name at the front of a file; none if there is none."""
    found = whole_block(image, 0)
    if isinstance(found, str) or found[1] != 0 or found[2] != (0, 0):
        return None
    body = found[3]
    if len(body) < RECORD_HEADER + len(PROFILE) + 12 or not body[RECORD_HEADER:].startswith(PROFILE):
        return None
    index, stream, size = struct.unpack_from(">iiI", body)
    version, moment = struct.unpack_from(">Iq", body, RECORD_HEADER + len(PROFILE))
    texts = names_in(body[RECORD_HEADER + len(PROFILE) + 12:], 2 + version) if version in (1, 2) else None
    if (index, stream, size) != (-2, 1, len(body) - RECORD_HEADER) or texts is None or texts[1] or texts[0][0] != name:
        return None
    return Label(moment, found[0], texts[0][1], texts[0][2])


def note_in(content):
    """The note that bytes are; `damaged` or `form` if they are none, and nothing without any."""
    if content is None:
        return None
    if len(content) < 8 or content[4:8] == b"SN01" and (
            len(content) != NOTE_LENGTH or zlib.crc32(content[4:]) != struct.unpack_from(">I", content)[0]):
        return "damaged"
    if content[4:8] != b"SN01":
        return "form"
    *fields, torn = struct.unpack_from(">qQQIIQ", content, 8)
    return Note(*fields, None if torn == NOT_TORN else torn)
