"""Volumes, byte by byte as docs/use/FORMATS.md has them: blocks, labels and records, sessions that are cut into bodies and
placed as blocks, and the lines that tell where they lie. Made with struct and zlib alone."""
import itertools
import struct
import typing
import zlib

PROFILE = b"sd-profile\n\0"
BLOCK_HEADER, RECORD_HEADER = 24, 12
LEAST_BLOCK, MOST_BLOCK = 36, 1_048_576
MOST_DATA, MOST_NUMBER, MOST_VOLUME = 4_000_000, 2_147_483_647, 68_719_476_736


def fragment(index, stream, data, size=None):
    """The header of a record and data after it; the size is given if the data aren't all that it announces."""
    return struct.pack(">iiI", index, stream, len(data) if size is None else size) + data


def summed(rest):
    """The bytes of a block after its checksum, with the checksum before them."""
    return struct.pack(">I", zlib.crc32(rest)) + rest


def block(key, number, body, mark=b"BB02", size=None):
    """A block of the session `key` (time, id), with its checksum."""
    length = BLOCK_HEADER + len(body) if size is None else size
    return summed(struct.pack(">II4sII", length, number, mark, key[1], key[0]) + body)


NOT_TORN = 2**64 - 1


def note(moment=0, end=0, last=0, next_number=1, time=0, torn=NOT_TORN, form=b"SN01"):
    """The note of a volume, with its checksum."""
    return summed(form + struct.pack(">qQQIIQ", moment, end, last, next_number, time, torn))


def texts(*words):
    """Texts of a label, each with its zero byte."""
    return b"".join(word + b"\0" for word in words)


def volume_data(name, pool=b"Default", media=b"File", moment=0, host=None, version=None):
    """The data of a volume's label: of version 2 with its host, and of version 1 without one, if none is said."""
    hosts = [] if host is None else [host]
    said = 1 + len(hosts) if version is None else version
    return PROFILE + struct.pack(">Iq", said, moment) + texts(name, pool, media, *hosts)


def label(name, pool=b"Default", media=b"File", moment=0, host=None):
    """The block of a volume's label."""
    return block((0, 0), 0, fragment(-2, 1, volume_data(name, pool, media, moment, host)))


def daemon_label(name, **words):
    """The block of a volume's label as the daemon writes it if its configuration names no host."""
    return label(name, host=b"localhost", **words)


def session_data(job, pool=b"Default", media=b"File", moment=0, version=1):
    """The data of a session's start label."""
    return PROFILE + struct.pack(">IIq", version, job, moment) + texts(pool, media)


def start(job, **names):
    """A session's start label."""
    return fragment(-4, job, session_data(job, **names))


def end(job, records, count, status=84, **names):
    """A session's end label, with the counts of its records and of their bytes."""
    return fragment(-5, job, session_data(job, **names) + struct.pack(">QQI", records, count, status))


class Body(typing.NamedTuple):
    """What a block of a session holds, and the first and the last FileIndex in it, 0 and 0 if there is none."""
    data: bytes
    first: int
    last: int


class Packer:
    """Cuts a session into bodies of blocks that have at most `limit` bytes."""

    def __init__(self, limit):
        self.room = limit - BLOCK_HEADER
        self.bodies, self.open, self.indexes = [], bytearray(), []

    def free(self):
        return self.room - len(self.open)

    def close(self):
        """Closes the open body. One that is empty stays open."""
        if self.open:
            first, last = (self.indexes[0], self.indexes[-1]) if self.indexes else (0, 0)
            self.bodies.append(Body(bytes(self.open), first, last))
        self.open, self.indexes = bytearray(), []

    def put_label(self, record):
        """A label goes in whole."""
        if len(record) > self.free():
            self.close()
        self.open += record

    def put(self, index, stream, data):
        """A header goes in whole, and of the data as much as there is room for. What remains goes on in the next body,
        with the negated stream and its own size."""
        if self.free() < RECORD_HEADER:
            self.close()
        at, signed = 0, stream
        while True:
            part = data[at:at + self.free() - RECORD_HEADER]
            self.open += fragment(index, signed, part, len(data) - at)
            self.indexes.append(index)
            at, signed = at + len(part), -stream
            if at == len(data):
                return
            self.close()


def packed(limit, records, job=7, ended=True, **names):
    """The bodies of a session with these records, each an index, a stream and data."""
    packer = Packer(limit)
    packer.put_label(start(job, **names))
    for record in records:
        packer.put(*record)
    if ended:
        packer.put_label(end(job, len(records), sum(len(data) for _, _, data in records), **names))
    packer.close()
    return packer.bodies


class Place(typing.NamedTuple):
    """Where a block of a session lies, and the indexes in it."""
    volume: str
    start: int
    end: int
    first: int
    last: int


def jobmedia(key, places):
    """The text that tells where a session lies whose blocks have these places: a line for each run of its blocks on one
    volume, with the first and the last index there that isn't 0."""
    lines = [f"session {key[0]} {key[1]}\n"]
    for number, (volume, run) in enumerate(itertools.groupby(places, key=lambda place: place.volume), 1):
        run = list(run)
        indexes = [index for place in run for index in (place.first, place.last) if index] or [0]
        lines.append(f"span {volume} {number} {indexes[0]} {indexes[-1]} {run[0].start} {run[-1].end}\n")
    return "".join(lines)


class Shelf:
    """Volumes that a run of the daemon fills one after the other, each up to a limit. Its sessions are numbered from
    1 on."""

    def __init__(self, time, limit=MOST_VOLUME):
        self.time, self.limit, self.sessions = time, limit, 0
        self.volumes, self.next_numbers, self.full = {}, {}, set()

    def add(self, name, image, next_number=1):
        """Another volume, with bytes and the number that its next block gets."""
        self.volumes[name] = bytearray(image)
        self.next_numbers[name] = next_number

    def place(self, bodies):
        """Places the bodies of the run's next session, and gives its text."""
        self.sessions += 1
        key = (self.time, self.sessions)
        return jobmedia(key, [self.place_one(key, body) for body in bodies])

    def place_one(self, key, body):
        """Places a body as a block after the last one of the first volume that isn't full. A volume is full once a
        block would pass the limit."""
        length = BLOCK_HEADER + len(body.data)
        for name, image in self.volumes.items():
            if name not in self.full and len(image) + length > self.limit:
                self.full.add(name)
            if name not in self.full:
                break
        else:
            raise ValueError("no volume takes the block")
        at = len(image)
        image += block(key, self.next_numbers[name], body.data)
        self.next_numbers[name] += 1
        return Place(name, at, len(image), body.first, body.last)
