"""A plain model of the devices of `sdtool run`: volumes are byte strings, and calls fail as a plan says. And how what
is on a volume is read: its label, its blocks one after another, and the records of a session in them.
"""
import struct
import typing
import zlib

from volumes import BLOCK_HEADER, LEAST_BLOCK, MOST_BLOCK, MOST_DATA, PROFILE, RECORD_HEADER

REFUSALS = {
    3901: "Bad command", 3902: "Session not open", 3903: "Bad file index", 3905: "Session failed", 3906: "Session cancelled",
    3907: "Not yet", 3908: "Busy", 3910: "No drive of this media", 3911: "No free lane", 3912: "Drive offline",
    3930: "Volume not on the shelf", 3931: "Not a volume of this profile", 3932: "Other pool or media", 3933: "In use",
    3934: "Volume not appendable", 3935: "Volume already labelled", 3936: "Volume has blocks of this run", 3937: "Bad name",
    3938: "No such drive", 3939: "No room on the device", 3940: "Device fault", 3950: "Bad span", 3951: "Damaged block",
    3952: "Span ends early", 3953: "Volume purged", 3954: "Volume not full",
}
NOT_THERE, EXISTS, NO_ROOM, DEVICE_FAULT = 3930, 3935, 3939, 3940
CALLS = ("create", "load", "len", "read", "append", "sync", "cut")
WAYS = ("before", "half", "after")
VOLUME_LABEL, START_LABEL, END_LABEL = -2, -4, -5
VERSION, HOST_VERSION, OK_STATUS = 1, 2, 84


class Refused(Exception):
    """A line, or a call of a device, is refused with this number."""

    def __init__(self, number):
        super().__init__(f"{number} {REFUSALS[number]}")
        self.number = number


class Device:
    """The volumes of a drive by their names, each with room for so many bytes. The plan has for a kind of call and its
    number how it fails."""

    def __init__(self, capacity, plan):
        self.capacity, self.plan = capacity, plan
        self.volumes, self.loaded = {}, None
        self.counts = dict.fromkeys(CALLS, 0)

    def begin(self, call):
        """Counts a call. One that fails before its work is refused; of any other it is given how it fails, if it does."""
        self.counts[call] += 1
        way = self.plan.get((call, self.counts[call]))
        if way == "before" or (way == "half" and call != "append"):
            raise Refused(DEVICE_FAULT)
        return way

    def finish(self, way):
        if way:
            raise Refused(DEVICE_FAULT)

    def must_stand(self, name):
        if name not in self.volumes:
            raise Refused(NOT_THERE)

    def create(self, name):
        way = self.begin("create")
        if name in self.volumes:
            raise Refused(EXISTS)
        self.volumes[name] = b""
        self.finish(way)
        self.loaded = name

    def load(self, name):
        way = self.begin("load")
        self.must_stand(name)
        self.finish(way)
        self.loaded = name

    def unload(self):
        self.loaded = None

    def len(self, name):
        way = self.begin("len")
        self.must_stand(name)
        self.finish(way)
        return len(self.volumes[name])

    def read(self, name):
        self.finish(self.begin("read"))
        return self.volumes[name]

    def append(self, image):
        way = self.begin("append")
        if len(self.volumes[self.loaded]) + len(image) > self.capacity:
            raise Refused(NO_ROOM)
        self.volumes[self.loaded] += image[:len(image) // 2] if way == "half" else image
        self.finish(way)

    def sync(self):
        self.finish(self.begin("sync"))

    def cut(self, to):
        way = self.begin("cut")
        self.volumes[self.loaded] = self.volumes[self.loaded][:to]
        self.finish(way)


class Reader:
    """Reads a volume from somewhere on. The device is asked again only if what it gave last doesn't reach."""

    def __init__(self, device, name):
        self.device, self.name = device, name
        self.bytes, self.to = b"", 0

    def show(self, at, count):
        if at + count > self.to:
            self.bytes = self.device.read(self.name)
            self.to = min(at + MOST_BLOCK, len(self.bytes))
        return self.bytes[at:at + count]

    def head(self, at):
        """The header at a place; None if there is none of a block."""
        shown = self.show(at, BLOCK_HEADER)
        if len(shown) < BLOCK_HEADER:
            return None
        head = Head(*struct.unpack(">III4sII", shown))
        return head if head.mark == b"BB02" and LEAST_BLOCK <= head.size <= MOST_BLOCK else None

    def body(self, at, head):
        """The body of a block with that header; None if not all of it is there, or its checksum is another."""
        image = self.show(at, head.size)
        return image[BLOCK_HEADER:] if len(image) == head.size and zlib.crc32(image[4:]) == head.sum else None


class Head(typing.NamedTuple):
    """The fields of a block's header."""
    sum: int
    size: int
    number: int
    mark: bytes
    ident: int
    time: int


class Found(typing.NamedTuple):
    """What an adoption finds: the volume's pool, where its label block and all its blocks end, and the number of the next
    one."""
    pool: str
    label_end: int
    end: int
    next: int


def surveyed(device, name, media, time):
    """What is on a volume that a run of that time is to adopt."""
    reader = Reader(device, name)
    head = reader.head(0)
    body = head and reader.body(0, head)
    if not body or (head.number, head.ident, head.time) != (0, 0, 0):
        raise Refused(3931)
    data = body[RECORD_HEADER:]
    versions = tuple(PROFILE + struct.pack(">I", version) for version in (VERSION, HOST_VERSION))
    if struct.unpack_from(">i", body) != (VOLUME_LABEL,) or not data.startswith(versions):
        raise Refused(3931)
    written, pool, other_media = data[len(PROFILE) + 12:].decode().split("\0")[:3]
    if written != name:
        raise Refused(3931)
    if other_media != media:
        raise Refused(3932)
    label_end = end = head.size
    number = 1
    while (head := reader.head(end)) and head.number == number and reader.body(end, head) is not None:
        if head.time >= time:
            raise Refused(3936)
        end, number = end + head.size, number + 1
    return Found(pool, label_end, end, number)


def session_records(device, key, spans):
    """Gives the records of a session one by one, as (index, stream, data), and at last whether its end was met. A span is a
    volume, a number, the first and the last index, and where it starts and ends."""
    if not spans or any(number != at or start >= end for at, (_, number, _, _, start, end) in enumerate(spans, 1)):
        raise Refused(3950)
    unpacker = Unpacker()
    for volume, _, _, _, start, end in spans:
        if device.len(volume) < end:
            raise Refused(3952)
        yield from span_records(Reader(device, volume), key, start, end, unpacker)
    if not unpacker.has_begun:
        raise Refused(3950)
    yield unpacker.has_ended


def span_records(reader, key, at, end, unpacker):
    """The records of the blocks in a span. Their numbers aren't looked at: if the program alone wrote, they follow."""
    while at < end:
        if end - at < LEAST_BLOCK:
            raise Refused(3950)
        head = reader.head(at)
        if not head:
            raise Refused(3951)
        if at + head.size > end:
            raise Refused(3950)
        body = reader.body(at, head)
        if body is None:
            raise Refused(3951)
        if (head.time, head.ident) == key:
            yield from unpacker.add(body)
        at += head.size


class Unpacker:
    """Bodies of one session in, its records out. What it can't go on with is a damaged block."""

    def __init__(self):
        self.has_begun = self.has_ended = False
        # The index and the stream of the record that isn't whole, its data so far, and how many bytes are due.
        self.index = self.stream = self.due = 0
        self.data = b""
        self.records = self.bytes = 0

    def need(self, holds):
        if not holds:
            raise Refused(3951)

    def add(self, body):
        """The records that are whole with this body."""
        records, at = [], 0
        while at < len(body):
            self.need(len(body) - at >= RECORD_HEADER)
            index, stream, size = struct.unpack_from(">iiI", body, at)
            part = body[at + RECORD_HEADER:at + RECORD_HEADER + size]
            at += RECORD_HEADER + len(part)
            self.need(stream not in (0, -2**31) and not self.has_ended)
            if index < 0:
                self.label(index, stream, size, part)
                continue
            self.need(self.has_begun and index > 0 and size <= MOST_DATA)
            if self.due:
                self.need((index, stream, size) == (self.index, -self.stream, self.due) and part)
            else:
                self.need(stream > 0)
                self.index, self.stream, self.data = index, stream, b""
            self.data, self.due = self.data + part, size - len(part)
            if not self.due:
                records.append((self.index, self.stream, self.data))
                self.records, self.bytes = self.records + 1, self.bytes + len(self.data)
        return records

    def label(self, index, stream, size, part):
        """A start label or an end label of a session."""
        self.need(index in (START_LABEL, END_LABEL) and len(part) == size and not self.due and stream > 0)
        self.need(self.has_begun == (index == END_LABEL))
        if index == END_LABEL:
            self.need(part[-20:] == struct.pack(">QQI", self.records, self.bytes, OK_STATUS))
            self.has_ended = True
        self.has_begun = True
