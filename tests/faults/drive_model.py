"""A plain model of a drive over a device in memory, of which calls fail as a plan says; tests/faults compares with it.

Volumes are bytes, as docs/use/FORMATS.md has them. What each step of a drive asks of its device, and what a call that fails
leaves, is in docs/use/SCRIPT.md; what each refusal leaves, in docs/use/REFUSALS.md.
"""
import collections
import struct
import zlib

REFUSALS = {
    3901: "Bad command", 3902: "Session not open", 3903: "Bad file index", 3905: "Session failed",
    3906: "Session cancelled", 3907: "Not yet", 3908: "Busy", 3910: "No drive of this media", 3911: "No free lane", 3912: "Drive offline",
    3920: "Spool fault", 3930: "Volume not on the shelf", 3931: "Not a volume of this profile",
    3932: "Other pool or media", 3933: "In use", 3934: "Volume not appendable", 3935: "Volume already labelled",
    3936: "Volume has blocks of this run", 3938: "No such drive", 3939: "No room on the device", 3940: "Device fault",
    3950: "Bad span", 3951: "Damaged block", 3952: "Span ends early", 3953: "Volume purged", 3954: "Volume not full",
}
CALLS = ("create", "load", "len", "read", "append", "sync", "cut")
WAYS = ("before", "half", "after")
PROFILE = b"sd-profile\n\0"
HEADER, RECORD_HEADER, LEAST_BLOCK, MOST_BLOCK = 24, 12, 36, 1_048_576
VOLUME_LABEL, START_LABEL, END_LABEL = -2, -4, -5


class Refused(Exception):
    """A line is refused, with this number."""

    def __init__(self, number):
        super().__init__(f"{number} {REFUSALS[number]}")
        self.number = number


class Fault(Exception):
    """What a device answers to a call that it doesn't do: `there`, `not there`, `no room` or `device`."""

    def __init__(self, word):
        super().__init__(word)
        self.word = word


def fragment(index, stream, data, size=None):
    return struct.pack(">iiI", index, stream, len(data) if size is None else size) + data


def seal(key, number, body):
    """A block of the session `key` (time, number)."""
    summed = struct.pack(">II4sII", HEADER + len(body), number, b"BB02", key[1], key[0]) + body
    return struct.pack(">I", zlib.crc32(summed)) + summed


def texts(*words):
    return b"".join(word.encode() + b"\0" for word in words)


def label_block(name, pool, media, moment=0, host=None):
    """The label block of a volume that is labelled at that moment, with the host that labels it, if one is said."""
    hosts = [] if host is None else [host]
    data = PROFILE + struct.pack(">Iq", 1 + len(hosts), moment) + texts(name, pool, media, *hosts)
    return seal((0, 0), 0, fragment(VOLUME_LABEL, 1, data))


def session_label(index, job, pool, media, moment=0, totals=b""):
    """The label of a session's start or end."""
    return fragment(index, job, PROFILE + struct.pack(">IIq", 1, job, moment) + texts(pool, media) + totals)


Block = collections.namedtuple("Block", "number key body size")


class Device:
    """Volumes in memory, each with room for so many bytes. The plan has triples: a call, which one of its kind, how it
    fails."""

    def __init__(self, capacity, plan=()):
        self.capacity, self.plan = capacity, list(plan)
        self.calls = collections.Counter()
        self.volumes, self.loaded = {}, None

    def begin(self, call):
        """Counts a call. Says how it is to fail once it is done; one that fails before does so here."""
        self.calls[call] += 1
        ways = [way for kind, nth, way in self.plan if (kind, nth) == (call, self.calls[call])]
        way = ways[0] if ways else None
        if way == "before" or way == "half" and call != "append":
            raise Fault("device")
        return way

    @staticmethod
    def finish(way):
        if way:
            raise Fault("device")

    def volume(self, name):
        if name not in self.volumes:
            raise Fault("not there")
        return self.volumes[name]

    def create(self, name):
        way = self.begin("create")
        if name in self.volumes:
            raise Fault("there")
        self.volumes[name] = bytearray()
        self.finish(way)
        self.loaded = name

    def load(self, name):
        way = self.begin("load")
        self.volume(name)
        self.finish(way)
        self.loaded = name

    def unload(self):
        self.loaded = None

    def len(self, name):
        way = self.begin("len")
        length = len(self.volume(name))
        self.finish(way)
        return length

    def read(self, name, at, count):
        way = self.begin("read")
        part = bytes(self.volume(name)[at:at + count])
        self.finish(way)
        return part

    def append(self, data):
        """If there is no room, no byte is written."""
        way = self.begin("append")
        volume = self.volumes[self.loaded]
        if len(volume) + len(data) > self.capacity:
            raise Fault("no room")
        volume += data[:len(data) // 2] if way == "half" else data
        self.finish(way)

    def sync(self):
        self.finish(self.begin("sync"))

    def cut(self, to):
        way = self.begin("cut")
        del self.volumes[self.loaded][to:]
        self.finish(way)


class Reader:
    """Shows the bytes of a volume. It reads as many as a block may have, and more only if it holds too few."""

    def __init__(self, device, name):
        self.device, self.name = device, name
        self.held, self.start = b"", 0

    def show(self, at, count):
        behind = max(0, self.start + len(self.held) - at)
        if behind < count:
            held = self.held[len(self.held) - behind:]
            self.held, self.start = held + self.device.read(self.name, at + behind, MOST_BLOCK - behind), at
        return self.held[at - self.start:at - self.start + count]

    def size_at(self, at):
        """What the header at a place says of its block's size; 0 if there is none."""
        head = self.show(at, HEADER)
        if len(head) < HEADER or head[12:16] != b"BB02":
            return 0
        (size,) = struct.unpack_from(">I", head, 4)
        return size if LEAST_BLOCK <= size <= MOST_BLOCK else 0

    def block(self, at):
        """The whole block at a place, or None."""
        size = self.size_at(at)
        bytes_ = self.show(at, size) if size else b""
        if not size or len(bytes_) < size or struct.unpack_from(">I", bytes_)[0] != zlib.crc32(bytes_[4:]):
            return None
        number, _, ident, time = struct.unpack_from(">I4sII", bytes_, 8)
        return Block(number, (time, ident), bytes_[HEADER:], size)


class Volume:
    """What a drive knows of a volume: also where its label block ends."""

    def __init__(self, name, pool, first, end, number, status="append"):
        self.name, self.pool, self.first, self.end, self.number, self.status = name, pool, first, end, number, status


class Placement:
    """Where a block lies, and whether that lasts: `unsynced`, `synced` or `lost`."""

    def __init__(self, ticket, volume, start, size, first, last):
        self.ticket, self.volume, self.start, self.end = ticket, volume, start, start + size
        self.first, self.last, self.state = first, last, "unsynced"


Piece = collections.namedtuple("Piece", "ticket number body first last")


class Drive:
    """A drive of a run. Its lanes have the tickets of the sessions that used them last."""

    def __init__(self, device, media, lanes, limit, time):
        self.device, self.media, self.limit, self.time = device, media, limit, time
        self.lanes = [None] * lanes
        self.online, self.pool, self.hand = True, None, None
        self.volumes, self.loaded = [], None
        # Of the blocks in the journal, those on the loaded volume that await a sync.
        self.queue, self.journal, self.unsynced = [], [], []
        device.unload()

    def named(self, name):
        return next((volume for volume in self.volumes if volume.name == name), None)

    def label(self, name, pool):
        """Creates, appends, syncs and unloads."""
        image = label_block(name, pool, self.media)
        try:
            self.device.create(name)
            self.device.append(image)
            self.device.sync()
        except Fault as fault:
            raise Refused({"there": 3935, "no room": 3939}.get(fault.word, 3940)) from fault
        finally:
            self.device.unload()
        self.volumes.append(Volume(name, pool, len(image), len(image), 1))

    def adopt(self, name):
        """Asks for the length, reads, then loads, cuts, syncs and unloads. Gives where the blocks end, and the number of
        the next."""
        try:
            volume = self.survey(name, self.device.len(name))
            self.device.load(name)
            self.device.cut(volume.end)
            self.device.sync()
        except Fault as fault:
            raise Refused({"not there": 3930}.get(fault.word, 3940)) from fault
        finally:
            self.device.unload()
        self.volumes.append(volume)
        return volume.end, volume.number

    def survey(self, name, size):
        """What is on a volume of that size: its label, and its blocks one after another."""
        reader = Reader(self.device, name)
        label = reader.block(0)
        if not label or label.number or label.key != (0, 0) or label.size > size:
            raise Refused(3931)
        named, pool, media = label.body[36:].decode().split("\0")[:3]
        if named != name:
            raise Refused(3931)
        if media != self.media:
            raise Refused(3932)
        end, number = label.size, 1
        while (block := reader.block(end)) and block.number == number and block.size <= size - end:
            if block.key[0] >= self.time:
                raise Refused(3936)
            end, number = end + block.size, number + 1
        return Volume(name, pool, label.size, end, number, "full" if end >= self.limit else "append")

    def purge(self, volume):
        """Loads, cuts after the label block, syncs and unloads. If that fails, there is no block either, and none is
        added."""
        try:
            self.device.load(volume.name)
            self.device.cut(volume.first)
            self.device.sync()
            volume.status = "append"
        except Fault as fault:
            if fault.word == "not there":
                raise Refused(3930) from fault
            volume.status = "error"
            raise Refused(3940) from fault
        finally:
            self.device.unload()
            if volume.status != "full":
                volume.end, volume.number = volume.first, 1

    def mount(self, name):
        volume = self.named(name)
        if not volume:
            raise Refused(3930)
        if volume.status == "append" and volume is self.loaded:
            raise Refused(3933)
        if volume.status != "append":
            raise Refused(3934)
        if self.pool not in (None, volume.pool):
            raise Refused(3932)
        self.unmount()
        try:
            self.device.load(name)
        except Fault as fault:
            raise Refused({"not there": 3930}.get(fault.word, 3940)) from fault
        self.loaded = volume

    def unmount(self):
        self.sync()
        self.device.unload()
        self.loaded = None

    def sync(self):
        """Calls the device only if a block awaits it. If that fails, those blocks are lost, and the volume is out."""
        if not self.unsynced:
            return
        waiting, self.unsynced = self.unsynced, []
        try:
            self.device.sync()
        except Fault as fault:
            self.loaded.status, self.loaded = "error", None
            self.device.unload()
            for one in waiting:
                one.state = "lost"
            raise Refused(3940) from fault
        for one in waiting:
            one.state = "synced"

    def takes_pool(self):
        """Whether the loaded volume takes blocks of the drive's pool."""
        return self.loaded is not None and (self.loaded.status, self.loaded.pool) == ("append", self.pool)

    def next_volume(self):
        """The first volume that takes blocks of the drive's pool."""
        open_ = (volume for volume in self.volumes if (volume.status, volume.pool) == ("append", self.pool))
        return next(open_, None)

    def place(self):
        """Appends the piece in the hand once, or not at all if the volume's limit forbids it. Gives the answer."""
        if not self.hand:
            return "idle"
        if not self.takes_pool():
            return "need volume"
        volume, piece = self.loaded, self.hand
        image = seal((self.time, piece.ticket), volume.number, piece.body)
        if volume.end + len(image) > self.limit:
            volume.status = "full"
            return "volume full"
        try:
            self.device.append(image)
        except Fault as fault:
            volume.status = "full" if fault.word == "no room" else "error"
            return f"volume {volume.status}"
        start = volume.end
        volume.end, volume.number, self.hand = start + len(image), volume.number + 1, None
        self.journal.append(Placement(piece.ticket, volume.name, start, len(image), piece.first, piece.last))
        self.unsynced.append(self.journal[-1])
        return f"placed {volume.name} {start} {volume.end}"

    def placed(self, ticket):
        return [one for one in self.journal if one.ticket == ticket]

    def has_on(self, ticket, name):
        """Whether a block of a session was ever placed on a volume."""
        return any(one.volume == name for one in self.placed(ticket))

    def spans(self, ticket):
        """The longest runs of a session's blocks on one volume, as the fields of their lines."""
        runs = []
        for one in self.placed(ticket):
            if not runs or runs[-1][0].volume != one.volume:
                runs.append([])
            runs[-1].append(one)
        spans = []
        for number, run in enumerate(runs, 1):
            indexes = [index for one in run for index in (one.first, one.last) if index] or [0]
            spans.append((run[0].volume, number, indexes[0], indexes[-1], run[0].start, run[-1].end))
        return spans

    def read(self, key, spans):
        """Gives the records of a session one by one, and at last whether its end was met. Asks for the length once for
        each span, and reads."""
        if not spans:
            raise Refused(3950)
        unpacker = Unpacker()
        try:
            for volume, _, _, _, start, end in spans:
                if self.device.len(volume) < end:
                    raise Refused(3952)
                yield from read_span(Reader(self.device, volume), key, start, end, unpacker)
        except Fault as fault:
            raise Refused({"not there": 3930}.get(fault.word, 3940)) from fault
        if not unpacker.started:
            raise Refused(3950)
        yield unpacker.ended


def read_span(reader, key, at, end, unpacker):
    """The records of the blocks that make up a span; a span that they don't make up is bad, and a place where there is
    none is damaged."""
    due = None
    while at < end:
        if end - at < LEAST_BLOCK:
            raise Refused(3950)
        if not (size := reader.size_at(at)):
            raise Refused(3951)
        if at + size > end:
            raise Refused(3950)
        block = reader.block(at)
        if not block or due not in (None, block.number):
            raise Refused(3951)
        if block.key == key:
            yield from unpacker.add(block.body)
        at, due = at + size, block.number + 1


class Unpacker:
    """Bodies of one session in, its records out, as (index, stream, data). What can't be the session's next body is a
    damaged block, of which no record comes."""

    def __init__(self):
        self.started = self.ended = False
        # Of the record that goes on, its index, its stream and its data, and how many bytes are due.
        self.begun, self.due = None, 0
        self.records = self.bytes = 0

    def add(self, body):
        at, whole = 0, []
        while at < len(body):
            if len(body) - at < RECORD_HEADER:
                raise Refused(3951)
            header = struct.unpack_from(">iiI", body, at)
            part = body[at + RECORD_HEADER:at + RECORD_HEADER + header[2]]
            at += RECORD_HEADER + len(part)
            if not self.takes(*header, part):
                raise Refused(3951)
            if header[0] > 0 and not self.due:
                whole.append(self.begun)
        return whole

    def takes(self, index, stream, size, part):
        """Takes a label, a record or a part of one, if that is due."""
        if self.due:
            is_next = (index, stream, size) == (self.begun[0], -self.begun[1], self.due) and part != b""
            return is_next and self.put(part)
        if self.ended or self.started == (index == START_LABEL):
            return False
        if index in (START_LABEL, END_LABEL):
            self.started, self.ended = True, index == END_LABEL
            totals = struct.pack(">QQI", self.records, self.bytes, 84) if self.ended else b""
            return len(part) == size and part.endswith(totals)
        self.begun, self.due = (index, stream, b""), size
        return index > 0 and stream > 0 and self.put(part)

    def put(self, part):
        """Takes data of the record that goes on."""
        index, stream, data = self.begun
        self.begun, self.due = (index, stream, data + part), self.due - len(part)
        if not self.due:
            self.records, self.bytes = self.records + 1, self.bytes + len(data + part)
        return True
