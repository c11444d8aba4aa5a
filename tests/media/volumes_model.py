"""A plain slow reader of volumes, by docs/use/FORMATS.md and the orders of docs/use/REFUSALS.md: what a JobMedia text says,
what a session's spans hold, and what an adoption finds. tests/media compares the programs with it."""
import re
import struct
import zlib

from volumes import LEAST_BLOCK, MOST_BLOCK, MOST_DATA, MOST_NUMBER, MOST_VOLUME

NOT_THERE, NOT_OURS = "3930 Volume not on the shelf", "3931 Not a volume of this profile"
OTHER_MEDIA, THIS_RUN = "3932 Other pool or media", "3936 Volume has blocks of this run"
BAD_SPAN, DAMAGED, ENDS_EARLY = "3950 Bad span", "3951 Damaged block", "3952 Span ends early"

NUMBER, NAME = rb"(0|[1-9][0-9]*)", rb"((?!\.{1,2}[ \0])[A-Za-z0-9_:.-]{1,127})"
SESSION_LINE = re.compile(rb"session " + NUMBER + b" " + NUMBER)
SPAN_LINE = re.compile(rb"span " + NAME + 5 * (b" " + NUMBER))
VOLUME_LABELS = [re.compile(rb"sd-profile\n\0\0\0\0" + version + rb".{8}" + count * (NAME + rb"\0"), re.DOTALL)
                 for version, count in ((rb"\x01", 3), (rb"\x02", 4))]
SESSION_LABEL = re.compile(rb"sd-profile\n\0\0\0\0\x01(.{4}).{8}" + 2 * (NAME + rb"\0") + rb"(.{16}\0\0\0\x54)?", re.DOTALL)


class Refused(Exception):
    """What is refused: its line."""


def said(text):
    """The key and the spans that a JobMedia text says: volume, number, start and end of each."""
    lines = (text[:-1] if text.endswith(b"\n") else text).split(b"\n")
    session, *spans = [SESSION_LINE.fullmatch(lines[0]), *map(SPAN_LINE.fullmatch, lines[1:])]
    if not session or not all(spans):
        raise Refused(BAD_SPAN)
    key = tuple(map(int, session.groups()))
    rows = [(span[1].decode(), *map(int, span.groups()[1:])) for span in spans]
    small, great = [*key], []
    for _, number, first, last, begin, end in rows:
        small += [first, last]
        great += [number, begin, end]
    if any(number >= 2**32 for number in small) or any(number >= 2**64 for number in great):
        raise Refused(BAD_SPAN)
    return key, [(volume, number, begin, end) for volume, number, _, _, begin, end in rows]


class Session:
    """What has come of a session's bodies."""

    def __init__(self):
        self.started = self.ended = False
        self.records = self.bytes = 0
        # The index, the stream and the data so far of a record that goes on, and how many bytes lack.
        self.due = None

    def add(self, body):
        """The records that a body makes whole."""
        at, whole = 0, []
        while at < len(body):
            if len(body) - at < 12:
                raise Refused(DAMAGED)
            header = index, stream, size = struct.unpack_from(">iiI", body, at)
            part = body[at + 12:at + 12 + size]
            at += 12 + len(part)
            if stream in (0, -2**31):
                raise Refused(DAMAGED)
            if self.due:
                whole += self._go_on(header, part)
            elif not self.started:
                self._label(-4, header, part)
                self.started = True
            elif index == -5 and not self.ended:
                self._label(-5, header, part)
                self.ended = True
            else:
                whole += self._begin(header, part)
        return whole

    def _label(self, wanted, header, part):
        index, stream, size = header
        found = SESSION_LABEL.fullmatch(part)
        if index != wanted or size != len(part) or not found or bool(found[4]) != (wanted == -5):
            raise Refused(DAMAGED)
        (job,) = struct.unpack(">I", found[1])
        if job != stream or not 1 <= job <= MOST_NUMBER:
            raise Refused(DAMAGED)
        if wanted == -5 and struct.unpack(">QQ", found[4][:16]) != (self.records, self.bytes):
            raise Refused(DAMAGED)

    def _begin(self, header, part):
        index, stream, size = header
        if self.ended or index < 1 or stream < 1 or size > MOST_DATA:
            raise Refused(DAMAGED)
        return self._taken(index, stream, part, size - len(part))

    def _go_on(self, header, part):
        index, stream, data, lacking = self.due
        if header != (index, -stream, lacking) or not part:
            raise Refused(DAMAGED)
        return self._taken(index, stream, data + part, lacking - len(part))

    def _taken(self, index, stream, data, lacking):
        self.due = (index, stream, data, lacking) if lacking else None
        if lacking:
            return []
        self.records, self.bytes = self.records + 1, self.bytes + len(data)
        return [(index, stream, data)]


def head_at(volume, at):
    """The size, the number and the key of the block whose header is at a place; none if none can be."""
    if len(volume) < at + 24:
        return None
    _, size, number, mark, session, time = struct.unpack_from(">III4sII", volume, at)
    if mark != b"BB02" or not LEAST_BLOCK <= size <= MOST_BLOCK:
        return None
    return size, number, (time, session)


def is_summed(block):
    return struct.unpack_from(">I", block)[0] == zlib.crc32(block[4:])


def read(volumes, key, spans):
    """The records that are read of a session, and the last line."""
    records, session, found = [], Session(), False
    try:
        if not spans or any(span[1] != number or span[2] >= span[3] for number, span in enumerate(spans, 1)):
            raise Refused(BAD_SPAN)
        for name, _, begin, end in spans:
            for owner, body in blocks_of(volumes.get(name), begin, end):
                if owner == key:
                    records += session.add(body)
                    found = True
        if not found:
            raise Refused(BAD_SPAN)
    except Refused as why:
        return records, f"{why}\n"
    return records, f"ok read {session.records} {session.bytes} {'ended' if session.ended else 'cut'}\n"


def blocks_of(volume, at, end):
    """The key and the body of each block of a span."""
    if volume is None:
        raise Refused(NOT_THERE)
    if len(volume) < end:
        raise Refused(ENDS_EARLY)
    due = None
    while at < end:
        if end - at < LEAST_BLOCK:
            raise Refused(BAD_SPAN)
        if not (head := head_at(volume, at)):
            raise Refused(DAMAGED)
        size, number, key = head
        if at + size > end:
            raise Refused(BAD_SPAN)
        block = volume[at:at + size]
        if not is_summed(block) or due not in (None, number):
            raise Refused(DAMAGED)
        yield key, block[24:]
        at, due = at + size, number + 1


def whole_blocks(volume):
    """The start, the size, the number, the key and the body of each block from a volume's beginning on, up to the first
    place that holds no whole block with the next number."""
    at, due = 0, 0
    while head := head_at(volume, at):
        size, number, key = head
        block = volume[at:at + size]
        if len(block) < size or number != due or not is_summed(block):
            return
        yield at, size, number, key, block[24:]
        at, due = at + size, number + 1


def label_in(blocks, name):
    """The media of the label that the first of these blocks is, if it is one of that name."""
    if not blocks or blocks[0][3] != (0, 0):
        return None
    body = blocks[0][4]
    found = next(filter(None, (form.fullmatch(body[12:]) for form in VOLUME_LABELS)), None)
    if struct.unpack_from(">iiI", body) != (-2, 1, len(body) - 12) or not found or found[1].decode() != name:
        return None
    return found[3].decode()


def adopted(volume, name, media, time):
    """What an adoption in the run of that time answers, and the bytes of the volume then."""
    blocks = list(whole_blocks(volume or b""))
    labelled = label_in(blocks, name)
    if volume is None:
        return f"{NOT_THERE}\n", None
    if labelled is None or len(volume) > MOST_VOLUME:
        return f"{NOT_OURS}\n", volume
    if labelled != media:
        return f"{OTHER_MEDIA}\n", volume
    if any(key[0] >= time for _, _, _, key, _ in blocks[1:]):
        return f"{THIS_RUN}\n", volume
    end = blocks[-1][0] + blocks[-1][1]
    return f"ok adopted {end} {len(blocks)}\n", volume[:end]
