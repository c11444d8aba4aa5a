"""What `sdtool scan` and `sdtool verify` print of a folder: a model of its own, over whole files in memory, by
docs/use/FORMATS.md alone."""
import datetime
import json
import struct

from blocks import NAME, Note, label_of, names_in, note_in, whole_block
from volumes import BLOCK_HEADER, MOST_DATA, PROFILE, RECORD_HEADER


def session_label(index, stream, data):
    """The job, the pool and the totals of a session's end label, or the moment of its start label; none if it is no label."""
    if not data.startswith(PROFILE) or len(data) < len(PROFILE) + 16:
        return None
    version, job, moment = struct.unpack_from(">IIq", data, len(PROFILE))
    texts = names_in(data[len(PROFILE) + 16:], 2)
    if version != 1 or not 1 <= job < 2**31 or job != stream or texts is None:
        return None
    if index == -4:
        return None if texts[1] else (job, texts[0][0], moment)
    if len(texts[1]) != 20 or struct.unpack_from(">I", texts[1], 16)[0] != 84:
        return None
    return job, texts[0][0], struct.unpack_from(">QQ", texts[1])


class Session:
    """A session, by its bodies as they come."""

    def __init__(self, body):
        self.start, self.runs = None, []
        self.records = self.bytes = 0
        self.began = self.ended = self.damaged = False
        self.due = None
        first = self.fragments(body)
        if first and first[0] and first[0][0] == -4:
            self.start = session_label(*first[0][:2], first[0][3]) if len(first[0][3]) == first[0][2] else None

    @staticmethod
    def fragments(body):
        """The fragments at the front of a body: index, stream, size and part. The last is none if it can't be read."""
        found, at = [], 0
        while at < len(body):
            if len(body) - at < RECORD_HEADER:
                return [*found, None]
            index, stream, size = struct.unpack_from(">iiI", body, at)
            if stream in (0, -2**31):
                return [*found, None]
            part = body[at + RECORD_HEADER:at + RECORD_HEADER + size]
            found.append((index, stream, size, part))
            at += RECORD_HEADER + len(part)
        return found

    def take(self, volume, start, body):
        indexes = [one[0] for one in self.fragments(body) if one and one[0] > 0] or [0]
        if not self.runs or self.runs[-1][0] != volume:
            self.runs.append([volume, 0, 0, start, 0])
        run = self.runs[-1]
        run[1:] = [run[1] or indexes[0], indexes[-1] or run[2], run[3], start + BLOCK_HEADER + len(body)]
        if self.damaged:
            return
        before = (self.records, self.bytes, self.began, self.ended, self.due)
        if not all([self.follow(one) for one in self.fragments(body)]):
            self.records, self.bytes, self.began, self.ended, self.due = before
            self.damaged = True

    def follow(self, one):
        """Goes on with the next fragment, if it may come there."""
        if one is None or self.damaged or self.ended:
            self.damaged = True
            return False
        index, stream, size, part = one
        if not self.began:
            label = session_label(index, stream, part) if index == -4 and len(part) == size else None
            self.began = label is not None
            good = self.began
        elif self.due:
            good = (index, -stream, size) == self.due and part != b""
            self.due = (index, -stream, size - len(part)) if len(part) < size else None
            self.records += good and not self.due
            self.bytes += len(part)
        elif index == -5:
            label = session_label(index, stream, part) if len(part) == size else None
            good = self.ended = label is not None and label[2] == (self.records, self.bytes)
        elif index < 1 or stream < 0 or size > MOST_DATA:
            good = False
        else:
            good = True
            self.due = (index, stream, size - len(part)) if len(part) < size else None
            self.records += not self.due
            self.bytes += len(part)
        self.damaged = self.damaged or not good
        return good

    def whole_bytes(self):
        """The data bytes of the whole records alone."""
        return self.bytes - (self.partial if self.due else 0)


class Counting(Session):
    """A session, by its bodies as they come, with the bytes of an unfinished record apart."""

    def __init__(self, body):
        super().__init__(body)
        self.partial = 0

    def follow(self, one):
        before, due, records = self.bytes, self.due, self.records
        good = super().follow(one)
        self.partial = 0 if self.records > records or not self.due else (self.partial if due else 0) + self.bytes - before
        return good

    def take(self, volume, start, body):
        before = None if self.damaged else self.partial
        super().take(volume, start, body)
        if self.damaged and before is not None:
            self.partial = before


def take_run(name, image, at, number, sessions):
    """Takes the blocks that come one after another from a place on, and gives their end."""
    while True:
        found = whole_block(image, at)
        if isinstance(found, str) or found[1] != number:
            return at
        size, _, key, body = found
        sessions.setdefault(key, Counting(body)).take(name, at, body)
        at, number = at + size, number + 1


def shown(moment):
    """What a clock of UTC shows at so many microseconds after 1970, with as many digits of a second as it takes."""
    if moment is None:
        return "-"
    text = (datetime.datetime(1970, 1, 1) + datetime.timedelta(microseconds=moment)).isoformat()
    return (text.rstrip("0") if "." in text else text) + "Z"


def told(key, session, with_spans):
    """The lines of a session."""
    job, pool, moment = session.start or (0, "-", None)
    ended = session.ended and not session.damaged
    line = (f"session {key[0]} {key[1]} job {job} pool {pool} {'ended' if ended else 'cut'} "
            f"records {session.records} bytes {session.whole_bytes()} at {shown(moment)}\n")
    if not with_spans:
        return ("" if ended else line) + (f"broken {key[0]} {key[1]}\n" if session.damaged else "")
    spans = "".join(f"span {volume} {number} {first} {last} {start} {end}\n"
                    for number, (volume, first, last, start, end) in enumerate(session.runs, 1))
    return f"{line}session {key[0]} {key[1]}\n{spans}"


def behind(name, image, at, with_spans):
    """What is told of a volume from a place on where there is no block that is due."""
    while at < len(image):
        found = whole_block(image, at)
        yield f"damage {name} {at} {found if isinstance(found, str) else 'number'}\n"
        while at < len(image) and isinstance(whole_block(image, at), str):
            at = image.find(b"BB02", at + 13) - 12
            if at < 0:
                return
        yield f"behind {name} {at}\n"
        sessions = {}
        at = take_run(name, image, at, whole_block(image, at)[1], sessions)
        for key, session in sessions.items():
            yield told(key, session, with_spans)


def note_of(files, name):
    """The note beside a file, or a word for what it is; or none."""
    return note_in(files.get(name + "~"))


def ends_of(name, image):
    """What each front of a volume's blocks comes to, from the label alone to all of them: where it ends, where its last block
    begins, the number that comes next, and the greatest time."""
    ends = [(label_of(name, image).size, 0, 1, 0)]
    while True:
        at, _, number, time = ends[-1]
        found = whole_block(image, at)
        if isinstance(found, str) or found[1] != number:
            return ends
        ends.append((at + found[0], at, number + 1, max(time, found[2][0])))


def noted(files, name):
    """The line of a volume's note, if it has one that doesn't fit or counts as none."""
    note, ends = note_of(files, name), ends_of(name, files[name])
    if note is None:
        return ""
    if note == "form":
        return f"note {name} form\n"
    if note == "damaged":
        return f"damage {name} 0 note\n"
    if note.moment != label_of(name, files[name]).moment:
        return f"note {name} label\n"
    if not any(one[0] == note.end for one in ends):
        return f"damage {name} {min(note.end, ends[-1][0])} note\n"
    # No block below the end is of a later time.
    if not any(one[:3] == (note.end, note.last, note.next_number) and one[3] <= note.time for one in ends):
        return f"damage {name} {note.end} note\n"
    return f"damage {name} {note.torn} note\n" if note.torn is not None and note.torn < ends[-1][0] else ""


def lines_of(files, names, with_spans, expected=()):
    if names is None:
        labels = {name: label_of(name, image) for name, image in files.items() if NAME.fullmatch(name)}
        due = {name for name in labels if not with_spans and (name in expected or isinstance(note_of(files, name), Note))}
        for name in sorted(name for name, label in labels.items() if label is None):
            yield f"damage {name} 0 label\n" if name in due else f"foreign {name}\n"
        yield "".join(f"missing {name}\n" for name in expected if name not in labels)
        names = sorted((name for name, label in labels.items() if label), key=lambda name: (labels[name].moment, name))
    sessions = {}
    for name in names:
        image = files[name]
        yield f"volume {name} {len(image)}\n"
        label = label_of(name, image)
        at = take_run(name, image, label.size, 1, sessions) if label else 0
        yield from behind(name, image, at, with_spans)
    for key, session in sessions.items():
        yield told(key, session, with_spans)
    if not with_spans:
        yield from (noted(files, name) for name in sorted(names))
    yield f"ok scan {len(names)} {len(sessions)}\n"


def scanned(files, names=None):
    """What `sdtool scan` prints of these files, of those that are named if some are."""
    return "".join(lines_of(files, names, True))


def verified(files, expected=()):
    """What `sdtool verify` prints of these files, and its status; some files are to be volumes."""
    lines = "".join(lines_of(files, None, False, expected))
    heads = [line.split()[0] for line in lines.splitlines()]
    if "damage" in heads or "broken" in heads:
        return lines, 1
    if "missing" in heads or "volume" not in heads:
        return lines, 4
    return lines, 3 if "session" in heads else 0


KEYS = {"foreign": ["volume"], "volume": ["volume", "bytes"], "damage": ["volume", "place", "kind"], "behind": ["volume", "place"],
        "missing": ["volume"], "note": ["volume", "kind"], "broken": ["time", "id"], "ok": ["volumes", "sessions"], "fault": ["fault"]}


def as_json(lines):
    """The lines of a verification as `--json` prints them."""
    for line in lines.splitlines():
        word, *rest = line.split()
        if word == "session":
            values = {"time": rest[0], "id": rest[1], "job": rest[3], "pool": rest[5], "end": rest[6], "records": rest[8],
                      "bytes": rest[10], "moment": rest[12]}
        elif word[0].isdigit():
            word, values = "refused", {"refusal": line}
        else:
            values = dict(zip(KEYS[word], rest[word == "ok":]))
        texts = ("volume", "pool", "end", "kind", "moment", "fault", "refusal")
        found = {"line": "done" if word == "ok" else word}
        found.update({key: value if key in texts else int(value) for key, value in values.items()})
        yield json.dumps(found, separators=(",", ":")) + "\n"
