"""An independent reader of volumes: the blocks, the sessions and the heads on them, by docs/use/FORMATS.md alone. It shares no
line with the keeper, the client or sdtool."""
import json
import struct
import zlib

BLOCK, RECORD = struct.Struct(">II I4sII"), struct.Struct(">iiI")
MAGIC = b"sdd-client job 1\n"


def blocks_of(path):
    """The whole blocks of a volume after its label: the session's key, and its body."""
    data = path.read_bytes()
    at, number = 0, 0
    while len(data) - at >= BLOCK.size:
        checksum, size, own, mark, session, time = BLOCK.unpack_from(data, at)
        block = data[at:at + size]
        if mark != b"BB02" or own != number or len(block) < size or zlib.crc32(block[4:]) != checksum:
            return
        if number:
            yield (time, session), block[BLOCK.size:]
        at, number = at + size, number + 1


class Reader:
    """What is on the volumes of some folders. A volume of the same size isn't read again: volumes only grow."""

    def __init__(self, folders):
        self.folders, self.read, self.found = folders, {}, {}

    def volumes(self):
        """For each volume its blocks' sessions and bodies in order."""
        found = {}
        for folder in self.folders:
            for path in folder.iterdir():
                if "~" in path.name:
                    continue
                size = path.stat().st_size
                if self.read.get(path.name, (0, 0))[0] != size:
                    self.read[path.name] = size, list(blocks_of(path))
                found[path.name] = self.read[path.name][1]
        return found

    def heads(self):
        """The heads of the jobs whose last session is whole, by its key, and the volumes that each job lies on."""
        sessions = {}
        volumes = self.volumes()
        for name in sorted(volumes):
            for key, body in volumes[name]:
                sessions.setdefault(key, ([], set()))[0].append(body)
                sessions[key][1].add(name)
        found = {}
        for key, (bodies, names) in sessions.items():
            if self.found.get(key, (0, None))[0] != len(bodies):
                self.found[key] = len(bodies), head_in(bodies)
            if head := self.found[key][1]:
                keys = {tuple(map(int, place["lines"][0].split()[1:])) for place in head["sessions"]}
                needed = names.union(*(sessions[one][1] for one in keys if one in sessions))
                found[key] = head, needed
        return found


def records_of(bodies):
    """The records of a session: index, stream and data, put together again where they go on in the next body."""
    part = None
    for body in bodies:
        at = 0
        while at < len(body):
            index, stream, size = RECORD.unpack_from(body, at)
            data = body[at + RECORD.size:at + RECORD.size + size]
            at += RECORD.size + len(data)
            whole = part + data if part is not None and stream < 0 and index > 0 else data
            if len(data) < size:
                part = whole
                continue
            part = None
            yield index, abs(stream) if index > 0 else stream, whole


def head_in(bodies):
    """A job's head, if the session has one and came to its end."""
    head, ended = None, False
    for at, (index, stream, data) in enumerate(records_of(bodies)):
        if at == 1 and (index, stream) == (1, 3) and data.startswith(MAGIC):
            head = json.loads(data[len(MAGIC):])
        ended = index == -5
    return head if ended else None
