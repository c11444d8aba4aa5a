"""A plain model of a drive of `sdtool run`: its volumes, the queue before it, the body in its hand, and what it does to its
device.
"""
from volumes import BLOCK_HEADER, Place, block, label

from device import DEVICE_FAULT, NO_ROOM, Refused, surveyed


class Volume:
    """What a drive knows of a volume. Its label block ends where its first block begins."""

    def __init__(self, name, pool, label_end, end, next_number, status="append"):
        self.name, self.pool, self.label_end, self.end, self.next_number = name, pool, label_end, end, next_number
        self.status = status

    def takes(self, pool):
        return self.status == "append" and self.pool == pool


class Drive:
    """A drive of a run. Each lane has the session that used it last. The pool is that of the session opened last. For each
    block on the loaded volume that awaits a sync its session is kept; and the names of the volumes that were purged."""

    def __init__(self, number, media, lanes, device, host=None):
        self.number, self.media, self.device, self.host = number, media, device, host
        self.lanes = [None] * lanes
        self.is_online, self.pool = True, None
        self.volumes, self.loaded = [], None
        self.queue, self.hand = [], None
        self.unsynced, self.purged = [], set()
        device.unload()

    def busy(self):
        """How many of its lanes aren't free."""
        return sum(session is not None and session.keeps_lane() for session in self.lanes) if self.is_online else 0

    def free_lane(self):
        """The lowest lane that is free."""
        return next(at for at, session in enumerate(self.lanes) if session is None or not session.keeps_lane())

    def takes_session(self, pool):
        return self.busy() < len(self.lanes) and (self.busy() == 0 or self.pool == pool)

    def has_volume(self):
        """Whether the loaded volume takes blocks of the drive's pool."""
        return self.loaded is not None and self.loaded.takes(self.pool)

    def next_volume(self):
        """The first of its volumes that takes blocks of its pool."""
        return next((volume for volume in self.volumes if volume.takes(self.pool)), None)

    def take(self):
        if self.hand:
            return "hand full"
        if not self.queue:
            return "idle"
        self.hand = self.queue.pop(0)
        session, number = self.hand
        return f"hand {session.ticket} {number}"

    def place(self, limit, time):
        """Appends the body in the hand as a block, unless that would pass the volume's limit."""
        if not self.hand:
            return "idle"
        if not self.has_volume():
            return "need volume"
        (session, number), volume = self.hand, self.loaded
        body = session.bodies[number - 1]
        start, end = volume.end, volume.end + BLOCK_HEADER + len(body.data)
        try:
            if end > limit:
                raise Refused(NO_ROOM)
            self.device.append(block((time, session.ticket), volume.next_number, body.data))
        except Refused as why:
            volume.status = "full" if why.number == NO_ROOM else "error"
            return f"volume {volume.status}"
        volume.end, volume.next_number, self.hand = end, volume.next_number + 1, None
        session.placed.append(Place(volume.name, start, end, body.first, body.last))
        self.unsynced.append(session)
        return f"placed {volume.name} {start} {end}"

    def sync(self):
        """If the device fails, the volume is out, and those sessions fail that go on and have a block awaiting it."""
        if not self.unsynced:
            return
        waiting, self.unsynced = self.unsynced, []
        try:
            self.device.sync()
        except Refused:
            self.loaded.status = "error"
            self.unload()
            for session in waiting:
                session.status = "failed" if session.goes_on else session.status
            raise
        for session in waiting:
            session.synced += 1

    def unload(self):
        self.device.unload()
        self.loaded = None

    def unmount(self):
        self.sync()
        self.unload()

    def load(self, volume):
        self.unmount()
        self.device.load(volume.name)
        self.loaded = volume

    def label(self, name, pool, moment):
        host = None if self.host is None else self.host.encode()
        image = label(name.encode(), pool.encode(), self.media.encode(), moment, host)
        try:
            self.device.create(name)
            self.device.append(image)
            self.device.sync()
        finally:
            self.unload()
        self.volumes.append(Volume(name, pool, len(image), len(image), 1))

    def adopt(self, name, limit, time):
        """Asks for the length, reads, and then loads, cuts after the blocks, and syncs."""
        self.device.len(name)
        found = surveyed(self.device, name, self.media, time)
        try:
            self.device.load(name)
            self.device.cut(found.end)
            self.device.sync()
        finally:
            self.unload()
        status = "full" if found.end >= limit else "append"
        self.volumes.append(Volume(name, found.pool, found.label_end, found.end, found.next, status))
        return found

    def named(self, name):
        """Its volume of that name, or None."""
        return next((volume for volume in self.volumes if volume.name == name), None)

    def purge(self, volume):
        """Loads it, cuts it after its label, and syncs. A device that fails at that may leave any bytes there, so
        nothing is added to it."""
        try:
            self.device.load(volume.name)
            self.device.cut(volume.label_end)
            self.device.sync()
            self.left_empty(volume, "append")
        except Refused as why:
            if why.number == DEVICE_FAULT:
                self.left_empty(volume, "error")
            raise
        finally:
            self.unload()

    def left_empty(self, volume, status):
        """None of its blocks counts any more. Whoever had one there has lost it."""
        volume.status, volume.end, volume.next_number = status, volume.label_end, 1
        self.purged.add(volume.name)

    def leave(self, name, count):
        """A stop leaves so many zero bytes on a volume. Of more than it may have, one byte more than that is asked."""
        self.device.load(name)
        try:
            self.device.append(bytes(min(count, self.device.capacity + 1)))
        finally:
            self.device.unload()
