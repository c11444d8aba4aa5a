"""A plain model of the sessions of `sdtool run`: the list of the records that each took, and how far the bodies are into
which it is cut.
"""
from volumes import Packer, end, jobmedia, start

from device import Refused

GOES_ON = ("active", "ended")
STOPPED = ("cancelled", "failed")


class Session:
    """A session of a run. Of the bodies that its list is cut into, the first `spooled` no longer wait, the first `out` of
    those are out of the spool again, and the first `sent` of those were sent to the drive. Where they lie is told by
    `placed`, of which the first `synced` last."""

    def __init__(self, ticket, job, names, drive, settings, moment):
        self.ticket, self.job, self.names, self.drive = ticket, job, names, drive
        self.limit = settings.spool
        self.status, self.records = "active", []
        self.packer = Packer(settings.block)
        self.packer.put_label(start(job, **names, moment=moment))
        self.spooled = self.out = self.sent = self.synced = 0
        # The bytes that went into the spool since it was empty last; whether it is being emptied.
        self.used, self.is_despooling = 0, False
        self.placed = []

    @property
    def goes_on(self):
        return self.status in GOES_ON

    @property
    def bodies(self):
        return self.packer.bodies

    def waits(self):
        return len(self.bodies) > self.spooled

    def keeps_lane(self):
        """A session that was given up or failed keeps its lane until all that it sent is placed."""
        return self.goes_on or (self.status in STOPPED and self.sent > len(self.placed))

    def must_be(self, *statuses):
        if self.status not in statuses:
            raise Refused({"cancelled": 3906, "failed": 3905}.get(self.status, 3902))

    def append(self, index, stream, data):
        self.must_be("active")
        last = self.records[-1][0] if self.records else 0
        if index not in (last, last + 1):
            raise Refused(3903)
        if self.waits():
            raise Refused(3908)
        self.packer.put(index, stream, data)
        self.records.append((index, stream, data))
        return f"taken {len(self.records)}"

    def end(self, moment):
        self.must_be("active")
        count, size = len(self.records), sum(len(data) for _, _, data in self.records)
        self.packer.put_label(end(self.job, count, size, **self.names, moment=moment))
        self.packer.close()
        self.status = "ended"
        return "ended"

    def cancel(self):
        self.must_be(*GOES_ON)
        self.status = "cancelled"
        return "cancelled"

    def spool(self):
        """A body that waits goes into the spool, unless that is full or being emptied."""
        self.must_be(*GOES_ON)
        if not self.limit:
            return "no spool"
        if not self.waits():
            return "nothing"
        is_empty = self.spooled == self.out
        used = (0 if is_empty else self.used) + len(self.bodies[self.spooled].data)
        if self.is_despooling or used > self.limit:
            self.is_despooling = True
            return "spool full"
        self.used, self.spooled = used, self.spooled + 1
        return "spooled"

    def despool(self, queue, room):
        """A body goes to the queue before the drive. One that finds it full stays ready."""
        self.must_be(*GOES_ON)
        if self.limit and not self.is_despooling and (self.status == "active" or self.waits()):
            return "not due"
        if self.out == self.sent:
            if not self.limit and self.waits():
                self.spooled += 1
            if self.out == self.spooled:
                return "nothing"
            self.out += 1
        if len(queue) >= room:
            return "queue full"
        self.sent = self.out
        queue.append((self, self.sent))
        self.is_despooling = self.is_despooling and self.out < self.spooled
        return "sent"

    def is_on(self, volume):
        """Whether a block of it was ever placed on a volume."""
        return any(place.volume == volume for place in self.placed)

    def close(self):
        self.must_be("ended")
        if self.synced < len(self.bodies):
            raise Refused(3907)
        self.status = "closed"

    def text(self, time):
        """The lines that tell where it lies."""
        return jobmedia((time, self.ticket), self.placed).splitlines()
