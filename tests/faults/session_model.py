"""A plain model of a session: its records, the bodies that they are cut into, and how those go through its spool to the
queue before its drive. tests/faults compares with it.
"""
import struct

from drive_model import END_LABEL, HEADER, RECORD_HEADER, START_LABEL, Piece, Refused, fragment, session_label

OK_STATUS = 84


class Body:
    """The body of a block: its bytes, and the first and the last FileIndex in it."""

    def __init__(self):
        self.bytes = b""
        self.first = self.last = 0

    def add(self, bytes_, index=0):
        self.bytes += bytes_
        self.first, self.last = self.first or index, index or self.last


class Session:
    """A session of a drive, for blocks of at most `block` bytes, with a spool of so many bytes, 0 for none."""

    def __init__(self, ticket, job, names, drive, block, spool):
        self.ticket, self.job, self.names, self.drive = ticket, job, names, drive
        self.most, self.limit = block - HEADER, spool
        self.status, self.records, self.sent = "active", [], 0
        self.drop()
        self.put_label(session_label(START_LABEL, job, *names))

    def drop(self):
        """Forgets what is open, waiting, spooled and ready."""
        self.open, self.waiting, self.spooled, self.ready = Body(), [], [], None
        self.filled, self.despooling = 0, False

    def stop(self, status):
        self.drop()
        self.status = status

    def must_be(self, *statuses):
        if self.status not in statuses:
            raise Refused({"failed": 3905, "cancelled": 3906}.get(self.status, 3902))

    def close_body(self):
        if self.open.bytes:
            self.waiting.append(self.open)
            self.open = Body()

    def put_label(self, label):
        """A label is never split."""
        if len(self.open.bytes) + len(label) > self.most:
            self.close_body()
        self.open.add(label)

    def put_record(self, index, stream, data):
        """A header, and as much of the data as fits; what is left goes on in the next bodies under the negated stream."""
        if self.most - len(self.open.bytes) < RECORD_HEADER:
            self.close_body()
        at = self.put_part(index, stream, data, 0)
        while at < len(data):
            self.close_body()
            at = self.put_part(index, -stream, data, at)

    def put_part(self, index, stream, data, at):
        """Gives up to where the data went in."""
        to = min(len(data), at + self.most - len(self.open.bytes) - RECORD_HEADER)
        self.open.add(fragment(index, stream, data[at:to], len(data) - at), index)
        return to

    def append(self, index, stream, data):
        self.must_be("active")
        last = self.records[-1][0] if self.records else 0
        if index not in (last, last + 1) or index == 0:
            raise Refused(3903)
        if self.waiting:
            raise Refused(3908)
        self.put_record(index, stream, data)
        self.records.append((index, stream, data))
        return f"taken {len(self.records)}"

    def end(self):
        self.must_be("active")
        totals = struct.pack(">QQI", len(self.records), sum(len(data) for *_, data in self.records), OK_STATUS)
        self.put_label(session_label(END_LABEL, self.job, *self.names, totals=totals))
        self.close_body()
        self.status = "ended"
        return "ended"

    def cancel(self):
        self.must_be("active", "ended")
        self.stop("cancelled")
        return "cancelled"

    def spool(self):
        """The body that has waited longest goes into the spool. If it would pass the limit, the spool is emptied from
        then on."""
        self.must_be("active", "ended")
        if not self.limit:
            return "no spool"
        if not self.waiting:
            return "nothing"
        if not self.spooled and not self.despooling:
            self.filled = 0
        size = len(self.waiting[0].bytes)
        self.despooling = self.despooling or self.filled + size > self.limit
        if self.despooling:
            return "spool full"
        self.spooled.append(self.waiting.pop(0))
        self.filled += size
        return "spooled"

    def despool(self, queue, room):
        """The next body goes to the queue before the drive. If that has no room, the body stays ready."""
        self.must_be("active", "ended")
        if self.limit and not self.despooling and (self.status == "active" or self.waiting):
            return "not due"
        source = self.spooled if self.limit else self.waiting
        if not self.ready and not source:
            return "nothing"
        self.ready = self.ready or source.pop(0)
        if len(queue) >= room:
            return "queue full"
        self.sent += 1
        queue.append(Piece(self.ticket, self.sent, self.ready.bytes, self.ready.first, self.ready.last))
        self.ready = None
        self.despooling = self.despooling and bool(self.spooled)
        return "sent"

    def close(self, placements):
        """Closed once all is on volumes and synced."""
        self.must_be("ended")
        synced = sum(one.state == "synced" for one in placements)
        if self.waiting or self.spooled or self.ready or synced != self.sent:
            raise Refused(3907)
        self.status = "closed"
