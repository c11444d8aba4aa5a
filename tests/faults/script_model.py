"""A plain model of `sdtool run`: what each line of a script prints, as docs/use/SCRIPT.md and docs/use/REFUSALS.md have it.
tests/faults compares with it.
"""
from drive_model import Device, Drive, Fault, Refused
from session_model import Session


class Settings:
    """The settings of a script. A drive is its media and its lanes. A plan has for a drive a call, which one of its kind,
    and how it fails."""

    def __init__(self, block=1024, volume=2**36, spool=0, queue=8, time=1000, drives=(("File", 4),), capacity=2**20,
                 plan=()):
        self.block, self.volume, self.spool, self.queue, self.time = block, volume, spool, queue, time
        self.drives, self.capacity, self.plan = list(drives), capacity, list(plan)

    def lines(self):
        return [
            *(f"{word} {getattr(self, word)}" for word in ("block", "volume", "spool", "queue", "time")),
            *(f"drive {media} {lanes}" for media, lanes in self.drives),
            *(f"capacity {number} {self.capacity}" for number in range(1, len(self.drives) + 1)),
            *(f"fail {drive} {call} {nth} {way}" for drive, call, nth, way in self.plan),
        ]

    def failing(self, *plan):
        """These settings, but with this plan."""
        return Settings(**{**vars(self), "plan": plan})


def span_lines(key, spans):
    return [f"session {key[0]} {key[1]}", *("span " + " ".join(map(str, span)) for span in spans)]


class World:
    """The sessions and drives of one run. The devices, and what closes printed, go on over a restart."""

    def __init__(self, settings):
        self.settings, self.printed = settings, {}
        self.devices = [Device(settings.capacity, [fail[1:] for fail in settings.plan if fail[0] == number])
                        for number in range(1, len(settings.drives) + 1)]
        self.begin(settings.time)

    def begin(self, time):
        self.time = time
        self.drives = [Drive(device, media, lanes, self.settings.volume, time)
                       for device, (media, lanes) in zip(self.devices, self.settings.drives)]
        # The drive's number of each name that is given, and of each request its drive's number, its pool and media; the
        # volumes that were purged.
        self.sessions, self.names, self.requests, self.purged = [], {}, [], set()

    def answer(self, line):
        """The lines that a line prints."""
        word, _, rest = line.partition(" ")
        lines = []
        try:
            for one in getattr(self, "do_" + word)(*rest.split(" ", 3 if word == "rec" else -1) if rest else ()):
                lines.append(one)
        except Refused as why:
            lines.append(str(why))
        return lines

    def drive(self, number):
        if int(number) > len(self.drives):
            raise Refused(3938)
        drive = self.drives[int(number) - 1]
        if not drive.online:
            raise Refused(3912)
        return drive

    def session(self, ticket):
        if not 1 <= int(ticket) <= len(self.sessions):
            raise Refused(3902)
        return self.sessions[int(ticket) - 1]

    def is_free(self, drive, ticket):
        """Whether the session that used a lane last keeps it no more."""
        if ticket is None:
            return True
        session = self.sessions[ticket - 1]
        if session.status in ("cancelled", "failed"):
            return session.sent == len(drive.placed(ticket))
        return session.status in ("closed", "purged")

    def kept(self, drive):
        """How many lanes of a drive aren't free."""
        return sum(not self.is_free(drive, ticket) for ticket in drive.lanes)

    def losing(self, drive, act):
        """Does what may sync. If that fails, the sessions that go on and lost a block are failed."""
        try:
            return act()
        except Refused:
            for session in self.sessions:
                lost = session.drive is drive and any(one.state == "lost" for one in drive.placed(session.ticket))
                if lost and session.status in ("active", "ended"):
                    session.stop("failed")
            raise

    def do_label(self, number, name, pool, media):
        drive = self.drive(number)
        if media != drive.media:
            raise Refused(3932)
        if drive.loaded:
            raise Refused(3933)
        if name in self.names:
            raise Refused(3935)
        drive.label(name, pool)
        self.names[name] = int(number)
        yield "ok labelled"

    def do_adopt(self, number, name):
        drive = self.drive(number)
        if name in self.names:
            raise Refused(3935)
        if drive.loaded:
            raise Refused(3933)
        end, next_number = drive.adopt(name)
        self.names[name] = int(number)
        yield f"ok adopted {end} {next_number}"

    def mount(self, number, name):
        drive = self.drive(number)
        self.losing(drive, lambda: drive.mount(name))
        self.requests = [request for request in self.requests if request[0] != int(number)]

    def do_mount(self, number, name):
        self.mount(number, name)
        yield "ok mounted"

    def do_unmount(self, number):
        drive = self.drive(number)
        self.losing(drive, drive.unmount)
        yield "ok unmounted"

    def do_purge(self, number, name):
        drive = self.drive(number)
        volume = drive.named(name)
        if not volume:
            raise Refused(3930)
        if volume.status != "full":
            raise Refused(3954)
        if drive.loaded or self.keeping(drive, name):
            raise Refused(3933)
        try:
            drive.purge(volume)
        finally:
            if volume.status != "full":
                self.empty(drive, name)
        yield "ok purged"

    def keeping(self, drive, name):
        """The sessions that keep a lane of the drive and have a block on the volume."""
        return [ticket for ticket in drive.lanes if not self.is_free(drive, ticket) and drive.has_on(ticket, name)]

    def empty(self, drive, name):
        """The volume has no block any more, so the sessions that had one there are no more what they were."""
        self.purged.add(name)
        for session in self.sessions:
            if session.drive is drive and drive.has_on(session.ticket, name):
                session.stop("purged")

    def seek(self, number):
        drive = self.drive(number)
        if drive.pool is None or drive.takes_pool():
            return "no need"
        if volume := drive.next_volume():
            self.mount(number, volume.name)
            return f"mounted {volume.name}"
        if all(int(number) != asking for asking, *_ in self.requests):
            self.requests.append((int(number), drive.pool, drive.media))
        return "requested"

    def do_seek(self, number):
        yield "ok " + self.seek(number)

    def do_retire(self, number):
        drive = self.drive(number)
        if self.kept(drive) or drive.loaded or drive.hand or drive.queue:
            raise Refused(3933)
        drive.online = False
        yield "ok retired"

    def choose(self, pool, media):
        """Of the drives that may take a session: first one with a volume of the pool loaded, then that with the fewest
        sessions, then the lowest."""
        fitting = [drive for drive in self.drives if drive.media == media]
        if not fitting:
            raise Refused(3910)
        online = [drive for drive in fitting if drive.online]
        if not online:
            raise Refused(3912)
        kept = {id(drive): self.kept(drive) for drive in online}
        ready = [drive for drive in online if kept[id(drive)] < len(drive.lanes)
                 and (kept[id(drive)] == 0 or drive.pool == pool)]
        if not ready:
            raise Refused(3911)
        return min(ready, key=lambda drive: (not drive.loaded or drive.loaded.pool != pool, kept[id(drive)]))

    def do_open(self, job, pool, media):
        drive = self.choose(pool, media)
        lane = next(at for at, ticket in enumerate(drive.lanes) if self.is_free(drive, ticket))
        ticket = len(self.sessions) + 1
        self.sessions.append(Session(ticket, int(job), (pool, media), drive, self.settings.block, self.settings.spool))
        drive.lanes[lane], drive.pool = ticket, pool
        yield f"ok ticket {ticket} drive {self.drives.index(drive) + 1}"

    def do_rec(self, ticket, index, stream, text=""):
        yield "ok " + self.session(ticket).append(int(index), int(stream), text.encode())

    def do_fill(self, ticket, index, stream, count):
        yield "ok " + self.session(ticket).append(int(index), int(stream), b"x" * int(count))

    def do_end(self, ticket):
        yield "ok " + self.session(ticket).end()

    def do_cancel(self, ticket):
        yield "ok " + self.session(ticket).cancel()

    def do_spool(self, ticket):
        yield "ok " + self.session(ticket).spool()

    def despool(self, session):
        return session.despool(session.drive.queue, self.settings.queue)

    def do_despool(self, ticket):
        yield "ok " + self.despool(self.session(ticket))

    def take(self, drive):
        if drive.hand:
            return "hand full"
        if not drive.queue:
            return "idle"
        drive.hand = drive.queue.pop(0)
        return f"hand {drive.hand.ticket} {drive.hand.number}"

    def do_take(self, number):
        yield "ok " + self.take(self.drive(number))

    def do_place(self, number):
        yield "ok " + self.drive(number).place()

    def do_sync(self, number):
        drive = self.drive(number)
        self.losing(drive, drive.sync)
        yield "ok synced"

    def do_close(self, ticket):
        session = self.session(ticket)
        session.close(session.drive.placed(session.ticket))
        key, spans = (self.time, session.ticket), session.drive.spans(session.ticket)
        self.printed[key] = spans
        yield f"ok closed {len(spans)}"
        yield from span_lines(key, spans)

    def spans(self, session):
        if not session.drive.online:
            raise Refused(3912)
        return session.drive.spans(session.ticket)

    def do_jobmedia(self, ticket):
        session = self.session(ticket)
        yield from span_lines((self.time, session.ticket), self.spans(session))

    def do_read(self, ticket):
        session = self.session(ticket)
        if session.status in ("active", "ended"):
            raise Refused(3907)
        if session.status == "failed":
            raise Refused(3905)
        yield from self.read((self.time, session.ticket), self.spans(session))

    def do_again(self, time, ticket):
        key = (int(time), int(ticket))
        if key not in self.printed:
            raise Refused(3902)
        yield from self.read(key, self.printed[key])

    def read(self, key, spans):
        if not spans:
            raise Refused(3950)
        numbers = [self.names.get(volume) for volume, *_ in spans]
        if not numbers[0]:
            raise Refused(3930)
        drive = self.drive(numbers[0])
        if self.is_gone(key, spans):
            raise Refused(3953)
        if set(numbers) != {numbers[0]}:
            raise Refused(3930)
        count = size = 0
        for record in drive.read(key, spans):
            if isinstance(record, bool):
                yield f"ok read {count} {size} {'ended' if record else 'cut'}"
                return
            index, stream, data = record
            count, size = count + 1, size + len(data)
            yield f"rec {index} {stream} {len(data)} {data[:16].hex() or '-'}"

    def is_gone(self, key, spans):
        """Whether a session of this run is purged, or a volume of one of another run was purged in this one."""
        time, ticket = key
        if time != self.time:
            return any(volume in self.purged for volume, *_ in spans)
        return ticket <= len(self.sessions) and self.sessions[ticket - 1].status == "purged"

    def do_drain(self):
        placed, moved = 0, True
        while moved:
            moved, count = self.round()
            placed += count
        yield f"ok drained {placed}"

    def round(self):
        """Each session that goes on spools and sends once; then each drive takes, places and syncs. Whether something
        moved, and how many blocks were placed."""
        came = []
        for session in self.sessions:
            if session.status in ("active", "ended"):
                came += [session.spool(), self.despool(session)]
        for number, drive in enumerate(self.drives, 1):
            if drive.online:
                came += self.turn(number, drive)
        moving = ("spooled", "sent", "hand ", "placed", "mounted", "volume ")
        moved = any(one.startswith(moving) and one != "hand full" for one in came)
        return moved, sum(one.startswith("placed") for one in came)

    def turn(self, number, drive):
        yield self.take(drive)
        placed = drive.place()
        yield placed
        try:
            if placed == "need volume":
                sought = self.seek(number)
                yield sought
                if sought.startswith("mounted"):
                    yield drive.place()
        except Refused:
            pass
        try:
            self.losing(drive, drive.sync)
        except Refused:
            pass

    def do_status(self):
        for number, drive in enumerate(self.drives, 1):
            shown = "offline" if not drive.online else drive.loaded.name if drive.loaded else "-"
            yield f"drive {number} {drive.media} {shown} {self.kept(drive) if drive.online else 0}"
        for drive in self.drives:
            for volume in drive.volumes if drive.online else ():
                yield f"volume {volume.name} {volume.pool} {drive.media} {volume.status} {volume.end}"
        for session in self.sessions:
            yield f"session {session.ticket} {session.status} {len(session.records)}"
        yield "ok status"

    def do_requests(self):
        for request in self.requests:
            yield "request %d %s %s" % request
        yield f"ok requests {len(self.requests)}"

    def do_restart(self, time, number="", name="", count=""):
        if number and int(number) > len(self.drives):
            raise Refused(3938)
        if not all(drive.online for drive in self.drives):
            raise Refused(3912)
        try:
            if number:
                self.leave(self.devices[int(number) - 1], name, int(count))
        except Fault as fault:
            raise Refused({"not there": 3930, "no room": 3939}.get(fault.word, 3940)) from fault
        finally:
            self.begin(int(time))
        yield "ok restarted"

    def leave(self, device, name, count):
        """A stop leaves so many zero bytes on a volume. Of more than it may have, one byte more than that is asked."""
        device.unload()
        device.load(name)
        device.append(bytes(min(count, self.settings.capacity + 1)))
