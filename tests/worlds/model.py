"""A plain model of `sdtool run`: what each line of a script prints, told from lists alone, as docs/use/SCRIPT.md and
docs/use/REFUSALS.md have it. tests/worlds compares with it.
"""
import re
import typing

from volumes import MOST_DATA, MOST_NUMBER, MOST_VOLUME

from device import CALLS, REFUSALS, WAYS, Device, Refused, session_records
from drive import Drive
from sessions import Session

BAD_COMMAND, BAD_NAME = f"3901 {REFUSALS[3901]}", f"3937 {REFUSALS[3937]}"
NUMBER = re.compile(r"0|[1-9][0-9]*")
NAME = re.compile(r"[A-Za-z0-9_:.-]{1,127}")
MOST_64 = 2**64 - 1
# How the answers begin by which something moved in a round.
MOVES = ("spooled", "sent", "hand ", "placed", "mounted", "volume ")


class NoForm(Exception):
    """A line has none of the forms."""


class BadName(Exception):
    """A word in the place of a name is none."""


def number(least, most):
    """Reads a number in these limits."""
    def read(word):
        if not NUMBER.fullmatch(word) or not least <= int(word) <= most:
            raise NoForm
        return int(word)
    return read


def one_of(words):
    def read(word):
        if word not in words:
            raise NoForm
        return word
    return read


def name(word):
    """Reads what is in the place of a name: the name, or None if it is none."""
    if not word:
        raise NoForm
    return word if NAME.fullmatch(word) and word not in (".", "..") else None


def text(word):
    if len(word) > MOST_DATA:
        raise NoForm
    return word.encode()


DRIVE, COUNTED, SIZE = number(1, 8), number(1, MOST_NUMBER), number(0, MOST_DATA)
# The fields of a line after its word.
SETTINGS = {
    "block": [number(1024, 1_048_576)], "volume": [number(0, MOST_VOLUME)], "spool": [number(0, MOST_VOLUME)],
    "queue": [number(1, 1024)], "time": [COUNTED], "host": [name], "drive": [name, number(1, 32)], "capacity": [DRIVE, number(0, 2**26)],
    "fail": [DRIVE, one_of(CALLS), number(1, MOST_64), one_of(WAYS)],
}
FORMS = {
    "at": [number(0, 2**63 - 1)], "label": [DRIVE, name, name, name], "adopt": [DRIVE, name], "mount": [DRIVE, name],
    "purge": [DRIVE, name], "unmount": [DRIVE], "seek": [DRIVE], "retire": [DRIVE], "take": [DRIVE], "place": [DRIVE], "sync": [DRIVE],
    "open": [COUNTED, name, name], "rec": [COUNTED, COUNTED, COUNTED, text], "fill": [COUNTED, COUNTED, COUNTED, SIZE],
    "end": [COUNTED], "cancel": [COUNTED], "spool": [COUNTED], "despool": [COUNTED], "close": [COUNTED],
    "jobmedia": [COUNTED], "read": [COUNTED], "again": [COUNTED, COUNTED], "drain": [], "status": [], "requests": [],
    "restart": [COUNTED],
}
RESTART_LEAVING = [COUNTED, DRIVE, name, number(0, MOST_64)]


def parsed(line, forms):
    """The word of a line, and what its fields are read to."""
    word, *words = line.split(" ")
    if word == "rec":
        words = [*line.split(" ", 4)[1:], ""][:4]
    fields = RESTART_LEAVING if word == "restart" and len(words) > 1 else forms.get(word)
    if not line.isascii() or fields is None or len(words) != len(fields):
        raise NoForm
    read = [field(one) for field, one in zip(fields, words)]
    if None in read:
        raise BadName
    return word, read


class Settings:
    """The settings of a script. A drive is its media and its lanes. A plan has for a drive, a kind of call and its number
    how it fails; of two for one call the first counts."""

    def __init__(self, **given):
        self.block, self.volume, self.spool, self.queue, self.time = 64_512, MOST_VOLUME, 0, 8, 1000
        self.host, self.drives, self.capacity, self.plan = None, [], {}, {}
        vars(self).update(given)

    def set(self, word, fields):
        if word == "drive":
            self.drives.append(tuple(fields))
        elif word == "capacity":
            self.capacity[fields[0]] = fields[1]
        elif word == "fail":
            self.plan.setdefault(tuple(fields[:3]), fields[3])
        else:
            setattr(self, word, fields[0])

    def fault(self):
        """The first key that doesn't go with the others; None if all do."""
        self.drives = self.drives or [("File", 4)]
        count = len(self.drives)
        if self.volume < 2 * self.block:
            return "volume"
        if 0 < self.spool < self.block:
            return "spool"
        if count > 8:
            return "drive"
        if any(drive > count for drive in self.capacity):
            return "capacity"
        return "fail" if any(drive > count for drive, *_ in self.plan) else None

    def lines(self):
        """The lines that set them."""
        return [
            *(f"{word} {getattr(self, word)}" for word in ("block", "volume", "spool", "queue", "time")),
            *([] if self.host is None else [f"host {self.host}"]),
            *(f"drive {media} {lanes}" for media, lanes in self.drives),
            *(f"capacity {drive} {count}" for drive, count in self.capacity.items()),
            *("fail {} {} {} {}".format(*call, way) for call, way in self.plan.items()),
        ]

    def devices(self):
        def plan(drive):
            return {tuple(call): way for (of, *call), way in self.plan.items() if of == drive}

        return [Device(self.capacity.get(drive, 2**20), plan(drive)) for drive in range(1, len(self.drives) + 1)]


class Answer(typing.NamedTuple):
    """What a line prints."""
    line: str
    printed: list


def answers(script):
    """The answer to each line of a script, and the status with which it ends."""
    lines = script.decode("latin-1").split("\n")
    lines = lines if lines[-1] else lines[:-1]
    settings, at = Settings(), 0
    while at < len(lines):
        try:
            settings.set(*parsed(lines[at], SETTINGS))
        except (NoForm, BadName):
            break
        at += 1
    if fault := settings.fault():
        return [Answer(lines[at] if at < len(lines) else "", [f"fault {fault} range"])], 1
    world = World(settings)
    first = [Answer(lines[at], [BAD_NAME] if is_bad_name(lines[at]) else world.answer(lines[at]))] if at < len(lines) else []
    return first + [Answer(line, world.answer(line)) for line in lines[at + 1:]], 0


def is_bad_name(line):
    """Whether a line at the head of a script is a setting but for its name."""
    try:
        parsed(line, SETTINGS)
    except BadName:
        return True
    except NoForm:
        pass
    return False


class World:
    """The sessions and drives of a run. The devices, the moment, and what closes printed go on over a restart."""

    def __init__(self, settings):
        self.settings, self.moment, self.told = settings, 0, {}
        self.devices = settings.devices()
        self.begin(settings.time)

    def begin(self, time):
        self.time = time
        self.drives = [Drive(at, media, lanes, device, self.settings.host)
                       for at, ((media, lanes), device) in enumerate(zip(self.settings.drives, self.devices), 1)]
        # The drive of each name that is given; of each request its drive, pool and media.
        self.sessions, self.names, self.requests = [], {}, []

    def answer(self, line):
        """The lines that a line prints."""
        if not line:
            return []
        try:
            word, fields = parsed(line, FORMS)
        except NoForm:
            return [BAD_COMMAND]
        except BadName:
            return [BAD_NAME]
        printed = []
        try:
            for one in getattr(self, f"do_{word}")(*fields):
                printed.append(one)
        except Refused as why:
            printed.append(str(why))
        return printed

    def drive(self, at):
        if at > len(self.drives):
            raise Refused(3938)
        if not self.drives[at - 1].is_online:
            raise Refused(3912)
        return self.drives[at - 1]

    def session(self, ticket):
        if ticket > len(self.sessions):
            raise Refused(3902)
        return self.sessions[ticket - 1]

    def do_at(self, moment):
        self.moment = moment
        return []

    def do_label(self, at, volume, pool, media):
        drive = self.drive(at)
        if media != drive.media:
            raise Refused(3932)
        if drive.loaded:
            raise Refused(3933)
        if volume in self.names:
            raise Refused(3935)
        drive.label(volume, pool, self.moment)
        self.names[volume] = drive
        yield "ok labelled"

    def do_adopt(self, at, volume):
        drive = self.drive(at)
        if volume in self.names:
            raise Refused(3935)
        if drive.loaded:
            raise Refused(3933)
        found = drive.adopt(volume, self.settings.volume, self.time)
        self.names[volume] = drive
        yield f"ok adopted {found.end} {found.next}"

    def load(self, drive, volume):
        drive.load(volume)
        self.requests = [request for request in self.requests if request[0] != drive.number]

    def do_mount(self, at, name):
        drive = self.drive(at)
        volume = drive.named(name)
        if not volume:
            raise Refused(3930)
        if volume.status == "append" and volume is drive.loaded:
            raise Refused(3933)
        if volume.status != "append":
            raise Refused(3934)
        if drive.pool not in (None, volume.pool):
            raise Refused(3932)
        self.load(drive, volume)
        yield "ok mounted"

    def do_unmount(self, at):
        self.drive(at).unmount()
        yield "ok unmounted"

    def seek(self, drive):
        if drive.pool is None or drive.has_volume():
            return "no need"
        if volume := drive.next_volume():
            self.load(drive, volume)
            return f"mounted {volume.name}"
        if drive.number not in (asking for asking, *_ in self.requests):
            self.requests.append((drive.number, drive.pool, drive.media))
        return "requested"

    def do_seek(self, at):
        yield f"ok {self.seek(self.drive(at))}"

    def do_retire(self, at):
        drive = self.drive(at)
        if drive.busy() or drive.loaded or drive.hand or drive.queue:
            raise Refused(3933)
        drive.is_online, drive.volumes = False, []
        yield "ok retired"

    def do_purge(self, at, name):
        drive = self.drive(at)
        volume = drive.named(name)
        if not volume:
            raise Refused(3930)
        if volume.status != "full":
            raise Refused(3954)
        sessions = [session for session in self.sessions if session.drive is drive and session.is_on(name)]
        if drive.loaded or any(session.keeps_lane() for session in sessions):
            raise Refused(3933)
        try:
            drive.purge(volume)
        finally:
            for session in sessions if volume.status != "full" else ():
                session.status = "purged"
        yield "ok purged"

    def reserved(self, pool, media):
        """The drive for a session: of those that take it first one with a volume of the pool loaded, then that with the
        fewest sessions, then the lowest."""
        fitting = [drive for drive in self.drives if drive.media == media]
        if not fitting:
            raise Refused(3910)
        online = [drive for drive in fitting if drive.is_online]
        if not online:
            raise Refused(3912)
        taking = [drive for drive in online if drive.takes_session(pool)]
        if not taking:
            raise Refused(3911)
        return min(taking, key=lambda drive: (drive.loaded is None or drive.loaded.pool != pool, drive.busy(), drive.number))

    def do_open(self, job, pool, media):
        drive = self.reserved(pool, media)
        names = {"pool": pool.encode(), "media": media.encode()}
        session = Session(len(self.sessions) + 1, job, names, drive, self.settings, self.moment)
        drive.lanes[drive.free_lane()], drive.pool = session, pool
        self.sessions.append(session)
        yield f"ok ticket {session.ticket} drive {drive.number}"

    def do_rec(self, ticket, index, stream, data):
        yield f"ok {self.session(ticket).append(index, stream, data)}"

    def do_fill(self, ticket, index, stream, count):
        return self.do_rec(ticket, index, stream, b"x" * count)

    def do_end(self, ticket):
        yield f"ok {self.session(ticket).end(self.moment)}"

    def do_cancel(self, ticket):
        yield f"ok {self.session(ticket).cancel()}"

    def do_spool(self, ticket):
        yield f"ok {self.session(ticket).spool()}"

    def despool(self, session):
        return session.despool(session.drive.queue, self.settings.queue)

    def do_despool(self, ticket):
        yield f"ok {self.despool(self.session(ticket))}"

    def do_take(self, at):
        yield f"ok {self.drive(at).take()}"

    def place(self, drive):
        return drive.place(self.settings.volume, self.time)

    def do_place(self, at):
        yield f"ok {self.place(self.drive(at))}"

    def do_sync(self, at):
        self.drive(at).sync()
        yield "ok synced"

    def do_close(self, ticket):
        session = self.session(ticket)
        session.close()
        self.told[self.time, ticket] = session.text(self.time)
        yield f"ok closed {len(self.told[self.time, ticket]) - 1}"
        yield from self.told[self.time, ticket]

    def text(self, session):
        if not session.drive.is_online:
            raise Refused(3912)
        return session.text(self.time)

    def do_jobmedia(self, ticket):
        yield from self.text(self.session(ticket))

    def do_read(self, ticket):
        session = self.session(ticket)
        if session.goes_on:
            raise Refused(3907)
        if session.status == "failed":
            raise Refused(3905)
        yield from self.read((self.time, ticket), self.text(session))

    def do_again(self, time, ident):
        if (time, ident) not in self.told:
            raise Refused(3902)
        yield from self.read((time, ident), self.told[time, ident])

    def read(self, key, lines):
        """Reads a session by the lines that tell where it lies."""
        spans = [(volume, *map(int, numbers)) for _, volume, *numbers in map(str.split, lines[1:])]
        if not spans:
            raise Refused(3950)
        drives = [self.names.get(volume) for volume, *_ in spans]
        if not drives[0]:
            raise Refused(3930)
        self.drive(drives[0].number)
        if self.is_purged(key, [volume for volume, *_ in spans]):
            raise Refused(3953)
        if any(drive is not drives[0] for drive in drives):
            raise Refused(3930)
        count = size = 0
        for record in session_records(drives[0].device, key, spans):
            if isinstance(record, bool):
                yield f"ok read {count} {size} {'ended' if record else 'cut'}"
            else:
                index, stream, data = record
                count, size = count + 1, size + len(data)
                yield f"rec {index} {stream} {len(data)} {data[:16].hex() or '-'}"

    def is_purged(self, key, volumes):
        """Whether a session is purged: one of this run as its status says; of one of another run it is known by its volumes
        alone."""
        if key[0] == self.time:
            return any((self.time, session.ticket) == key and session.status == "purged" for session in self.sessions)
        return any(volume in drive.purged for volume in volumes for drive in self.drives)

    def do_drain(self):
        placed = 0
        while came := [one for one in self.round() if one.startswith(MOVES) and one != "hand full"]:
            placed += sum(one.startswith("placed") for one in came)
        yield f"ok drained {placed}"

    def round(self):
        """What a round comes to: each session that goes on spools and sends once, then each drive takes, places and syncs.
        """
        for session in self.sessions:
            if session.goes_on:
                yield from (session.spool(), self.despool(session))
        for drive in self.drives:
            if drive.is_online:
                yield drive.take()
                yield from self.placing(drive)
                self.passing_over(drive.sync)

    def placing(self, drive):
        placed = self.place(drive)
        yield placed
        if placed == "need volume":
            sought = self.passing_over(lambda: self.seek(drive))
            yield sought
            if sought.startswith("mounted"):
                yield self.place(drive)

    def passing_over(self, act):
        """What an act comes to, or why it is refused."""
        try:
            return act()
        except Refused as why:
            return str(why)

    def do_status(self):
        for drive in self.drives:
            shown = "offline" if not drive.is_online else drive.loaded.name if drive.loaded else "-"
            yield f"drive {drive.number} {drive.media} {shown} {drive.busy()}"
        for drive in self.drives:
            for volume in drive.volumes:
                yield f"volume {volume.name} {volume.pool} {drive.media} {volume.status} {volume.end}"
        for session in self.sessions:
            yield f"session {session.ticket} {session.status} {len(session.records)}"
        yield "ok status"

    def do_requests(self):
        for request in self.requests:
            yield "request {} {} {}".format(*request)
        yield f"ok requests {len(self.requests)}"

    def do_restart(self, time, *leaving):
        if leaving and leaving[0] > len(self.drives):
            raise Refused(3938)
        if not all(drive.is_online for drive in self.drives):
            raise Refused(3912)
        self.begin(time)
        if leaving:
            at, volume, count = leaving
            self.drive(at).leave(volume, count)
        yield "ok restarted"
