"""Scripts that are drawn from a seed, line by line, by the state that the model of tests/worlds/model.py has then. Half
of the lines bring a session or a drive on, so that most come to something.
"""
import random
import string

from volumes import MOST_NUMBER, MOST_VOLUME

from device import WAYS
from model import Settings, World
from sessions import STOPPED

LINES = range(300, 401)
MEDIA, POOLS, TIMES = ("File", "File", "Tape"), 9 * ("Default",) + ("Other",), (1000, 1001, 2000)
# The names of the volumes of each drive.
NAMES = [[f"Vol-{letter}{number}" for number in range(1, 7)] for letter in "ABC"]
# How often a kind of line comes in each mood: all goes on; the queues fill; sessions come and go; the operator works.
KINDS = {
    "open": (60, 60, 140, 40), "rec": (150, 200, 100, 60), "end": (40, 10, 100, 30), "close": (60, 10, 116, 60),
    "cancel": (4, 3, 20, 20), "spool": (100, 150, 60, 40), "despool": (130, 313, 100, 60), "take": (120, 60, 80, 80),
    "place": (140, 60, 100, 80), "sync": (40, 20, 60, 60), "label": (10, 10, 10, 60), "adopt": (6, 4, 6, 130),
    "mount": (30, 10, 20, 60), "unmount": (12, 6, 10, 70), "seek": (60, 50, 40, 50), "retire": (5, 3, 5, 30),
    "jobmedia": (10, 10, 10, 20), "read": (25, 15, 25, 20), "again": (15, 15, 15, 40), "restart": (8, 6, 8, 30),
    "purge": (16, 8, 16, 90), "drain": (6, 2, 6, 6), "status": (15, 15, 15, 15), "requests": (15, 15, 15, 20), "at": (5, 5, 5, 5),
    "other": (6, 6, 6, 6),
}
OPERATOR = 3
# The bytes of the label of most volumes, after which a volume may be full to its last byte.
LABEL = 80
# Sizes of records of a session, the first and all that follow. In the last row each record ends a body.
SIZES = ((2000, 2000), (2000, 2000, 3000, 0, 5, 863, 923), (5, 2000, 5), (935, 988))
# How many calls of a kind pass before one fails.
FAILING = (("create", 4), ("load", 6), ("load", 16), ("len", 12), ("read", 12), ("append", 8), ("append", 30), ("sync", 8),
           ("sync", 20), ("sync", 20), ("cut", 3))
# Lines that have no form, that are settings, or that name what is no name.
OTHERS = ("", "frob", "take 0", "take 9", "take 01", "seek  1", "block 1024", "drive File 1", "fail 1 append 1 after",
          "label 1 a/b Default File", "mount 1 ..", "open 7 De/fault File", "restart 1 1 a/b 1", "fill 1 1 1 1000001",
          "rec 1 1")


def drawn_settings(numbers):
    """Settings, for one to three drives."""
    block = numbers.choice((1024, 1024, 1500, 4096))
    settings = Settings(
        block=block, queue=numbers.randint(1, 8), time=1000,
        volume=numbers.choice((2 * block, 2 * block + numbers.randrange(4000), LABEL + numbers.randint(2, 4) * block,
                               12 * block, MOST_VOLUME)),
        spool=numbers.choice((0, block + numbers.randrange(5000))))
    settings.host = (None, "backup1", 20 * "h")[settings.queue % 3]
    for drive in range(1, numbers.randint(1, 3) + 1):
        settings.drives.append((numbers.choice(MEDIA), numbers.randint(1, 4)))
        settings.capacity[drive] = drawn_capacity(numbers)
        for _ in range(numbers.randrange(8)):
            call, most = numbers.choice(FAILING)
            settings.plan.setdefault((drive, call, numbers.randint(1, most)), numbers.choice(WAYS))
    return settings


def drawn_capacity(numbers):
    """Now and then there is no room for a label."""
    at = numbers.randrange(20)
    return 60 if at == 0 else numbers.randint(1000, 10_000) if at < 9 else 1_000_000


class Drawn:
    """A script as it is drawn: its lines, and what the model answers to each."""

    def __init__(self, seed):
        self.numbers = random.Random(seed)
        self.settings = drawn_settings(self.numbers)
        self.world = World(self.settings)
        self.mood = OPERATOR
        self.lines, self.answers = [], []
        # A line that is no setting, since `spool N` would be one.
        self.add("at 0")

    def once_in(self, times):
        return self.numbers.randrange(times) == 0

    def add(self, line):
        self.lines.append(line)
        self.answers.append(self.world.answer(line))

    def draw(self, count, is_watched):
        """Adds so many lines; if the script is watched, the status and the requests come after each of them."""
        for _ in range(count):
            self.add(self.line())
            for word in ("status", "requests") if is_watched else ():
                self.add(word)

    def read_all(self):
        """Reads every session of the run, one that there isn't, and by all that closes printed."""
        for ticket in range(1, len(self.world.sessions) + 2):
            self.add(f"jobmedia {ticket}")
            self.add(f"read {ticket}")
        for time, ticket in list(self.world.told):
            self.add(f"again {time} {ticket}")
        self.add("status")
        self.add("requests")

    def line(self):
        if self.once_in(16):
            self.mood = self.numbers.randrange(4)
        ticket = self.ticket()
        if self.once_in(2):
            return self.drive_goes_on() if self.once_in(2) else self.session_goes_on(ticket)
        kind, = self.numbers.choices(list(KINDS), [weights[self.mood] for weights in KINDS.values()])
        if kind in ("end", "close", "cancel", "spool", "despool", "jobmedia", "read"):
            return f"{kind} {ticket}"
        if kind in ("take", "place", "sync", "unmount", "seek"):
            return f"{kind} {self.drive()}"
        if kind in ("drain", "status", "requests"):
            return kind
        return getattr(self, kind)(*[ticket] if kind == "rec" else ())

    def ticket(self):
        """Mostly of a session that goes on, now and then of one that was given up or failed, or of any, or of none."""
        sessions = self.world.sessions
        at = self.numbers.randrange(24)
        fitting = [session.ticket for session in sessions if (session.status in STOPPED if at < 4 else session.goes_on)]
        return self.numbers.choice(fitting) if fitting and at > 1 else self.numbers.randint(1, len(sessions) + 1)

    def drive(self):
        """Mostly one that there is."""
        count = len(self.world.drives)
        return count + 1 if self.once_in(40) else self.numbers.randint(1, count)

    def name(self, drive):
        """A name of the drive's own volumes, now and then of any drive's."""
        return self.numbers.choice(self.numbers.choice(NAMES) if self.once_in(8) or drive > len(NAMES) else NAMES[drive - 1])

    def media(self, drive):
        """Mostly the drive's own."""
        drives = self.world.drives
        is_any = self.once_in(16) or drive > len(drives)
        return self.numbers.choice(("File", "Tape", "Disk")) if is_any else drives[drive - 1].media

    def session_goes_on(self, ticket):
        """What brings a session on, or opens one if none goes on."""
        if not any(session.goes_on for session in self.world.sessions):
            return self.open()
        session = self.world.sessions[ticket - 1] if ticket <= len(self.world.sessions) else None
        if session and session.goes_on and session.sent < len(session.bodies):
            return f"{'spool' if session.limit and session.waits() and not session.is_despooling else 'despool'} {ticket}"
        if session and session.status == "ended":
            return f"close {ticket}"
        return f"end {ticket}" if self.once_in(4) else self.rec(ticket)

    def drive_goes_on(self):
        """What brings the bodies of a drive on, or the operator's work on it."""
        at = self.numbers.randint(1, len(self.world.drives))
        drive = self.world.drives[at - 1]
        if not drive.hand:
            return f"take {at}" if drive.queue else self.idle(at)
        if drive.has_volume():
            return f"place {at}"
        if drive.next_volume():
            return f"seek {at}"
        if drive.loaded:
            return f"unmount {at}"
        return self.purge(at) if self.once_in(3) else f"label {at} {self.name(at)} {drive.pool} {drive.media}"

    def idle(self, at):
        kind = self.numbers.choice(("unmount", "unmount", "mount", "mount", "label", "adopt", "retire", "purge", "purge",
                                    *5 * ("sync",)))
        return f"{kind} {at}" if kind in ("unmount", "sync") else getattr(self, kind)(at)

    def open(self):
        drive = self.numbers.randint(1, len(self.world.drives))
        return f"open {self.numbers.randint(1, MOST_NUMBER)} {self.numbers.choice(POOLS)} {self.media(drive)}"

    def rec(self, ticket):
        """A record, mostly with an index that follows; of no data, some, or so many that the next thing comes near the end
        of a body."""
        numbers = self.numbers
        session = self.world.sessions[ticket - 1] if ticket <= len(self.world.sessions) else None
        last = session.records[-1][0] if session and session.records else 0
        index = max(1, last + numbers.choice((0, 0, 0, 0, 0, 1, 1, 1, 1, 1, 2, -1)))
        stream = MOST_NUMBER if self.once_in(24) else numbers.randint(1, 5)
        if self.once_in(4):
            data = "".join(numbers.choices(string.ascii_letters + "  -/", k=numbers.randrange(40)))
            return f"rec {ticket} {index} {stream}" + (f" {data}" if data else numbers.choice(("", " ")))
        block = self.settings.block
        free = session.packer.free() if session else block
        size = numbers.choice((
            0, numbers.randrange(60), numbers.randrange(1000), free - 12 - numbers.randrange(30),
            free - 85 + numbers.randint(-20, 20), numbers.randrange(4 * block), numbers.randrange(14_000)))
        return f"fill {ticket} {index} {stream} {max(0, size)}"

    def label(self, at=None):
        at = at or self.drive()
        free = [name for name in NAMES[min(at, len(NAMES)) - 1] if name not in self.world.names]
        name = self.numbers.choice(free) if free and not self.once_in(3) else self.name(at)
        return f"label {at} {name} {self.numbers.choice(POOLS)} {self.media(at)}"

    def adopt(self, at=None):
        """Mostly a volume that is with the drive."""
        at = at or self.drive()
        shelf = list(self.world.devices[at - 1].volumes) if at <= len(self.world.devices) else []
        return f"adopt {at} {self.name(at) if not shelf or self.once_in(4) else self.numbers.choice(shelf)}"

    def mount(self, at=None):
        at = at or self.drive()
        return f"mount {at} {self.name(at)}"

    def purge(self, at=None):
        """Mostly of a volume that is full: if there is none, the drives go on; if one is loaded, it is taken out."""
        at = at or self.drive()
        drive = self.world.drives[at - 1] if at <= len(self.world.drives) else None
        full = [volume.name for volume in drive.volumes if volume.status == "full"] if drive else []
        if not full and not self.once_in(4):
            return self.drive_goes_on()
        if full and drive.loaded and not self.once_in(4):
            return f"unmount {at}"
        return f"purge {at} {self.numbers.choice(full) if full and not self.once_in(6) else self.name(at)}"

    def retire(self, at=None):
        """Seldom the only drive, with which all would end."""
        at = at or self.drive()
        return f"{'retire' if self.once_in(24 if len(self.world.drives) == 1 else 3) else 'sync'} {at}"

    def again(self):
        told = list(self.world.told)
        time, ticket = self.numbers.choice(told) if told and not self.once_in(12) else (self.world.time, self.ticket())
        return f"again {time} {ticket}"

    def restart(self):
        """A new run, in which the operator works first; mostly after a stop that leaves zero bytes on a volume."""
        self.mood = OPERATOR
        at, time = self.drive(), self.numbers.choice((*TIMES, self.world.time + 1))
        leaving = f" {at} {self.name(at)} {self.numbers.choice((0, 1, 30, 500, 20_000, 2**40))}"
        return f"restart {time}{'' if self.once_in(3) else leaving}"

    def at(self):
        return f"at {self.numbers.choice((0, 1, 2**63 - 1, self.numbers.randrange(2**50)))}"

    def other(self):
        return self.numbers.choice(OTHERS)


def drawn(seed):
    """A script of a seed. Each third one is watched."""
    script = Drawn(seed)
    script.draw(script.numbers.choice(LINES), seed % 3 == 0)
    script.read_all()
    return script


class Mistaken(Drawn):
    """A script in which a session is read by spans that tell of other volumes: those of the same names that another drive
    filled in a second run of the same time. Records are of few sizes, so that blocks may lie as in the other run."""

    def __init__(self, seed):
        super().__init__(seed)
        limit = self.numbers.choice((2200, 3300, 9000))
        self.settings = Settings(block=1024, volume=limit, drives=[("File", 4)] * 2)
        self.world = World(self.settings)
        self.sizes = self.numbers.choice(SIZES)

    def turns(self, least):
        """Which of two sessions take records, one after another."""
        count = self.numbers.randint(least, 9)
        return self.numbers.choice((self.numbers.choices((0, 1), k=count), [at % 2 for at in range(count)]))

    def run(self, drive, turns, last, ending=2):
        """New volumes, and two sessions that take records by turns. So many of them come to their end."""
        for name in NAMES[0]:
            self.add(f"label {drive} {name} Default File")
        self.add(f"mount {drive} {NAMES[0][0]}")
        self.work(turns, last, ending)

    def work(self, turns, last, ending=2):
        """With the volumes that there are, two sessions take records by turns. So many of them come to their end."""
        for _ in range(2):
            self.add("open 7 Default File")
        sessions = self.world.sessions[-2:]
        for turn in turns:
            session = sessions[turn]
            index = len(session.records) + 1
            size = self.sizes[0] if index == 1 else self.numbers.choice(self.sizes[1:])
            self.add(f"fill {session.ticket} {index} 2 {size}")
            self.add("drain")
        for line in last:
            for session in sessions[:ending]:
                self.add(line if line == "drain" else f"{line} {session.ticket}")

    def read_told(self):
        """What closed is read by what it told."""
        for time, ticket in self.world.told:
            self.add(f"again {time} {ticket}")

    def adopt_all(self, drive):
        """The volumes come in any order, and mostly none is left out."""
        for name in self.numbers.sample(NAMES[0], len(NAMES[0]) - self.once_in(4)):
            self.add(f"adopt {drive} {name}")

    def purge_some(self, drive):
        """Each volume is mostly purged, if it is full."""
        self.add(f"unmount {drive}")
        for name in NAMES[0]:
            if not self.once_in(3):
                self.add(f"purge {drive} {name}")


def mistaken(seed):
    """A first run on the first drive, a second one of the same time on the other, and readings by what the first told."""
    script = Mistaken(seed)
    turns = script.turns(1)
    script.run(1, turns, ("end", "drain", "close", "read"))
    script.add("restart 1000")
    turns = script.numbers.choice((turns, turns + script.turns(1), script.turns(5), [0] * len(turns)))
    script.run(2, turns, script.numbers.choice((("drain",), ("end", "drain", "jobmedia"))), script.numbers.randint(1, 2))
    script.read_told()
    return script


class Anew(Mistaken):
    """A script in which volumes of a drive are filled anew: a session is read by spans that tell of what was there
    before. Some volumes are full to their last byte, so that a later run may purge them too."""

    def __init__(self, seed):
        super().__init__(seed)
        self.settings = Settings(block=1024, volume=self.numbers.choice((2130, 2130, 3154, 2200)), drives=[("File", 4)],
                                 plan=self.plan())
        self.world = World(self.settings)

    def plan(self):
        """In half of the scripts, calls that fail."""
        count = self.numbers.choice((0, 0, 1, 3))
        calls = [self.numbers.choice((("load", 12), ("cut", 9), ("sync", 40))) for _ in range(count)]
        return {(1, call, self.numbers.randint(1, most)): self.numbers.choice(WAYS) for call, most in calls}


def anew(seed):
    """A first run; in it, or in a later one that adopts, volumes are purged and filled anew; then a run reads what was
    told."""
    script = Anew(seed)
    script.run(1, script.turns(2), ("end", "drain", "close", "read"))
    for time in (1000, 1001, 1002)[script.numbers.randrange(2):]:
        if time > 1000:
            script.add(f"restart {time}")
            script.adopt_all(1)
            script.read_told()
        script.purge_some(1)
        script.read_told()
        script.work(script.turns(2), script.numbers.choice((
            ("end", "drain", "close", "read"), ("drain", "cancel", "jobmedia"), ("end", "drain", "cancel", "close"))))
        script.read_told()
        script.add("status")
        script.purge_some(1)
        script.add("status")
        script.read_all()
    script.add(f"restart 2000{script.numbers.choice(('', ' 1 Vol-A1 500'))}")
    script.adopt_all(1)
    script.read_told()
    script.add("status")
    return script
