"""The clients of a soak: jobs of drawn sizes, some cancelled, broken off or slow; restores of what was closed; and operators."""
import contextlib
import random
import threading
import time
import typing

from acknowledged import Records
from clients import client
from kept import Closed, Kept
from soaked import POOLS, Site, supply

CLIENTS, OPERATORS = 32, 2
SIZES = (0, 1, 100, 100, 3000, 3000, 20_000, 64_476, 64_512, 120_000)
# Of a hundred tasks so many are restores; of a hundred jobs so many are cancelled, broken off, or stop in the middle for a while.
RESTORES, CANCELLED, BROKEN_OFF, SLOW = 25, 6, 6, 5
PAUSE, SLOW_FOR = 0.05, 1.5
# What clients may be refused with under faults.
KNOWN = {"3902": "No such session", "3905": "Session failed", "3906": "Session cancelled", "3907": "Not yet", "3908": "Busy",
         "3911": "No free lane", "3920": "Spool fault", "3930": "Volume not on the shelf", "3932": "Other pool or media",
         "3933": "In use", "3934": "Volume not appendable", "3935": "Volume already labelled", "3939": "No room on the device",
         "3940": "Device fault"}
# A restore under a fault of a disk may be refused with these; none of them says that bytes are lost.
RESTORE_REFUSED = ("3930", "3940", "3953")
client.CLOSING = 15


class Crowd:
    """All clients, each in a thread of its own. They wait while `open` isn't set."""

    def __init__(self, site: Site, kept: Kept, seed: int):
        self.site, self.kept, self.seed = site, kept, seed
        self.open, self.over = threading.Event(), threading.Event()
        self._busy, self._lock = 0, threading.Lock()
        tasks = [self.task] * CLIENTS + [self.operate] * OPERATORS
        self.threads = [threading.Thread(target=self._again, args=one, daemon=True) for one in enumerate(tasks)]

    def begin(self):
        self.open.set()
        for thread in self.threads:
            thread.start()

    def end(self):
        self.over.set()
        self.open.set()
        for thread in self.threads:
            thread.join()

    def quiet(self, serve: typing.Callable[[], None] = lambda: None):
        """No client begins anything more, and all have ended what they did. Meanwhile this is done again and again."""
        self.open.clear()
        while self._busy:
            serve()
            time.sleep(PAUSE)

    def _again(self, number: int, task: typing.Callable[[client.Talk, random.Random], None]):
        numbers = random.Random(repr((self.seed, number)))
        while not self.over.is_set():
            self.open.wait()
            if self.over.is_set():
                return
            self._count(1)
            try:
                # It may be that all were told to rest just now.
                if self.open.is_set():
                    self._some(task, numbers)
            finally:
                self._count(-1)
            time.sleep(PAUSE * numbers.random())

    def _count(self, more: int):
        with self._lock:
            self._busy += more

    def _some(self, task: typing.Callable[[client.Talk, random.Random], None], numbers: random.Random):
        """Some tasks in a talk. A refusal that isn't known is a fault; a connection that is lost is none."""
        try:
            with self.site.talk() as talk:
                for _ in range(numbers.randint(1, 4)):
                    if self.open.is_set():
                        task(talk, numbers)
        except client.Refused as why:
            word = str(why)[:4]
            self.kept.count(f"refused by {word}")
            if word not in KNOWN:
                self.kept.fault("an answer of no known fault:", why)
        except (client.Lost, OSError):
            self.kept.count("connections lost")

    def task(self, talk: client.Talk, numbers: random.Random):
        one = self.kept.drawn(numbers)
        if one and numbers.randrange(100) < RESTORES:
            self.restore(talk, one)
        else:
            self.job(talk, numbers)

    def restore(self, talk: client.Talk, one: Closed):
        try:
            if said := one.by_daemon(talk):
                self.kept.fault("lost:", said)
            self.kept.count("restores")
        except client.Refused as why:
            if not str(why).startswith(RESTORE_REFUSED):
                self.kept.fault(f"{one.lines[0]} is refused: {why}")
            self.kept.count(f"restores refused by {str(why)[:4]}")

    def job(self, talk: client.Talk, numbers: random.Random):
        tickets, records, last, fate = self.site.tickets, Records(), numbers.choice((1, 1, 2, 3, 6)), numbers.randrange(100)
        ticket = client.open_session(talk, numbers.randint(1, 99), numbers.choice(POOLS), "File")
        tickets.append(ticket)
        for index in range(1, last + 1):
            data, stream = [numbers.randbytes(numbers.choice(SIZES)) for _ in range(numbers.randint(1, 3))], numbers.randint(1, 5)
            client.append_packets(talk, ticket, map(client.packet, data), index, stream)
            for one in data:
                records.take(index, stream, one)
            if index == last // 2 + 1:
                self.happens(talk, ticket, fate)
            time.sleep(PAUSE * numbers.random())
        lines = client.close_session(talk, ticket)
        self.kept.add(Closed(tuple(lines), records.digest(), records.bytes))

    def happens(self, talk: client.Talk, ticket: int, fate: int):
        """What may happen in the middle of a job."""
        if fate < BROKEN_OFF:
            self.kept.count("jobs broken off")
            raise client.Lost("broken off on purpose")
        if fate < BROKEN_OFF + CANCELLED:
            self.kept.count("jobs cancelled")
            talk.console(f"cancel {ticket}")
        elif fate < BROKEN_OFF + CANCELLED + SLOW:
            self.kept.count("jobs that stop for a while")
            time.sleep(SLOW_FOR)

    def operate(self, talk: client.Talk, numbers: random.Random):
        """Gives drives volumes that they wait for, and draws another line."""
        supply(self.site, talk)
        number = numbers.randint(1, len(self.site.folders))
        volumes = sorted(path.name for path in self.site.folders[number - 1].glob("D*[!~]"))
        line = numbers.choice(("status", "requests", f"unmount {number}",
                               f"label {number} {self.site.name(number)} {numbers.choice(POOLS)} File",
                               f"mount {number} {numbers.choice(volumes or ['D0'])}",
                               f"adopt {number} {numbers.choice(volumes or ['D0'])}"))
        with contextlib.suppress(client.Refused):
            talk.console(line)
        self.kept.count(f"lines of operators: {line.split()[0]}")
        time.sleep(2 * PAUSE * numbers.random())
