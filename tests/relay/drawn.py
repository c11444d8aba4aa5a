"""Streams of packets by the ten thousand through the relay's talk, in this process, between a client's bytes and a daemon
that keeps what reaches it, beside a model of what may pass."""
import collections
import contextlib
import fcntl
import os
import pathlib
import random
import socket
import struct
import tempfile
import threading

import fake
import model
from fake import packet, signal
from relay import journal, streams, talk
from relay.allowance import Allowance
from relay.errors import Failed
from relay.roles import Rights, Role
from relay.store import Store

SEED, DAY, COUNT = 84, "2026-01-01", 10_000
# What is kept is synced for each session, which costs nothing in memory.
MEMORY = pathlib.Path("/dev/shm")
ROLES = {"operator": Role.OPERATOR, "client": Role.CLIENT, "append-only": Role.APPEND_ONLY}
POOLS, JOBS = (b"Default", b"Mine"), range(7, 10)
RUN = 1_000_000


class Quiet(journal.Journal):
    """No log."""

    def __init__(self):
        super().__init__(os.devnull)

    def refused(self, what, why):
        self.refusals += 1


class Client:
    """Draws what a client sends: mostly what fits the place where it believes the talk to be, at times what doesn't."""

    def __init__(self, draw, ticket, keys):
        self.draw, self.ticket, self.keys, self.sent = draw, ticket, keys, []

    def add(self, *packets):
        self.sent += packets

    def text(self, text):
        self.add(packet(text.encode("latin-1") + self.draw.choice((b"", b"", b"\n", b"\0"))))

    def number(self, right):
        return right if self.draw.random() < 0.97 else self.draw.choice((0, 1, 8, 2**31 - 1, 2**31, "01", "", "x", "1\n"))

    def name(self, right):
        return right if self.draw.random() < 0.95 else self.draw.choice(("Secret", "", ".", "..", "a/b", "a" * 128, "Default\n"))

    def open(self):
        self.text(f"append open session JobId={self.number(self.draw.choice(JOBS))} Pool={self.name('Default')} "
                  f"Media={self.name('File')}")
        self.ticket += self.draw.random() < 0.8

    def own(self):
        """Mostly the ticket that was given last, as far as the client can know that without hearing."""
        return self.number(max(1, self.ticket - self.draw.choice((1, 1, 1, 1, 0, 2))))

    def phase(self):
        self.text(f"append data {self.own()}")
        for _ in range(self.draw.randrange(4)):
            self.text(self.draw.choice(("1 2 0", "1 2 0", "0 0 0", "console unmount 1", "")))
            for _ in range(self.draw.randrange(4)):
                self.add(packet(self.record()))
            self.add(signal(-1))
        self.add(signal(-1))

    def record(self):
        """Data, mostly such as looks like a command or several packets."""
        return self.draw.choice((
            b"console unmount 1", b"console label 1 Vol-9 Default File", b"", packet(b"console purge 1 Vol-0001"),
            signal(-1) * 2 + packet(b"console mount 1 Vol-1"), signal(-4), bytes(self.draw.randrange(40)),
            self.draw.randbytes(self.draw.randrange(3000))))

    def read(self):
        time, number = self.draw.choice(sorted(self.keys) or [(5, 5)])
        self.text(f"read session Time={self.number(time)} Id={self.number(number)}")
        for at in range(self.draw.randrange(4)):
            self.text(self.draw.choice((f"span Vol-0001 {at + 1} 1 1 92 259", "console unmount 1", "span", "")))
        self.add(signal(-1))

    def line(self):
        self.text("console " + self.draw.choice((
            "status", "status", "requests", "status ", "label 1 Vol-9 Default File", "adopt 1 Vol-9", "mount 1 Vol-9",
            f"unmount {self.number(1)}", "retire 1", "purge 1 Vol-9", f"mount 1 {self.name('Vol-9')}", "", "quit", "unmount",
            f"cancel {self.own()}", f"cancel {self.number(3)}", f"jobmedia {self.own()}", f"jobmedia {self.number(1)}",
            "Unmount 1", "unmount 1 ", " unmount 1", "unmount  1", "unmount 1\n\n", "unmount 9", "unmount\t1", "\xe9")))

    def odd(self):
        self.add(self.draw.choice((
            signal(self.draw.choice((-2, -3, -5, -6, -7, -9, -2**31))), packet(b"x" * self.draw.choice((900, 1024, 1025, 5000))),
            packet(b"console " + b"9" * 1100), packet(b"append"), signal(-1))))

    def act(self):
        acts = {self.open: 3, self.phase: 10, self.read: 3, self.line: 6, self.odd: 2,
                lambda: self.text(f"append end session {self.own()}"): 2,
                lambda: self.text(f"append close session {self.own()}"): 3,
                lambda: self.add(signal(-4)): 0.3}
        self.draw.choices(list(acts), acts.values())[0]()


def mutated(draw, sent):
    """The packets as bytes, mostly with some damage."""
    kind = draw.choice(("none", "none", "flip", "cut", "drop", "twice", "swap", "insert", "length", "too long"))
    if kind in ("drop", "twice", "swap") and len(sent) > 2:
        at = draw.randrange(len(sent) - 1)
        sent = {"drop": sent[:at] + sent[at + 1:], "twice": sent[:at + 1] + sent[at:],
                "swap": [*sent[:at], sent[at + 1], sent[at], *sent[at + 2:]]}[kind]
    if kind == "length":
        at = draw.randrange(len(sent))
        (length,) = struct.unpack_from(">i", sent[at])
        length = max(-2**31, min(2**31 - 1, length + draw.choice((-1, 1, 4, -4, 3_999_000))))
        sent[at] = struct.pack(">i", length) + sent[at][4:]
    if kind == "too long":
        sent.insert(draw.randrange(len(sent)), struct.pack(">i", draw.choice((4_000_001, 2**31 - 1))))
    whole = bytearray(b"".join(sent))
    at = draw.randrange(len(whole))
    if kind == "flip":
        whole[at] ^= 1 << draw.randrange(8)
    elif kind == "cut":
        del whole[at:]
    elif kind == "insert":
        whole[at:at] = draw.choice((b"\0", signal(-1), packet(b"console unmount 1"), draw.randbytes(3)))
    return kind, bytes(whole)


def in_pieces(draw, sent, end):
    """Feeds a socket in pieces, as a network may."""
    try:
        with end:
            at = 0
            while at < len(sent):
                step = draw.choice((1, 3, 4, 5, 17, 100, 5000))
                end.sendall(sent[at:at + step])
                at += step
    except OSError:
        # The talk ended before; then nobody takes the rest.
        pass


class Files:
    """The client's two files: `source` holds what it sends, or gets it in pieces, and `out` takes what it gets."""

    def __init__(self, kind, draw, sent):
        self.feeder = None
        if kind == "pieces":
            self.source, far = socket.socketpair()
            self.feeder = threading.Thread(target=in_pieces, args=(draw, sent, far), daemon=True)
            self.feeder.start()
        elif kind == "pipe":
            self.source, feeds = wide_pipe()
            with feeds:
                feeds.write(sent)
        else:
            self.source = tempfile.TemporaryFile()
            self.source.write(sent)
            self.source.seek(0)
        self.got, self.out = (None, tempfile.TemporaryFile()) if kind == "file" else wide_pipe()

    def came(self):
        """What the client got, once the talk is over."""
        if self.got:
            self.out.close()
            return self.got.read()
        self.out.seek(0)
        return self.out.read()

    def close(self):
        for file in (self.source, self.out, self.got):
            if file:
                file.close()
        if self.feeder:
            self.feeder.join(20)


def wide_pipe():
    """A pipe that holds all of a stream."""
    reads, writes = (open(file, mode, buffering=0) for file, mode in zip(os.pipe(), ("rb", "wb")))
    fcntl.fcntl(writes, fcntl.F_SETPIPE_SZ, 1 << 20)
    return reads, writes


class Streams:
    """Streams one after the other, of a few names that keep their sessions, and of names with limits."""

    def __init__(self, checks, folder, count):
        self.checks, self.count, self.draw = checks, count, random.Random(SEED)
        self.store, self.counts = Store(folder), collections.Counter()
        self.own = collections.defaultdict(set)

    def run(self):
        for number in range(self.count):
            self.one(number)
            if self.checks.failed > 20:
                break
        self.store.close()
        print("streams:", ", ".join(f"{what} {count}" for what, count in sorted(self.counts.items())))
        for what in ("forbidden", "forbidden read", "read", "phase", "limit", "open", "pieces", "pipe unread", "truncated", "flip", "too long"):
            self.checks.check(f"{what} was drawn", self.counts[what] >= self.count // 100, self.counts[what])

    def one(self, number):
        draw = random.Random(f"{SEED} {number}")
        role = draw.choice(list(ROLES))
        limit = draw.choice((11, 60, 300, 2000)) + draw.randrange(12) if draw.random() < 0.3 else None
        name = f"{role}{draw.randrange(3)}" if limit is None else f"{role}-{number}"
        # Others have sessions of this run too.
        others = range(1, draw.randrange(1, 4))
        mine = {ticket for ticket in others if draw.random() < 0.5}
        run, first = RUN + number, len(others) + 1
        for ticket in mine:
            self.store.add_session(name, (run, ticket), ticket, 7, "Default", "File")
            self.own[name].add((run, ticket))
        keys = {*draw.sample(sorted(self.own[name]), min(3, len(self.own[name]))), (run, first), (run, 1), (RUN - 1, 3)}
        client = Client(draw, first, keys)
        while len(client.sent) < 12:
            client.act() if client.sent or draw.random() < 0.1 else client.open()
        kind, sent = mutated(draw, client.sent)
        rights = Rights(name, ROLES[role], frozenset(map(bytes.decode, POOLS)), frozenset(["File"]), (JOBS,), limit)
        out, daemon, how = self.held(draw, rights, sent, run, number, others)
        self.counts.update([kind, how.split(":")[0]])
        self.judge(f"stream {number} of {name}, {kind}", rights, sent, out, daemon)

    def held(self, draw, rights, sent, run, number, others):
        """Holds the talk. Gives what the client got, the daemon, and how it ended."""
        near, far = socket.socketpair()
        daemon = fake.Fake(far, run, number, {ticket: "closed" for ticket in others})
        daemon.start()
        kind = draw.choices(("file", "pipe", "pieces"), (4, 5, 1))[0]
        # From so many bytes on payloads pass unread, where both ends are pipes or sockets.
        talk.LARGE = draw.choice((1, 40, streams.LARGE))
        self.counts.update([kind] if talk.LARGE == streams.LARGE else [kind, f"{kind} unread"])
        with contextlib.closing(Files(kind, draw, sent)) as files, near:
            with contextlib.closing(streams.Ends(files.source.fileno(), files.out.fileno(), near, 20)) as ends:
                how = self.talked(rights, ends)
            near.close()
            daemon.join(20)
            return files.came(), daemon, how

    def talked(self, rights, ends):
        """How a talk between these ends."""
        with contextlib.closing(Allowance(self.store, rights, lambda: DAY)) as allowance:
            try:
                return talk.Talk(rights, ends, self.store, allowance, Quiet()).hold()
            except Failed as why:
                return f"{type(why).__name__}: {why}"

    def judge(self, what, rights, sent, out, daemon):
        self.checks.check(f"{what}: the daemon", not daemon.is_alive() and not daemon.failure, repr(daemon.failure))
        wanted = model.Model(rights.role.value, POOLS, JOBS, self.own[rights.name], rights.bytes_a_day, 0, daemon.taken)
        try:
            wanted.hold(sent)
        except model.Wrong as why:
            return self.checks.check(f"{what}: what reached the daemon", False, why, daemon.taken[:3])
        self.counts.update(wanted.counts)
        self.checks.same(f"{what}: what the client got", out, wanted.out)
        used = self.store.counted(rights.name, DAY)[0]
        if rights.bytes_a_day is not None:
            self.checks.same(f"{what}: bytes of the day", used, wanted.used)
            self.checks.check(f"{what}: within the limit", used <= rights.bytes_a_day, used)


def run(checks, folder):
    # A client here has ended its sending side before its talk begins; the daemon is a thread, which may be run late.
    streams.GRACE = 20
    with tempfile.TemporaryDirectory(dir=MEMORY if MEMORY.is_dir() else folder) as place:
        Streams(checks, pathlib.Path(place), COUNT).run()
