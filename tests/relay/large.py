"""Phases of large records among small ones, which pass unread, beside the model of what may pass. What the client sends
comes in pieces of drawn sizes with pauses between them, through a pipe or a socket, and may end anywhere."""
import collections
import contextlib
import os
import random
import socket
import threading
import time

import fake
import model
from drawn import DAY, JOBS, POOLS, Quiet
from fake import packet, signal
from relay import streams, talk
from relay.allowance import Allowance
from relay.errors import Failed
from relay.roles import Rights, Role
from relay.store import Store

SEED, COUNT, RUN = 20261129, 60, 2_000_000
# What is read whole, what just isn't, and what a client sends mostly; and as much as a few of the pipe's loads.
SIZES = (0, 1, streams.LARGE - 1, streams.LARGE, streams.LARGE + 1, 65536, 65536, 65536, 100_001, streams.PIPE_SIZE + 7)


def run(checks, folder):
    # The daemon is a thread, which may be run late.
    streams.GRACE = 20
    store, counts = Store(folder), collections.Counter()
    for number in range(COUNT):
        One(checks, store, number, counts).run()
    store.close()
    print("large:", ", ".join(f"{what} {count}" for what, count in sorted(counts.items())))
    for what in ("pipe", "socket", "limit", "cut", "unread"):
        checks.check(f"{what} was drawn", counts[what] >= COUNT // 10, counts[what])


class One:
    """One stream."""

    def __init__(self, checks, store, number, counts):
        self.checks, self.store, self.number, self.counts = checks, store, number, counts
        self.draw = random.Random(f"{SEED} {number}")

    def phase(self):
        """A phase: records of one or more headers. Mostly one size comes again and again, as a client's does."""
        for _ in range(self.draw.randrange(1, 4)):
            yield packet(b"%d 2 0" % self.draw.randrange(1, 9))
            usual = self.draw.choice(SIZES)
            for _ in range(self.draw.randrange(1, 30)):
                size = usual if self.draw.random() < 0.9 else self.draw.choice(SIZES)
                self.counts["unread"] += size >= streams.LARGE
                # No two bytes of a few follow one another as others do: what is out of order shows.
                yield packet((self.draw.randbytes(509) * (size // 509 + 1))[:size])
            yield signal(-1)
        yield signal(-1)

    def sent(self):
        sent = [packet(b"append open session JobId=%d Pool=%s Media=File" % (min(JOBS), POOLS[0]))]
        for _ in range(self.draw.randrange(1, 3)):
            sent += [packet(b"append data 1"), *self.phase()]
        whole = b"".join([*sent, packet(b"append end session 1"), packet(b"append close session 1"), signal(-4)])
        if self.draw.random() < 0.3:
            self.counts["cut"] += 1
            return whole[:self.draw.randrange(len(whole))]
        return whole

    def run(self):
        sent = self.sent()
        limit = self.draw.randrange(1, len(sent)) if self.draw.random() < 0.3 else None
        name = f"large{self.number}"
        rights = Rights(name, Role.CLIENT, frozenset(map(bytes.decode, POOLS)), frozenset(["File"]), (JOBS,), limit)
        kind = self.draw.choice(("pipe", "socket"))
        self.counts[kind] += 1
        out, daemon, counted = self.held(kind, rights, sent)
        self.judge(f"stream {self.number} by {kind}", rights, sent, out, daemon, counted)

    def held(self, kind, rights, sent):
        """Holds the talk. Gives what the client got, the daemon, and what was counted."""
        near, far = socket.socketpair()
        daemon = fake.Fake(far, RUN + self.number, self.number, {})
        daemon.start()
        reads, writes = os.pipe() if kind == "pipe" else map(socket.socket.detach, socket.socketpair())
        back, out = os.pipe()
        sends = threading.Thread(target=self.feed, args=(writes, sent))
        sends.start()
        allowance = Counting(self.store, rights, lambda: DAY)
        with near, contextlib.closing(allowance), contextlib.closing(streams.Ends(reads, out, near, 30)) as ends:
            try:
                talk.Talk(rights, ends, self.store, allowance, Quiet()).hold()
            except Failed as why:
                self.checks.check(f"stream {self.number} is held to its end", False, repr(why))
        os.close(out)
        os.close(reads)
        for thread in (sends, daemon):
            thread.join(30)
        with open(back, "rb") as file:
            return file.read(), daemon, allowance.counted

    def feed(self, file, sent):
        draw, left = random.Random(self.number), memoryview(sent)
        with contextlib.suppress(BrokenPipeError, ConnectionResetError):
            while left:
                left = left[os.write(file, left[:draw.choice((3, 70, 20_000, 300_000, 1 << 20))]):]
                if draw.random() < 0.1:
                    time.sleep(0.001)
        os.close(file)

    def judge(self, what, rights, sent, out, daemon, counted):
        self.checks.check(f"{what}: the daemon", not daemon.is_alive() and not daemon.failure, repr(daemon.failure))
        wanted = model.Model("client", POOLS, JOBS, set(), rights.bytes_a_day, 0, daemon.taken)
        try:
            wanted.hold(sent)
        except model.Wrong as why:
            return self.checks.check(f"{what}: what reached the daemon", False, f"{why}"[:400])
        self.counts.update({"limit": wanted.counts.get("limit", 0)})
        self.checks.same(f"{what}: what the client got", out, wanted.out)
        self.checks.same(f"{what}: bytes counted", counted, wanted.used)


class Counting(Allowance):
    """Counts what it lets go on."""

    counted = 0

    def take(self, size):
        goes = super().take(size)
        self.counted += (size + 12) * goes
        return goes
