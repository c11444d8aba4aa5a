"""Clients that draw what they do, on two drives with small volumes, beside an operator who labels new ones and unloads others:
jobs that are closed, given up, or broken off at any byte, and readings of what others closed. tests/serve/run runs it.
"""
import collections
import contextlib
import itertools
import random
import socket
import struct
import threading
import time

from clients import client
from crowds import MEDIA, Two, comes_to
from hardships import read_by_tool

CLIENTS, TALKS = 8, 8
SIZES = (0, 1, 5, 500, 1024, 3000, 9000)
# How often which of them is drawn, and what of each there must be at least.
ACTS = {"closed": 5, "given_up": 1, "broken_off": 2, "read": 2}
LEAST = {"closed": 10, "given_up": 1, "broken_off": 3, "read": 3}
# Of this a job may be refused: lanes of jobs that broke off come back a little later.
NO_LANE = "3911 No free lane"


class Drawn:
    """What clients do, and what was closed: its lines and its records."""

    def __init__(self, place):
        self.place, self.kept, self.counts, self.over = place, [], collections.Counter(), threading.Event()

    def client(self, number):
        """The talks of a client, with a drive of its own."""
        numbers, media = random.Random(number), MEDIA[number % 2]
        for _ in range(TALKS):
            act, = numbers.choices(list(ACTS), ACTS.values())
            records = [numbers.randbytes(numbers.choice(SIZES)) for _ in range(numbers.randrange(1, 8))]
            with self.place.talk() as talk:
                try:
                    getattr(self, act)(talk, numbers, media, records)
                except client.Refused as why:
                    act = str(why)
            self.counts[act] += 1

    def closed(self, talk, _, media, records):
        ticket = client.open_session(talk, 7, "Default", media)
        client.append_packets(talk, ticket, map(client.packet, records))
        talk.ask(f"append end session {ticket}")
        talk.ask(f"append close session {ticket}")
        lines = list(talk.lines())
        if (told := talk.console(f"jobmedia {ticket}")) != lines:
            raise ValueError(f"{told} in place of {lines}")
        self.kept.append((lines, records))

    def given_up(self, talk, numbers, media, records):
        ticket = client.open_session(talk, 7, "Default", media)
        client.append_packets(talk, ticket, map(client.packet, records))
        if numbers.random() < 0.5:
            talk.ask(f"append end session {ticket}")
        talk.console(f"cancel {ticket}")

    def broken_off(self, talk, numbers, media, records):
        ticket = client.open_session(talk, 7, "Default", media)
        talk.ask(f"append data {ticket}")
        whole = client.text_packet("1 2 0") + b"".join(map(client.packet, records))
        talk.send(whole[:numbers.randrange(len(whole))])
        if numbers.random() < 0.5:
            talk.socket.setsockopt(socket.SOL_SOCKET, socket.SO_LINGER, struct.pack("ii", 1, 0))

    def read(self, talk, numbers, media, _):
        lines, records = numbers.choice(self.kept) if self.kept else ([], [])
        came = []
        if lines:
            client.read_session(talk, lines, lambda index, stream, one: came.append(one))
        if came != records:
            raise ValueError(f"{lines} has other records")

    def operator(self):
        """Labels a volume where one is asked for, and now and then unloads one, in a talk of its own."""
        numbers, names = random.Random("operator"), itertools.count(1)
        with self.place.talk() as talk:
            while not self.over.wait(0.1):
                for at in (int(line.split()[1]) for line in talk.console("requests") if line.startswith("request ")):
                    talk.console(f"unmount {at}")
                    # A job may have had another volume loaded meanwhile.
                    with contextlib.suppress(client.Refused):
                        talk.console(f"label {at} Vol-{next(names):04} Default {MEDIA[at - 1]}")
                if numbers.random() < 0.2:
                    talk.console(f"unmount {numbers.choice((1, 2))}")


def drawn(checks, folder, _):
    """All of them at once. What was closed is read to its records by others, and after the run by `sdtool read`. No job
    fails, and both drives are settled."""
    place = Two(folder / "drawn", "block = 1024\nvolume = 60000\nqueue = 2\n")
    all_ = Drawn(place)

    def clients():
        try:
            comes_to(checks, "clients", *(lambda at=at: all_.client(at) for at in range(CLIENTS)))
        finally:
            all_.over.set()

    with place.daemon("--wait", "60", "--talks", str(CLIENTS * TALKS + 1)) as daemon:
        comes_to(checks, "clients and an operator", clients, all_.operator)
        checks.same("its end", daemon.wait(), ("", 0))
        checks.same("its drives", daemon.log()[-2:], ["drive 1 is settled", "drive 2 is settled"])
        told = [line for line in daemon.log() if ": 39" in line and not line.endswith((NO_LANE, ": 3933 In use"))]
        checks.same("faults", told, [])
    counts = all_.counts
    checks.check("what came", all(counts[act] >= least for act, least in LEAST.items()), counts)
    checks.same("refusals", set(counts) - {*ACTS, NO_LANE}, set())
    for lines, records in all_.kept:
        folder, = (one for one in (place.volumes, place.tape) if (one / lines[1].split()[1]).exists())
        wanted = b"".join(b"rec 1 2 %d\n%s\n" % (len(one), one) for one in records)
        wanted += b"ok read %d %d ended\n" % (len(records), sum(map(len, records)))
        checks.same(f"{lines[0]} by sdtool", read_by_tool(place, lines, folder), wanted)


GROUPS = (drawn,)
