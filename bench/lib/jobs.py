"""What clients do with a daemon. Clients that do it at once have a process each, since of one Python process one thread runs
at a time; and each sends packets that were made before, megabytes by one call.
"""
import itertools
import math
import multiprocessing
import time
from collections import namedtuple

from clients import client
from daemon import WAIT

BATCH = 1 << 22
# A client that has not come to its end after so many seconds is ended.
LONGEST = 600
# Nor does it wait longer for one answer, or for what it sends to be taken.
QUIET = 2 * WAIT
# The pool of all volumes here.
POOL = "Default"

Sent = namedtuple("Sent", "start end lines processor")
Close = namedtuple("Close", "start asked end")


def media_of(number):
    """That of a drive: each has its own, so that it's known which drive serves a client."""
    return "File" if number == 1 else f"File-{number}"


def batch(size):
    """Packets of records of that size, many at once."""
    return client.packet(b"x" * size) * (BATCH // size)


def talking(port):
    return client.Talk(port, timeout=QUIET)


def append(port, total, size):
    """A job of so many bytes in records of that size, closed. Gives its lines."""
    with talking(port) as talk:
        lines = append_by(talk, total, batch(size))
        talk.terminate()
    return lines


def append_by(talk, total, many, media="File"):
    ticket = client.open_session(talk, 1, POOL, media)
    client.append_packets(talk, ticket, itertools.repeat(many, total // BATCH))
    return client.close_session(talk, ticket)


def ask_to_read(talk, lines):
    _, seconds, number = lines[0].split()
    talk.send(client.text_packet(f"read session Time={seconds} Id={number}"))
    talk.send(*map(client.text_packet, lines[1:]), client.signal(client.END_OF_DATA))


def read(port, lines):
    """Reads a session back, and drops what comes up to its last line."""
    room = memoryview(bytearray(BATCH))
    tail = b""
    with talking(port) as talk:
        ask_to_read(talk, lines)
        while b"3000 OK read" not in tail:
            count = talk.socket.recv_into(room)
            if not count:
                raise client.Lost("the daemon ended the talk")
            tail = (tail + bytes(room[max(0, count - 128):count]))[-128:]


def extent(lines):
    """The bytes of volumes that a session's spans go over."""
    return sum(end - start for start, end in (map(int, line.split()[-2:]) for line in lines[1:]))


def place(port, count, records, block, size):
    """So many jobs one after another, each of so many records of that size. Gives how many blocks they have."""
    one, blocks = client.packet(bytes(size)), 0
    with talking(port) as talk:
        for _ in range(count):
            ticket = client.open_session(talk, 1, POOL, "File")
            client.append_packets(talk, ticket, itertools.repeat(one, records))
            blocks += math.ceil(extent(client.close_session(talk, ticket)) / block)
        talk.terminate()
    return blocks


# --- works: what a client does, given what it calls to begin with the others ---

def stream(port, total, size, media="File"):
    """A client with a job of so many bytes, who says when it opened it and had its close, and what it used itself."""
    def work(begin):
        many = batch(size)
        with talking(port) as talk:
            begin()
            start, used = time.perf_counter(), time.process_time()
            lines = append_by(talk, total, many, media)
            sent = Sent(start, time.perf_counter(), lines, time.process_time() - used)
            talk.terminate()
        return sent
    return work


def restore(port, lines):
    """A client that reads a session back."""
    def work(begin):
        begin()
        start, used = time.perf_counter(), time.process_time()
        read(port, lines)
        return Sent(start, time.perf_counter(), lines, time.process_time() - used)
    return work


def small(port, most, seconds, size=1000):
    """A client with small jobs one after another, at most so many and for so long, who says when it ended each, asked for its
    close and had the answer."""
    def work(begin):
        one, closes = client.packet(b"x" * size), []
        with talking(port) as talk:
            begin()
            until = time.perf_counter() + seconds
            while len(closes) < most and time.perf_counter() < until:
                ticket = client.open_session(talk, 1, POOL, "File")
                client.append_packets(talk, ticket, [one])
                start = time.perf_counter()
                talk.ask(f"append end session {ticket}")
                asked = time.perf_counter()
                talk.ask(f"append close session {ticket}")
                list(talk.lines())
                closes.append(Close(start, asked, time.perf_counter()))
            talk.terminate()
        return closes
    return work


def slow(port, records, pause, size=65536):
    """A client with a job of so many records and a pause after each."""
    def work(begin):
        one = client.packet(b"x" * size)

        def paused():
            for _ in range(records):
                yield one
                time.sleep(pause)
        with talking(port) as talk:
            begin()
            ticket = client.open_session(talk, 1, POOL, "File")
            client.append_packets(talk, ticket, paused())
            client.close_session(talk, ticket)
            talk.terminate()
    return work


# --- many at once ---

class Failed(Exception):
    """A client came to no good end, for the reason told."""


class Clients:
    """Clients that begin at once. What still goes on is ended when this is left."""

    def __init__(self, works):
        context = multiprocessing.get_context("fork")
        gate = context.Barrier(len(works), timeout=WAIT)
        self.running = []
        for work in works:
            ours, theirs = context.Pipe(duplex=False)
            process = context.Process(target=_do, args=(theirs, gate, work), daemon=True)
            process.start()
            # The child alone has it now, so its end is seen.
            theirs.close()
            self.running.append((process, ours))

    def __enter__(self):
        return self

    def __exit__(self, *_):
        for process, ours in self.running:
            process.kill()
            process.join()
            ours.close()

    def has_ended(self, number):
        return self.running[number][1].poll()

    def result(self, number):
        """What came of the client of that number."""
        _, ours = self.running[number]
        if not ours.poll(LONGEST):
            raise Failed(f"a client goes on after {LONGEST} seconds")
        given = ours.recv()
        if isinstance(given, Failed):
            raise given
        return given

    def results(self):
        return [self.result(number) for number in range(len(self.running))]


def _do(theirs, gate, work):
    try:
        given = work(gate.wait)
    except Exception as why:
        given = Failed(f"{type(why).__name__}: {why}")
    theirs.send(given)
