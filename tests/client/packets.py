"""Packets and records of a connection, in whatever pieces they come."""
import contextlib
import random
import socket
import threading

from sdd_client.connection import END_OF_DATA, HEARTBEAT_RESPONSE, LENGTH, MOST_BYTES, READ_AHEAD, Connection, packet, signal
from sdd_client.dialogue import read_records
from sdd_client.errors import Lost, Refused
from sdd_client.transport_local import SocketTransport

SEED, TIMEOUT = 81, 30
SIZES = [0, 1, 4, 7, 511, 512, 4096, 262_144, READ_AHEAD - 8, READ_AHEAD - 7, READ_AHEAD, READ_AHEAD + 1, MOST_BYTES]
LINES = ["session 1000 1", "span Vol-0001 1 1 3 1 2"]


@contextlib.contextmanager
def given(data, numbers=None, is_ended=True):
    """A connection to what sends these bytes in drawn pieces, or in one, and then ends, if it does."""
    theirs, ours = socket.socketpair()

    def send():
        at = 0
        with contextlib.suppress(OSError):
            while at < len(data):
                size = len(data) if numbers is None else numbers.choice([1, 2, 5, 300, 70_000, 3_000_000])
                theirs.sendall(data[at:at + size])
                at += size
            if is_ended:
                theirs.shutdown(socket.SHUT_WR)

    sender = threading.Thread(target=send, daemon=True)
    with theirs, Connection(SocketTransport(ours), TIMEOUT) as talk:
        sender.start()
        yield talk
    sender.join(timeout=TIMEOUT)


def drawn(numbers, count):
    """Bytes of a daemon, and what is received of them: signals, packets, and records with their ends."""
    data, wanted = [], []
    for _ in range(count):
        kind, size = numbers.choice(["signal", "packet", "record", "record"]), numbers.choice(SIZES)
        payload = numbers.randbytes(size)
        if kind == "signal":
            one = numbers.choice([END_OF_DATA, -4, -6])
            parts = [signal(one)]
        elif kind == "packet":
            one, parts = payload, [packet(payload)]
        else:
            one, parts = payload, [packet(payload), signal(END_OF_DATA)]
        wanted.append((kind, one))
        for part in parts:
            # What answers a heartbeat may come at any place.
            data += [signal(HEARTBEAT_RESPONSE)] * (numbers.random() < 0.2) + [part]
    return b"".join(data), wanted


def in_pieces(checks, site):
    """What is received is what was sent, however it comes."""
    kinds = dict.fromkeys(["signal", "packet", "record"], 0)
    for run in range(12):
        numbers = random.Random(SEED + run)
        data, wanted = drawn(numbers, 30)
        with given(data, numbers) as talk:
            for kind, one in wanted:
                got = talk.receive_record() if kind == "record" else talk.receive()
                checks.check(f"run {run}: {kind}", got == one, kind)
                kinds[kind] += 1
            with contextlib.suppress(Lost):
                checks.check(f"run {run}: nothing more", talk.receive() is None)
    checks.check("of each kind", min(kinds.values()) > 50, kinds)
    print(f"received: {kinds}")


def broken(checks, site):
    """Of a session that is read every cut is told, and what is no record. What came before is given."""
    first, second = b"one record", b"x" * 3000
    parts = [b"".join([packet(b"%d 2 0\n" % index), packet(data), signal(END_OF_DATA)]) for index, data in ((1, first), (2, second))]
    said = packet(b"3000 OK read Records=2 Bytes=3010 Ended=1\n")
    whole = b"".join([*parts, signal(END_OF_DATA), said])
    checks.same("whole", read(whole), ([first, second], None))
    for cut in {*range(100), len(parts[0]), *range(len(whole) - 100, len(whole))}:
        got, why = read(whole[:cut])
        records = (cut >= len(parts[0])) + (cut >= len(parts[0] + parts[1]))
        checks.check(f"cut at {cut}", isinstance(why, Lost) and got == [first, second][:records], (got, why))
    header = packet(b"1 2 0\n")
    others = {"no end": header + packet(first) + packet(b"2 2 0\n"), "another signal": header + packet(first) + signal(-4),
              "a signal for data": header + signal(END_OF_DATA) + packet(first), "a signal for a header": signal(-4) + whole,
              "too long a packet": header + LENGTH.pack(MOST_BYTES + 1) + first,
              "another end": parts[0] + signal(END_OF_DATA) + packet(b"3000 OK read\n")}
    for what, data in others.items():
        got, why = read(data)
        checks.check(what, isinstance(why, Lost) and got == [first] * (what == "another end"), (got, why))
    for line in (b"3950 Bad span\n", b"3901 Bad command\n"):
        got, why = read(parts[0] + packet(line))
        checks.check(f"{line}", isinstance(why, Refused) and got == [first], (got, why))
    got, why = read(whole.replace(b"Ended=1", b"Ended=0"))
    checks.check("given up", isinstance(why, Refused) and len(got) == 2, why)


def read(data):
    """The data of records that are read of these bytes, and what was wrong."""
    got = []
    with given(data) as talk:
        try:
            for record in read_records(talk, LINES):
                got.append(bytes(record.data))
        except (Lost, Refused) as why:
            return got, why
    return got, None


GROUPS = dict.fromkeys([in_pieces, broken], "")
