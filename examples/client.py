#!/usr/bin/env python3
"""A client of the storage daemon to begin one of your own with: the dialogue of docs/use/PROTOCOL.md, in Python's standard
library alone. The command sdd-client does much more; this shows how little a client needs.

    client.py PORT append JOB POOL MEDIA < DATA > LINES      backs up the standard input, and prints what a restore needs
    client.py PORT read LINES > DATA                         restores it

What goes wrong is told on standard error in a line, and by status 1.
"""
import contextlib
import re
import socket
import struct
import sys
import time

END_OF_DATA, TERMINATE = -1, -4
RECORD = 65536
# A refusal in a phase is told at its end: after so many bytes a phase ends, and the next one goes on.
PHASE = 64_000_000
# For how many seconds a close is asked for while something of the session is on its way, and how many pass between.
CLOSING, PAUSE = 60, 0.1
HEADER = re.compile(rb"(\d+) (\d+) 0\n?")
READ_WHOLE = re.compile(r"3000 OK read Records=(\d+) Bytes=(\d+) Ended=([01])")


class Failed(Exception):
    """What was asked for isn't done, for the reason told."""


class Refused(Failed):
    """The daemon refused: the line that it said."""


class Lost(Failed):
    """There is no daemon, or none any more; or it says what isn't of the protocol."""


class Talk:
    """A connection. Packets are bytes; a signal is a negative number. What is sent or waited for longer than the
    time-out, in seconds, is `Lost`; without one it may take for ever."""

    def __init__(self, port, host="127.0.0.1", timeout=None):
        with told():
            self.socket = socket.create_connection((host, port), timeout)
            self.socket.setsockopt(socket.IPPROTO_TCP, socket.TCP_NODELAY, 1)
            self.input = self.socket.makefile("rb", buffering=1 << 16)

    def __enter__(self):
        return self

    def __exit__(self, *_):
        self.input.close()
        self.socket.close()

    def send(self, *packets):
        """Sends packets one after the other."""
        with told():
            self.socket.sendall(b"".join(packets))

    def receive(self):
        """The next packet, or the next signal."""
        (length,) = struct.unpack(">i", self._bytes(4))
        return length if length < 0 else self._bytes(length)

    def line(self):
        """The text of a packet, without its newline. A refusal is raised."""
        packet = self.receive()
        if isinstance(packet, int):
            raise Lost(f"a signal {packet} in place of a line")
        text = packet.decode(errors="replace").rstrip("\n")
        if text.startswith("39"):
            raise Refused(text)
        return text

    def ask(self, command):
        """Sends a command, and gives the line that answers it."""
        self.send(text_packet(command))
        return self.line()

    def lines(self):
        """The lines up to the end of data."""
        while not isinstance(packet := self.receive(), int):
            yield packet.decode(errors="replace").rstrip("\n")

    def console(self, line):
        """The lines that answer a line of the operator. A refusal, after which there is no end of data, is raised."""
        return [self.ask(f"console {line}"), *self.lines()]

    def terminate(self):
        self.send(signal(TERMINATE))

    def _bytes(self, count):
        with told():
            taken = self.input.read(count)
        if len(taken) < count:
            raise Lost("the daemon ended the talk")
        return taken


@contextlib.contextmanager
def told():
    """In words, what the system says of the connection."""
    try:
        yield
    except OSError as why:
        raise Lost(f"the connection to the daemon: {why.strerror or why}") from why


def signal(number):
    return struct.pack(">i", number)


def packet(payload):
    return struct.pack(">i", len(payload)) + payload


def text_packet(text):
    return packet(text.encode() + b"\n")


def open_session(talk, job, pool, media):
    """Opens a session, and gives its ticket."""
    said = talk.ask(f"append open session JobId={job} Pool={pool} Media={media}")
    if not (ticket := re.fullmatch(r"3000 OK open ticket = (\d+)", said)):
        raise Lost(f"{said} in place of a ticket")
    return int(ticket[1])


def append_packets(talk, ticket, packets, index=1, stream=2):
    """Appends records, each given as its packet, of that FileIndex and Stream: in one phase, or, if they are many,
    in several, so that a refusal is told before all of them are sent."""
    waiting = iter(packets)
    is_more = True
    while is_more:
        # Nothing is sent before the phase is accepted: what follows would be taken for commands.
        talk.ask(f"append data {ticket}")
        talk.send(text_packet(f"{index} {stream} 0"))
        is_more = send_some(talk, waiting)
        talk.send(signal(END_OF_DATA), signal(END_OF_DATA))
        talk.line()


def send_some(talk, packets):
    """Sends packets up to the size of a phase. Says whether there may be more."""
    size = 0
    for one in packets:
        talk.send(one)
        size += len(one)
        if size >= PHASE:
            return True
    return False


def close_session(talk, ticket):
    """Ends the session and closes it. Gives its lines, by which it is read back."""
    talk.ask(f"append end session {ticket}")
    until = time.monotonic() + CLOSING
    while True:
        try:
            talk.ask(f"append close session {ticket}")
            return list(talk.lines())
        except Refused as why:
            if not str(why).startswith("3907") or time.monotonic() > until:
                raise
        time.sleep(PAUSE)


def read_session(talk, lines, take):
    """Reads back the session with these lines, those of its close. `take` is given each record: its FileIndex, its
    Stream and its data. A session without an end is reported as `Refused`, after its records."""
    first, *spans = lines
    _, seconds, number = first.split(" ")
    talk.send(text_packet(f"read session Time={seconds} Id={number}"))
    talk.send(*map(text_packet, spans), signal(END_OF_DATA))
    while (header := talk.receive()) != END_OF_DATA:
        # There may be a refusal here. Its number alone doesn't tell it: a FileIndex may be 3901.
        if isinstance(header, int):
            raise Lost(f"a signal {header} in place of a header")
        if not (fields := HEADER.fullmatch(header)):
            raise Refused(header.decode(errors="replace").rstrip("\n"))
        data, end = talk.receive(), talk.receive()
        if isinstance(data, int) or end != END_OF_DATA:
            raise Lost("a record is broken off")
        take(int(fields[1]), int(fields[2]), data)
    said = talk.line()
    if not (whole := READ_WHOLE.fullmatch(said)):
        raise Lost(f"{said} in place of the read's end")
    if whole[3] == "0":
        raise Refused(f"the session was given up before its end: {said}")
    return said


def main(words):
    try:
        match words:
            case [port, "append", job, pool, media]:
                with Talk(int(port)) as talk:
                    ticket = open_session(talk, job, pool, media)
                    append_packets(talk, ticket, map(packet, iter(lambda: sys.stdin.buffer.read(RECORD), b"")))
                    print("\n".join(close_session(talk, ticket)), flush=True)
                    talk.terminate()
            case [port, "read", path]:
                with Talk(int(port)) as talk, open(path, encoding="ascii") as file:
                    read_session(talk, file.read().splitlines(), lambda index, stream, data: sys.stdout.buffer.write(data))
                    sys.stdout.flush()
                    talk.terminate()
            case _:
                print(__doc__, file=sys.stderr)
                return 2
    except (Failed, OSError, ValueError) as why:
        print(f"client.py: {why}", file=sys.stderr)
        return 1
    return 0


if __name__ == "__main__":
    sys.exit(main(sys.argv[1:]))
