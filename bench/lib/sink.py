"""A daemon that keeps nothing: it answers a job's commands and takes its records as fast as they come, so that what is
before it is measured and no disk. It says at a close what a daemon says.

    sink.py CONF      listens on the port of a configuration, and holds each talk in a process of its own
"""
import os
import pathlib
import signal
import socket
import sys
import time
import tomllib

ROOT = pathlib.Path(__file__).resolve().parent.parent.parent
sys.path.append(str(ROOT))
from relay.packets import LENGTH, line
from relay.phases import DataPhase, Stop

RUN = int(time.time())
TERMINATE, HEARTBEAT_RESPONSE = -4, -7


class Talk:
    def __init__(self, end, ticket):
        self.socket, self.ticket = end, ticket
        self.store = bytearray(1 << 20)
        self.start = self.end = 0

    def fill(self):
        left = self.end - self.start
        self.store[:left] = self.store[self.start:self.end]
        self.start, self.end = 0, left
        count = self.socket.recv_into(memoryview(self.store)[left:])
        self.end += count
        return count

    def packet(self):
        """The next packet of a command, or None at the end."""
        while self.end - self.start < 4 or self.end - self.start < 4 + max(0, LENGTH.unpack_from(self.store, self.start)[0]):
            if not self.fill():
                return None
        (length,) = LENGTH.unpack_from(self.store, self.start)
        self.start += 4 + max(0, length)
        return length if length < 0 else bytes(self.store[self.start - length:self.start])

    def hold(self):
        while (got := self.packet()) not in (None, TERMINATE):
            if isinstance(got, int):
                # A client that has had nothing to send for a while says that it is still there.
                self.socket.sendall(LENGTH.pack(HEARTBEAT_RESPONSE))
                continue
            self.socket.sendall(self.answer(got.decode().rstrip("\n")))
            if got.startswith(b"append data"):
                self.phase()

    def answer(self, text):
        lines = [f"session {RUN} {self.ticket}", "span Vol-0001 1 1 1 92 259"]
        if text.startswith("append open"):
            return line(b"3000 OK open ticket = %d" % self.ticket)
        if text.startswith("append data"):
            return line(b"3000 OK data")
        if text.startswith("append end"):
            return line(b"3000 OK end")
        head = ["3000 OK close Status = 84"] if text.startswith("append close") else []
        return b"".join(line(one.encode()) for one in head + lines) + LENGTH.pack(-1)

    def phase(self):
        phase = DataPhase()
        while True:
            self.start, stop = phase.walk(self.store, self.start, self.end, lambda size: True)
            if stop is Stop.END:
                return self.socket.sendall(line(b"3000 OK append data"))
            if stop is not Stop.MORE or not self.fill():
                sys.exit(1)


def main():
    port = tomllib.loads(pathlib.Path(sys.argv[1]).read_text())["port"]
    signal.signal(signal.SIGCHLD, signal.SIG_IGN)
    with socket.create_server(("127.0.0.1", port), backlog=100) as listens:
        print(f"listening on {port}", file=sys.stderr, flush=True)
        for ticket in range(1, 2**31):
            end, _ = listens.accept()
            if not os.fork():
                listens.close()
                Talk(end, ticket).hold()
                os._exit(0)
            end.close()


if __name__ == "__main__":
    main()
