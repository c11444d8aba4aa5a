"""Through TLS, by a certificate: a program that carries bytes between its standard input and output and a host. It is a
process of its own, so that the cipher has a processor of its own too.

    transport_tls.py HOST PORT FILE

FILE has, in PEM, the client's key, its certificate, and that of the authority which made the host's: the file that
examples/remote/sdd-certificate makes.
"""
from __future__ import annotations

import os
import select
import socket
import ssl
import sys

PORT = 9104
# A connection that isn't there after so many seconds won't be.
CONNECT = 30
PIECE = 1 << 18


def command(host: str, file: str) -> list[str]:
    """The command that is run for `--tls HOST` or `--tls HOST:PORT`, with this certificate."""
    name, separator, port = host.rpartition(":")
    if not separator or "]" in port or ":" in name and not name.endswith("]"):
        name, port = host, str(PORT)
    if not port.isdigit() or not 1 <= int(port) <= 65535:
        raise ValueError(f"--tls {host}: the port is no number from 1 to 65535")
    # Without the modules of the site it starts in half the time.
    return [sys.executable, "-IS", os.path.abspath(__file__), name.strip("[]"), port, os.path.abspath(file)]


def connected(host: str, port: int, file: str) -> ssl.SSLSocket:
    """A connection to a host whose certificate is of the authority in the file, and of that name."""
    context = ssl.SSLContext(ssl.PROTOCOL_TLS_CLIENT)
    context.minimum_version = ssl.TLSVersion.TLSv1_3
    context.load_verify_locations(file)
    context.load_cert_chain(file)
    plain = socket.create_connection((host, port), CONNECT)
    plain.setsockopt(socket.IPPROTO_TCP, socket.TCP_NODELAY, 1)
    return context.wrap_socket(plain, server_hostname=host)


class Pump:
    """Carries bytes both ways until one side has no more. One thread does both: two may not use a connection at once."""

    def __init__(self, tls: ssl.SSLSocket, source: int, sink: int):
        self.tls, self.source, self.sink = tls, source, sink
        self.up, self.down = memoryview(b""), memoryview(b"")
        self.room_up, self.room_down = bytearray(PIECE), bytearray(PIECE)
        # What each direction waits for of the connection; TLS may have to read before it can write.
        self.up_waits, self.down_waits = 0, select.POLLIN
        self.is_over = False
        tls.setblocking(False)
        for file in (source, sink):
            os.set_blocking(file, False)

    def run(self) -> None:
        while not (self.is_over and not self.up):
            self._send()
            if not self._receive():
                return
            if not self.is_over or self.up:
                self._wait()

    def _wait(self) -> None:
        """Waits until one of both directions may go on."""
        poll = select.poll()
        if not self.up and not self.is_over:
            poll.register(self.source, select.POLLIN)
        events = self.up_waits if self.up else 0
        if self.down:
            poll.register(self.sink, select.POLLOUT)
        else:
            events |= self.down_waits
        if events:
            poll.register(self.tls, events)
        poll.poll()

    def _send(self) -> None:
        if not self.up and not self.is_over:
            try:
                count = os.readv(self.source, [self.room_up])
            except BlockingIOError:
                return
            self.up, self.is_over = memoryview(self.room_up)[:count], count == 0
        if not self.up:
            return
        # Parts of 16 KB are written one by one: the system sends several together.
        self._hold_back(True)
        try:
            while self.up:
                self.up = self.up[self.tls.send(self.up):]
            self._hold_back(False)
        except ssl.SSLWantWriteError:
            self.up_waits = select.POLLOUT
        except ssl.SSLWantReadError:
            self.up_waits = select.POLLIN

    def _hold_back(self, is_held: bool) -> None:
        """Whether the system waits for more before it sends less than a whole packet."""
        self.tls.setsockopt(socket.IPPROTO_TCP, socket.TCP_CORK, is_held)

    def _receive(self) -> bool:
        """Passes on what has come. Says whether there may be more."""
        while True:
            while self.down:
                try:
                    self.down = self.down[os.write(self.sink, self.down):]
                except BlockingIOError:
                    return True
            count = 0
            try:
                # One call gives a part of 16 KB at most; several go on together.
                while count < PIECE and (more := self.tls.recv_into(memoryview(self.room_down)[count:])):
                    count += more
            except ssl.SSLWantReadError:
                self.down_waits = select.POLLIN
            except ssl.SSLWantWriteError:
                self.down_waits = select.POLLOUT
            else:
                if count < PIECE:
                    self._flush(count)
                    return False
            if not count:
                return True
            self.down = memoryview(self.room_down)[:count]

    def _flush(self, count: int) -> None:
        """The connection is over; what came of it goes on."""
        os.set_blocking(self.sink, True)
        left = memoryview(self.room_down)[:count]
        while left:
            left = left[os.write(self.sink, left):]


def main() -> int:
    host, port, file = sys.argv[1:]
    try:
        Pump(connected(host, int(port), file), 0, 1).run()
    except BrokenPipeError:
        # The client has ended.
        return 0
    except (OSError, ValueError) as why:
        print(f"sdd-client: {host}: {getattr(why, 'verify_message', '') or getattr(why, 'strerror', '') or why}", file=sys.stderr)
        return 1
    return 0


if __name__ == "__main__":
    sys.exit(main())
