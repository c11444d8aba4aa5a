"""To a daemon of this machine: by its socket, which only members of its group can open, or by its port."""
from __future__ import annotations

import contextlib
import os
import socket

SOCKET, PORT, HOST = "/run/sdd-clients/socket", 9103, "127.0.0.1"
# So much may be on its way: with the system's 200 KB the client and who passes it on wait for each other at each few records.
SEND_SIZE = 1 << 20


class SocketTransport:
    """A connected socket, as a pair of descriptors that are one."""

    def __init__(self, connected: socket.socket):
        self.socket = connected
        self.socket.setblocking(False)

    def reads(self) -> int:
        return self.socket.fileno()

    writes = reads

    def end(self) -> None:
        """Ends it for whoever waits for it. Its descriptors stay."""
        with contextlib.suppress(OSError):
            self.socket.shutdown(socket.SHUT_RDWR)

    def close(self) -> None:
        self.end()
        self.socket.close()


def local(port: int | None, timeout: float | None = None, path: str = SOCKET) -> SocketTransport:
    """By the port, if one is named. Otherwise by the socket, if there is one, and by the usual port, if there is none.
    Raises OSError."""
    if port is None and os.path.exists(path):
        return SocketTransport(by_socket(path, timeout))
    return SocketTransport(by_port(PORT if port is None else port, timeout))


def by_socket(path: str, timeout: float | None) -> socket.socket:
    made = socket.socket(socket.AF_UNIX, socket.SOCK_STREAM)
    made.settimeout(timeout)
    made.setsockopt(socket.SOL_SOCKET, socket.SO_SNDBUF, SEND_SIZE)
    try:
        made.connect(path)
    except PermissionError as why:
        made.close()
        raise PermissionError(why.errno, f"this user may not open {path}; its group may") from why
    except OSError:
        made.close()
        raise
    return made


def by_port(port: int, timeout: float | None) -> socket.socket:
    made = socket.create_connection((HOST, port), timeout)
    made.setsockopt(socket.IPPROTO_TCP, socket.TCP_NODELAY, 1)
    return made
