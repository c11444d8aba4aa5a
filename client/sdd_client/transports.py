"""Which way leads to the daemon: by what the command line names."""
from __future__ import annotations

import typing

from .transport_local import local
from .transport_process import ProcessTransport, by_shell


class Transport(typing.Protocol):
    """What carries a connection's bytes: descriptors to read from and to write to, which don't block."""

    def reads(self) -> int:
        """The descriptor to read from."""

    def writes(self) -> int:
        """The descriptor to write to."""

    def end(self) -> None:
        """Ends it for whoever waits for it. Its descriptors stay."""

    def close(self) -> None:
        """Gives its descriptors back."""


def transport(port: int | None = None, rsh: str | None = None, tls: str | None = None, cert: str | None = None,
              timeout: float | None = None) -> Transport:
    """The way to the daemon: `--rsh` by that program, `--tls` with `--cert` by TLS, and otherwise on this machine. Raises
    OSError if there is none, ValueError if these don't go together or can't be read."""
    if rsh is not None and tls is not None or (rsh or tls) and port is not None:
        raise ValueError("--port, --rsh and --tls are ways of which one is taken")
    if (tls is None) != (cert is None):
        raise ValueError("--tls and --cert go together")
    if rsh is not None:
        return by_shell(rsh)
    if tls is not None and cert is not None:
        # Python's ssl takes longer to load than all that a job of this machine needs of the client.
        from .transport_tls import command
        return ProcessTransport(command(tls, cert))
    return local(port, timeout)
